//! Elements read and written in lent memory of 65,536 bytes, which just holds the layout's window, and superfine reads.

use super::{kind, lent};
use crate::inputs::{pairs, Random};
use crate::table::Table;
use bench::fast::element::{read, superfine, write, Element};
use bench::fast::layout::Layout;

const BASE: u32 = 0x0123_4800;
const TILED: u32 = 1 << 16;
const SUPERFINE: u32 = 1 << 17;

pub fn add(table: &mut Table) {
    let layouts = [(4, false), (4, true), (16, false), (16, true)].map(layout);
    for layout in &layouts {
        read_line(table, layout);
    }
    for layout in &layouts {
        write_line(table, layout);
    }
    superfine_line(table, &layout((2, false)), 0);
    superfine_line(table, &layout((4, true)), 2);
}

/// A window of exactly 65,536 bytes.
fn layout((size, tiled): (u32, bool)) -> Layout {
    Layout {
        base: BASE,
        pitch: 128,
        height: 512 / size,
        size,
        tiled,
    }
}

fn memory() -> Vec<u8> {
    let mut random = Random::new(7);
    (0..65_536).map(|_| random.word() as u8).collect()
}

fn read_line(table: &mut Table, layout: &Layout) {
    let name = format!("read, {}, size {}, a call", kind(layout), layout.size);
    if !table.wants(&name) {
        return;
    }
    let lent = lent(layout);
    let (pairs, memory) = (pairs(layout, 8), memory());
    let product = |&(x, y): &(u32, u32)| egretfold::read(&lent, x, y, &memory, BASE);
    let rust = |&(x, y): &(u32, u32)| read(layout, x, y, &memory, BASE);
    for pair in &pairs {
        check(product(pair), rust(pair), layout, pair);
    }
    table.line(
        &name,
        pairs.len(),
        || pairs.iter().map(product).map(product_byte).sum(),
        || pairs.iter().map(rust).map(rust_byte).sum(),
    );
}

fn superfine_line(table: &mut Table, layout: &Layout, code: u32) {
    let (kind, size) = (kind(layout), layout.size);
    let name = format!("superfine read, {kind}, size {size}, a call");
    if !table.wants(&name) {
        return;
    }
    let tiled = if layout.tiled { TILED } else { 0 };
    let format = code << 24 | SUPERFINE | tiled | layout.pitch;
    let height = layout.height;
    let (pairs, memory) = (pairs(layout, 10), memory());
    let product =
        |&(x, y): &(u32, u32)| egretfold::superfine(BASE, format, height, x, y, &memory, BASE);
    let rust = |&(x, y): &(u32, u32)| superfine(BASE, format, height, x, y, &memory, BASE);
    for pair in &pairs {
        check(product(pair), rust(pair), layout, pair);
    }
    table.line(
        &name,
        pairs.len(),
        || pairs.iter().map(product).map(product_byte).sum(),
        || pairs.iter().map(rust).map(rust_byte).sum(),
    );
}

fn check(
    product: egretfold::Answer<egretfold::Element>,
    rust: Result<Element, u32>,
    layout: &Layout,
    pair: &(u32, u32),
) {
    assert_eq!(
        product
            .map(|element| element.bytes().to_vec())
            .map_err(u32::from),
        rust.map(|element| element.bytes[..element.length].to_vec()),
        "read of {pair:?} in {layout:?}"
    );
}

#[inline(always)]
fn product_byte(answer: egretfold::Answer<egretfold::Element>) -> u64 {
    answer.map_or_else(u64::from, |element| element[0].into())
}

#[inline(always)]
fn rust_byte(answer: Result<Element, u32>) -> u64 {
    answer.map_or_else(u64::from, |element| element.bytes[0].into())
}

fn write_line(table: &mut Table, layout: &Layout) {
    let name = format!("write, {}, size {}, a call", kind(layout), layout.size);
    if !table.wants(&name) {
        return;
    }
    let lent = lent(layout);
    let pairs = pairs(layout, 9);
    let data = &memory()[..layout.size as usize];
    let (mut product_memory, mut rust_memory) = (memory(), memory());
    let mut product = |&(x, y): &(u32, u32)| {
        egretfold::write(&lent, x, y, &mut product_memory, BASE, data).map_err(u32::from)
    };
    let mut rust = |&(x, y): &(u32, u32)| write(layout, x, y, &mut rust_memory, BASE, data);
    for pair in &pairs {
        assert_eq!(product(pair), rust(pair), "write of {pair:?} in {layout:?}");
    }
    table.line(
        &name,
        pairs.len(),
        || pairs.iter().map(&mut product).map(refusal).sum(),
        || pairs.iter().map(&mut rust).map(refusal).sum(),
    );
    assert!(product_memory == rust_memory, "memory after the writes");
}

#[inline(always)]
fn refusal(answer: Result<(), u32>) -> u64 {
    answer.map_or_else(u64::from, |()| 0)
}
