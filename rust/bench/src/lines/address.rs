//! Addresses and the way back, at each size, linear and tiled. The layout stays the same within a line, and every call
//! judges it.

use super::{kind, lent};
use crate::inputs::{addresses, pairs};
use crate::table::Table;
use bench::fast::address::{locate, translate, translate_by_table, Translated};
use bench::fast::layout::Layout;

pub fn add(table: &mut Table) {
    let layouts = |tiled| {
        [1, 2, 4, 8, 16].map(|size| Layout {
            base: 0x0123_4800,
            pitch: 1020,
            height: 700,
            size,
            tiled,
        })
    };
    for layout in layouts(false).into_iter().chain(layouts(true)) {
        translate_line(table, &layout, "", translate);
    }
    // a second way to write the tiled case in Rust
    for layout in layouts(true) {
        translate_line(table, &layout, ", Rust by table", translate_by_table);
    }
    for layout in layouts(false).into_iter().chain(layouts(true)) {
        locate_line(table, &layout);
    }
    for layout in [layouts(false)[2], layouts(true)[2]] {
        translate_of_c(table, &layout);
        locate_of_c(table, &layout);
    }
}

fn translate_line(
    table: &mut Table,
    layout: &Layout,
    how: &str,
    translate: impl Fn(&Layout, u32, u32) -> Result<Translated, u32>,
) {
    let (kind, size) = (kind(layout), layout.size);
    let name = format!("translate, {kind}, size {size}{how}, a call");
    if !table.wants(&name) {
        return;
    }
    let lent = lent(layout);
    let pairs = pairs(layout, 5);
    for &(x, y) in &pairs {
        assert_eq!(
            asked(&lent, x, y),
            translate(layout, x, y),
            "translate of ({x}, {y}) in {layout:?}"
        );
    }
    table.line(
        &name,
        pairs.len(),
        || {
            let answers = pairs.iter().map(|&(x, y)| asked(&lent, x, y));
            answers.map(either).sum()
        },
        || {
            let answers = pairs.iter().map(|&(x, y)| translate(layout, x, y));
            answers.map(either).sum()
        },
    );
}

fn locate_line(table: &mut Table, layout: &Layout) {
    let name = format!("locate, {}, size {}, a call", kind(layout), layout.size);
    if !table.wants(&name) {
        return;
    }
    let lent = lent(layout);
    let addresses = addresses(layout, 6);
    for &address in &addresses {
        assert_eq!(
            egretfold::locate(&lent, address).map_err(u32::from),
            locate(layout, address),
            "locate of {address} in {layout:?}"
        );
    }
    table.line(
        &name,
        addresses.len(),
        || {
            let answers = addresses.iter().map(|&at| egretfold::locate(&lent, at));
            answers.map(pair_sum).sum()
        },
        || {
            let answers = addresses.iter().map(|&at| locate(layout, at));
            answers.map(pair_sum).sum()
        },
    );
}

/// The same as a C program calls it: the room lies outside of the loop, and the number is looked at as it is.
fn translate_of_c(table: &mut Table, layout: &Layout) {
    let (kind, size) = (kind(layout), layout.size);
    let name = format!("translate, {kind}, size {size}, as C calls it, a call");
    if !table.wants(&name) {
        return;
    }
    let lent = lent(layout);
    let pairs = pairs(layout, 5);
    let mut room = [0; 2];
    let mut asked = |x, y| match egretfold::lent::translate(&lent, x, y, &mut room) {
        0 => u64::from(room[0]),
        number => u64::from(number),
    };
    table.line(
        &name,
        pairs.len(),
        || pairs.iter().map(|&(x, y)| asked(x, y)).sum(),
        || {
            let answers = pairs.iter().map(|&(x, y)| translate(layout, x, y));
            answers.map(either).sum()
        },
    );
}

fn locate_of_c(table: &mut Table, layout: &Layout) {
    let (kind, size) = (kind(layout), layout.size);
    let name = format!("locate, {kind}, size {size}, as C calls it, a call");
    if !table.wants(&name) {
        return;
    }
    let lent = lent(layout);
    let addresses = addresses(layout, 6);
    let mut room = [0; 3];
    let mut asked = |at| match egretfold::lent::locate(&lent, at, &mut room) {
        0 => room.iter().copied().map(u64::from).sum(),
        number => u64::from(number),
    };
    table.line(
        &name,
        addresses.len(),
        || addresses.iter().map(|&at| asked(at)).sum(),
        || {
            let answers = addresses.iter().map(|&at| locate(layout, at));
            answers.map(pair_sum).sum()
        },
    );
}

/// The product's answer, as the fast Rust gives it.
#[inline(always)]
fn asked(layout: &egretfold::Layout, x: u32, y: u32) -> Result<Translated, u32> {
    let at = egretfold::translate(layout, x, y)?;
    Ok(Translated {
        address: at.address,
        run: at.run,
    })
}

/// What is summed up of an answer. The run is told with it, by a call that isn't inlined, and compared above; the caller looks at
/// the address alone, as it did before there were runs.
#[inline(always)]
fn either(answer: Result<Translated, u32>) -> u64 {
    answer.map_or_else(u64::from, |at| u64::from(at.address))
}

#[inline(always)]
fn pair_sum<R: Into<u64>>(answer: Result<(u32, u32, u32), R>) -> u64 {
    answer.map_or_else(R::into, |(x, y, place)| {
        u64::from(x) + u64::from(y) + u64::from(place)
    })
}
