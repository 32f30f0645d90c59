//! Whole pictures between memory and a room: windows of 64 KB to 64 MB, rectangles with ragged edges, linear rows, and the addresses of
//! a row; beside fast Rust of the same shape, beside a plain copy of as many bytes, and beside the product's own single calls.

use super::{kind, lent};
use crate::inputs::Random;
use crate::table::Table;
use bench::fast::layout::{judge, Layout};
use bench::fast::picture::{copy_out, paint, translate_row, Rectangle};
use egretfold::Answer;
use std::cell::RefCell;

const BASE: u32 = 0x0100_0000;
const KB: usize = 1024;
const MB: usize = 1024 * KB;

/// The windows' bytes, as far as a window of the size has so many.
const LENGTHS: [usize; 3] = [64 * KB, 4 * MB, 64 * MB];
const SIZES: [u32; 5] = [1, 2, 4, 8, 16];

#[derive(Clone, Copy, PartialEq, Eq)]
pub(super) enum Way {
    Out,
    In,
}

impl Way {
    pub(super) fn name(self) -> &'static str {
        match self {
            Way::Out => "copy_out",
            Way::In => "paint",
        }
    }
}

/// How many ways memory and room lie to each other. Passes go through them one after the other.
const PLACES: usize = 8;
const PAGE: usize = 4096;

/// Where memory and room begin in their pages.
pub(super) type Places = (usize, usize);

/// The places of a pass of this number. Where bytes lie to lines of 64 bytes and to pages can cost as
/// much as the work itself, so that both sides have the same places, and several: multiples of 16, as allocators give them, in all
/// four places of a line, and all over a page.
fn places(pass: usize) -> Places {
    let place = pass % PLACES;
    (16 * (place % 4), 528 * place + 16 * (place / 4))
}

/// Bytes that can begin anywhere in a page.
struct Placed {
    bytes: Vec<u8>,
    /// Where the first page begins.
    page: usize,
    length: usize,
}

impl Placed {
    fn new(bytes: &[u8]) -> Placed {
        let mut all = vec![0; bytes.len() + 2 * PAGE];
        let page = PAGE - all.as_ptr() as usize % PAGE;
        all[page..][..bytes.len()].copy_from_slice(bytes);
        Placed {
            bytes: all,
            page,
            length: bytes.len(),
        }
    }

    fn at(&mut self, place: usize) -> &mut [u8] {
        &mut self.bytes[self.page + place..][..self.length]
    }
}

/// What is moved, in memory and a room that both sides use by turns.
pub(super) struct Scene {
    layout: Layout,
    area: Rectangle,
    memory: Placed,
    room: Placed,
}

impl Scene {
    /// Both ways, held against each other, with a refusal, each side with bytes of its own.
    fn new(layout: Layout, area: Rectangle) -> Scene {
        let window = judge(&layout).expect("an accepted layout");
        let bytes = (area.columns * area.rows * layout.size) as usize;
        let (memory, room) = (noise(window.span as usize, 3), noise(bytes, 4));
        let scene = || Scene {
            layout,
            area,
            memory: Placed::new(&memory),
            room: Placed::new(&room),
        };
        check(&mut scene(), &mut scene());
        scene()
    }

    fn bytes(&self) -> usize {
        self.room.length
    }

    fn sides(&mut self, (memory, room): Places) -> (&mut [u8], &mut [u8]) {
        (self.memory.at(memory), self.room.at(room))
    }

    pub(super) fn by_product(&mut self, way: Way, places: Places) -> Answer<()> {
        let (layout, area) = (lent(&self.layout), for_product(&self.area));
        let (memory, room) = self.sides(places);
        match way {
            Way::Out => egretfold::copy_out(&layout, &area, memory, BASE, room),
            Way::In => egretfold::paint(&layout, &area, memory, BASE, room),
        }
    }

    pub(super) fn by_rust(&mut self, way: Way, places: Places) -> Result<(), u32> {
        let (layout, area) = (self.layout, self.area);
        let (memory, room) = self.sides(places);
        match way {
            Way::Out => copy_out(&layout, &area, memory, BASE, room),
            Way::In => paint(&layout, &area, memory, BASE, room),
        }
    }

    /// As many bytes one behind the other.
    pub(super) fn by_memcpy(&mut self, way: Way, places: Places) -> u64 {
        let (memory, room) = self.sides(places);
        match way {
            Way::Out => copied(room, memory),
            Way::In => copied(memory, room),
        }
    }

    /// The first byte and the last one that were moved.
    fn ends(&mut self, way: Way, places: Places) -> u64 {
        let (memory, room) = self.sides(places);
        let moved = match way {
            Way::Out => room,
            Way::In => memory,
        };
        u64::from(moved[0]) + u64::from(moved[moved.len() - 1])
    }
}

fn check(ours: &mut Scene, theirs: &mut Scene) {
    for way in [Way::In, Way::Out] {
        let name = way.name();
        if way == Way::Out {
            let noise = noise(ours.bytes(), 5);
            ours.room.at(0).copy_from_slice(&noise);
            theirs.room.at(0).copy_from_slice(&noise);
        }
        assert_eq!(ours.by_product(way, (0, 0)), Ok(()));
        assert_eq!(theirs.by_rust(way, (0, 0)), Ok(()));
        assert!(ours.memory.at(0) == theirs.memory.at(0), "{name}: memory");
        assert!(ours.room.at(0) == theirs.room.at(0), "{name}: room");
    }
    ours.area.columns += ours.layout.pitch;
    theirs.area.columns += theirs.layout.pitch;
    for way in [Way::In, Way::Out] {
        let by_product = ours.by_product(way, (0, 0)).map_err(u32::from);
        assert_eq!(by_product, theirs.by_rust(way, (0, 0)));
        assert!(by_product.is_err());
    }
}

fn for_product(area: &Rectangle) -> egretfold::Rectangle {
    egretfold::Rectangle {
        x: area.x,
        y: area.y,
        columns: area.columns,
        rows: area.rows,
    }
}

/// Pseudo-random bytes that repeat after a number of them that is no multiple of a row's, a block's or a tile's.
fn noise(length: usize, seed: u64) -> Vec<u8> {
    const PERIOD: usize = 65_521;
    let mut random = Random::new(seed);
    let period: Vec<u8> = (0..PERIOD).map(|_| random.word() as u8).collect();
    let mut bytes = period.repeat(length / PERIOD + 1);
    bytes.truncate(length);
    bytes
}

pub fn add(table: &mut Table) {
    for length in LENGTHS {
        for size in SIZES {
            // no window has more than 4096 columns and rows
            whole_window(table, size, length.min(16 * MB * size as usize));
        }
    }
    for (size, tiled) in [(1, true), (4, true), (16, true), (4, false)] {
        for (area, what) in PARTS {
            part(table, size, tiled, area, what);
        }
    }
    for (size, tiled) in [(1, true), (4, true), (4, false)] {
        row_line(table, size, tiled);
    }
}

/// A tiled window that is this long, as wide as it is high, more or less, and a whole number of tiles each way; and all of it.
fn window_of(size: u32, length: usize) -> (Layout, Rectangle) {
    let (pitch, height) = match length {
        65_536 => (128, 512 / size),
        4_194_304 => (1024, 4096 / size),
        _ => (4096, (16_384 / size).min(4096)),
    };
    let layout = Layout {
        base: BASE,
        pitch,
        height,
        size,
        tiled: true,
    };
    (layout, part_of(0, 0, pitch, height))
}

/// All of 64 KB, for lines/places.rs.
pub(super) fn small_window(size: u32) -> Scene {
    let (layout, area) = window_of(size, 64 * KB);
    Scene::new(layout, area)
}

fn whole_window(table: &mut Table, size: u32, length: usize) {
    let told = match length / MB {
        0 => format!("{} KB", length / KB),
        count => format!("{count} MB"),
    };
    let (layout, area) = window_of(size, length);
    let name =
        |way: Way, how: &str| format!("{}, tiled, size {size}, {told}{how}, a KB", way.name());
    // single calls are lent no more than 64 KB
    let hows: &[&str] = match length {
        65_536 => &["", ", beside memcpy", ", beside single calls"],
        4_194_304 => &["", ", beside memcpy"],
        _ => &[""],
    };
    let lines: Vec<(Way, &str, String)> = [Way::Out, Way::In]
        .into_iter()
        .flat_map(|way| hows.iter().map(move |how| (way, *how, name(way, how))))
        .filter(|(_, _, name)| match length {
            65_536 => table.wants(name),
            _ => table.wants_long(name),
        })
        .collect();
    if lines.is_empty() {
        return;
    }
    let mut scene = Scene::new(layout, area);
    assert_eq!(scene.bytes(), length);
    for (way, how, name) in lines {
        match how {
            "" => beside_rust(table, &name, length / KB, &mut scene, way),
            ", beside memcpy" => beside_memcpy(table, &name, &mut scene, way),
            _ => beside_single_calls(table, &name, &mut scene, way),
        }
    }
}

fn beside_rust(table: &mut Table, name: &str, units: usize, scene: &mut Scene, way: Way) {
    let both = RefCell::new(scene);
    let (mut ours, mut theirs) = ((0..).map(places), (0..).map(places));
    table.line(
        name,
        units,
        || {
            let (scene, places) = (&mut *both.borrow_mut(), ours.next().unwrap_or_default());
            let moved = scene.by_product(way, places);
            moved.map_or_else(u64::from, |()| scene.ends(way, places))
        },
        || {
            let (scene, places) = (&mut *both.borrow_mut(), theirs.next().unwrap_or_default());
            let moved = scene.by_rust(way, places);
            moved.map_or_else(u64::from, |()| scene.ends(way, places))
        },
    );
}

fn beside_memcpy(table: &mut Table, name: &str, scene: &mut Scene, way: Way) {
    let units = scene.bytes() / KB;
    let both = RefCell::new(scene);
    let (mut ours, mut theirs) = ((0..).map(places), (0..).map(places));
    table.beside(
        name,
        units,
        || {
            let places = ours.next().unwrap_or_default();
            u64::from(both.borrow_mut().by_product(way, places).is_err())
        },
        || {
            let places = theirs.next().unwrap_or_default();
            both.borrow_mut().by_memcpy(way, places)
        },
    );
}

/// A copy that stays a call.
#[inline(never)]
fn copied(to: &mut [u8], from: &[u8]) -> u64 {
    to.copy_from_slice(from);
    0
}

/// The same by the product's single reads and writes.
fn beside_single_calls(table: &mut Table, name: &str, scene: &mut Scene, way: Way) {
    let units = scene.bytes() / KB;
    let both = RefCell::new(scene);
    table.beside(
        name,
        units,
        || u64::from(both.borrow_mut().by_product(way, (0, 0)).is_err()),
        || {
            let scene = &mut *both.borrow_mut();
            let (layout, area) = (lent(&scene.layout), scene.area);
            let size = layout.size as usize;
            let (memory, room) = scene.sides((0, 0));
            let rows = (0..area.rows).flat_map(|y| (0..area.columns).map(move |x| (x, y)));
            let mut refused = 0;
            for ((x, y), element) in rows.zip(room.chunks_exact_mut(size)) {
                match way {
                    Way::Out => match egretfold::read(&layout, x, y, memory, BASE) {
                        Ok(read) => element.copy_from_slice(&read),
                        Err(_) => refused += 1,
                    },
                    Way::In => {
                        let written = egretfold::write(&layout, x, y, memory, BASE, element);
                        refused += u64::from(written.is_err());
                    }
                }
            }
            refused
        },
    );
}

/// Parts of a window of 1024 x 1024 elements whose edges are no tile's or block's.
const PARTS: [(Rectangle, &str); 3] = [
    (part_of(5, 3, 996, 998), "wide"),
    (part_of(5, 3, 20, 998), "narrow"),
    (part_of(101, 99, 63, 65), "small"),
];

const fn part_of(x: u32, y: u32, columns: u32, rows: u32) -> Rectangle {
    Rectangle {
        x,
        y,
        columns,
        rows,
    }
}

fn part(table: &mut Table, size: u32, tiled: bool, area: Rectangle, what: &str) {
    let layout = Layout {
        base: BASE,
        pitch: 1024,
        height: 1024,
        size,
        tiled,
    };
    let kind = kind(&layout);
    let Rectangle { columns, rows, .. } = area;
    for way in [Way::Out, Way::In] {
        let name = format!(
            "{}, {kind}, size {size}, {what} {columns} x {rows}, a row",
            way.name()
        );
        if table.wants(&name) {
            let mut scene = Scene::new(layout, area);
            beside_rust(table, &name, rows as usize, &mut scene, way);
        }
    }
}

fn row_line(table: &mut Table, size: u32, tiled: bool) {
    let layout = Layout {
        base: BASE,
        pitch: 1024,
        height: 64,
        size,
        tiled,
    };
    let name = format!(
        "addresses of a row, {}, size {size}, 1,001 pairs, a pair",
        kind(&layout)
    );
    if !table.wants(&name) {
        return;
    }
    let (mut ours, mut theirs) = (vec![0; 1001], vec![0; 1001]);
    for (x, y) in [(7, 0), (7, 63), (0, 33), (24, 5)] {
        let product = egretfold::translate_row(&lent(&layout), x, y, &mut ours);
        assert_eq!(
            product.map_err(u32::from),
            translate_row(&layout, x, y, &mut theirs)
        );
        assert_eq!(ours, theirs, "row from ({x}, {y}) on");
    }
    let product_layout = lent(&layout);
    table.line(
        &name,
        64 * 1001,
        || {
            let row = |y| {
                let answer = egretfold::translate_row(&product_layout, 7, y, &mut ours);
                answer.map_or_else(u64::from, |()| u64::from(ours[0]) + u64::from(ours[1000]))
            };
            (0..64).map(row).sum()
        },
        || {
            let row = |y| {
                let answer = translate_row(&layout, 7, y, &mut theirs);
                answer.map_or_else(u64::from, |()| {
                    u64::from(theirs[0]) + u64::from(theirs[1000])
                })
            };
            (0..64).map(row).sum()
        },
    );
}
