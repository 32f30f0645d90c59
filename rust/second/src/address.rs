//! Document 01, "Layouts and windows", from "Linear:" to the way back: a pair's
//! address by the two formulas, and the way back.
//!
//! The way back uses no inverse formula. It searches: it translates candidate
//! pairs forward and asks whether the element found there holds the address.
//! To be quick enough it first looks for the row (linear), or for the row of
//! tiles and then the tile (tiled), whose bytes hold the address, and tries only
//! the pairs there. The unit tests compare it with a search of the whole window.

mod places;
mod run;

use crate::layout::{judge, tile_of, Layout, Tile, Window, TILE_BYTES};
use crate::Answer;

pub use places::{place_by_table, places};
pub use run::{translate_run, Translated};

/// What one bit of the place inside a tile is made of. The numbers are bit
/// numbers of the whole x and y, also above the tile.
#[derive(Clone, Copy)]
enum Bit {
    /// Always zero.
    Zero,
    /// A bit of x.
    X(u32),
    /// A bit of y.
    Y(u32),
    /// A bit of y ^ a bit of x, in this order.
    YX(u32, u32),
    /// A bit of x ^ a bit of y, in this order.
    XY(u32, u32),
}

use Bit::{Zero, X, XY, Y, YX};

/// Document 01's table of the places inside a tile: a line for each size, and in
/// it the bits from 10 down to 0.
#[rustfmt::skip]
const INSIDE: [(u32, [Bit; 11]); 5] = [
    //    10        9         8         7         6     5     4     3     2     1     0
    (1,  [YX(4, 6), XY(5, 5), YX(3, 5), XY(4, 4), Y(2), X(3), Y(1), Y(0), X(2), X(1), X(0)]),
    (2,  [YX(4, 5), XY(4, 5), YX(3, 4), XY(3, 4), Y(2), X(2), Y(1), Y(0), X(1), X(0), Zero]),
    (4,  [YX(3, 5), XY(4, 4), YX(2, 4), XY(3, 3), Y(1), X(2), Y(0), X(1), X(0), Zero, Zero]),
    (8,  [YX(3, 4), XY(3, 4), YX(2, 3), XY(2, 3), Y(1), X(1), Y(0), X(0), Zero, Zero, Zero]),
    (16, [YX(2, 4), XY(3, 3), YX(1, 3), XY(2, 2), Y(0), X(1), X(0), Zero, Zero, Zero, Zero]),
];

/// An accepted layout with what the formulas need of it, all in 64 bits.
struct Map {
    base: u64,
    step: u64,
    height: u64,
    size: u64,
    tiled: bool,
    tile_width: u64,
    tile_height: u64,
    inside: [Bit; 11],
}

impl Map {
    /// Judges the layout (3, 6) and takes what the formulas need.
    fn of(layout: &Layout) -> Answer<Map> {
        let window: Window = judge(layout)?;
        let tile: Tile = tile_of(layout.size).ok_or(3u32)?;
        let line = INSIDE.iter().find(|line| line.0 == layout.size);
        Ok(Map {
            base: u64::from(layout.base),
            step: u64::from(window.step),
            height: u64::from(layout.height),
            size: u64::from(layout.size),
            tiled: layout.tiled,
            tile_width: u64::from(tile.width),
            tile_height: u64::from(tile.height),
            inside: line.ok_or(3u32)?.1,
        })
    }

    /// "A pair is inside when x < E and y < H."
    fn is_inside(&self, x: u64, y: u64) -> bool {
        x < self.step && y < self.height
    }

    /// The address of a pair, by the layout's formula.
    fn forward(&self, x: u64, y: u64) -> u64 {
        if self.tiled {
            self.tile_start(x / self.tile_width, y / self.tile_height) + self.inside(x, y)
        } else {
            self.base + (y * self.step + x) * self.size
        }
    }

    /// The first byte of the tile in this column and row of tiles.
    fn tile_start(&self, column: u64, row: u64) -> u64 {
        self.base + TILE_BYTES * (row * self.tiles_in_a_row() + column)
    }

    fn tiles_in_a_row(&self) -> u64 {
        self.step / self.tile_width
    }

    /// The place inside the tile, put together from bit 10 down.
    fn inside(&self, x: u64, y: u64) -> u64 {
        let mut place = 0;
        for bit in &self.inside {
            place = 2 * place + value(*bit, x, y);
        }
        place
    }

    /// The byte's place in the pair's element, if that element holds it.
    fn place_in_element(&self, x: u64, y: u64, address: u64) -> Option<u64> {
        let first = self.forward(x, y);
        if first <= address && address < first + self.size {
            Some(address - first)
        } else {
            None
        }
    }

    /// Goes through the rows; in the row whose bytes hold the address, through
    /// its pairs.
    fn search_linear(&self, address: u64) -> Option<(u64, u64, u64)> {
        for y in 0..self.height {
            let first = self.forward(0, y);
            let end = first + self.step * self.size;
            if first <= address && address < end {
                return self.search_pairs((0, self.step), (y, y + 1), address);
            }
        }
        None
    }

    /// Goes through the rows of tiles, then through the tiles of the row whose
    /// bytes hold the address, then through the pairs of the tile.
    fn search_tiled(&self, address: u64) -> Option<(u64, u64, u64)> {
        let columns = self.tiles_in_a_row();
        let mut row = 0;
        while row * self.tile_height < self.height {
            let first = self.tile_start(0, row);
            if first <= address && address < first + columns * TILE_BYTES {
                return self.search_row_of_tiles(row, address);
            }
            row += 1;
        }
        None
    }

    fn search_row_of_tiles(&self, row: u64, address: u64) -> Option<(u64, u64, u64)> {
        for column in 0..self.tiles_in_a_row() {
            let first = self.tile_start(column, row);
            if first <= address && address < first + TILE_BYTES {
                let x = column * self.tile_width;
                let y = row * self.tile_height;
                let xs = (x, x + self.tile_width);
                let ys = (y, y + self.tile_height);
                return self.search_pairs(xs, ys, address);
            }
        }
        None
    }

    /// Tries every pair of a rectangle (ends not included); only a pair inside
    /// the window owns its bytes.
    fn search_pairs(
        &self,
        xs: (u64, u64),
        ys: (u64, u64),
        address: u64,
    ) -> Option<(u64, u64, u64)> {
        for y in ys.0..ys.1 {
            for x in xs.0..xs.1 {
                if !self.is_inside(x, y) {
                    continue;
                }
                if let Some(place) = self.place_in_element(x, y, address) {
                    return Some((x, y, place));
                }
            }
        }
        None
    }
}

/// One bit, 0 or 1, of the place inside a tile.
fn value(bit: Bit, x: u64, y: u64) -> u64 {
    match bit {
        Zero => 0,
        X(a) => bit_of(x, a),
        Y(b) => bit_of(y, b),
        YX(b, a) => bit_of(y, b) ^ bit_of(x, a),
        XY(a, b) => bit_of(x, a) ^ bit_of(y, b),
    }
}

fn bit_of(number: u64, bit: u32) -> u64 {
    (number >> bit) & 1
}

/// The address of a pair: 3 and 6 for the layout, 10 for a pair outside.
pub fn translate(layout: &Layout, x: u32, y: u32) -> Answer<u32> {
    let map = Map::of(layout)?;
    let (x, y) = (u64::from(x), u64::from(y));
    if !map.is_inside(x, y) {
        return Err(10);
    }
    Ok(narrow(map.forward(x, y)))
}

/// The way back: the pair that owns the byte at this address, and the byte's
/// place in the pair's element. 3 and 6 for the layout, 12 where no pair of the
/// window owns the byte.
pub fn locate(layout: &Layout, address: u32) -> Answer<(u32, u32, u32)> {
    let map = Map::of(layout)?;
    let address = u64::from(address);
    let found = if map.tiled {
        map.search_tiled(address)
    } else {
        map.search_linear(address)
    };
    let (x, y, place) = found.ok_or(12u32)?;
    Ok((narrow(x), narrow(y), narrow(place)))
}

/// Back to 32 bits. It can't fail: base plus span is at most 2^32, so every
/// address inside a window fits, and so do pairs and places.
fn narrow(number: u64) -> u32 {
    u32::try_from(number).expect("a number of an accepted layout fits 32 bits")
}

#[cfg(test)]
mod tests {
    use super::*;
    use crate::layout::tests::{linear, tiled};

    /// The plain search: every pair of the window, one after another.
    fn locate_in_whole_window(layout: &Layout, address: u32) -> Answer<(u32, u32, u32)> {
        let map = Map::of(layout)?;
        map.search_pairs((0, map.step), (0, map.height), u64::from(address))
            .map(|(x, y, place)| (narrow(x), narrow(y), narrow(place)))
            .ok_or(12)
    }

    /// From a bit before the base to a bit past the span, as far as addresses go.
    fn around(layout: &Layout) -> std::ops::RangeInclusive<u32> {
        let span = judge(layout).unwrap().span;
        let last = u64::from(layout.base) + span + 40;
        layout.base.saturating_sub(40)..=u32::try_from(last).unwrap_or(u32::MAX)
    }

    fn assert_both_searches_agree(layout: &Layout) {
        let mut owned = 0;
        for address in around(layout) {
            let found = locate(layout, address);
            assert_eq!(
                found,
                locate_in_whole_window(layout, address),
                "{layout:?} at {address}"
            );
            owned += u64::from(found.is_ok());
        }
        let window = judge(layout).unwrap();
        let pairs = u64::from(window.step) * u64::from(layout.height);
        assert_eq!(owned, pairs * u64::from(layout.size), "{layout:?}");
    }

    /// Who owns each byte, found by translating every pair of the window once.
    fn assert_owners_are_found(layout: &Layout) {
        let addresses = around(layout);
        let start = *addresses.start();
        let mut owners = vec![Err(12); addresses.clone().count()];
        let window = judge(layout).unwrap();
        for y in 0..layout.height {
            for x in 0..window.step {
                let address = translate(layout, x, y).unwrap();
                for place in 0..layout.size {
                    let owner = &mut owners[(address + place - start) as usize];
                    assert_eq!(*owner, Err(12), "two owners in {layout:?}");
                    *owner = Ok((x, y, place));
                }
            }
        }
        for (address, owner) in addresses.zip(owners) {
            assert_eq!(locate(layout, address), owner, "{layout:?} at {address}");
        }
    }

    #[test]
    fn c1_and_c2_linear() {
        let layout = linear(4, 2048, 100, 3);
        assert_eq!(translate(&layout, 5, 2), Ok(2836));
        assert_eq!(translate(&layout, 95, 0), Ok(2048 + 95 * 4));
        assert_eq!(translate(&layout, 96, 0), Err(10));
        for place in 0..4 {
            assert_eq!(locate(&layout, 2836 + place), Ok((5, 2, place)));
        }
    }

    #[test]
    fn c3_to_c6_tiled() {
        let cases = [
            (tiled(4, 0, 100, 20), 37, 18, 9828),
            (tiled(1, 0, 128, 64), 64, 0, 3072),
            (tiled(1, 0, 128, 64), 0, 32, 4608),
            (tiled(16, 0, 16, 8), 15, 7, 1648),
        ];
        for (layout, x, y, address) in cases {
            assert_eq!(translate(&layout, x, y), Ok(address));
            for place in 0..layout.size {
                assert_eq!(locate(&layout, address + place), Ok((x, y, place)));
            }
        }
    }

    #[test]
    fn c7_and_c8_are_refused_here_too() {
        assert_eq!(translate(&tiled(4, 0, 28, 1), 0, 0), Err(6));
        assert_eq!(locate(&tiled(4, 0, 28, 1), 0), Err(6));
        let base = 4_294_965_248;
        let accepted = linear(4, base, 8, 64);
        assert_eq!(translate(&accepted, 7, 63), Ok(0xFFFF_FFFC));
        assert_eq!(locate(&accepted, 0xFFFF_FFFF), Ok((7, 63, 3)));
        assert_eq!(translate(&linear(4, base, 8, 65), 0, 0), Err(6));
        assert_eq!(locate(&linear(4, base, 8, 65), base), Err(6));
    }

    #[test]
    fn the_table_names_each_bit_of_the_tile_once() {
        // Within one tile (no bits above it) the places are a permutation.
        for size in [1, 2, 4, 8, 16] {
            let tile = tile_of(size).unwrap();
            let map = Map::of(&tiled(size, 0, tile.width, tile.height)).unwrap();
            let mut places: Vec<u64> = Vec::new();
            for y in 0..map.tile_height {
                for x in 0..map.tile_width {
                    places.push(map.inside(x, y));
                }
            }
            places.sort_unstable();
            let wanted: Vec<u64> = (0..2048).step_by(size as usize).collect();
            assert_eq!(places, wanted, "size {size}");
        }
    }

    /// Document 01's table as it is printed, bits 10 down to 0.
    const PRINTED: [(u32, &str); 5] = [
        (1, "y4^x6, x5^y5, y3^x5, x4^y4, y2, x3, y1, y0, x2, x1, x0"),
        (2, "y4^x5, x4^y5, y3^x4, x3^y4, y2, x2, y1, y0, x1, x0, 0"),
        (4, "y3^x5, x4^y4, y2^x4, x3^y3, y1, x2, y0, x1, x0, 0, 0"),
        (8, "y3^x4, x3^y4, y2^x3, x2^y3, y1, x1, y0, x0, 0, 0, 0"),
        (16, "y2^x4, x3^y3, y1^x3, x2^y2, y0, x1, x0, 0, 0, 0, 0"),
    ];

    /// The value of a printed bit, as "y4^x6", "x3" or "0".
    fn printed_value(bit: &str, x: u64, y: u64) -> u64 {
        let mut value = 0;
        for part in bit.split('^') {
            value ^= match part.split_at(1) {
                ("x", number) => bit_of(x, number.parse().unwrap()),
                ("y", number) => bit_of(y, number.parse().unwrap()),
                zero => {
                    assert_eq!(zero, ("0", ""));
                    0
                }
            };
        }
        value
    }

    #[test]
    fn the_table_is_the_printed_one() {
        for (size, line) in PRINTED {
            let map = Map::of(&tiled(size, 0, 4096, 4096)).unwrap();
            // Each bit of x and of y alone, and all pairs of one bit each.
            let alone: Vec<u64> = (0..12).map(|bit| 1 << bit).chain([0, 4095]).collect();
            for (x, y) in alone
                .iter()
                .flat_map(|x| alone.iter().map(move |y| (*x, *y)))
            {
                let mut wanted = 0;
                for bit in line.split(", ") {
                    wanted = wanted * 2 + printed_value(bit, x, y);
                }
                assert_eq!(line.split(", ").count(), 11);
                assert_eq!(map.inside(x, y), wanted, "size {size}, ({x}, {y})");
            }
        }
    }

    #[test]
    fn bits_above_the_tile_count() {
        // x6 and y5 at size 1, and their kin at the other sizes: the first pair
        // of the second tile each way doesn't lie at that tile's first byte.
        for (size, width, height) in [
            (1, 64, 32),
            (2, 32, 32),
            (4, 32, 16),
            (8, 16, 16),
            (16, 16, 8),
        ] {
            let layout = tiled(size, 0, 2 * width, 2 * height);
            assert_eq!(translate(&layout, width, 0), Ok(2048 + 1024), "s {size}");
            assert_eq!(translate(&layout, 0, height), Ok(4096 + 512), "s {size}");
        }
    }

    #[test]
    fn pairs_outside_get_10() {
        for layout in [linear(4, 2048, 100, 3), tiled(4, 2048, 100, 3)] {
            let step = judge(&layout).unwrap().step;
            assert_eq!(step, 96);
            assert!(translate(&layout, step - 1, 2).is_ok());
            assert_eq!(translate(&layout, step, 2), Err(10));
            assert_eq!(translate(&layout, 99, 0), Err(10));
            assert_eq!(translate(&layout, 0, 3), Err(10));
            assert_eq!(translate(&layout, u32::MAX, 0), Err(10));
            assert_eq!(translate(&layout, 0, u32::MAX), Err(10));
        }
    }

    #[test]
    fn malformed_and_broken_windows_come_before_10_and_12() {
        for layout in [linear(3, 0, 32, 0), linear(4, 8, 32, 1), tiled(4, 0, 30, 1)] {
            assert_eq!(translate(&layout, u32::MAX, 0), Err(3));
            assert_eq!(locate(&layout, u32::MAX), Err(3));
        }
        for layout in [linear(4, 0, 32, 8192), linear(4, 0, 0, 1)] {
            assert_eq!(translate(&layout, u32::MAX, 0), Err(6));
            assert_eq!(locate(&layout, u32::MAX), Err(6));
        }
    }

    #[test]
    fn addresses_that_nobody_owns_get_12() {
        let rows = linear(4, 2048, 100, 3);
        assert_eq!(locate(&rows, 2047), Err(12));
        assert_eq!(locate(&rows, 2048), Ok((0, 0, 0)));
        assert_eq!(locate(&rows, 2048 + 3 * 96 * 4 - 1), Ok((95, 2, 3)));
        assert_eq!(locate(&rows, 2048 + 3 * 96 * 4), Err(12));
        // Inside a tiled span, the bytes of rows from H on: row 1 of size 4
        // begins at bit 4.
        let tiles = tiled(4, 2048, 32, 1);
        assert_eq!(locate(&tiles, 2048 + 15), Ok((3, 0, 3)));
        assert_eq!(locate(&tiles, 2048 + 16), Err(12));
        assert_eq!(locate(&tiles, 2047), Err(12));
        assert_eq!(locate(&tiles, 4096), Err(12));
        assert_eq!(locate(&tiles, u32::MAX), Err(12));
    }

    #[test]
    fn both_searches_agree_linear() {
        for size in [1, 2, 4, 8, 16] {
            for (pitch, height) in [(32, 1), (44, 3), (68, 5)] {
                assert_both_searches_agree(&linear(size, 4096, pitch, height));
            }
        }
        assert_both_searches_agree(&linear(4, 0xFFFF_F800, 8, 64));
    }

    #[test]
    fn both_searches_agree_tiled() {
        // Widths of one and two tiles, pitches between, heights below, at and
        // above the tile's. Low for the small sizes, whose windows are large.
        let cases = [
            (1, 124, 3),
            (1, 128, 2),
            (1, 64, 33),
            (2, 60, 5),
            (2, 64, 3),
            (2, 32, 33),
            (4, 60, 7),
            (4, 68, 5),
            (4, 32, 18),
            (8, 28, 16),
            (8, 36, 9),
            (8, 16, 35),
            (16, 28, 8),
            (16, 44, 5),
            (16, 36, 9),
        ];
        for (size, pitch, height) in cases {
            assert_both_searches_agree(&tiled(size, 2048, pitch, height));
        }
        assert_both_searches_agree(&tiled(16, 0xFFFF_F800, 16, 3));
    }

    #[test]
    fn every_owner_is_found() {
        for layout in [
            linear(1, 0, 4096, 3),
            linear(16, 2048, 12, 100),
            tiled(2, 4096, 96, 34),
            tiled(4, 2048, 100, 20),
            tiled(8, 0, 48, 33),
            tiled(16, 0, 52, 25),
        ] {
            assert_owners_are_found(&layout);
        }
    }

    /// The guide's own slices of bits, for the part of the address above the
    /// table: in units of 32 bytes (linear) or of a tile (tiled).
    fn by_the_guides_slices(layout: &Layout, x: u64, y: u64) -> u64 {
        let pitch = u64::from(layout.pitch);
        let offset = u64::from(layout.base);
        let place = [1, 2, 4, 8, 16].iter().position(|s| *s == layout.size);
        let place = place.unwrap();
        if layout.tiled {
            let (a, b) = [(6, 5), (5, 5), (5, 4), (4, 4), (4, 3)][place];
            ((y >> b) * (pitch >> a) + (x >> a) + (offset >> 11)) << 11
        } else {
            let a = [5, 4, 3, 2, 1][place];
            let high = y * (pitch >> a) + (x >> a) + (offset >> 5);
            (high << 5) + ((x % (1 << a)) << place)
        }
    }

    #[test]
    fn the_formulas_are_the_guides() {
        for size in [1, 2, 4, 8, 16] {
            for pitch in [64, 124, 1020, 4092, 4096] {
                for (x, y) in [(0, 0), (1, 1), (31, 33), (63, 64), (17, 4095), (40, 2222)] {
                    let rows = linear(size, 0x0010_0800, pitch, 4096);
                    let wanted = by_the_guides_slices(&rows, x, y);
                    let map = Map::of(&rows).unwrap();
                    assert_eq!(map.forward(x, y), wanted, "{rows:?}");
                    let tiles = tiled(size, 0x0010_0800, pitch, 4096);
                    let wanted = by_the_guides_slices(&tiles, x, y);
                    let map = Map::of(&tiles).unwrap();
                    assert_eq!(map.forward(x, y) - map.inside(x, y), wanted, "{tiles:?}");
                }
            }
        }
    }

    #[test]
    fn there_and_back_in_the_largest_windows() {
        for size in [1, 2, 4, 8, 16] {
            for layout in [linear(size, 2048, 4096, 4096), tiled(size, 0, 4096, 4096)] {
                for (x, y) in [(0, 0), (4095, 4095), (2730, 1365), (65, 4033), (4064, 31)] {
                    let address = translate(&layout, x, y).unwrap();
                    let last = size - 1;
                    assert_eq!(locate(&layout, address), Ok((x, y, 0)));
                    assert_eq!(locate(&layout, address + last), Ok((x, y, last)));
                }
            }
        }
    }
}
