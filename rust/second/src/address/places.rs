//! Document 02, request 14, its last sentence: a fixed table of the 2,048 places
//! within a tile of single bytes, corrected for x6 and y5.
//!
//! The table is made from the other side than the bit rule: each byte of one tile
//! is asked whose it is. The unit tests hold it against the bit rule at every pair.

use super::locate;
use crate::layout::Layout;

/// A tile of single bytes: 64 columns and 32 rows.
const COLUMNS: u32 = 64;
const ROWS: u32 = 32;

/// What x6 adds to a place by exclusive or: bit 10 is y4^x6.
const FOR_X6: u32 = 1024;

/// What y5 adds likewise: bit 9 is x5^y5.
const FOR_Y5: u32 = 512;

/// The places of a tile's pairs, row by row: pair (x, y) at 64·y + x, with x6 and y5
/// both 0.
pub fn places() -> Vec<u32> {
    let tile = Layout {
        base: 0,
        pitch: COLUMNS,
        height: ROWS,
        size: 1,
        tiled: true,
    };
    let mut places = vec![0; (COLUMNS * ROWS) as usize];
    for place in 0..COLUMNS * ROWS {
        let (x, y, _) = locate(&tile, place).expect("every byte of the tile has an owner");
        places[(COLUMNS * y + x) as usize] = place;
    }
    places
}

/// The place within its tile of any pair of a one-byte tiled layout, by the table.
pub fn place_by_table(places: &[u32], x: u32, y: u32) -> u32 {
    let place = places[(COLUMNS * (y % ROWS) + x % COLUMNS) as usize];
    let x6 = x / 64 % 2;
    let y5 = y / 32 % 2;
    place ^ (FOR_X6 * x6) ^ (FOR_Y5 * y5)
}

#[cfg(test)]
mod tests {
    use super::*;
    use crate::address::{translate, Map};
    use crate::layout::tests::tiled;

    #[test]
    fn every_place_comes_once() {
        let mut sorted = places();
        assert_eq!(sorted[0], 0);
        sorted.sort_unstable();
        assert_eq!(sorted, (0..2048).collect::<Vec<u32>>());
    }

    #[test]
    fn r154_the_table_agrees_with_the_bit_rule_at_every_pair() {
        let places = places();
        let map = Map::of(&tiled(1, 0, 4096, 4096)).unwrap();
        for y in 0..4096 {
            for x in 0..4096 {
                let by_rule = map.inside(u64::from(x), u64::from(y));
                let by_table = place_by_table(&places, x, y);
                assert_eq!(u64::from(by_table), by_rule, "({x}, {y})");
            }
        }
    }

    #[test]
    fn c4_and_c5_by_the_table() {
        let places = places();
        // The second tile, and the first one of the second row of two tiles.
        assert_eq!(2048 + place_by_table(&places, 64, 0), 3072);
        assert_eq!(4096 + place_by_table(&places, 0, 32), 4608);
        let layout = tiled(1, 0, 128, 64);
        assert_eq!(translate(&layout, 64, 0), Ok(3072));
        assert_eq!(translate(&layout, 0, 32), Ok(4608));
    }
}
