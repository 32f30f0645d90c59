//! Document 02, request 8, "How far may a copy run?": how many elements from a
//! pair on, in the same row, lie at consecutive addresses.
//!
//! The run is searched: the row is walked from the pair on, address by address,
//! up to the first one that isn't the one before plus s, or to the row's end.
//! Nothing here knows the tiles. The unit tests search once more from the other
//! side, by the way back, and hold both against the closed form.

use super::{narrow, Map};
use crate::layout::Layout;
use crate::Answer;

/// A translation's answer: the pair's address, and its run.
#[derive(Clone, Copy, Debug, PartialEq, Eq)]
pub struct Translated {
    pub address: u32,
    /// The pair's own element counts, so it is at least 1.
    pub run: u32,
}

/// The address of a pair with its run: 3 and 6 for the layout, 10 for a pair
/// outside. The address is that of [`super::translate`].
pub fn translate_run(layout: &Layout, x: u32, y: u32) -> Answer<Translated> {
    let map = Map::of(layout)?;
    let (x, y) = (u64::from(x), u64::from(y));
    if !map.is_inside(x, y) {
        return Err(10);
    }
    Ok(Translated {
        address: narrow(map.forward(x, y)),
        run: narrow(run_of(&map, x, y)),
    })
}

/// "the longest such run that stays in the window": the pairs of the row from x
/// on, as long as each one's address is the one before plus s.
fn run_of(map: &Map, x: u64, y: u64) -> u64 {
    let mut run = 1;
    while map.is_inside(x + run, y) {
        let before = map.forward(x + run - 1, y);
        if map.forward(x + run, y) != before + map.size {
            break;
        }
        run += 1;
    }
    run
}

#[cfg(test)]
mod tests {
    use super::*;
    use crate::address::{locate, translate};
    use crate::layout::judge;
    use crate::layout::tests::{linear, tiled};

    const SIZES: [u32; 5] = [1, 2, 4, 8, 16];

    fn run(layout: &Layout, x: u32, y: u32) -> u32 {
        translate_run(layout, x, y).unwrap().run
    }

    /// The run from the other side: the addresses from the pair's on, s apart, are
    /// asked who owns them, as long as it is the next pair of the row.
    fn run_by_the_way_back(layout: &Layout, x: u32, y: u32) -> u32 {
        let first = translate(layout, x, y).unwrap();
        let mut run = 0;
        while let Some(address) = first.checked_add(run * layout.size) {
            if locate(layout, address) != Ok((x + run, y, 0)) {
                break;
            }
            run += 1;
        }
        run
    }

    /// Linear: E - x. Tiled: up to the next multiple of so many columns.
    fn run_by_closed_form(layout: &Layout, x: u32) -> u32 {
        if !layout.tiled {
            return judge(layout).unwrap().step - x;
        }
        let together = match layout.size {
            1 => 8,
            2 | 4 | 16 => 4,
            _ => 2,
        };
        together - x % together
    }

    #[test]
    fn c1_to_c6_with_their_runs() {
        let rows = linear(4, 2048, 100, 3);
        let bytes = tiled(1, 0, 128, 64);
        let cases = [
            (rows, 5, 2, 2836, 91),
            (rows, 95, 0, 2428, 1),
            (tiled(4, 0, 100, 20), 37, 18, 9828, 3),
            (bytes, 64, 0, 3072, 8),
            (bytes, 0, 32, 4608, 8),
            (tiled(16, 0, 16, 8), 15, 7, 1648, 1),
        ];
        for (layout, x, y, address, run) in cases {
            let answer = Translated { address, run };
            assert_eq!(translate_run(&layout, x, y), Ok(answer));
        }
    }

    #[test]
    fn the_address_is_the_translations() {
        for size in SIZES {
            for layout in [linear(size, 2048, 68, 5), tiled(size, 2048, 132, 37)] {
                for (x, y) in [(0, 0), (31, 0), (63, 4), (64, 36), (127, 33), (u32::MAX, 0)] {
                    let answer = translate_run(&layout, x, y);
                    assert_eq!(answer.map(|one| one.address), translate(&layout, x, y));
                }
            }
        }
    }

    #[test]
    fn the_refusals_are_the_translations() {
        assert_eq!(translate_run(&linear(3, 0, 32, 0), 99, 0), Err(3));
        assert_eq!(translate_run(&tiled(4, 8, 32, 1), 0, 0), Err(3));
        assert_eq!(translate_run(&tiled(4, 0, 30, 1), 0, 0), Err(3));
        assert_eq!(translate_run(&tiled(4, 0, 28, 1), 0, 0), Err(6));
        assert_eq!(translate_run(&linear(4, 0, 32, 4097), 99, 0), Err(6));
        for layout in [linear(4, 2048, 100, 3), tiled(4, 2048, 100, 3)] {
            for (x, y) in [(96, 0), (0, 3), (u32::MAX, 0), (0, u32::MAX)] {
                assert_eq!(translate_run(&layout, x, y), Err(10));
            }
        }
    }

    #[test]
    fn at_every_place_of_a_tile_all_ways_agree() {
        for size in SIZES {
            // Two tiles each way and a pitch that is cut, so that runs could go
            // over a tile's edge, and the bits above the tile count.
            let wide = tiled(size, 4096, 132, 64);
            let step = judge(&wide).unwrap().step;
            for y in (0..64).step_by(7).chain([31, 32, 63]) {
                for x in 0..step {
                    let found = run(&wide, x, y);
                    assert_eq!(found, run_by_closed_form(&wide, x), "{wide:?} ({x}, {y})");
                    assert_eq!(found, run_by_the_way_back(&wide, x, y), "{wide:?}");
                }
            }
        }
    }

    #[test]
    fn linear_runs_go_to_the_rows_end() {
        for size in SIZES {
            for (pitch, height) in [(32, 1), (44, 3), (68, 5)] {
                let layout = linear(size, 2048, pitch, height);
                let step = judge(&layout).unwrap().step;
                for (x, y) in (0..step).flat_map(|x| (0..height).map(move |y| (x, y))) {
                    let found = run(&layout, x, y);
                    // Not into the next row, though that follows at once.
                    assert_eq!(found, step - x);
                    assert_eq!(found, run_by_the_way_back(&layout, x, y), "{layout:?}");
                }
            }
        }
        // Up to the last address of all.
        let last = linear(4, 0xFFFF_F800, 8, 64);
        assert_eq!(run(&last, 3, 63), 5);
        assert_eq!(run_by_the_way_back(&last, 3, 63), 5);
    }

    #[test]
    fn every_shorter_run_is_one_and_no_longer_one_is() {
        for size in SIZES {
            for layout in [linear(size, 0, 60, 3), tiled(size, 0, 196, 35)] {
                let step = judge(&layout).unwrap().step;
                for (x, y) in (0..step).flat_map(|x| [(x, 0), (x, layout.height - 1)]) {
                    let Translated { address, run } = translate_run(&layout, x, y).unwrap();
                    assert!(run >= 1 && x + run <= step);
                    for place in 0..run {
                        let next = translate(&layout, x + place, y);
                        assert_eq!(next, Ok(address + place * size));
                    }
                    let behind = translate(&layout, x + run, y);
                    assert_ne!(behind, Ok(address + run * size), "{layout:?} ({x}, {y})");
                }
            }
        }
    }

    #[test]
    fn size_16_runs_over_four_columns() {
        // Bits 5 and 4 of the place are x1 and x0, side by side.
        let layout = tiled(16, 0, 32, 8);
        let runs: Vec<u32> = (0..8).map(|x| run(&layout, x, 0)).collect();
        assert_eq!(runs, [4, 3, 2, 1, 4, 3, 2, 1]);
        let layout = tiled(8, 0, 32, 8);
        let runs: Vec<u32> = (0..4).map(|x| run(&layout, x, 0)).collect();
        assert_eq!(runs, [2, 1, 2, 1]);
    }

    #[test]
    fn the_widest_rows() {
        for size in SIZES {
            let rows = linear(size, 0, 4096, 4096);
            assert_eq!(run(&rows, 0, 4095), 4096);
            assert_eq!(run(&rows, 4095, 4095), 1);
            let tiles = tiled(size, 0, 4096, 4096);
            assert_eq!(run(&tiles, 4095, 4095), 1);
            assert_eq!(run(&tiles, 4088, 4095), run_by_closed_form(&tiles, 4088));
        }
    }
}
