//! Request 8's runs: the product's beside those that the second program searches for, at every place of a tile and around it, for
//! every size, linear and tiled.

use compare::layouts::{for_product, SIZES};
use second::address::{translate_run, Translated};
use second::layout::{judge, Layout};

/// The base, and pitches that are cut down to one tile's width, to two and a half, and to the widest row.
const BASE: u32 = 0x0001_0000;
const PITCHES: [u32; 3] = [68, 160, 4096];
/// More rows than two of the tallest tiles have.
const HEIGHT: u32 = 67;
/// How many columns of a row are asked, from each of its ends on: two of the widest tiles.
const COLUMNS: u32 = 128;

fn layouts() -> impl Iterator<Item = Layout> {
    SIZES.into_iter().flat_map(|size| {
        PITCHES.into_iter().flat_map(move |pitch| {
            [false, true].map(|tiled| Layout {
                base: BASE,
                pitch,
                height: HEIGHT,
                size,
                tiled,
            })
        })
    })
}

#[test]
fn every_place_of_a_tile_has_its_run() {
    let mut asked = 0;
    for layout in layouts() {
        let step = judge(&layout).expect("an accepted layout").step;
        let columns = (0..step).filter(|x| *x < COLUMNS || *x + COLUMNS >= step);
        for x in columns {
            for y in 0..HEIGHT {
                let product = egretfold::translate(&for_product(&layout), x, y);
                let found = product.map(|at| Translated {
                    address: at.address,
                    run: at.run,
                });
                let wanted = translate_run(&layout, x, y);
                assert_eq!(found.map_err(u32::from), wanted, "({x}, {y}) of {layout:?}");
                asked += 1;
            }
        }
    }
    assert!(asked > 100_000, "{asked} pairs were asked");
}

/// A copy of a run: so many bytes from the pair's address on are those of so many elements, one after the other.
#[test]
fn a_run_is_one_copy() {
    let mut memory = vec![0; 65_536];
    for (place, byte) in memory.iter_mut().enumerate() {
        *byte = (place % 251) as u8;
    }
    for size in SIZES {
        for tiled in [false, true] {
            let layout = egretfold::Layout {
                base: BASE,
                pitch: 64,
                height: 32,
                size,
                tiled,
            };
            for (x, y) in (0..64).flat_map(|x| [(x, 0), (x, 13), (x, 31)]) {
                let at = egretfold::translate(&layout, x, y).expect("a pair inside");
                let start = (at.address - BASE) as usize;
                let copied = &memory[start..start + (at.run * size) as usize];
                let elements = (x..x + at.run).flat_map(|x| {
                    let element = egretfold::read(&layout, x, y, &memory, BASE);
                    element.expect("a pair inside").bytes().to_vec()
                });
                assert!(
                    elements.eq(copied.iter().copied()),
                    "({x}, {y}) of {layout:?}"
                );
            }
        }
    }
}
