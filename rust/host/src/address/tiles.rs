//! Document 01's tiles and its table of the bits inside one, as data, and the row
//! step as an engineer reckons it. Only for showing the working and naming a
//! cause: every answer is the product's.

use egretfold::Layout;

/// A bit of a pair.
#[derive(Clone, Copy, Debug, PartialEq, Eq)]
pub enum Bit {
    X(u32),
    Y(u32),
}

/// What stands in one bit of the offset inside a tile.
#[derive(Clone, Copy, Debug, PartialEq, Eq)]
pub enum Inside {
    /// An exclusive or. Going back from bit 10 down, the second one is known by
    /// then and gives the first.
    Two(Bit, Bit),
    One(Bit),
    Zero,
}

pub struct Tile {
    pub size: u32,
    pub width: u32,
    pub height: u32,
    /// From bit 10 down to bit 0.
    pub inside: [Inside; 11],
}

pub const TILE_BYTES: u32 = 2048;

use Bit::{X, Y};
use Inside::{One, Two, Zero};

const fn tile(size: u32, width: u32, height: u32, inside: [Inside; 11]) -> Tile {
    Tile {
        size,
        width,
        height,
        inside,
    }
}

#[rustfmt::skip]
const TILES: [Tile; 5] = [
    tile(1, 64, 32, [
        Two(Y(4), X(6)), Two(X(5), Y(5)), Two(Y(3), X(5)), Two(X(4), Y(4)), One(Y(2)), One(X(3)),
        One(Y(1)), One(Y(0)), One(X(2)), One(X(1)), One(X(0)),
    ]),
    tile(2, 32, 32, [
        Two(Y(4), X(5)), Two(X(4), Y(5)), Two(Y(3), X(4)), Two(X(3), Y(4)), One(Y(2)), One(X(2)),
        One(Y(1)), One(Y(0)), One(X(1)), One(X(0)), Zero,
    ]),
    tile(4, 32, 16, [
        Two(Y(3), X(5)), Two(X(4), Y(4)), Two(Y(2), X(4)), Two(X(3), Y(3)), One(Y(1)), One(X(2)),
        One(Y(0)), One(X(1)), One(X(0)), Zero, Zero,
    ]),
    tile(8, 16, 16, [
        Two(Y(3), X(4)), Two(X(3), Y(4)), Two(Y(2), X(3)), Two(X(2), Y(3)), One(Y(1)), One(X(1)),
        One(Y(0)), One(X(0)), Zero, Zero, Zero,
    ]),
    tile(16, 16, 8, [
        Two(Y(2), X(4)), Two(X(3), Y(3)), Two(Y(1), X(3)), Two(X(2), Y(2)), One(Y(0)), One(X(1)),
        One(X(0)), Zero, Zero, Zero, Zero,
    ]),
];

/// The tile for this element size.
pub fn tile_of(size: u32) -> Option<&'static Tile> {
    TILES.iter().find(|tile| tile.size == size)
}

impl Bit {
    pub fn name(self) -> String {
        match self {
            X(n) => format!("x{n}"),
            Y(n) => format!("y{n}"),
        }
    }

    pub fn of(self, x: u32, y: u32) -> u32 {
        match self {
            X(n) => x >> n & 1,
            Y(n) => y >> n & 1,
        }
    }
}

/// What the pitch is cut to a multiple of: 32/s elements or the tile's width.
pub fn unit(layout: &Layout) -> Option<u32> {
    let tile = tile_of(layout.size)?;
    Some(if layout.tiled {
        tile.width
    } else {
        32 / tile.size
    })
}

/// Document 01's row step E, also of layouts that the window rule refuses.
pub fn row_step(layout: &Layout) -> Option<u32> {
    unit(layout).map(|unit| layout.pitch / unit * unit)
}

/// The span in bytes, which may be more than an accepted layout's.
pub fn span(layout: &Layout) -> Option<u64> {
    let tile = tile_of(layout.size)?;
    let step = u64::from(row_step(layout)?);
    let height = u64::from(layout.height);
    if !layout.tiled {
        return Some(height * step * u64::from(layout.size));
    }
    let tile_rows = (height + u64::from(tile.height) - 1) / u64::from(tile.height);
    Some(tile_rows * (step / u64::from(tile.width)) * u64::from(TILE_BYTES))
}

#[cfg(test)]
mod tests {
    use super::{row_step, span, TILES};
    use egretfold::Layout;

    #[test]
    fn row_step_and_span_are_the_products() {
        let mut accepted = 0;
        for tile in &TILES {
            for (pitch, height) in (0..2048).zip((1..=4096).rev().step_by(2)) {
                for tiled in [false, true] {
                    let layout = Layout {
                        base: 0,
                        pitch: 4 * pitch,
                        height,
                        size: tile.size,
                        tiled,
                    };
                    if let Ok(window) = egretfold::layout(&layout) {
                        assert_eq!(row_step(&layout), Some(window.step), "{layout:?}");
                        assert_eq!(span(&layout), Some(u64::from(window.span)), "{layout:?}");
                        accepted += 1;
                    }
                }
            }
        }
        assert!(accepted > 9_000, "{accepted}");
    }
}
