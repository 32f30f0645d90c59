//! Document 01, "Layouts and windows", first paragraph: the five element sizes,
//! the two arguments that can be malformed, the row step, the tiles, the span
//! and the window rule.

use crate::Answer;

/// A layout as it is handed in; nothing about it has been judged yet.
#[derive(Clone, Copy, Debug, PartialEq, Eq)]
pub struct Layout {
    pub base: u32,
    pub pitch: u32,
    pub height: u32,
    pub size: u32,
    pub tiled: bool,
}

/// What follows from an accepted layout: document 01's row step E, in elements,
/// and its span, in bytes.
#[derive(Clone, Copy, Debug, PartialEq, Eq)]
pub struct Window {
    pub step: u32,
    pub span: u64,
}

/// One element size and its tile, in elements, width first.
#[derive(Clone, Copy, Debug, PartialEq, Eq)]
pub(crate) struct Tile {
    pub size: u32,
    pub width: u32,
    pub height: u32,
}

/// Every tile holds this many bytes, whatever the size.
pub(crate) const TILE_BYTES: u64 = 2048;

/// One above the last byte address: addresses are 32 bits.
pub(crate) const END_OF_ADDRESSES: u64 = 1 << 32;

/// "64x32, 32x32, 32x16, 16x16, 16x8 for the five sizes, width first."
const TILES: [Tile; 5] = [
    tile(1, 64, 32),
    tile(2, 32, 32),
    tile(4, 32, 16),
    tile(8, 16, 16),
    tile(16, 16, 8),
];

const fn tile(size: u32, width: u32, height: u32) -> Tile {
    Tile {
        size,
        width,
        height,
    }
}

/// The tile of a size; `None` for a number that is not one of the five sizes.
pub(crate) fn tile_of(size: u32) -> Option<Tile> {
    TILES.iter().copied().find(|tile| tile.size == size)
}

/// Judges a layout: 3 for a size, base or pitch that is malformed, then 6 where
/// the window rule is broken. A height is judged by 6 alone.
pub fn judge(layout: &Layout) -> Answer<Window> {
    // Asked before anything is divided by the size.
    let tile = tile_of(layout.size).ok_or(3u32)?;
    if layout.base % 2048 != 0 {
        return Err(3);
    }
    if layout.pitch % 4 != 0 || layout.pitch > 8188 {
        return Err(3);
    }
    let step = row_step(layout, tile);
    if !(1..=4096).contains(&step) {
        return Err(6);
    }
    if !(1..=4096).contains(&layout.height) {
        return Err(6);
    }
    let span = span(layout, tile, step);
    if u64::from(layout.base) + span > END_OF_ADDRESSES {
        return Err(6);
    }
    Ok(Window { step, span })
}

/// The row step: the pitch cut down to a multiple of 32/s, or of the tile's
/// width.
fn row_step(layout: &Layout, tile: Tile) -> u32 {
    let unit = if layout.tiled {
        tile.width
    } else {
        32 / layout.size
    };
    layout.pitch - layout.pitch % unit
}

/// H·E·s, or tile rows needed · E/width · 2,048.
fn span(layout: &Layout, tile: Tile, step: u32) -> u64 {
    let height = u64::from(layout.height);
    let step = u64::from(step);
    if layout.tiled {
        tile_rows(height, tile) * (step / u64::from(tile.width)) * TILE_BYTES
    } else {
        height * step * u64::from(layout.size)
    }
}

/// The rows of tiles that hold this many rows of elements: a row of tiles that
/// is only begun is needed whole.
fn tile_rows(height: u64, tile: Tile) -> u64 {
    let whole = height / u64::from(tile.height);
    if height % u64::from(tile.height) == 0 {
        whole
    } else {
        whole + 1
    }
}

#[cfg(test)]
pub(crate) mod tests {
    use super::*;

    pub(crate) fn linear(size: u32, base: u32, pitch: u32, height: u32) -> Layout {
        Layout {
            base,
            pitch,
            height,
            size,
            tiled: false,
        }
    }

    pub(crate) fn tiled(size: u32, base: u32, pitch: u32, height: u32) -> Layout {
        Layout {
            tiled: true,
            ..linear(size, base, pitch, height)
        }
    }

    fn step(layout: Layout) -> Answer<u32> {
        judge(&layout).map(|window| window.step)
    }

    fn span(layout: Layout) -> Answer<u64> {
        judge(&layout).map(|window| window.span)
    }

    #[test]
    fn every_tile_holds_2048_bytes() {
        for tile in TILES {
            let bytes = tile.size * tile.width * tile.height;
            assert_eq!(u64::from(bytes), TILE_BYTES);
        }
    }

    #[test]
    fn c1_row_step_is_cut() {
        let window = judge(&linear(4, 2048, 100, 3)).unwrap();
        assert_eq!(window.step, 96);
        assert_eq!(window.span, 3 * 96 * 4);
    }

    #[test]
    fn c7_row_step_of_no_tile_gets_6() {
        assert_eq!(judge(&tiled(4, 0, 28, 1)), Err(6));
        assert_eq!(step(tiled(4, 0, 32, 1)), Ok(32));
    }

    #[test]
    fn c8_span_up_to_the_last_address() {
        let base = 4_294_965_248;
        let window = judge(&linear(4, base, 8, 64)).unwrap();
        assert_eq!(u64::from(base) + window.span, 1 << 32);
        assert_eq!(judge(&linear(4, base, 8, 65)), Err(6));
    }

    #[test]
    fn row_steps_of_each_size() {
        // 124 is no multiple of 8 beyond 4, so each unit shows.
        let cut: Vec<_> = [1, 2, 4, 8, 16]
            .iter()
            .map(|&size| (step(linear(size, 0, 124, 1)), step(tiled(size, 0, 124, 1))))
            .collect();
        assert_eq!(
            cut,
            [
                (Ok(96), Ok(64)),
                (Ok(112), Ok(96)),
                (Ok(120), Ok(96)),
                (Ok(124), Ok(112)),
                (Ok(124), Ok(112)),
            ]
        );
    }

    #[test]
    fn other_sizes_get_3() {
        for size in [0, 3, 5, 6, 7, 9, 12, 15, 17, 32, 64, u32::MAX] {
            assert_eq!(judge(&linear(size, 0, 32, 1)), Err(3), "size {size}");
            assert_eq!(judge(&tiled(size, 0, 64, 1)), Err(3), "size {size}");
        }
        for size in [1, 2, 4, 8, 16] {
            assert_eq!(step(linear(size, 0, 32, 1)), Ok(32), "size {size}");
            assert_eq!(step(tiled(size, 0, 64, 1)), Ok(64), "size {size}");
        }
    }

    #[test]
    fn bases_that_are_no_multiple_of_2048_get_3() {
        for base in [1, 1024, 2047, 2049, u32::MAX] {
            assert_eq!(judge(&linear(4, base, 32, 1)), Err(3), "base {base}");
        }
        for base in [0, 2048, 4096, 0xFFFF_F800] {
            assert_eq!(step(linear(4, base, 32, 1)), Ok(32), "base {base}");
        }
    }

    #[test]
    fn pitches_that_are_malformed_get_3() {
        for pitch in [1, 2, 3, 33, 34, 8189, 8190, 8191, 8192, 8196, u32::MAX] {
            assert_eq!(judge(&linear(4, 0, pitch, 1)), Err(3), "pitch {pitch}");
            assert_eq!(judge(&tiled(4, 0, pitch, 1)), Err(3), "pitch {pitch}");
        }
        // The largest well formed pitch breaks only the bound on E.
        assert_eq!(judge(&linear(4, 0, 8188, 1)), Err(6));
    }

    #[test]
    fn row_step_bounds() {
        // Pitch 0 isn't malformed; it gives no row step.
        assert_eq!(judge(&linear(4, 0, 0, 1)), Err(6));
        assert_eq!(judge(&linear(1, 0, 28, 1)), Err(6));
        assert_eq!(step(linear(1, 0, 32, 1)), Ok(32));
        // The bound of 4,096 is on E, after the cut.
        assert_eq!(step(linear(2, 0, 4108, 1)), Ok(4096));
        assert_eq!(judge(&linear(2, 0, 4112, 1)), Err(6));
        assert_eq!(judge(&linear(16, 0, 4100, 1)), Err(6));
        assert_eq!(step(tiled(1, 0, 4156, 1)), Ok(4096));
        assert_eq!(judge(&tiled(1, 0, 4160, 1)), Err(6));
    }

    #[test]
    fn heights_get_6_alone() {
        for height in [0, 4097, 8191, 8192, 65_536, u32::MAX] {
            assert_eq!(judge(&linear(4, 0, 32, height)), Err(6), "height {height}");
            assert_eq!(judge(&tiled(4, 0, 32, height)), Err(6), "height {height}");
        }
        assert_eq!(span(linear(4, 0, 32, 1)), Ok(128));
        assert_eq!(span(linear(4, 0, 32, 4096)), Ok(4096 * 128));
    }

    #[test]
    fn malformed_comes_before_the_window_rule() {
        assert_eq!(judge(&linear(4, 1, 0, 0)), Err(3));
        assert_eq!(judge(&linear(4, 0, 2, 0)), Err(3));
        assert_eq!(judge(&linear(3, 0, 0, 0)), Err(3));
    }

    #[test]
    fn tile_rows_are_counted_whole() {
        assert_eq!(span(tiled(1, 0, 64, 1)), Ok(2048));
        assert_eq!(span(tiled(1, 0, 64, 32)), Ok(2048));
        assert_eq!(span(tiled(1, 0, 64, 33)), Ok(4096));
        assert_eq!(span(tiled(4, 0x800, 100, 18)), Ok(12_288));
        assert_eq!(span(tiled(16, 0, 32, 9)), Ok(8192));
    }

    #[test]
    fn the_largest_windows() {
        assert_eq!(span(linear(16, 0, 4096, 4096)), Ok(1 << 28));
        assert_eq!(span(tiled(16, 0xF000_0000, 4096, 4096)), Ok(1 << 28));
        assert_eq!(judge(&tiled(16, 0xF000_0800, 4096, 4096)), Err(6));
        assert_eq!(span(tiled(4, 0xFFFF_F800, 32, 16)), Ok(2048));
        assert_eq!(judge(&tiled(4, 0xFFFF_F800, 32, 17)), Err(6));
    }
}
