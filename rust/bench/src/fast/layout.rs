//! Layouts and their windows: refusals 3 and 6, the row step and the span.
//!
//! Sizes are handled by their power of two, `shift`. The functions that take it are always inlined, so that a caller that
//! matches on the size first gets constants throughout; a session, whose formats come mixed, takes shapes from a table.

use super::refusal::{Answer, MALFORMED, WINDOW};

/// Bits that a base may not have: it is a multiple of 2,048.
pub(super) const BASE_RESERVED: u32 = 0x7FF;
/// Bits that a pitch may have: a multiple of 4 up to 8,188.
pub(super) const PITCH_BITS: u32 = 0x1FFC;
/// The longest row and the greatest height of a window.
const LONGEST: u32 = 4096;

#[derive(Clone, Copy, Debug, PartialEq, Eq)]
pub struct Layout {
    pub base: u32,
    pub pitch: u32,
    pub height: u32,
    pub size: u32,
    pub tiled: bool,
}

/// Document 01's row step, in elements, and span, in bytes (at most 2^28).
#[derive(Clone, Copy, Debug, PartialEq, Eq)]
pub struct Window {
    pub step: u32,
    pub span: u32,
}

/// Tile widths are 64, 32, 32, 16, 16 for the five sizes.
#[inline(always)]
pub(super) const fn tile_width_log(shift: u32) -> u32 {
    6 - (shift + 1) / 2
}

/// Tile heights are 32, 32, 16, 16, 8 for the five sizes.
#[inline(always)]
pub(super) const fn tile_height_log(shift: u32) -> u32 {
    5 - shift / 2
}

/// What a size and a way of laying out fix: how far the row step is cut down and the rows are filled up.
#[derive(Clone, Copy)]
pub(super) struct Shape {
    pub shift: u32,
    step_cut: u32,
    rows_fill: u32,
}

#[inline(always)]
pub(super) const fn shape(shift: u32, tiled: bool) -> Shape {
    let (unit_log, rows_log) = if tiled {
        (tile_width_log(shift), tile_height_log(shift))
    } else {
        (5 - shift, 0)
    };
    Shape {
        shift,
        step_cut: (1 << unit_log) - 1,
        rows_fill: (1 << rows_log) - 1,
    }
}

/// Judges a layout of this shape, 3 before 6.
#[inline(always)]
pub(super) fn window(shape: Shape, base: u32, pitch: u32, height: u32) -> Answer<Window> {
    if base & BASE_RESERVED != 0 || pitch & !PITCH_BITS != 0 {
        return Err(MALFORMED);
    }
    let step = pitch & !shape.step_cut;
    if !within(step) || !within(height) {
        return Err(WINDOW);
    }
    let rows = (height + shape.rows_fill) & !shape.rows_fill;
    let span = (rows * step) << shape.shift;
    // base + span at most 2^32, without leaving 32 bits
    if span - 1 > !base {
        return Err(WINDOW);
    }
    Ok(Window { step, span })
}

/// From 1 to 4,096, in one comparison.
#[inline(always)]
fn within(length: u32) -> bool {
    length.wrapping_sub(1) < LONGEST
}

/// The window of a layout. 3 or 6.
#[inline(never)]
pub fn judge(layout: &Layout) -> Answer<Window> {
    if !layout.size.is_power_of_two() || layout.size > 16 {
        return Err(MALFORMED);
    }
    let shape = shape(layout.size.trailing_zeros(), layout.tiled);
    window(shape, layout.base, layout.pitch, layout.height)
}
