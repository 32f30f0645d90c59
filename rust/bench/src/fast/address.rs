//! Addresses of pairs with their runs, and the way back.
//!
//! Document 01's five bit tables are one when x is counted in bytes. Let `half` be 0 for sizes 1 and 2, 1 for 4 and 8, and 2
//! for 16. The lowest 3 + half bits of the byte column and the lowest 2 - half bits of y stand as they are in bits 4 to 0.
//! Of what is left of them, u (column) and v (row), four bits count:
//!
//! | 10 | 9 | 8 | 7 | 6 | 5 |
//! |---|---|---|---|---|---|
//! | v2^u3 | u2^v3 | v1^u2 | u1^v2 | v0 | u0 |

use super::layout::{shape, tile_height_log, tile_width_log, window, Layout};
use super::refusal::{Answer, MALFORMED, NO_OWNER, OUTSIDE};

/// How the place within a tile is found: bit by bit, or read from a table.
pub(super) const BY_BITS: bool = false;
const BY_TABLE: bool = true;
/// Tiles hold 2,048 bytes.
const TILE_LOG: u32 = 11;

/// Where an element begins, and how many of its row, from it on, lie at consecutive addresses.
#[derive(Clone, Copy, Debug, PartialEq, Eq)]
pub struct Translated {
    pub address: u32,
    pub run: u32,
}

/// Where the element at (x, y) stands. 3, 6 or 10.
#[inline(never)]
pub fn translate(layout: &Layout, x: u32, y: u32) -> Answer<Translated> {
    match layout.size {
        1 => translate_sized::<BY_BITS>(0, layout, x, y),
        2 => translate_sized::<BY_BITS>(1, layout, x, y),
        4 => translate_sized::<BY_BITS>(2, layout, x, y),
        8 => translate_sized::<BY_BITS>(3, layout, x, y),
        16 => translate_sized::<BY_BITS>(4, layout, x, y),
        _ => Err(MALFORMED),
    }
}

/// The same answers as [`translate`], with the place within a tile read from a table.
#[inline(never)]
pub fn translate_by_table(layout: &Layout, x: u32, y: u32) -> Answer<Translated> {
    match layout.size {
        1 => translate_sized::<BY_TABLE>(0, layout, x, y),
        2 => translate_sized::<BY_TABLE>(1, layout, x, y),
        4 => translate_sized::<BY_TABLE>(2, layout, x, y),
        8 => translate_sized::<BY_TABLE>(3, layout, x, y),
        16 => translate_sized::<BY_TABLE>(4, layout, x, y),
        _ => Err(MALFORMED),
    }
}

/// The pair that owns the byte at an address, and the byte's place in its element. 3, 6 or 12.
#[inline(never)]
pub fn locate(layout: &Layout, address: u32) -> Answer<(u32, u32, u32)> {
    match layout.size {
        1 => locate_sized(0, layout, address),
        2 => locate_sized(1, layout, address),
        4 => locate_sized(2, layout, address),
        8 => locate_sized(3, layout, address),
        16 => locate_sized(4, layout, address),
        _ => Err(MALFORMED),
    }
}

#[inline(always)]
pub(super) fn translate_sized<const HOW: bool>(
    shift: u32,
    layout: &Layout,
    x: u32,
    y: u32,
) -> Answer<Translated> {
    // both ways get a copy of the code below, in which all that depends on the way is constant
    if layout.tiled {
        translate_laid::<HOW>(shift, true, layout, x, y)
    } else {
        translate_laid::<HOW>(shift, false, layout, x, y)
    }
}

#[inline(always)]
fn translate_laid<const HOW: bool>(
    shift: u32,
    tiled: bool,
    layout: &Layout,
    x: u32,
    y: u32,
) -> Answer<Translated> {
    let shape = shape(shift, tiled);
    let window = window(shape, layout.base, layout.pitch, layout.height)?;
    if x >= window.step || y >= layout.height {
        return Err(OUTSIDE);
    }
    Ok(Translated {
        address: layout.base + offset::<HOW>(shift, tiled, window.step, x, y),
        run: run(shift, tiled, window.step, x),
    })
}

/// The rest of the row where linear. Where tiled, the rest of the elements whose offsets differ in their lowest bits alone: x stands
/// there with 3, 2, 2, 1 and 2 bits for the five sizes.
#[inline(always)]
fn run(shift: u32, tiled: bool, step: u32, x: u32) -> u32 {
    if !tiled {
        return step - x;
    }
    let group = match shift {
        0 => 8,
        3 => 2,
        _ => 4,
    };
    group - x % group
}

/// How far behind the base a pair inside the window stands.
#[inline(always)]
pub(super) fn offset<const HOW: bool>(shift: u32, tiled: bool, step: u32, x: u32, y: u32) -> u32 {
    if !tiled {
        return (y * step + x) << shift;
    }
    let row = y >> tile_height_log(shift);
    let column = x >> tile_width_log(shift);
    let tiles_in_row = step >> tile_width_log(shift);
    ((row * tiles_in_row + column) << TILE_LOG) + inside::<HOW>(shift, x, y)
}

/// The place of (x, y) within its tile, by the table at the head of this file.
#[inline(always)]
fn inside<const HOW: bool>(shift: u32, x: u32, y: u32) -> u32 {
    let (low, u, v) = parts(shift, x, y);
    if HOW == BY_TABLE {
        low | u32::from(MIXED[(u & 15 | (v & 15) << 4) as usize])
    } else {
        low | mixed(u, v)
    }
}

/// Bits 4 to 0 of the place, u and v.
#[inline(always)]
fn parts(shift: u32, x: u32, y: u32) -> (u32, u32, u32) {
    let half = shift / 2;
    let column = x << shift;
    let low = (column & ((8 << half) - 1)) | ((y & ((4 >> half) - 1)) << (3 + half));
    (low, column >> (3 + half), y >> (2 - half))
}

/// Bits 10 to 5 of the place.
#[inline(always)]
pub(super) const fn mixed(u: u32, v: u32) -> u32 {
    let from_u = ((u & 1) << 5) | ((u & 6) << 6);
    let from_v = ((v & 9) << 6) | ((v & 2) << 7) | ((v & 4) << 8);
    from_u ^ ((u & 12) << 7) ^ from_v ^ ((v & 4) << 5)
}

/// Bits 10 to 5 of the place, for the lowest four bits of u and v.
static MIXED: [u16; 256] = {
    let mut table = [0; 256];
    let mut index = 0;
    while index < table.len() {
        table[index] = mixed(index as u32 & 15, index as u32 >> 4) as u16;
        index += 1;
    }
    table
};

#[inline(always)]
fn locate_sized(shift: u32, layout: &Layout, address: u32) -> Answer<(u32, u32, u32)> {
    if layout.tiled {
        locate_laid(shift, true, layout, address)
    } else {
        locate_laid(shift, false, layout, address)
    }
}

#[inline(always)]
fn locate_laid(shift: u32, tiled: bool, layout: &Layout, address: u32) -> Answer<(u32, u32, u32)> {
    let shape = shape(shift, tiled);
    let window = window(shape, layout.base, layout.pitch, layout.height)?;
    // an address below the base wraps to a number above every span
    let offset = address.wrapping_sub(layout.base);
    if offset >= window.span {
        return Err(NO_OWNER);
    }
    let place = offset & ((1 << shift) - 1);
    if !tiled {
        let element = offset >> shift;
        return Ok((element % window.step, element / window.step, place));
    }
    let tile = offset >> TILE_LOG;
    let tiles_in_row = window.step >> tile_width_log(shift);
    let (x, y) = pair_in_tile(shift, tile % tiles_in_row, tile / tiles_in_row, offset);
    if y >= layout.height {
        return Err(NO_OWNER);
    }
    Ok((x, y, place))
}

/// The table read backwards: u3 and v3 are the lowest bits of the tile's column and row, and give the others one by one.
#[inline(always)]
fn pair_in_tile(shift: u32, tile_column: u32, tile_row: u32, offset: u32) -> (u32, u32) {
    let half = shift / 2;
    let v2 = (offset >> 10 ^ tile_column) & 1;
    let u2 = (offset >> 9 ^ tile_row) & 1;
    let v1 = (offset >> 8 & 1) ^ u2;
    let u1 = (offset >> 7 & 1) ^ v2;
    let u = (offset >> 5 & 1) | u1 << 1 | u2 << 2;
    let v = (offset >> 6 & 1) | v1 << 1 | v2 << 2;
    let column = (offset & ((8 << half) - 1)) | u << (3 + half);
    let row = (offset >> (3 + half) & ((4 >> half) - 1)) | v << (2 - half);
    (
        tile_column << tile_width_log(shift) | column >> shift,
        tile_row << tile_height_log(shift) | row,
    )
}
