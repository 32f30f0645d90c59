//! Whole pictures: a rectangle of elements put into lent memory or taken out of it in
//! one call, and the addresses of a row. The layout is judged once, and the bytes go at
//! the speed of memory.
//!
//! The memory covers the window's whole span, whichever pairs are asked, and may be as
//! long as a frame is: the 65,536 bytes of [`read`](crate::read) and
//! [`write`](crate::write) don't bound it.

use crate::{answer, lent, Answer, Layout};

/// The pairs from (x, y) on, so many columns and rows of them. Any numbers may stand
/// in it: a call refuses a rectangle that leaves its window. One of no columns or no
/// rows has no pairs.
#[derive(Clone, Copy, Debug, PartialEq, Eq)]
pub struct Rectangle {
    pub x: u32,
    pub y: u32,
    pub columns: u32,
    pub rows: u32,
}

/// Stores the room's elements, row by row, at the rectangle's pairs, and touches no
/// other byte. The room is `columns * rows * size` bytes. 3, 6, 10 where a pair of the
/// rectangle is outside, or 11.
#[inline]
pub fn paint(
    layout: &Layout,
    rectangle: &Rectangle,
    memory: &mut [u8],
    first: u32,
    room: &[u8],
) -> Answer<()> {
    answer(lent::picture_paint(layout, rectangle, memory, first, room))
}

/// Puts the elements of the rectangle's pairs into the room, row by row; it is
/// `columns * rows * size` bytes. 3, 6, 10 where a pair of the rectangle is outside, or
/// 11.
#[inline]
pub fn copy_out(
    layout: &Layout,
    rectangle: &Rectangle,
    memory: &[u8],
    first: u32,
    room: &mut [u8],
) -> Answer<()> {
    answer(lent::picture_copy_out(
        layout, rectangle, memory, first, room,
    ))
}

/// Where the elements of a row begin, from (x, y) on, as many as there is room for. 3,
/// 6, or 10 where a pair of them is outside.
#[inline]
pub fn translate_row(layout: &Layout, x: u32, y: u32, addresses: &mut [u32]) -> Answer<()> {
    answer(lent::picture_row(layout, x, y, addresses))
}
