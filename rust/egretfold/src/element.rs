//! Elements in lent memory: bytes of which the first stands at address `first`.

use crate::{answer, lent, Answer, Layout};
use std::ops::Deref;

/// The bytes of an element (or of a superfine read's four), at most sixteen. It
/// reads as a slice of just those bytes.
#[derive(Clone, Copy, Debug, PartialEq, Eq)]
pub struct Element {
    room: [u8; 16],
    length: usize,
}

impl Element {
    #[inline]
    pub fn bytes(&self) -> &[u8] {
        &self.room[..self.length]
    }
}

impl Deref for Element {
    type Target = [u8];

    #[inline]
    fn deref(&self) -> &[u8] {
        self.bytes()
    }
}

/// The bytes of the element at (x, y). 3, 6, 10 or 11.
///
/// ```
/// use egretfold::{read, write, Layout};
///
/// let layout = Layout { base: 0, pitch: 8, height: 1, size: 4, tiled: false };
/// let mut memory = [0; 32];
/// write(&layout, 3, 0, &mut memory, 0, &[1, 2, 3, 4])?;
/// assert_eq!(read(&layout, 3, 0, &memory, 0)?.bytes(), [1, 2, 3, 4]);
/// # Ok::<(), egretfold::Refusal>(())
/// ```
#[inline]
pub fn read(layout: &Layout, x: u32, y: u32, memory: &[u8], first: u32) -> Answer<Element> {
    let mut room = [0; 16];
    answer(lent::element_read(layout, x, y, memory, first, &mut room))?;
    // An accepted layout's size is 16 at most, so this cuts the room rightly.
    let length = layout.size as usize;
    Ok(Element { room, length })
}

/// Stores `data` as the element at (x, y) and touches no other byte. 3, 6, 10 or
/// 11.
#[inline]
pub fn write(
    layout: &Layout,
    x: u32,
    y: u32,
    memory: &mut [u8],
    first: u32,
    data: &[u8],
) -> Answer<()> {
    answer(lent::element_write(layout, x, y, memory, first, data))
}

/// The elements at (x + 1, y), (x, y + 1), (x + 1, y + 1) and (x, y), one after
/// the other, of the window that base, format word and height describe. 3, 6, 10
/// or 11.
#[inline]
pub fn superfine(
    base: u32,
    format: u32,
    height: u32,
    x: u32,
    y: u32,
    memory: &[u8],
    first: u32,
) -> Answer<Element> {
    let mut room = [0; 16];
    let mut count = [0];
    let window = (base, format, height);
    let number = lent::element_superfine(window, x, y, memory, first, &mut room, &mut count);
    answer(number)?;
    let length = count[0] as usize;
    Ok(Element { room, length })
}
