//! Layouts and addresses: a layout judged, a pair translated to its address
//! and run, and an address located back.

use crate::{accepted, lent, Answer};

/// A layout as a caller describes it. Any numbers may stand in it: a call
/// refuses those that document 01 doesn't accept.
#[derive(Clone, Copy, Debug, PartialEq, Eq)]
pub struct Layout {
    pub base: u32,
    pub pitch: u32,
    pub height: u32,
    /// Bytes of an element.
    pub size: u32,
    pub tiled: bool,
}

/// What an accepted layout covers.
#[derive(Clone, Copy, Debug, PartialEq, Eq)]
pub struct Window {
    /// Document 01's row step E, in elements.
    pub step: u32,
    /// The bytes from the base on that the window takes.
    pub span: u32,
}

/// The layout's window. 3 or 6.
#[inline]
pub fn layout(layout: &Layout) -> Answer<Window> {
    let mut window = [0; 2];
    accepted(lent::layout(layout, &mut window))?;
    Ok(Window {
        step: window[0],
        span: window[1],
    })
}

/// Where a pair's element stands.
#[derive(Clone, Copy, Debug, PartialEq, Eq)]
pub struct Translated {
    /// Where the element begins.
    pub address: u32,
    /// How many elements of the row, from this one on, lie at consecutive
    /// addresses: at least 1. One copy of so many elements takes them all.
    pub run: u32,
}

/// Where the element at (x, y) stands. 3, 6 or 10.
///
/// ```
/// use egretfold::{translate, Layout, Translated};
///
/// let layout = Layout { base: 0, pitch: 100, height: 20, size: 4, tiled: true };
/// // Three elements of the row lie at consecutive addresses from there on.
/// assert_eq!(translate(&layout, 37, 18), Ok(Translated { address: 9828, run: 3 }));
/// ```
#[inline]
pub fn translate(layout: &Layout, x: u32, y: u32) -> Answer<Translated> {
    let mut address = [0; 2];
    accepted(lent::translate(layout, x, y, &mut address))?;
    Ok(Translated {
        address: address[0],
        run: address[1],
    })
}

/// The pair that owns the byte at the address, and the byte's place in the
/// pair's element: x, y, place. 3, 6 or 12.
///
/// ```
/// use egretfold::{locate, Layout, Refusal};
///
/// let layout = Layout { base: 0, pitch: 100, height: 20, size: 4, tiled: true };
/// assert_eq!(locate(&layout, 9830), Ok((37, 18, 2)));
/// assert_eq!(locate(&layout, 1 << 20), Err(Refusal::Unowned));
/// ```
#[inline]
pub fn locate(layout: &Layout, address: u32) -> Answer<(u32, u32, u32)> {
    let mut pair = [0; 3];
    accepted(lent::locate(layout, address, &mut pair))?;
    Ok((pair[0], pair[1], pair[2]))
}
