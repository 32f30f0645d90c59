//! Elements in lent memory: read, write and the superfine read.

use super::address::{offset, translate_sized, BY_BITS};
use super::command::{Format, FORMAT_BITS, SUPERFINE};
use super::layout::{shape, window, Layout};
use super::refusal::{Answer, MALFORMED, OUTSIDE, ROOM};

/// The most bytes that lent memory may have.
const MOST_MEMORY: usize = 65_536;

/// The bytes of one element, or of a superfine read's four, and how many they are; zeros behind them.
#[derive(Clone, Copy, Debug, PartialEq, Eq)]
pub struct Element {
    pub bytes: [u8; 16],
    pub length: usize,
}

/// The bytes of the element at (x, y). 3, 6, 10 or 11.
#[inline(never)]
pub fn read(layout: &Layout, x: u32, y: u32, memory: &[u8], first: u32) -> Answer<Element> {
    match layout.size {
        1 => read_sized::<1>(layout, x, y, memory, first),
        2 => read_sized::<2>(layout, x, y, memory, first),
        4 => read_sized::<4>(layout, x, y, memory, first),
        8 => read_sized::<8>(layout, x, y, memory, first),
        16 => read_sized::<16>(layout, x, y, memory, first),
        _ => Err(MALFORMED),
    }
}

/// Stores `data` as the element at (x, y). 3, 6, 10 or 11.
#[inline(never)]
pub fn write(
    layout: &Layout,
    x: u32,
    y: u32,
    memory: &mut [u8],
    first: u32,
    data: &[u8],
) -> Answer<()> {
    match layout.size {
        1 => write_sized::<1>(layout, x, y, memory, first, data),
        2 => write_sized::<2>(layout, x, y, memory, first, data),
        4 => write_sized::<4>(layout, x, y, memory, first, data),
        8 => write_sized::<8>(layout, x, y, memory, first, data),
        16 => write_sized::<16>(layout, x, y, memory, first, data),
        _ => Err(MALFORMED),
    }
}

/// The elements at (x + 1, y), (x, y + 1), (x + 1, y + 1) and (x, y), one after the other. 3, 6, 10 or 11.
#[inline(never)]
pub fn superfine(
    base: u32,
    format: u32,
    height: u32,
    x: u32,
    y: u32,
    memory: &[u8],
    first: u32,
) -> Answer<Element> {
    if format & !FORMAT_BITS != 0 || format & SUPERFINE == 0 {
        return Err(MALFORMED);
    }
    let format = Format {
        base,
        word: format,
        height,
    };
    match format.code() {
        0 => superfine_sized::<2>(&format, x, y, memory, first),
        2 => superfine_sized::<4>(&format, x, y, memory, first),
        _ => Err(MALFORMED),
    }
}

#[inline(always)]
fn read_sized<const SIZE: usize>(
    layout: &Layout,
    x: u32,
    y: u32,
    memory: &[u8],
    first: u32,
) -> Answer<Element> {
    let address = translate_sized::<BY_BITS>(SIZE.trailing_zeros(), layout, x, y)?.address;
    let start = start_of(memory.len(), first, address)?;
    let part: [u8; SIZE] = part_of(memory, start)?;
    let mut bytes = [0; 16];
    bytes[..SIZE].copy_from_slice(&part);
    Ok(Element {
        bytes,
        length: SIZE,
    })
}

#[inline(always)]
fn write_sized<const SIZE: usize>(
    layout: &Layout,
    x: u32,
    y: u32,
    memory: &mut [u8],
    first: u32,
    data: &[u8],
) -> Answer<()> {
    let address = translate_sized::<BY_BITS>(SIZE.trailing_zeros(), layout, x, y)?.address;
    let start = start_of(memory.len(), first, address)?;
    let data: &[u8; SIZE] = data.try_into().map_err(|_| ROOM)?;
    let part = memory.get_mut(start..start + SIZE).ok_or(ROOM)?;
    part.copy_from_slice(data);
    Ok(())
}

#[inline(always)]
fn superfine_sized<const SIZE: usize>(
    format: &Format,
    x: u32,
    y: u32,
    memory: &[u8],
    first: u32,
) -> Answer<Element> {
    let shift = SIZE.trailing_zeros();
    let shape = shape(shift, format.tiled());
    let window = window(shape, format.base, format.pitch(), format.height)?;
    // step and height are at least 1, so this also refuses an x or y that can't grow
    if x >= window.step - 1 || y >= format.height - 1 {
        return Err(OUTSIDE);
    }
    let mut bytes = [0; 16];
    let pairs = [(x + 1, y), (x, y + 1), (x + 1, y + 1), (x, y)];
    for ((x, y), channel) in pairs.into_iter().zip(bytes.chunks_exact_mut(SIZE)) {
        let address = format.base + offset::<BY_BITS>(shift, format.tiled(), window.step, x, y);
        let start = start_of(memory.len(), first, address)?;
        let part: [u8; SIZE] = part_of(memory, start)?;
        channel.copy_from_slice(&part);
    }
    Ok(Element {
        bytes,
        length: 4 * SIZE,
    })
}

/// Judges the memory itself, and finds where in it an address stands.
#[inline(always)]
pub(super) fn start_of(length: usize, first: u32, address: u32) -> Answer<usize> {
    if length > MOST_MEMORY || u64::from(first) + length as u64 > 1 << 32 || address < first {
        return Err(ROOM);
    }
    Ok((address - first) as usize)
}

#[inline(always)]
pub(super) fn part_of<const SIZE: usize>(memory: &[u8], start: usize) -> Answer<[u8; SIZE]> {
    let part = memory.get(start..start + SIZE).ok_or(ROOM)?;
    part.try_into().map_err(|_| ROOM)
}
