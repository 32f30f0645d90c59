//! Whole pictures: a rectangle of elements moved between lent memory and a room, and the addresses of a row.
//!
//! A tile's row is eight rows of blocks of 32 bytes, which stand where [`super::address`] has them: the part that the block's number
//! gives and the part that the row gives are joined by exclusive or, so that a whole tile's row is eight moves of a constant length
//! from constant places. Towards the edges it goes by rows of blocks, and by elements inside the first and the last one.

use super::address::{mixed, offset, BY_BITS};
use super::layout::{shape, tile_height_log, tile_width_log, window, Layout, Window};
use super::refusal::{Answer, MALFORMED, OUTSIDE, ROOM};

/// Tiles hold 2,048 bytes, in blocks of 32.
const TILE: usize = 2048;
const BLOCK: usize = 32;
const BLOCKS: usize = 8;

/// The pairs from (x, y) on, so many columns and rows of them.
#[derive(Clone, Copy, Debug, PartialEq, Eq)]
pub struct Rectangle {
    pub x: u32,
    pub y: u32,
    pub columns: u32,
    pub rows: u32,
}

/// Stores the room's elements, row by row, at the rectangle's pairs. 3, 6, 10 or 11.
#[inline(never)]
pub fn paint(
    layout: &Layout,
    area: &Rectangle,
    memory: &mut [u8],
    first: u32,
    room: &[u8],
) -> Answer<()> {
    let rows = Rows::judge(layout, area, memory.len(), first, room.len())?;
    match layout.size {
        1 => rows.paint::<1, 8>(memory, room),
        2 => rows.paint::<2, 8>(memory, room),
        4 => rows.paint::<4, 16>(memory, room),
        8 => rows.paint::<8, 16>(memory, room),
        _ => rows.paint::<16, 32>(memory, room),
    }
    Ok(())
}

/// Puts the elements of the rectangle's pairs into the room, row by row. 3, 6, 10 or 11.
#[inline(never)]
pub fn copy_out(
    layout: &Layout,
    area: &Rectangle,
    memory: &[u8],
    first: u32,
    room: &mut [u8],
) -> Answer<()> {
    let rows = Rows::judge(layout, area, memory.len(), first, room.len())?;
    match layout.size {
        1 => rows.copy_out::<1, 8>(memory, room),
        2 => rows.copy_out::<2, 8>(memory, room),
        4 => rows.copy_out::<4, 16>(memory, room),
        8 => rows.copy_out::<8, 16>(memory, room),
        _ => rows.copy_out::<16, 32>(memory, room),
    }
    Ok(())
}

/// Where the elements of a row begin, from (x, y) on. 3, 6 or 10.
#[inline(never)]
pub fn translate_row(layout: &Layout, x: u32, y: u32, addresses: &mut [u32]) -> Answer<()> {
    match layout.size {
        1 => row_of(0, layout, x, y, addresses),
        2 => row_of(1, layout, x, y, addresses),
        4 => row_of(2, layout, x, y, addresses),
        8 => row_of(3, layout, x, y, addresses),
        16 => row_of(4, layout, x, y, addresses),
        _ => Err(MALFORMED),
    }
}

#[inline(always)]
fn row_of(shift: u32, layout: &Layout, x: u32, y: u32, addresses: &mut [u32]) -> Answer<()> {
    let shape = shape(shift, layout.tiled);
    let window = window(shape, layout.base, layout.pitch, layout.height)?;
    let columns = addresses.len();
    if columns == 0 {
        return Ok(());
    }
    if x >= window.step || columns > (window.step - x) as usize || y >= layout.height {
        return Err(OUTSIDE);
    }
    // a copy for each way, in which the way is constant
    if layout.tiled {
        for (x, address) in (x..).zip(addresses) {
            *address = layout.base + offset::<BY_BITS>(shift, true, window.step, x, y);
        }
    } else {
        for (x, address) in (x..).zip(addresses) {
            *address = layout.base + offset::<BY_BITS>(shift, false, window.step, x, y);
        }
    }
    Ok(())
}

/// What is moved, once nothing is refused.
struct Rows {
    tiled: bool,
    window: Window,
    /// Where in memory the window begins.
    start: usize,
    area: Rectangle,
}

/// Where the parts of a row of a tiled window are found.
pub(super) struct Row {
    /// The first tile of the row of tiles.
    tiles: usize,
    /// The part of a block's place that the row gives, and the row inside the block.
    by: usize,
    low: usize,
}

impl Rows {
    #[inline(always)]
    fn judge(
        layout: &Layout,
        area: &Rectangle,
        length: usize,
        first: u32,
        room: usize,
    ) -> Answer<Rows> {
        if !layout.size.is_power_of_two() || layout.size > 16 {
            return Err(MALFORMED);
        }
        let shift = layout.size.trailing_zeros();
        let shape = shape(shift, layout.tiled);
        let window = window(shape, layout.base, layout.pitch, layout.height)?;
        let Rectangle {
            x,
            y,
            columns,
            rows,
        } = *area;
        let some = columns != 0 && rows != 0;
        let wide = x < window.step && columns <= window.step - x;
        let high = y < layout.height && rows <= layout.height - y;
        if some && !(wide && high) {
            return Err(OUTSIDE);
        }
        let (base, first) = (u64::from(layout.base), u64::from(first));
        let end = first + length as u64;
        let covers = end <= 1 << 32 && first <= base && base + u64::from(window.span) <= end;
        let bytes = (u64::from(columns) * u64::from(rows)).checked_shl(shift);
        if !covers || bytes != Some(room as u64) {
            return Err(ROOM);
        }
        Ok(Rows {
            tiled: layout.tiled,
            window,
            start: (base - first) as usize,
            area: *area,
        })
    }

    /// The first byte of a linear row's part in memory.
    #[inline(always)]
    fn linear(&self, y: u32, size: usize) -> usize {
        let element = y as usize * self.window.step as usize + self.area.x as usize;
        self.start + element * size
    }

    #[inline(always)]
    fn copy_out<const SIZE: usize, const RUN: usize>(&self, memory: &[u8], room: &mut [u8]) {
        let Rectangle {
            x,
            y,
            columns,
            rows,
        } = self.area;
        let bytes = columns as usize * SIZE;
        if bytes == 0 || rows == 0 {
            return;
        }
        for (y, line) in (y..y + rows).zip(room.chunks_exact_mut(bytes)) {
            if self.tiled {
                let row = Row::of::<SIZE, RUN>(self.start, self.window.step, y);
                row.copy_out::<SIZE, RUN>(memory, x as usize, line);
            } else {
                let at = self.linear(y, SIZE);
                line.copy_from_slice(&memory[at..at + bytes]);
            }
        }
    }

    #[inline(always)]
    fn paint<const SIZE: usize, const RUN: usize>(&self, memory: &mut [u8], room: &[u8]) {
        let Rectangle {
            x,
            y,
            columns,
            rows,
        } = self.area;
        let bytes = columns as usize * SIZE;
        if bytes == 0 || rows == 0 {
            return;
        }
        for (y, line) in (y..y + rows).zip(room.chunks_exact(bytes)) {
            if self.tiled {
                let row = Row::of::<SIZE, RUN>(self.start, self.window.step, y);
                row.paint::<SIZE, RUN>(memory, x as usize, line);
            } else {
                let at = self.linear(y, SIZE);
                memory[at..at + bytes].copy_from_slice(line);
            }
        }
    }
}

/// The part of a block's place that its number gives, with the bit of the tile's column.
#[inline(always)]
fn by_block(block: usize) -> usize {
    mixed(block as u32, 0) as usize
}

impl Row {
    /// The row y of a window that begins at `start` and has this row step.
    #[inline(always)]
    pub(super) fn of<const SIZE: usize, const RUN: usize>(start: usize, step: u32, y: u32) -> Row {
        let shift = SIZE.trailing_zeros();
        let in_row = (step >> tile_width_log(shift)) as usize;
        let tile_row = (y >> tile_height_log(shift)) as usize;
        let block_rows = (BLOCK / RUN) as u32;
        Row {
            tiles: start + tile_row * in_row * TILE,
            by: mixed(0, y / block_rows) as usize,
            low: (y % block_rows) as usize * RUN,
        }
    }

    /// Where the row of the block with this number, counted along the row of tiles, stands.
    #[inline(always)]
    pub(super) fn block(&self, block: usize) -> usize {
        let inside = by_block(block & 15) ^ self.by;
        self.tiles + block / BLOCKS * TILE + inside + self.low
    }

    /// The row's bytes from column x on, as many as there is room for.
    #[inline(always)]
    fn copy_out<const SIZE: usize, const RUN: usize>(
        &self,
        memory: &[u8],
        x: usize,
        line: &mut [u8],
    ) {
        let mut at = x * SIZE;
        let mut rest = line;
        // to a block's edge, by elements
        while at % RUN != 0 && !rest.is_empty() {
            let (part, behind) = rest.split_at_mut(SIZE);
            let from = self.block(at / RUN) + at % RUN;
            part.copy_from_slice(&memory[from..from + SIZE]);
            (at, rest) = (at + SIZE, behind);
        }
        // to a tile's edge, by blocks
        while at / RUN % BLOCKS != 0 && rest.len() >= RUN {
            let (part, behind) = rest.split_at_mut(RUN);
            let from = self.block(at / RUN);
            part.copy_from_slice(&memory[from..from + RUN]);
            (at, rest) = (at + RUN, behind);
        }
        // by tiles
        let whole = rest.len() / (BLOCKS * RUN) * (BLOCKS * RUN);
        let (tiles, mut rest) = rest.split_at_mut(whole);
        let first = at / (BLOCKS * RUN);
        for (tile, part) in (first..).zip(tiles.chunks_exact_mut(BLOCKS * RUN)) {
            let begin = self.tiles + tile * TILE;
            let bytes: &[u8; TILE] = memory[begin..begin + TILE].try_into().expect("a tile");
            let by = self.by ^ by_block((tile & 1) * BLOCKS);
            for (block, part) in part.chunks_exact_mut(RUN).enumerate() {
                // the masks tell the compiler that all of it is inside the tile
                let from = (by_block(block) ^ by) & (TILE - BLOCK) | self.low & (BLOCK - RUN);
                part.copy_from_slice(&bytes[from..from + RUN]);
            }
        }
        at += whole;
        while rest.len() >= RUN {
            let (part, behind) = rest.split_at_mut(RUN);
            let from = self.block(at / RUN);
            part.copy_from_slice(&memory[from..from + RUN]);
            (at, rest) = (at + RUN, behind);
        }
        while !rest.is_empty() {
            let (part, behind) = rest.split_at_mut(SIZE);
            let from = self.block(at / RUN) + at % RUN;
            part.copy_from_slice(&memory[from..from + SIZE]);
            (at, rest) = (at + SIZE, behind);
        }
    }

    /// The same the other way.
    #[inline(always)]
    fn paint<const SIZE: usize, const RUN: usize>(&self, memory: &mut [u8], x: usize, line: &[u8]) {
        let mut at = x * SIZE;
        let mut rest = line;
        while at % RUN != 0 && !rest.is_empty() {
            let (part, behind) = rest.split_at(SIZE);
            let to = self.block(at / RUN) + at % RUN;
            memory[to..to + SIZE].copy_from_slice(part);
            (at, rest) = (at + SIZE, behind);
        }
        while at / RUN % BLOCKS != 0 && rest.len() >= RUN {
            let (part, behind) = rest.split_at(RUN);
            let to = self.block(at / RUN);
            memory[to..to + RUN].copy_from_slice(part);
            (at, rest) = (at + RUN, behind);
        }
        let whole = rest.len() / (BLOCKS * RUN) * (BLOCKS * RUN);
        let (tiles, mut rest) = rest.split_at(whole);
        let first = at / (BLOCKS * RUN);
        for (tile, part) in (first..).zip(tiles.chunks_exact(BLOCKS * RUN)) {
            let begin = self.tiles + tile * TILE;
            let bytes: &mut [u8; TILE] = (&mut memory[begin..begin + TILE])
                .try_into()
                .expect("a tile");
            let by = self.by ^ by_block((tile & 1) * BLOCKS);
            for (block, part) in part.chunks_exact(RUN).enumerate() {
                let to = (by_block(block) ^ by) & (TILE - BLOCK) | self.low & (BLOCK - RUN);
                bytes[to..to + RUN].copy_from_slice(part);
            }
        }
        at += whole;
        while rest.len() >= RUN {
            let (part, behind) = rest.split_at(RUN);
            let to = self.block(at / RUN);
            memory[to..to + RUN].copy_from_slice(part);
            (at, rest) = (at + RUN, behind);
        }
        while !rest.is_empty() {
            let (part, behind) = rest.split_at(SIZE);
            let to = self.block(at / RUN) + at % RUN;
            memory[to..to + SIZE].copy_from_slice(part);
            (at, rest) = (at + SIZE, behind);
        }
    }
}

#[cfg(test)]
mod tests {
    use super::*;
    use crate::fast::address::translate;
    use crate::fast::element::{read, write};

    fn layouts() -> impl Iterator<Item = Layout> {
        [1, 2, 4, 8, 16].into_iter().flat_map(|size| {
            [false, true].map(|tiled| Layout {
                base: 4096,
                pitch: 140,
                height: 21,
                size,
                tiled,
            })
        })
    }

    /// Rectangles that begin and end at every place of a tile's row.
    fn areas(step: u32) -> impl Iterator<Item = Rectangle> {
        (0..step).flat_map(move |x| {
            let right = step - x;
            [1, 3, 7, 16, 17, 33, 64, 65, 100, right]
                .into_iter()
                .filter(move |columns| *columns <= right)
                .map(move |columns| Rectangle {
                    x,
                    y: x % 19,
                    columns,
                    rows: 2,
                })
        })
    }

    #[test]
    fn rectangles_are_their_single_writes_and_reads() {
        for layout in layouts() {
            let step = crate::fast::layout::judge(&layout).unwrap().step;
            let span = crate::fast::layout::judge(&layout).unwrap().span as usize;
            let before: Vec<u8> = (0..span + 9).map(|place| (place % 251) as u8).collect();
            let first = layout.base - 9;
            for area in areas(step) {
                let size = layout.size as usize;
                let bytes = (area.columns * area.rows) as usize * size;
                let room: Vec<u8> = (0..bytes).map(|place| (place % 241 + 7) as u8).collect();
                let (mut painted, mut written) = (before.clone(), before.clone());
                assert_eq!(paint(&layout, &area, &mut painted, first, &room), Ok(()));
                let mut copied = vec![0; bytes];
                let copy = copy_out(&layout, &area, &before, first, &mut copied);
                assert_eq!(copy, Ok(()));
                for (number, element) in (0..).zip(room.chunks_exact(size)) {
                    let (x, y) = (
                        area.x + number % area.columns,
                        area.y + number / area.columns,
                    );
                    let wrote = write(&layout, x, y, &mut written, first, element);
                    assert_eq!(wrote, Ok(()));
                    let place = number as usize * size;
                    let stands = read(&layout, x, y, &before, first).unwrap();
                    assert_eq!(copied[place..place + size], stands.bytes[..size]);
                }
                assert!(painted == written, "{layout:?} {area:?}");
            }
        }
    }

    #[test]
    fn a_row_is_its_single_translations() {
        for layout in layouts() {
            let step = crate::fast::layout::judge(&layout).unwrap().step;
            for (x, y) in [(0, 0), (5, 20), (step - 1, 7)] {
                let mut row = vec![0; (step - x) as usize];
                assert_eq!(translate_row(&layout, x, y, &mut row), Ok(()));
                let single = (x..step).map(|x| translate(&layout, x, y).unwrap().address);
                assert!(single.eq(row));
            }
            assert_eq!(
                translate_row(&layout, 1, 0, &mut vec![0; step as usize]),
                Err(10)
            );
        }
    }

    #[test]
    fn the_order_is_3_6_10_11() {
        let layout = layouts().next().unwrap();
        let area = Rectangle {
            x: 0,
            y: 0,
            columns: 999,
            rows: 1,
        };
        let one = Rectangle { columns: 1, ..area };
        let asked = |layout: &Layout, area: &Rectangle, length: usize, room: usize| {
            copy_out(layout, area, &vec![0; length], 4096, &mut vec![0; room])
        };
        assert_eq!(
            asked(
                &Layout {
                    size: 3,
                    height: 0,
                    ..layout
                },
                &area,
                0,
                0
            ),
            Err(3)
        );
        assert_eq!(
            asked(
                &Layout {
                    height: 0,
                    ..layout
                },
                &area,
                0,
                0
            ),
            Err(6)
        );
        assert_eq!(asked(&layout, &area, 0, 0), Err(10));
        assert_eq!(asked(&layout, &one, 0, 1), Err(11));
        assert_eq!(asked(&layout, &one, 9999, 2), Err(11));
        assert_eq!(asked(&layout, &one, 9999, 1), Ok(()));
        assert_eq!(
            asked(&layout, &Rectangle { rows: 0, ..area }, 9999, 0),
            Ok(())
        );
    }
}
