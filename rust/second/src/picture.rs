//! Document 02, request 13, "Every order paints the same picture": a rectangle of
//! elements put into lent memory or taken out of it, by single writes and reads.
//! The memory covers the window's whole span, as the request's theorem has it, and
//! may be a whole frame: document 01's bound of 65,536 bytes is that of its own
//! entries. The order of the refusals is 3, 6, 10 (any pair of the rectangle), 11,
//! and a refusal touches nothing.
//!
//! The unit tests paint in other orders, and once more from the other side: byte
//! by byte of the memory, by the way back.

use crate::address::translate;
use crate::layout::{judge, Layout, END_OF_ADDRESSES};
use crate::memory::{read, write};
use crate::Answer;

/// The pairs from (x, y) on, so many columns and rows of them.
#[derive(Clone, Copy, Debug, PartialEq, Eq)]
pub struct Rectangle {
    pub x: u32,
    pub y: u32,
    pub columns: u64,
    pub rows: u64,
}

impl Rectangle {
    /// The pairs of a domain i0, j0, i1, j1, both ends included; 5 where they are
    /// crossed.
    pub fn of_domain(domain: [u32; 4]) -> Answer<Rectangle> {
        let [i0, j0, i1, j1] = domain;
        if i0 > i1 || j0 > j1 {
            return Err(5);
        }
        Ok(Rectangle {
            x: i0,
            y: j0,
            columns: u64::from(i1 - i0) + 1,
            rows: u64::from(j1 - j0) + 1,
        })
    }

    /// 3 and 6 for the layout, 10 where a pair of the rectangle is outside. One of
    /// no columns or no rows has no pair.
    fn judge(&self, layout: &Layout) -> Answer<()> {
        let window = judge(layout)?;
        if self.columns == 0 || self.rows == 0 {
            return Ok(());
        }
        // Compared with what is left behind x and y, so that no sum can wrap.
        let (step, height) = (u64::from(window.step), u64::from(layout.height));
        let (x, y) = (u64::from(self.x), u64::from(self.y));
        if x >= step || self.columns > step - x || y >= height || self.rows > height - y {
            return Err(10);
        }
        Ok(())
    }

    /// The pairs, row by row. They are inside a window.
    fn pairs(&self) -> Vec<(u32, u32)> {
        let mut pairs = Vec::new();
        if self.columns == 0 || self.rows == 0 {
            return pairs;
        }
        for row in 0..self.rows as u32 {
            for column in 0..self.columns as u32 {
                pairs.push((self.x + column, self.y + row));
            }
        }
        pairs
    }
}

/// 11 unless so many bytes from an address on end at 2^32 or below and cover the
/// window's span, whichever of its pairs are asked.
fn judge_memory(layout: &Layout, first: u32, length: usize) -> Answer<()> {
    let span = judge(layout)?.span;
    let (first, base) = (u64::from(first), u64::from(layout.base));
    let end = first + length as u64;
    if end > END_OF_ADDRESSES || first > base || base + span > end {
        return Err(11);
    }
    Ok(())
}

/// A pair with its element's part of the memory: its address, and where in the
/// memory it begins and ends.
struct Part {
    x: u32,
    y: u32,
    address: u32,
    place: usize,
    end: usize,
}

/// Asks for all refusals: 3, 6, 10, then 11 for the memory and for a room that isn't
/// s bytes a pair. Gives the rectangle's pairs row by row.
fn judged_parts(
    layout: &Layout,
    rectangle: &Rectangle,
    (first, length): (u32, usize),
    room: usize,
) -> Answer<Vec<Part>> {
    rectangle.judge(layout)?;
    judge_memory(layout, first, length)?;
    let pairs = rectangle.pairs();
    if room != pairs.len() * layout.size as usize {
        return Err(11);
    }
    let mut parts = Vec::new();
    for (x, y) in pairs {
        let address = translate(layout, x, y)?;
        // In the span, which the memory covers.
        let place = (address - first) as usize;
        let end = place + layout.size as usize;
        parts.push(Part {
            x,
            y,
            address,
            place,
            end,
        });
    }
    Ok(parts)
}

/// Puts the room's elements, row by row, at the rectangle's pairs. Each is one
/// write, lent the element's own part of the memory.
pub fn paint(
    layout: &Layout,
    rectangle: &Rectangle,
    memory: &mut [u8],
    first: u32,
    room: &[u8],
) -> Answer<()> {
    let parts = judged_parts(layout, rectangle, (first, memory.len()), room.len())?;
    let elements = room.chunks_exact(layout.size as usize);
    for (part, element) in parts.iter().zip(elements) {
        let own = &mut memory[part.place..part.end];
        write(layout, part.x, part.y, own, part.address, element)?;
    }
    Ok(())
}

/// Puts the rectangle's elements into the room, row by row. Each is one read.
pub fn copy_out(
    layout: &Layout,
    rectangle: &Rectangle,
    memory: &[u8],
    first: u32,
    room: &mut [u8],
) -> Answer<()> {
    let parts = judged_parts(layout, rectangle, (first, memory.len()), room.len())?;
    let elements = room.chunks_exact_mut(layout.size as usize);
    for (part, element) in parts.iter().zip(elements) {
        let own = &memory[part.place..part.end];
        element.copy_from_slice(&read(layout, part.x, part.y, own, part.address)?);
    }
    Ok(())
}

/// The addresses of so many pairs of a row, from (x, y) on: 3, 6, then 10 where one
/// of them is outside.
pub fn translate_row(layout: &Layout, x: u32, y: u32, columns: u64) -> Answer<Vec<u32>> {
    let row = Rectangle {
        x,
        y,
        columns,
        rows: 1,
    };
    row.judge(layout)?;
    row.pairs()
        .iter()
        .map(|(x, y)| translate(layout, *x, *y))
        .collect()
}

#[cfg(test)]
mod tests {
    use super::*;
    use crate::address::locate;
    use crate::layout::tests::{linear, tiled};

    const SIZES: [u32; 5] = [1, 2, 4, 8, 16];

    fn rectangle(x: u32, y: u32, columns: u64, rows: u64) -> Rectangle {
        Rectangle {
            x,
            y,
            columns,
            rows,
        }
    }

    /// Bytes that are hardly ever alike.
    fn some_bytes(length: usize, seed: &mut u64) -> Vec<u8> {
        (0..length).map(|_| next(seed) as u8).collect()
    }

    /// A small generator, so that the bytes are the same at each run.
    fn next(seed: &mut u64) -> u32 {
        *seed ^= *seed << 13;
        *seed ^= *seed >> 7;
        *seed ^= *seed << 17;
        (*seed >> 32) as u32
    }

    /// The windows that are painted, with the memory's length and first address:
    /// more than the span at both ends, where there is room for it.
    fn scenes() -> Vec<(Layout, usize, u32)> {
        let mut scenes = Vec::new();
        for size in SIZES {
            let rows = linear(size, 4096, 44, 5);
            scenes.push((rows, judge(&rows).unwrap().span as usize + 90, 4096 - 45));
            // Two tiles each way, of which the last rows of tiles are only begun.
            let tile = [
                (1, 64, 32),
                (2, 32, 32),
                (4, 32, 16),
                (8, 16, 16),
                (16, 16, 8),
            ];
            let (_, width, height) = tile[size.trailing_zeros() as usize];
            let tiles = tiled(size, 2048, 2 * width + 4, height + 3);
            scenes.push((tiles, judge(&tiles).unwrap().span as usize + 77, 2048 - 33));
        }
        scenes
    }

    /// Rectangles of a window: all of it, its corners, a row, a column, the middle.
    fn rectangles(layout: &Layout) -> Vec<Rectangle> {
        let step = judge(layout).unwrap().step;
        let height = layout.height;
        let (wide, high) = (u64::from(step), u64::from(height));
        vec![
            rectangle(0, 0, wide, high),
            rectangle(0, 0, 1, 1),
            rectangle(step - 1, height - 1, 1, 1),
            rectangle(0, height / 2, wide, 1),
            rectangle(step / 2 + 1, 0, 1, high),
            rectangle(3, 1, wide - 7, high - 2),
            rectangle(step / 2 - 3, height / 2 - 1, 9, 3),
        ]
    }

    /// The second way: each byte of the memory is asked whose it is.
    fn owners(layout: &Layout, length: usize, first: u32) -> Vec<Answer<(u32, u32, u32)>> {
        (0..length)
            .map(|place| locate(layout, first + place as u32))
            .collect()
    }

    /// The byte of the room that an owner's byte is painted with, if the owner is in
    /// the rectangle.
    fn byte_for(
        owner: Answer<(u32, u32, u32)>,
        layout: &Layout,
        area: &Rectangle,
    ) -> Option<usize> {
        let (x, y, place) = owner.ok()?;
        let column = u64::from(x).checked_sub(area.x.into())?;
        let row = u64::from(y).checked_sub(area.y.into())?;
        if column >= area.columns || row >= area.rows {
            return None;
        }
        let element = (row * area.columns + column) as usize;
        Some(element * layout.size as usize + place as usize)
    }

    #[test]
    fn a_painting_is_what_the_way_back_says() {
        let mut seed = 0xA11;
        for (layout, length, first) in scenes() {
            let before = some_bytes(length, &mut seed);
            let owners = owners(&layout, length, first);
            for area in rectangles(&layout) {
                let bytes = (area.columns * area.rows) as usize * layout.size as usize;
                let room = some_bytes(bytes, &mut seed);
                let mut memory = before.clone();
                assert_eq!(paint(&layout, &area, &mut memory, first, &room), Ok(()));
                for (place, owner) in owners.iter().enumerate() {
                    let wanted = match byte_for(*owner, &layout, &area) {
                        Some(of_room) => room[of_room],
                        None => before[place],
                    };
                    assert_eq!(memory[place], wanted, "{layout:?} {area:?} {place}");
                }
                // Each pair reads back its own element.
                let mut back = vec![0; bytes];
                assert_eq!(copy_out(&layout, &area, &memory, first, &mut back), Ok(()));
                assert_eq!(back, room);
            }
        }
    }

    /// The pairs of a rectangle with their elements, in some order.
    type Strokes<'a> = Vec<((u32, u32), &'a [u8])>;

    fn strokes<'a>(layout: &Layout, area: &Rectangle, room: &'a [u8]) -> Strokes<'a> {
        let elements = room.chunks_exact(layout.size as usize);
        area.pairs().into_iter().zip(elements).collect()
    }

    fn shuffled<T>(mut list: Vec<T>, seed: &mut u64) -> Vec<T> {
        for place in (1..list.len()).rev() {
            let other = next(seed) as usize % (place + 1);
            list.swap(place, other);
        }
        list
    }

    #[test]
    fn every_order_paints_the_same_picture() {
        let mut seed = 0x0DE5;
        for (layout, length, first) in scenes() {
            let before = some_bytes(length, &mut seed);
            for area in rectangles(&layout) {
                let bytes = (area.columns * area.rows) as usize * layout.size as usize;
                let room = some_bytes(bytes, &mut seed);
                let mut memory = before.clone();
                paint(&layout, &area, &mut memory, first, &room).unwrap();
                let rows = strokes(&layout, &area, &room);
                let mut columns = rows.clone();
                columns.sort_by_key(|((x, y), _)| (*x, *y));
                let backwards: Strokes = rows.iter().rev().copied().collect();
                let any = shuffled(rows.clone(), &mut seed);
                for order in [rows, columns, backwards, any] {
                    let mut other = before.clone();
                    // Document 01's write itself, lent the whole memory.
                    for ((x, y), element) in order {
                        let written = write(&layout, x, y, &mut other, first, element);
                        assert_eq!(written, Ok(()));
                    }
                    assert!(other == memory, "{layout:?} {area:?}");
                }
            }
        }
    }

    #[test]
    fn r147_bytes_that_no_pair_of_the_rectangle_owns_are_unchanged() {
        let mut seed = 0xB17E;
        for (layout, length, first) in scenes() {
            let step = u64::from(judge(&layout).unwrap().step);
            let area = rectangle(1, 1, step - 2, 2);
            let bytes = (area.columns * area.rows) as usize * layout.size as usize;
            // Each byte painted differs from what stands there.
            let before = vec![0x55; length];
            let room: Vec<u8> = (0..bytes).map(|_| next(&mut seed) as u8 | 0x80).collect();
            let mut memory = before.clone();
            paint(&layout, &area, &mut memory, first, &room).unwrap();
            let changed = memory.iter().filter(|byte| **byte != 0x55).count();
            assert_eq!(changed, bytes);
            for (place, byte) in memory.iter().enumerate() {
                let owner = locate(&layout, first + place as u32);
                let inside = |x, y| x >= 1 && u64::from(x) < step - 1 && (1..=2).contains(&y);
                let owned = matches!(owner, Ok((x, y, _)) if inside(x, y));
                assert_eq!(*byte != 0x55, owned, "{layout:?} at {place}");
            }
        }
    }

    #[test]
    fn outputs_whose_spans_are_disjoint_are_painted_together() {
        let mut seed = 0x7060;
        // Three windows in one memory: spans end where the next begins, and one
        // has bytes between its rows of tiles that nobody owns.
        let windows = [
            tiled(4, 2048, 64, 18),
            linear(2, 10_240, 48, 21),
            tiled(16, 12_288, 16, 5),
        ];
        let spans = windows.map(|layout| {
            let first = u64::from(layout.base);
            (first, first + judge(&layout).unwrap().span)
        });
        assert!(spans[0].1 == spans[1].0 && spans[1].1 <= spans[2].0);
        let before = some_bytes(16_384, &mut seed);
        let areas = windows.map(|layout| {
            let step = judge(&layout).unwrap().step;
            rectangle(1, 0, u64::from(step) - 1, u64::from(layout.height) - 1)
        });
        let rooms: Vec<Vec<u8>> = windows
            .iter()
            .zip(&areas)
            .map(|(layout, area)| {
                let bytes = area.columns * area.rows * u64::from(layout.size);
                some_bytes(bytes as usize, &mut seed)
            })
            .collect();
        let mut memory = before.clone();
        let mut all = Vec::new();
        for number in 0..3 {
            let (layout, area) = (windows[number], areas[number]);
            paint(&layout, &area, &mut memory, 0, &rooms[number]).unwrap();
            for (pair, element) in strokes(&layout, &area, &rooms[number]) {
                all.push((layout, pair, element));
            }
        }
        // The strokes of all three, mixed.
        for _ in 0..4 {
            all = shuffled(all, &mut seed);
            let mut other = before.clone();
            for (layout, (x, y), element) in &all {
                write(layout, *x, *y, &mut other, 0, element).unwrap();
            }
            assert!(other == memory);
        }
        for number in 0..3 {
            let mut back = vec![0; rooms[number].len()];
            copy_out(&windows[number], &areas[number], &memory, 0, &mut back).unwrap();
            assert_eq!(back, rooms[number]);
        }
    }

    /// Painting and copying get this number and touch nothing.
    fn assert_refused(
        layout: &Layout,
        area: &Rectangle,
        length: usize,
        first: u32,
        room: usize,
        number: u32,
    ) {
        let mut memory = vec![3; length];
        let mut room = vec![5; room];
        let painted = paint(layout, area, &mut memory, first, &room);
        assert_eq!(painted, Err(number), "{layout:?} {area:?}");
        let copied = copy_out(layout, area, &memory, first, &mut room);
        assert_eq!(copied, Err(number), "{layout:?} {area:?}");
        assert!(memory.iter().all(|byte| *byte == 3));
        assert!(room.iter().all(|byte| *byte == 5));
    }

    #[test]
    fn order_3_6_10_11() {
        // Linear, size 4, E 8, three rows: 96 bytes from 2,048 on.
        let rows = linear(4, 2048, 8, 3);
        let all = rectangle(0, 0, 8, 3);
        let outside = rectangle(0, 0, 9, 3);
        let first = 2048;
        let malformed = Layout { size: 3, ..rows };
        let broken = Layout { height: 0, ..rows };
        assert_refused(&malformed, &outside, 0, first, 1, 3);
        assert_refused(&Layout { base: 1, ..broken }, &outside, 0, first, 1, 3);
        assert_refused(&broken, &outside, 0, first, 1, 6);
        assert_refused(&broken, &rectangle(0, 0, 0, 0), 96, first, 0, 6);
        assert_refused(&rows, &outside, 0, first, 1, 10);
        assert_refused(&rows, &all, 95, first, 96, 11);
        assert_refused(&rows, &all, 96, first, 95, 11);
    }

    #[test]
    fn any_pair_outside_gets_10() {
        for layout in [linear(4, 2048, 100, 3), tiled(4, 2048, 100, 3)] {
            let first = 2048;
            for area in [
                rectangle(0, 0, 97, 1),
                rectangle(0, 0, 1, 4),
                rectangle(96, 0, 1, 1),
                rectangle(0, 3, 1, 1),
                rectangle(95, 2, 2, 1),
                rectangle(95, 2, 1, 2),
                rectangle(u32::MAX, 0, 1, 1),
                rectangle(0, u32::MAX, 1, 1),
                rectangle(1, 0, u64::MAX, 1),
                rectangle(0, 1, 1, u64::MAX),
                rectangle(u32::MAX, u32::MAX, u64::MAX, u64::MAX),
            ] {
                assert_refused(&layout, &area, 20_000, first, 4, 10);
            }
            let mut memory = vec![0; 20_000];
            let all = rectangle(0, 0, 96, 3);
            assert_eq!(paint(&layout, &all, &mut memory, first, &[7; 1152]), Ok(()));
        }
    }

    #[test]
    fn a_rectangle_is_outside_exactly_when_one_of_its_pairs_is() {
        for layout in [linear(4, 2048, 12, 3), tiled(16, 2048, 20, 3)] {
            let step = judge(&layout).unwrap().step;
            for (x, y) in (0..step + 2).flat_map(|x| (0..5).map(move |y| (x, y))) {
                for (columns, rows) in [(1, 1), (2, 1), (1, 3), (7, 2), (16, 3)] {
                    let area = rectangle(x, y, columns, rows);
                    let one_is = area
                        .pairs()
                        .iter()
                        .any(|(x, y)| translate(&layout, *x, *y) == Err(10));
                    let wanted = if one_is { Err(10) } else { Ok(()) };
                    assert_eq!(area.judge(&layout), wanted, "{area:?}");
                }
            }
        }
    }

    #[test]
    fn rooms_that_do_not_fit_get_11() {
        let rows = linear(4, 2048, 8, 3);
        let area = rectangle(2, 1, 3, 2);
        for room in (0..50).filter(|room| *room != 24) {
            assert_refused(&rows, &area, 96, 2048, room, 11);
        }
        let mut memory = vec![0; 96];
        assert_eq!(paint(&rows, &area, &mut memory, 2048, &[1; 24]), Ok(()));
    }

    #[test]
    fn memory_that_does_not_cover_the_span_gets_11() {
        let rows = linear(4, 2048, 8, 3);
        // Every element of the area lies from 2,088 to 2,131; the span is asked.
        let area = rectangle(2, 1, 3, 2);
        for (length, first) in [
            (44, 2088),
            (95, 2048),
            (95, 2049),
            (96, 2049),
            (96, 2047),
            (0, 2048),
            (0, 0),
            (96, u32::MAX),
        ] {
            assert_refused(&rows, &area, length, first, 24, 11);
        }
        for (length, first) in [(96, 2048), (97, 2047), (97, 2048), (4096, 0)] {
            let mut memory = vec![0; length];
            assert_eq!(paint(&rows, &area, &mut memory, first, &[1; 24]), Ok(()));
        }
        // A row of tiles that is only begun is in the span whole.
        let tile = tiled(4, 2048, 32, 1);
        let row = rectangle(0, 0, 4, 1);
        assert_refused(&tile, &row, 2047, 2048, 16, 11);
        let mut memory = vec![0; 2048];
        assert_eq!(paint(&tile, &row, &mut memory, 2048, &[1; 16]), Ok(()));
    }

    #[test]
    fn memory_that_ends_above_the_last_address_gets_11() {
        let last = linear(4, 0xFFFF_F800, 8, 64);
        let end = rectangle(7, 63, 1, 1);
        let mut memory = vec![0; 2048];
        let first = 0xFFFF_F800;
        assert_eq!(paint(&last, &end, &mut memory, first, &[1; 4]), Ok(()));
        assert_refused(&last, &end, 2049, first, 4, 11);
        let low = linear(4, 0, 8, 3);
        assert_refused(&low, &rectangle(0, 0, 1, 1), 2049, first, 4, 11);
    }

    #[test]
    fn a_rectangle_without_pairs_touches_nothing() {
        let rows = linear(4, 2048, 8, 3);
        for area in [
            rectangle(0, 0, 0, 3),
            rectangle(0, 0, 8, 0),
            rectangle(u32::MAX, 9, 0, u64::MAX),
            rectangle(9, u32::MAX, u64::MAX, 0),
        ] {
            let mut memory = vec![3; 96];
            assert_eq!(paint(&rows, &area, &mut memory, 2048, &[]), Ok(()));
            assert_eq!(memory, [3; 96]);
            assert_eq!(copy_out(&rows, &area, &memory, 2048, &mut []), Ok(()));
            // Memory and room are asked all the same.
            assert_refused(&rows, &area, 96, 2048, 4, 11);
            assert_refused(&rows, &area, 95, 2048, 0, 11);
            assert_refused(&rows, &area, 96, u32::MAX, 0, 11);
        }
    }

    #[test]
    fn whole_frames_are_longer_than_65_536_bytes() {
        let mut seed = 0xF4A3;
        let layout = tiled(4, 2048, 256, 200);
        let span = judge(&layout).unwrap().span as usize;
        assert!(span > 65_536);
        let all = rectangle(0, 0, 256, 200);
        let room = some_bytes(256 * 200 * 4, &mut seed);
        let mut memory = vec![0; span + 2048];
        assert_eq!(paint(&layout, &all, &mut memory, 0, &room), Ok(()));
        for (x, y) in [(0, 0), (255, 199), (31, 16), (32, 15), (200, 100)] {
            let address = translate(&layout, x, y).unwrap() as usize;
            let element = (y * 256 + x) as usize * 4;
            assert_eq!(memory[address..address + 4], room[element..element + 4]);
        }
        let mut back = vec![0; room.len()];
        assert_eq!(copy_out(&layout, &all, &memory, 0, &mut back), Ok(()));
        assert!(back == room);
    }

    #[test]
    fn a_domain_as_a_rectangle() {
        assert_eq!(
            Rectangle::of_domain([3, 1, 7, 3]),
            Ok(rectangle(3, 1, 5, 3))
        );
        assert_eq!(Rectangle::of_domain([9; 4]), Ok(rectangle(9, 9, 1, 1)));
        let most = 1 << 32;
        let all = Rectangle::of_domain([0, 0, u32::MAX, u32::MAX]);
        assert_eq!(all, Ok(rectangle(0, 0, most, most)));
        for crossed in [[1, 0, 0, 0], [0, 1, 0, 0], [u32::MAX, 0, 0, u32::MAX]] {
            assert_eq!(Rectangle::of_domain(crossed), Err(5));
        }
    }

    #[test]
    fn the_addresses_of_a_row() {
        for (layout, _, _) in scenes() {
            let step = judge(&layout).unwrap().step;
            for (x, columns) in [(0, step), (3, step - 3), (5, 1), (step - 1, 1), (0, 0)] {
                for y in [0, layout.height - 1] {
                    let row = translate_row(&layout, x, y, columns.into()).unwrap();
                    assert_eq!(row.len() as u32, columns);
                    for (place, address) in row.iter().enumerate() {
                        let back = locate(&layout, *address);
                        assert_eq!(back, Ok((x + place as u32, y, 0)));
                    }
                }
            }
            for (x, y, columns) in [
                (0, 0, u64::from(step) + 1),
                (step, 0, 1),
                (0, layout.height, 1),
                (1, 0, u64::MAX),
                (u32::MAX, 0, 1),
            ] {
                assert_eq!(translate_row(&layout, x, y, columns), Err(10));
            }
        }
        assert_eq!(translate_row(&linear(3, 0, 8, 0), 9, 9, 9), Err(3));
        assert_eq!(translate_row(&tiled(4, 0, 28, 1), 9, 9, 9), Err(6));
    }
}
