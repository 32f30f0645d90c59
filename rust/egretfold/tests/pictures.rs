//! Document 02, request 13: whole pictures painted and copied out, held against single
//! writes, reads and translations; refusals, and what they leave alone.

use egretfold::{copy_out, layout, paint, read, translate, translate_row, write};
use egretfold::{Layout, Rectangle, Refusal};

const SIZES: [u32; 5] = [1, 2, 4, 8, 16];

/// A window that fills less than 65,536 bytes, so that single calls can ask it too.
fn windows() -> Vec<Layout> {
    let shapes = SIZES.into_iter().flat_map(|size| {
        [false, true].map(|tiled| Layout {
            base: 4096,
            pitch: 140,
            height: 21,
            size,
            tiled,
        })
    });
    shapes.collect()
}

fn rectangle(x: u32, y: u32, columns: u32, rows: u32) -> Rectangle {
    Rectangle {
        x,
        y,
        columns,
        rows,
    }
}

/// All of the window, its corners, a row, a column, and parts with ragged edges.
fn rectangles(window: &Layout) -> Vec<Rectangle> {
    let (step, height) = (layout(window).unwrap().step, window.height);
    vec![
        rectangle(0, 0, step, height),
        rectangle(0, 0, 1, 1),
        rectangle(step - 1, height - 1, 1, 1),
        rectangle(0, height / 2, step, 1),
        rectangle(step / 2 + 1, 0, 1, height),
        rectangle(3, 1, step - 7, height - 2),
        rectangle(step / 2 - 3, 7, 9, 11),
        rectangle(step, height, 0, 5),
    ]
}

fn pairs(area: &Rectangle) -> Vec<(u32, u32)> {
    let (x, y) = (area.x, area.y);
    let row = |j| (0..area.columns).map(move |i| (x + i, y + j));
    (0..area.rows).flat_map(row).collect()
}

/// Bytes that differ from their neighbours.
fn some_bytes(length: usize, seed: usize) -> Vec<u8> {
    let byte = |place: usize| ((place + seed) * 167 % 251) as u8;
    (0..length).map(byte).collect()
}

/// Memory that covers the window's span, and some bytes before and behind it.
fn memory(window: &Layout) -> (Vec<u8>, u32) {
    let span = layout(window).unwrap().span as usize;
    (some_bytes(span + 90, 3), window.base - 45)
}

#[test]
fn a_painting_is_its_single_writes_and_reads_back() {
    for window in windows() {
        let (before, first) = memory(&window);
        for area in rectangles(&window) {
            let size = window.size as usize;
            let room = some_bytes(pairs(&area).len() * size, 99);
            let mut painted = before.clone();
            assert_eq!(paint(&window, &area, &mut painted, first, &room), Ok(()));
            let mut by_writes = before.clone();
            for ((x, y), element) in pairs(&area).into_iter().zip(room.chunks_exact(size)) {
                let written = write(&window, x, y, &mut by_writes, first, element);
                assert_eq!(written, Ok(()));
            }
            assert!(painted == by_writes, "{window:?} {area:?}");
            let mut back = vec![7; room.len()];
            assert_eq!(copy_out(&window, &area, &painted, first, &mut back), Ok(()));
            assert!(back == room, "{window:?} {area:?}");
        }
    }
}

#[test]
fn a_copy_is_its_single_reads() {
    for window in windows() {
        let (memory, first) = memory(&window);
        for area in rectangles(&window) {
            let one = |(x, y)| read(&window, x, y, &memory, first).unwrap().to_vec();
            let wanted: Vec<u8> = pairs(&area).into_iter().flat_map(one).collect();
            let mut room = vec![7; wanted.len()];
            assert_eq!(copy_out(&window, &area, &memory, first, &mut room), Ok(()));
            assert!(room == wanted, "{window:?} {area:?}");
        }
    }
}

#[test]
fn the_addresses_of_a_row_are_its_pairs() {
    for window in windows() {
        let step = layout(&window).unwrap().step;
        for (x, y, columns) in [(0, 0, step), (3, 20, step - 3), (step - 1, 5, 1), (9, 9, 0)] {
            let mut row = vec![7; columns as usize];
            assert_eq!(translate_row(&window, x, y, &mut row), Ok(()));
            let one = |x| translate(&window, x, y).unwrap().address;
            assert!(row.into_iter().eq((x..x + columns).map(one)));
        }
        for (x, y, columns) in [(0, 0, step + 1), (step, 0, 1), (0, 21, 1), (u32::MAX, 0, 2)] {
            let mut row = vec![7; columns as usize];
            assert_eq!(
                translate_row(&window, x, y, &mut row),
                Err(Refusal::PairOutside)
            );
            assert!(row.iter().all(|address| *address == 7));
        }
    }
}

/// Painting and copying get this number and touch nothing.
fn refused(window: &Layout, area: &Rectangle, lent: (usize, u32), room: usize, number: u32) {
    let (length, first) = lent;
    let mut memory = vec![3; length];
    let mut bytes = vec![5; room];
    let painted = paint(window, area, &mut memory, first, &bytes);
    assert_eq!(
        painted.map_err(u32::from),
        Err(number),
        "{window:?} {area:?}"
    );
    let copied = copy_out(window, area, &memory, first, &mut bytes);
    assert_eq!(
        copied.map_err(u32::from),
        Err(number),
        "{window:?} {area:?}"
    );
    assert!(memory.iter().all(|byte| *byte == 3));
    assert!(bytes.iter().all(|byte| *byte == 5));
}

#[test]
fn the_order_is_3_6_10_11() {
    // Linear, size 4, E 8, three rows: 96 bytes from 2,048 on.
    let rows = Layout {
        base: 2048,
        pitch: 8,
        height: 3,
        size: 4,
        tiled: false,
    };
    let (all, outside) = (rectangle(0, 0, 8, 3), rectangle(0, 0, 9, 3));
    let broken = Layout { height: 0, ..rows };
    refused(&Layout { size: 3, ..rows }, &outside, (0, 0), 1, 3);
    refused(&Layout { base: 1, ..broken }, &outside, (0, 0), 1, 3);
    refused(&broken, &outside, (0, 0), 1, 6);
    refused(&broken, &rectangle(9, 9, 0, 0), (96, 2048), 0, 6);
    for area in [
        outside,
        rectangle(0, 0, 8, 4),
        rectangle(7, 2, 2, 1),
        rectangle(u32::MAX, 0, 2, 1),
        rectangle(0, u32::MAX, 1, 2),
        rectangle(1, 1, u32::MAX, u32::MAX),
    ] {
        refused(&rows, &area, (0, 0), 1, 10);
    }
    refused(&rows, &all, (96, 2048), 95, 11);
    refused(&rows, &all, (96, 2048), 97, 11);
    // The whole span must be lent, whichever pairs are asked.
    let one = rectangle(1, 1, 1, 1);
    for lent in [(95, 2048), (96, 2047), (96, 2049), (0, 2048), (96, 1 << 31)] {
        refused(&rows, &one, lent, 4, 11);
        refused(&rows, &rectangle(9, 9, 0, 7), lent, 0, 11);
    }
    let last = Layout {
        base: 0xFFFF_F800,
        height: 64,
        ..rows
    };
    refused(&last, &one, (2049, 0xFFFF_F800), 4, 11);
    let mut memory = vec![3; 2048];
    assert_eq!(
        paint(&last, &one, &mut memory, 0xFFFF_F800, &[1; 4]),
        Ok(())
    );
}

#[test]
fn a_whole_frame_is_longer_than_65_536_bytes() {
    let frame = Layout {
        base: 2048,
        pitch: 640,
        height: 480,
        size: 4,
        tiled: true,
    };
    let window = layout(&frame).unwrap();
    assert!(window.span > 65_536);
    let mut memory = vec![0; window.span as usize];
    let all = rectangle(0, 0, window.step, 480);
    let room = some_bytes(640 * 480 * 4, 1);
    assert_eq!(paint(&frame, &all, &mut memory, 2048, &room), Ok(()));
    for (x, y) in [(0, 0), (639, 479), (31, 16), (32, 15), (500, 300)] {
        let place = (translate(&frame, x, y).unwrap().address - 2048) as usize;
        let element = (y * 640 + x) as usize * 4;
        assert_eq!(memory[place..place + 4], room[element..element + 4]);
    }
    let mut back = vec![0; room.len()];
    assert_eq!(copy_out(&frame, &all, &memory, 2048, &mut back), Ok(()));
    assert!(back == room);
}
