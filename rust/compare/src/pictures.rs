//! Cases of the eleventh kind: rectangles painted into lent memory and copied out of
//! it, and the addresses of rows: whole windows, whole rows of tiles, ragged edges,
//! single pairs and none; with memory and rooms that fit, or are a byte off.

use crate::case::{Agreement, Case};
use crate::layouts::{self, for_product};
use crate::random::Random;
use egretfold::{lent, Rectangle};
use second::layout::{judge, Layout, Window};
use second::picture;

/// Bytes kept before and behind memory and rooms, to see that no call leaves them.
const FENCE: usize = 32;

/// The most bytes that single reads and writes are lent.
const MOST: usize = 65_536;

/// Where a span is longer than this, memory that covers it isn't lent.
const LARGE: u64 = 1 << 20;

/// A call: the layout, the rectangle, and memory and room by their sizes.
struct Asked {
    layout: Layout,
    area: Rectangle,
    first: u32,
    memory: usize,
    room: usize,
}

pub fn run(case: &mut Case) -> Agreement {
    let asked = any_call(&mut case.random);
    paint(case, &asked)?;
    copy_out(case, &asked)?;
    row(case, &asked)
}

/// The rectangle as the second program takes it.
fn for_second(area: &Rectangle) -> picture::Rectangle {
    picture::Rectangle {
        x: area.x,
        y: area.y,
        columns: area.columns.into(),
        rows: area.rows.into(),
    }
}

fn about(asked: &Asked) -> String {
    let (layout, area) = (&asked.layout, &asked.area);
    let (memory, first, room) = (asked.memory, asked.first, asked.room);
    format!("{area:?} of {layout:?}, {memory} bytes at {first}, room of {room}")
}

fn any_call(random: &mut Random) -> Asked {
    let layout = match random.below(16) {
        0 => layouts::any(random),
        _ => small_window(random),
    };
    let window = judge(&layout);
    let area = any_rectangle(random, &layout, window);
    let span = window.map_or(96, |window| window.span.min(LARGE));
    let (first, memory) = any_memory(random, &layout, span);
    let room = any_room(random, &layout, &area);
    Asked {
        layout,
        area,
        first,
        memory,
        room,
    }
}

/// A window of some tiles each way, or some rows: its memory is lent whole. One in
/// sixteen is malformed or no window.
fn small_window(random: &mut Random) -> Layout {
    let size = random.one_of(&layouts::SIZES);
    let tiled = !random.once_in(3);
    let (width, rows) = layouts::tile(size);
    // A pitch is a multiple of 4.
    let unit = if tiled { width } else { (32 / size).max(4) };
    let most = if tiled { 4 } else { 12 };
    let pitch = unit * random.between(1, most) + 4 * random.one_of(&[0, 0, 1, 3]);
    let height = match random.below(4) {
        0 => random.one_of(&[1, 2, rows - 1, rows, rows + 1, 2 * rows]),
        _ => random.between(1, 2 * rows + 5),
    };
    let mut layout = Layout {
        base: random.below(64) << 11,
        pitch,
        height,
        size,
        tiled,
    };
    if random.once_in(8) {
        let span = judge(&layout).map_or(2048, |window| window.span);
        layout.base = ((1u64 << 32) - span) as u32 & !2047;
    }
    match random.below(80) {
        0 => layout.size = random.one_of(&[0, 3, 5, 32]),
        1 => layout.base |= 1 << random.below(11),
        2 => layout.pitch += random.between(1, 3),
        3 => layout.pitch = 0,
        4 => layout.height = random.one_of(&[0, 4_097]),
        _ => {}
    }
    layout
}

/// Inside mostly: any part, all of it, whole columns of tiles, a row, a column, a pair;
/// also none, and one that leaves the window by a column, a row or by far.
fn any_rectangle(random: &mut Random, layout: &Layout, window: Result<Window, u32>) -> Rectangle {
    // Of a window that is refused, or is large, a part is asked.
    let step = window.map_or(64, |window| window.step);
    let height = layout.height.clamp(1, 4_096);
    let (x, y) = (random.below(step), random.below(height));
    let (right, below) = (step - x, height - y);
    let columns = random.between(1, right.min(100));
    let rows = random.between(1, below.min(24));
    let (width, _) = layouts::tile(layouts::nearest_size(layout.size));
    let part = |x, y, columns, rows| Rectangle {
        x,
        y,
        columns,
        rows,
    };
    match random.below(24) {
        0 => part(x, y, right + 1, rows),
        1 => part(x, y, columns, below + 1),
        2 => part(random.word(), random.word(), random.word(), random.word()),
        3 => random.one_of(&[
            part(u32::MAX, 0, 2, 1),
            part(0, u32::MAX, 1, 2),
            part(1, 1, u32::MAX, u32::MAX),
            part(x, y, u32::MAX, 1),
            part(x, y, 1, u32::MAX - y + 1),
            part(step, y, 1, 1),
            part(x, height, 1, 1),
        ]),
        4 => random.one_of(&[
            part(x, y, 0, rows),
            part(x, y, columns, 0),
            part(step, height, 0, u32::MAX),
            part(u32::MAX, u32::MAX, u32::MAX, 0),
            part(0, 0, 0, 0),
        ]),
        5 | 6 if step * height <= 4_096 => part(0, 0, step, height),
        7 | 8 => {
            // From a tile's edge to another.
            let x = x / width * width;
            let columns = (step - x).min(width * random.between(1, 3)).min(256);
            part(x, y, columns, rows)
        }
        9 => part(0, y, step.min(512), 1),
        10 => part(x, 0, 1, height.min(512)),
        11 => part(x, y, 1, 1),
        12 => part(
            step - columns.min(step),
            height - rows,
            columns.min(step),
            rows,
        ),
        _ => part(x, y, columns, rows),
    }
}

/// Memory that just covers the span, has more at its ends, is a byte short at one of
/// them, ends at 2^32 or above it, is long, or stands anywhere.
fn any_memory(random: &mut Random, layout: &Layout, span: u64) -> (u32, usize) {
    let (base, span) = (layout.base, span as usize);
    let above = (1u64 << 32) - u64::from(base);
    match random.below(24) {
        0 => (base, span - 1),
        1 => (base.wrapping_add(1), span - 1),
        2 => (base.wrapping_add(1), span),
        3 => (base, 0),
        4 => (random.word(), random.below(300) as usize),
        5 if above < LARGE => (base, (above + 1) as usize),
        6 if above < LARGE => (base, above as usize),
        7 if base > 0 => (base - 1, span),
        8 if random.once_in(8) => {
            // A frame, of which the window is a part.
            let before = base.min(random.below(70_000));
            (base - before, span + before as usize + 70_000)
        }
        9..=13 => (base, span),
        _ => {
            let before = base.min(random.below(48));
            let behind = random.below(48) as usize;
            (base - before, span + before as usize + behind)
        }
    }
}

/// The bytes of the rectangle's elements, or a length beside that.
fn any_room(random: &mut Random, layout: &Layout, area: &Rectangle) -> usize {
    let pairs = u64::from(area.columns) * u64::from(area.rows);
    let size = layout.size.min(32) as usize;
    // A rectangle of more leaves every small window, and its room isn't made.
    let exact = pairs.min(16_384) as usize * size;
    match random.below(24) {
        0 => exact.saturating_sub(1),
        1 => exact + 1,
        2 => exact + size,
        3 => random.below(300) as usize,
        _ => exact,
    }
}

/// Bytes of this length with a fence around them.
fn fenced(random: &mut Random, length: usize) -> Vec<u8> {
    let mut bytes = vec![0; length + 2 * FENCE];
    random.fill(&mut bytes);
    bytes
}

fn paint(case: &mut Case, asked: &Asked) -> Agreement {
    let text = || format!("paint {}", about(asked));
    let Asked {
        layout,
        area,
        first,
        memory,
        room,
    } = asked;
    let inner = FENCE..FENCE + memory;
    let before = fenced(&mut case.random, *memory);
    let elements = fenced(&mut case.random, *room);
    let elements = &elements[FENCE..FENCE + room];
    let (mut ours, mut theirs) = (before.clone(), before.clone());
    let product = egretfold::paint(
        &for_product(layout),
        area,
        &mut ours[inner.clone()],
        *first,
        elements,
    );
    let second = for_second(area);
    let expected = picture::paint(
        layout,
        &second,
        &mut theirs[inner.clone()],
        *first,
        elements,
    );
    case.agree_answer(text, &product, &expected)?;
    agree_bytes(case, text, &ours, &theirs)?;
    match expected {
        Ok(()) => {
            count_accepted(case, asked, "paints accepted");
            if case.random.once_in(4) {
                other_order(case, asked, elements, &before[inner.clone()], &ours[inner])?;
            }
        }
        Err(refusal) => {
            agree_bytes(case, text, &ours, &before)?;
            count_causes(case, asked, refusal);
        }
    }
    Ok(())
}

/// The same picture by single writes of the product, in another order: backwards, by
/// columns, or shuffled.
fn other_order(
    case: &mut Case,
    asked: &Asked,
    elements: &[u8],
    before: &[u8],
    painted: &[u8],
) -> Agreement {
    let Asked { layout, area, .. } = asked;
    let pairs = area.columns * area.rows;
    if pairs == 0 || pairs > 512 || before.len() > MOST {
        return Ok(());
    }
    let mut order: Vec<u32> = (0..pairs).collect();
    match case.random.below(3) {
        0 => order.reverse(),
        1 => order.sort_by_key(|number| number % area.columns),
        _ => {
            for place in (1..order.len()).rev() {
                let other = case.random.below(place as u32 + 1) as usize;
                order.swap(place, other);
            }
        }
    }
    let mut memory = before.to_vec();
    let size = layout.size as usize;
    for number in order {
        let (x, y) = (
            area.x + number % area.columns,
            area.y + number / area.columns,
        );
        let element = &elements[number as usize * size..][..size];
        let written = egretfold::write(
            &for_product(layout),
            x,
            y,
            &mut memory,
            asked.first,
            element,
        );
        let text = || format!("write ({x}, {y}) for {}", about(asked));
        case.agree(text, &written, &Ok(()))?;
    }
    case.tally.mark("pictures painted in another order");
    let text = || format!("another order of {}", about(asked));
    agree_bytes(case, text, &memory, painted)
}

fn copy_out(case: &mut Case, asked: &Asked) -> Agreement {
    let text = || format!("copy out {}", about(asked));
    let Asked {
        layout,
        area,
        first,
        memory,
        room,
    } = asked;
    let bytes = fenced(&mut case.random, *memory);
    let bytes = &bytes[FENCE..FENCE + memory];
    let before = fenced(&mut case.random, *room);
    let inner = FENCE..FENCE + room;
    let (mut ours, mut theirs) = (before.clone(), before.clone());
    let product = egretfold::copy_out(
        &for_product(layout),
        area,
        bytes,
        *first,
        &mut ours[inner.clone()],
    );
    let second = for_second(area);
    let expected = picture::copy_out(layout, &second, bytes, *first, &mut theirs[inner]);
    case.agree_answer(text, &product, &expected)?;
    agree_bytes(case, text, &ours, &theirs)?;
    match expected {
        Ok(()) => count_accepted(case, asked, "copies accepted"),
        Err(_) => agree_bytes(case, text, &ours, &before)?,
    }
    Ok(())
}

/// The addresses of the rectangle's first row.
fn row(case: &mut Case, asked: &Asked) -> Agreement {
    let Asked { layout, area, .. } = asked;
    let (x, y) = (area.x, area.y);
    // More than any window is wide, and not more than is made quickly.
    let columns = area.columns.min(4_200) as usize;
    let text = || format!("addresses of {columns} pairs from ({x}, {y}) on of {layout:?}");
    let before: Vec<u32> = (0..columns + 2 * FENCE)
        .map(|_| case.random.word())
        .collect();
    let mut ours = before.clone();
    let inner = FENCE..FENCE + columns;
    let number = lent::picture_row(&for_product(layout), x, y, &mut ours[inner.clone()]);
    let expected = picture::translate_row(layout, x, y, columns as u64);
    let product = match number {
        0 => Ok(ours[inner.clone()].to_vec()),
        refusal => Err(refusal),
    };
    case.agree_answer(text, &product, &expected)?;
    let around = |room: &[u32]| (room[..FENCE].to_vec(), room[FENCE + columns..].to_vec());
    case.untouched(text, &around(&ours), &around(&before))?;
    match expected {
        Ok(_) => case.tally.mark("rows accepted"),
        Err(_) => case.untouched(text, &ours, &before)?,
    }
    Ok(())
}

/// Compares bytes, and reports the first place that differs rather than all.
fn agree_bytes(
    case: &Case,
    text: impl FnOnce() -> String,
    product: &[u8],
    expected: &[u8],
) -> Agreement {
    let first_difference = if product == expected {
        None
    } else {
        let mut both = product.iter().zip(expected);
        both.position(|(ours, theirs)| ours != theirs)
    };
    let text = || format!("the first wrong byte, after {}", text());
    case.agree(text, &first_difference, &None)
}

/// Marks what an accepted call was.
fn count_accepted(case: &mut Case, asked: &Asked, name: &'static str) {
    let Asked { layout, area, .. } = asked;
    let window = judge(layout).expect("an accepted layout");
    let (width, _) = layouts::tile(layout.size);
    let none = area.columns == 0 || area.rows == 0;
    let whole = (area.columns, area.rows) == (window.step, layout.height);
    // A tile's row from one edge to the other is among its columns.
    let next_edge = (area.x + width - 1) / width * width;
    let has_tile_row = layout.tiled && !none && next_edge + width <= area.x + area.columns;
    let ragged =
        layout.tiled && !none && (area.x % width != 0 || (area.x + area.columns) % width != 0);
    let exact = asked.first == layout.base && asked.memory as u64 == window.span;
    let end = u64::from(asked.first) + asked.memory as u64;
    let tally = &mut case.tally;
    tally.mark(name);
    tally.mark(layouts::shape(layout));
    for (is, name) in [
        (none, "rectangles without pairs"),
        (whole, "whole windows"),
        (has_tile_row, "rectangles with whole tile rows"),
        (ragged, "rectangles with ragged edges"),
        (has_tile_row && ragged, "rectangles with both"),
        (exact, "memory that just covers the span"),
        (asked.memory > MOST, "memory over 65,536 bytes, accepted"),
        (end == 1 << 32, "memory that ends at 2^32, accepted"),
    ] {
        if is {
            tally.mark(name);
        }
    }
}

/// Marks a refusal that had a second cause, by the number that came first, and the
/// causes of 11 apart.
fn count_causes(case: &mut Case, asked: &Asked, refusal: u32) {
    let Asked { layout, area, .. } = asked;
    let (x, y) = (u64::from(area.x), u64::from(area.y));
    let pairs = u64::from(area.columns) * u64::from(area.rows);
    let span = judge(layout).map_or(0, |window| window.span);
    let step = judge(layout).map_or(4_096, |window| u64::from(window.step));
    let (base, first) = (u64::from(layout.base), u64::from(asked.first));
    let end = first + asked.memory as u64;
    let outside = pairs != 0
        && (x + u64::from(area.columns) > step
            || y + u64::from(area.rows) > u64::from(layout.height));
    let room = pairs.checked_mul(layout.size.into()) != Some(asked.room as u64);
    let (front, back, above) = (first > base, base + span > end, end > 1 << 32);
    let memory = front || back || above;
    let tally = &mut case.tally;
    tally.mark(match refusal {
        3 if outside || memory || room => "pictures with two causes, of which 3 is first",
        6 if outside || memory || room => "pictures with two causes, of which 6 is first",
        10 if memory || room => "pictures with two causes, of which 10 is first",
        11 if memory && room => "pictures refused for memory and room",
        11 if room => "pictures refused for their room alone",
        11 if front && !back => "pictures refused for the memory's front alone",
        11 if back && !front => "pictures refused for the memory's end alone",
        11 if above => "pictures refused for memory above 2^32",
        _ => "pictures with one cause or other two",
    });
}
