//! Conditional tests: one pair, and all pairs of a domain, whose layout is judged once and whose rows go by runs.

use super::address::{offset, BY_BITS};
use super::command::Format;
use super::element::{part_of, start_of};
use super::layout::{shape, window, Window};
use super::picture::Row;
use super::refusal::{Answer, DOMAIN_ORDER, MALFORMED, NOT_READY, OUTSIDE, ROOM};
use super::session::Session;

/// UINT16_1's elements have two bytes.
const SIZE: usize = 2;
const SHIFT: u32 = 1;
/// A run of a tiled buffer is four elements.
const TOGETHER: u32 = 4;
const RUN: usize = 8;

/// What a test needs of the settings: the buffer, its window, and the condition.
struct Unit {
    buffer: Format,
    window: Window,
    test: u32,
}

impl Unit {
    /// 7 and 3.
    #[inline(always)]
    fn of(session: &Session) -> Answer<Unit> {
        let (buffer, test) = match (session.conditional(), session.test()) {
            (Some(buffer), Some(test)) => (buffer, test),
            _ => return Err(NOT_READY),
        };
        if buffer.code() != 0 {
            return Err(MALFORMED);
        }
        let shape = shape(SHIFT, buffer.tiled());
        let window = window(shape, buffer.base, buffer.pitch(), buffer.height)?;
        Ok(Unit {
            buffer,
            window,
            test,
        })
    }

    /// Whether memory that isn't refused itself holds the buffer's whole window.
    #[inline(always)]
    fn is_whole_in(&self, length: usize, first: u32) -> bool {
        let span = self.window.span as usize;
        let start = start_of(length, first, self.buffer.base);
        start.map_or(false, |start| start + span <= length)
    }

    #[inline(always)]
    fn address(&self, x: u32, y: u32) -> u32 {
        let tiled = self.buffer.tiled();
        self.buffer.base + offset::<BY_BITS>(SHIFT, tiled, self.window.step, x, y)
    }
}

/// Whether the test passes at a pair. 7, 3, 10 or 11.
#[inline(never)]
pub fn conditional_test(
    session: &Session,
    value: u32,
    x: u32,
    y: u32,
    memory: &[u8],
    first: u32,
) -> Answer<bool> {
    let unit = Unit::of(session)?;
    if x >= unit.window.step || y >= unit.buffer.height {
        return Err(OUTSIDE);
    }
    let start = start_of(memory.len(), first, unit.address(x, y))?;
    let b = u32::from(u16::from_le_bytes(part_of::<SIZE>(memory, start)?));
    Ok(match unit.test {
        0 => false,
        1 => value < b,
        2 => value <= b,
        3 => value == b,
        4 => value >= b,
        5 => value > b,
        6 => value != b,
        _ => true,
    })
}

/// How many pairs of a domain pass, and a byte 1 or 0 for each, row by row. 7, 3, 5, 10 or 11.
#[inline(never)]
pub fn survey(
    session: &Session,
    value: u32,
    [i0, j0, i1, j1]: [u32; 4],
    memory: &[u8],
    first: u32,
    room: &mut [u8],
) -> Answer<u32> {
    let unit = Unit::of(session)?;
    if i0 > i1 || j0 > j1 {
        return Err(DOMAIN_ORDER);
    }
    if i1 >= unit.window.step || j1 >= unit.buffer.height {
        return Err(OUTSIDE);
    }
    let columns = (i1 - i0 + 1) as usize;
    let rows = (j1 - j0 + 1) as usize;
    if room.len() != columns * rows {
        return Err(ROOM);
    }
    let domain = [i0, j0, i1, j1];
    // 11 before any byte is written: memory holds the whole window, or every run of every row is asked for first
    if !unit.is_whole_in(memory.len(), first) {
        each_run(&unit, domain, |place, run| {
            let start = start_of(memory.len(), first, place)?;
            memory.get(start..start + run * SIZE).ok_or(ROOM)?;
            Ok(())
        })?;
    }
    // a value above every number is greater than each; then all pairs pass or none
    if value > u32::from(u16::MAX) {
        let all = matches!(unit.test, 4..=7);
        room.fill(u8::from(all));
        return Ok(if all { room.len() as u32 } else { 0 });
    }
    let v = value as u16;
    // a copy of the loops for each test, in which the comparison is fixed: at 16 bits for long rows, and at 32 for runs of four,
    // which are one vector then
    Ok(match unit.test {
        0 => pass(&unit, domain, memory, first, room, |_| false, |_| false),
        1 => pass(&unit, domain, memory, first, room, |b| v < b, |b| value < b),
        2 => pass(
            &unit,
            domain,
            memory,
            first,
            room,
            |b| v <= b,
            |b| value <= b,
        ),
        3 => pass(
            &unit,
            domain,
            memory,
            first,
            room,
            |b| v == b,
            |b| value == b,
        ),
        4 => pass(
            &unit,
            domain,
            memory,
            first,
            room,
            |b| v >= b,
            |b| value >= b,
        ),
        5 => pass(&unit, domain, memory, first, room, |b| v > b, |b| value > b),
        6 => pass(
            &unit,
            domain,
            memory,
            first,
            room,
            |b| v != b,
            |b| value != b,
        ),
        _ => pass(&unit, domain, memory, first, room, |_| true, |_| true),
    })
}

/// The runs of the domain's rows, one after the other: the address of each and how many elements it has.
#[inline(always)]
fn each_run(
    unit: &Unit,
    [i0, j0, i1, j1]: [u32; 4],
    mut each: impl FnMut(u32, usize) -> Answer<()>,
) -> Answer<()> {
    let (step, base) = (unit.window.step, unit.buffer.base);
    for y in j0..=j1 {
        if !unit.buffer.tiled() {
            each(unit.address(i0, y), (i1 - i0 + 1) as usize)?;
            continue;
        }
        // a run of the request is a row of a block: all that the row gives is found once
        let row = Row::of::<SIZE, RUN>(base as usize, step, y);
        let mut x = i0;
        while x <= i1 {
            let at = x as usize * SIZE;
            let together = (TOGETHER - x % TOGETHER).min(i1 - x + 1);
            let place = row.block(at / RUN) + at % RUN;
            each(place as u32, together as usize)?;
            x += together;
        }
    }
    Ok(())
}

#[inline(always)]
fn pass(
    unit: &Unit,
    [i0, j0, i1, j1]: [u32; 4],
    memory: &[u8],
    first: u32,
    room: &mut [u8],
    passes: impl Fn(u16) -> bool,
    wide: impl Fn(u32) -> bool,
) -> u32 {
    let columns = (i1 - i0 + 1) as usize;
    let mut passed = 0;
    for (y, line) in (j0..=j1).zip(room.chunks_exact_mut(columns)) {
        if unit.buffer.tiled() {
            let row = Row::of::<SIZE, RUN>(unit.buffer.base as usize, unit.window.step, y);
            passed += tiled_row(&row, i0 as usize, memory, first, line, &wide);
        } else {
            let start = (unit.address(i0, y) - first) as usize;
            let elements = &memory[start..start + columns * SIZE];
            passed += u32::from(stretch(line, elements, &passes));
        }
    }
    passed
}

/// A row of a tiled buffer, by rows of blocks; those that are whole have a length that is known.
#[inline(always)]
fn tiled_row(
    row: &Row,
    x: usize,
    memory: &[u8],
    first: u32,
    line: &mut [u8],
    passes: &impl Fn(u32) -> bool,
) -> u32 {
    let together = TOGETHER as usize;
    let place = |x: usize| row.block(x / together) - first as usize + x % together * SIZE;
    let head = ((together - x % together) % together).min(line.len());
    let (front, rest) = line.split_at_mut(head);
    let start = place(x);
    let mut passed = short_stretch(front, &memory[start..start + head * SIZE], passes);
    let mut x = x + head;
    let mut blocks = rest.chunks_exact_mut(together);
    for bytes in &mut blocks {
        let start = place(x);
        let elements: &[u8; RUN] = memory[start..start + RUN].try_into().expect("a run");
        let bytes: &mut [u8; TOGETHER as usize] = bytes.try_into().expect("a run");
        passed += short_stretch(bytes, elements, passes);
        x += together;
    }
    let back = blocks.into_remainder();
    if !back.is_empty() {
        let start = place(x);
        passed += short_stretch(back, &memory[start..start + back.len() * SIZE], passes);
    }
    passed
}

/// A run, whose elements are 4,096 at most, so that they are counted at 16 bits.
#[inline(always)]
fn stretch(bytes: &mut [u8], elements: &[u8], passes: &impl Fn(u16) -> bool) -> u16 {
    let mut passed = 0;
    for (byte, element) in bytes.iter_mut().zip(elements.chunks_exact(SIZE)) {
        let bit = passes(u16::from_le_bytes([element[0], element[1]]));
        *byte = u8::from(bit);
        passed += u16::from(bit);
    }
    passed
}

/// The same at 32 bits.
#[inline(always)]
fn short_stretch(bytes: &mut [u8], elements: &[u8], passes: &impl Fn(u32) -> bool) -> u32 {
    let mut passed = 0;
    for (byte, element) in bytes.iter_mut().zip(elements.chunks_exact(SIZE)) {
        let b = u16::from_le_bytes([element[0], element[1]]);
        *byte = u8::from(passes(u32::from(b)));
        passed += u32::from(*byte);
    }
    passed
}
