//! Cases of the second kind: elements read and written in lent memory, and
//! superfine reads, with memory that holds the element, ends a byte before it,
//! stands elsewhere, is too long or ends above 2^32.

use crate::case::{Agreement, Case};
use crate::layouts::{self, for_product, one_in};
use crate::random::Random;
use egretfold::lent;
use second::address::translate;
use second::layout::{judge, Layout};
use second::memory;

/// Bytes kept before and behind lent memory, to see that no call leaves it.
const FENCE: usize = 32;

pub fn run(case: &mut Case) -> Agreement {
    match case.random.below(3) {
        0 => read(case),
        1 => write(case),
        _ => superfine(case),
    }
}

/// A layout and a pair of it, mostly good ones: here the memory is the point.
fn layout_and_pair(random: &mut Random) -> (Layout, (u32, u32)) {
    let layout = if random.once_in(12) {
        layouts::any(random)
    } else {
        let size = random.one_of(&layouts::SIZES);
        layouts::with_size(random, size, one_in(200))
    };
    let pair = inside_mostly(random, &layout);
    (layout, pair)
}

/// Inside where the layout has an inside, but for one pair in eight.
fn inside_mostly(random: &mut Random, layout: &Layout) -> (u32, u32) {
    match judge(layout) {
        Ok(window) if !random.once_in(8) => {
            (random.below(window.step), random.below(layout.height))
        }
        _ => layouts::pair(random, layout),
    }
}

fn read(case: &mut Case) -> Agreement {
    let (layout, (x, y)) = layout_and_pair(&mut case.random);
    let held = element_range(&layout, x, y);
    let Lent { bytes, first } = lend(case, held);
    let length = bytes.len();
    let asked = || format!("read ({x}, {y}) of {layout:?} from {length} bytes at {first}");
    let product = egretfold::read(&for_product(&layout), x, y, &bytes, first);
    let expected = memory::read(&layout, x, y, &bytes, first);
    case.agree_answer(asked, &product.map(|element| element.to_vec()), &expected)?;
    let filled = [case.random.word() as u8; 16];
    let mut room = filled;
    lent::element_read(&for_product(&layout), x, y, &bytes, first, &mut room);
    match expected {
        Ok(element) => {
            case.tally.mark("reads accepted");
            case.agree(asked, &room, &padded(&element))
        }
        Err(_) => case.untouched(asked, &room, &filled),
    }
}

/// An element's room in full: its bytes, then zeros, as the header says.
fn padded(element: &[u8]) -> [u8; 16] {
    let mut room = [0; 16];
    room[..element.len()].copy_from_slice(element);
    room
}

fn write(case: &mut Case) -> Agreement {
    let (layout, (x, y)) = layout_and_pair(&mut case.random);
    let held = element_range(&layout, x, y);
    let Lent { bytes, first } = lend(case, held);
    let data = data(&mut case.random, layout.size);
    let mut fenced = fence(&mut case.random, &bytes);
    let before = fenced.clone();
    let mut theirs = bytes;
    let length = theirs.len();
    let asked = || {
        let into = format!("into {length} bytes at {first}");
        format!("write {data:?} to ({x}, {y}) of {layout:?} {into}")
    };
    let ours = &mut fenced[FENCE..FENCE + length];
    let product = egretfold::write(&for_product(&layout), x, y, ours, first, &data);
    let expected = memory::write(&layout, x, y, &mut theirs, first, &data);
    case.agree_answer(asked, &product, &expected)?;
    agree_bytes(case, asked, &fenced[FENCE..FENCE + length], &theirs)?;
    agree_bytes(case, asked, &fenced[..FENCE], &before[..FENCE])?;
    let behind = FENCE + length;
    agree_bytes(case, asked, &fenced[behind..], &before[behind..])?;
    match product {
        Ok(()) => case.tally.mark("writes accepted"),
        Err(_) => agree_bytes(case, asked, &fenced, &before)?,
    }
    Ok(())
}

/// Data of the element's size, or of a size beside it.
fn data(random: &mut Random, size: u32) -> Vec<u8> {
    let right = size.min(32);
    let length = match random.below(16) {
        0 => right + 1,
        1 => right.saturating_sub(1),
        2 => random.below(34),
        _ => right,
    };
    let mut data = vec![0; length as usize];
    random.fill(&mut data);
    data
}

/// The memory with bytes before and behind it that are no part of it.
fn fence(random: &mut Random, bytes: &[u8]) -> Vec<u8> {
    let mut fenced = vec![0; bytes.len() + 2 * FENCE];
    random.fill(&mut fenced[..FENCE]);
    random.fill(&mut fenced[FENCE + bytes.len()..]);
    fenced[FENCE..FENCE + bytes.len()].copy_from_slice(bytes);
    fenced
}

/// Compares memory, and reports the first place that differs rather than all.
fn agree_bytes(
    case: &Case,
    asked: impl FnOnce() -> String,
    product: &[u8],
    expected: &[u8],
) -> Agreement {
    let first_difference = if product == expected {
        None
    } else {
        let mut both = product.iter().zip(expected);
        both.position(|(ours, theirs)| ours != theirs)
    };
    let asked = || format!("the first wrong byte of memory, after {}", asked());
    case.agree(asked, &first_difference, &None)
}

fn superfine(case: &mut Case) -> Agreement {
    let (base, format, height) = superfine_window(&mut case.random);
    let (x, y) = superfine_pair(&mut case.random, &layout_of(base, format, height));
    let held = four_elements_range(&layout_of(base, format, height), x, y);
    let Lent { bytes, first } = lend(case, held);
    let length = bytes.len();
    let asked = || {
        let window = format!("base {base:#X}, format {format:#010X}, height {height}");
        format!("superfine ({x}, {y}) of {window} from {length} bytes at {first}")
    };
    let product = egretfold::superfine(base, format, height, x, y, &bytes, first);
    let expected = memory::superfine(base, format, height, x, y, &bytes, first);
    case.agree_answer(asked, &product.map(|four| four.to_vec()), &expected)?;
    let filled = ([case.random.word() as u8; 16], [case.random.word()]);
    let mut rooms = filled;
    let window = (base, format, height);
    lent::element_superfine(window, x, y, &bytes, first, &mut rooms.0, &mut rooms.1);
    match expected {
        Ok(four) => {
            case.tally.mark("superfine reads accepted");
            case.agree(asked, &rooms, &(padded(&four), [four.len() as u32]))
        }
        Err(_) => case.untouched(asked, &rooms, &filled),
    }
}

const TILED: u32 = 1 << 16;
const SUPERFINE: u32 = 1 << 17;

/// Base, format word and height of a superfine read: small windows mostly, since
/// memory must hold a row and more, with a damaged format word now and then.
fn superfine_window(random: &mut Random) -> (u32, u32, u32) {
    let code = random.one_of(&[0, 2]);
    let size = if code == 0 { 2 } else { 4 };
    let layout = layouts::with_size(random, size, one_in(60));
    let tiled = if layout.tiled { TILED } else { 0 };
    let format = code << 24 | SUPERFINE | tiled | layout.pitch;
    let format = match random.below(24) {
        0 => format ^ SUPERFINE,
        1 => format ^ random.bit(),
        2 => format & 0x00FF_FFFF | random.below(8) << 24,
        _ => format,
    };
    (layout.base, format, layout.height)
}

/// The layout that the format word describes, whether or not it is accepted.
fn layout_of(base: u32, format: u32, height: u32) -> Layout {
    Layout {
        base,
        pitch: format & 0x1FFC,
        height,
        size: [2, 4, 4, 8, 16, 4, 4, 4][(format >> 24 & 7) as usize],
        tiled: format & TILED != 0,
    }
}

/// A pair whose right and lower neighbours are mostly inside too.
fn superfine_pair(random: &mut Random, layout: &Layout) -> (u32, u32) {
    let (x, y) = inside_mostly(random, layout);
    if random.once_in(8) {
        return (x, y);
    }
    (x.saturating_sub(1), y.saturating_sub(1))
}

/// The first and last address of the pair's element, where it has one.
fn element_range(layout: &Layout, x: u32, y: u32) -> Option<(u32, u32)> {
    let address = translate(layout, x, y).ok()?;
    Some((address, address + (layout.size - 1)))
}

/// The first and last address of the four elements of a superfine read.
fn four_elements_range(layout: &Layout, x: u32, y: u32) -> Option<(u32, u32)> {
    let right = x.checked_add(1)?;
    let below = y.checked_add(1)?;
    let mut range = element_range(layout, x, y)?;
    for (x, y) in [(right, y), (x, below), (right, below)] {
        let (first, last) = element_range(layout, x, y)?;
        range = (range.0.min(first), range.1.max(last));
    }
    Some(range)
}

/// Lent memory: bytes, the first of which stands at address `first`.
struct Lent {
    bytes: Vec<u8>,
    first: u32,
}

/// Lent memory for a case, with its shape counted.
fn lend(case: &mut Case, held: Option<(u32, u32)>) -> Lent {
    let lent = any_memory(&mut case.random, held);
    let length = lent.bytes.len() as u64;
    let end = u64::from(lent.first) + length;
    let shape = match (length, end) {
        (0, _) => "memory that is empty",
        (65_536, _) => "memory of 65,536 bytes",
        (65_537.., _) => "memory over 65,536 bytes",
        (_, 0x1_0000_0000) => "memory that ends at 2^32",
        (_, 0x1_0000_0001..) => "memory that ends above 2^32",
        _ => "memory without a shape",
    };
    case.tally.mark(shape);
    lent
}

/// Memory that holds the bytes from the first to the last address given, or just
/// fails to, or stands anywhere.
fn any_memory(random: &mut Random, held: Option<(u32, u32)>) -> Lent {
    let (low, high) = held.unwrap_or_else(|| {
        let anywhere = random.word();
        (anywhere, anywhere.saturating_add(15))
    });
    // The bytes needed; a wide superfine read may need more than memory can have.
    let needed = (high - low).min(70_000) + 1;
    if u32::MAX - low < 65_536 && random.coin() {
        return high_memory(random, low, needed);
    }
    let (before, length) = match random.below(16) {
        0 => (random.below(64), random.below(128)),
        1 => (0, needed - 1),
        2 => (
            random.below(64),
            needed.saturating_sub(random.between(0, 2)),
        ),
        3 => (0, random.one_of(&[65_535, 65_536, 65_537])),
        4 => return high_memory(random, low, needed),
        5 => return anywhere(random),
        6 => (0u32.wrapping_sub(random.between(1, 3)), needed + 3),
        7 | 8 => exact_fit(random, needed),
        _ => {
            let before = random.below(48);
            (before, needed + before + random.below(48))
        }
    };
    make(random, low.wrapping_sub(before), length)
}

/// The needed bytes at the very front or the very end of memory, with none to
/// spare there, in memory of any length.
fn exact_fit(random: &mut Random, needed: u32) -> (u32, u32) {
    let spare = match random.below(16) {
        0 => 65_536u32.saturating_sub(needed),
        1 => random.below(4_096),
        _ => random.below(32),
    };
    if random.coin() {
        (0, needed + spare)
    } else {
        (spare, needed + spare)
    }
}

/// Memory from just before the needed bytes on that ends at 2^32, or beside it.
fn high_memory(random: &mut Random, low: u32, needed: u32) -> Lent {
    let first = low.saturating_sub(random.below(16));
    let to_the_end = (1u64 << 32) - u64::from(first);
    if to_the_end > 65_536 {
        let length = needed + random.below(32);
        return make(random, 0u32.wrapping_sub(length.max(1)), length);
    }
    let length = to_the_end as u32;
    let length = match random.below(3) {
        0 => length + 1,
        1 => length - 1,
        _ => length,
    };
    make(random, first, length)
}

fn anywhere(random: &mut Random) -> Lent {
    let length = match random.below(64) {
        0 => random.below(65_538),
        _ => random.below(256),
    };
    let first = random.word();
    make(random, first, length)
}

fn make(random: &mut Random, first: u32, length: u32) -> Lent {
    let mut bytes = vec![0; length as usize];
    random.fill(&mut bytes);
    Lent { bytes, first }
}
