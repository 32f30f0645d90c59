//! Cases of the tenth kind: sessions whose words set a conditional buffer and a test,
//! or one of them, or neither, and that may be stopped; then surveys and single tests
//! with one value, with domains, memory and rooms of any shape.

use crate::case::{Agreed, Agreement, Case};
use crate::commands;
use crate::layouts::{self, one_in};
use crate::random::Random;
use crate::settings::Both;
use crate::words;
use egretfold::headers::{SET_COND_OUT_FMT, SET_COND_TEST};
use egretfold::{lent, Edition};
use second::address::translate;
use second::layout::{judge, Layout};
use second::session::Format;
use second::survey::Unit;

/// UINT16_1's code, and the bytes of its elements.
const UINT16_1: u32 = 0;
const SIZE: u32 = 2;

/// The most memory that the unit is lent.
const MOST: u64 = 65_536;

/// Bytes kept before and behind the room, to see that no call leaves it.
const FENCE: usize = 16;

/// Names for the eight tests, by their numbers.
pub const TESTS: [&str; 8] = [
    "surveys by test 0, never",
    "surveys by test 1, less",
    "surveys by test 2, less or equal",
    "surveys by test 3, equal",
    "surveys by test 4, at least",
    "surveys by test 5, greater",
    "surveys by test 6, not equal",
    "surveys by test 7, always",
];

/// One survey: all that a call gets besides the session.
struct Asked {
    value: u32,
    domain: [u32; 4],
    memory: Vec<u8>,
    first: u32,
    /// The room's length.
    room: usize,
}

pub fn run(case: &mut Case) -> Agreement {
    let words = session_words(&mut case.random);
    let mut both = Both::new(Edition::First);
    both.product.feed(&words);
    both.second.feed(&words);
    let before = both.product.clone();
    let unit = Unit::of(&both.second);
    let told = |case: &mut Case, asked: &Asked| {
        let text = || format!("{} after the words {words:X?}", about(asked));
        let bytes = survey(case, text, &both, &unit, asked)?;
        single_tests(case, text, &both, &unit, asked, bytes)
    };
    for _ in 0..case.random.one_of(&[1, 1, 2]) {
        let asked = any_survey(&mut case.random, &unit);
        told(case, &asked)?;
    }
    let text = || format!("the session after surveys of the words {words:X?}");
    case.agree(text, &both.product, &before)?;
    both.agree(case, || format!("{words:X?}"))
}

fn about(asked: &Asked) -> String {
    let (value, domain) = (asked.value, asked.domain);
    let (length, first, room) = (asked.memory.len(), asked.first, asked.room);
    format!("survey {value} over {domain:?} in {length} bytes at {first} with room {room}")
}

/// Words that mostly set a buffer and a test, among others and more than once; then
/// an open command or a word that stops the session.
fn session_words(random: &mut Random) -> Vec<u32> {
    let mut list = match random.below(8) {
        0 => words::any(random),
        _ => Vec::new(),
    };
    let (buffer, test) = (!random.once_in(16), !random.once_in(16));
    for _ in 0..random.one_of(&[1, 1, 2]) {
        if test && random.coin() {
            list.extend([SET_COND_TEST, random.below(8)]);
        }
        if random.once_in(4) {
            let header = commands::known_header(random);
            let command = (header, commands::good_fields(random, header));
            let other = !matches!(header, SET_COND_OUT_FMT | SET_COND_TEST);
            put(&mut list, command, other);
        }
        put(&mut list, (SET_COND_OUT_FMT, buffer_fields(random)), buffer);
        put(&mut list, (SET_COND_TEST, [random.below(8); 4]), test);
    }
    match random.below(6) {
        0 => list.push(commands::known_header(random)),
        1 | 2 => list.push(commands::unknown_header(random)),
        _ => {}
    }
    list
}

/// Adds a command's words, if it is wanted.
fn put(list: &mut Vec<u32>, (header, fields): (u32, [u32; 4]), wanted: bool) {
    if wanted {
        let parameters = (header >> 16 & 0x3FFF) as usize + 1;
        list.push(header);
        list.extend(&fields[..parameters]);
    }
}

/// A buffer of UINT16_1 mostly, tiled or linear, superfine now and then.
fn buffer_fields(random: &mut Random) -> [u32; 4] {
    let layout = layouts::with_size(random, SIZE, one_in(300));
    let code = match random.below(12) {
        0 => random.between(1, 4),
        _ => UINT16_1,
    };
    let tiled = u32::from(layout.tiled) << 16;
    let superfine = u32::from(random.once_in(8)) << 17;
    let format = code << 24 | superfine | tiled | layout.pitch;
    [layout.base, format, layout.height, 0]
}

/// The window's columns and rows, 16 by 4 where there is no buffer to ask.
fn window_of(buffer: Option<Format>) -> (Layout, u32, u32) {
    let buffer = buffer.unwrap_or(Format {
        base: 2048,
        format: 16,
        height: 4,
    });
    let layout = commands::layout(buffer.base, buffer.format, buffer.height);
    let step = judge(&layout).map_or(16, |window| window.step);
    (layout, step, layout.height)
}

fn any_survey(random: &mut Random, unit: &Unit) -> Asked {
    let (layout, step, height) = window_of(unit.buffer);
    let domain = any_domain(random, step, height);
    let value = match random.below(8) {
        0 => random.one_of(&[0, 1, 0xFFFF, 0x1_0000, 0x8000_0000, u32::MAX]),
        1 => random.word(),
        _ => random.below(1 << 16),
    };
    let (low, high) = held(&layout, domain);
    let (first, length) = any_extent(random, low, high);
    let memory = any_bytes(random, (first, length), value);
    let room = any_room(random, domain);
    Asked {
        value,
        domain,
        memory,
        first,
        room,
    }
}

/// Small and inside mostly; also a whole row, the whole window, one that is crossed or
/// leaves the window by a column or a row, and numbers above 4,095.
fn any_domain(random: &mut Random, step: u32, height: u32) -> [u32; 4] {
    let (i0, j0) = (random.below(step), random.below(height));
    let i1 = (i0 + random.below(12)).min(step - 1);
    let j1 = (j0 + random.below(6)).min(height - 1);
    match random.below(24) {
        0 => [i1.wrapping_add(1), j0, i0, j1],
        1 => [i0, j1.wrapping_add(1), i1, j0],
        2 => [i0, j0, step + random.below(3), j1],
        3 => [i0, j0, i1, height + random.below(3)],
        4 => random.one_of(&[
            [0, 0, 4096, 0],
            [0, 0, 0, u32::MAX],
            [u32::MAX; 4],
            [u32::MAX, 0, 0, 0],
            [0, 0, u32::MAX, u32::MAX],
        ]),
        5 => [random.word(), random.word(), random.word(), random.word()],
        6 => [0, j0, step - 1, j0],
        7 if step * height < 4_096 || (step * height < 33_000 && random.once_in(4)) => {
            [0, 0, step - 1, height - 1]
        }
        8 => [i0, j0, i0, j0],
        _ => [i0, j0, i1, j1],
    }
}

/// The first and last address that the domain's elements take, where it is inside and
/// small enough to be asked pair by pair; else the window's.
fn held(layout: &Layout, domain: [u32; 4]) -> (u32, u32) {
    let [i0, j0, i1, j1] = domain;
    let span = judge(layout).map_or(128, |window| window.span);
    let whole = (layout.base, (u64::from(layout.base) + span - 1) as u32);
    let count = u64::from(i1.saturating_sub(i0)).saturating_mul(j1.saturating_sub(j0).into());
    if i0 > i1 || j0 > j1 || count > 1_024 {
        return whole;
    }
    let pairs = (j0..=j1).flat_map(|j| (i0..=i1).map(move |i| (i, j)));
    let addresses: Result<Vec<u32>, u32> = pairs.map(|(i, j)| translate(layout, i, j)).collect();
    match addresses {
        Ok(list) => {
            let (low, high) = (list.iter().min(), list.iter().max());
            let last = |at: &u32| at + (SIZE - 1);
            (*low.expect("a pair"), high.map(last).expect("a pair"))
        }
        Err(_) => whole,
    }
}

/// The first address and the length of lent memory: it holds all that is needed, ends a
/// byte before it or begins one behind it, is too long, or ends at 2^32 or above.
fn any_extent(random: &mut Random, low: u32, high: u32) -> (u32, u32) {
    let needed = (high - low).min(80_000) + 1;
    match random.below(24) {
        0 => (low, needed - 1),
        1 => (low.wrapping_add(1), needed),
        2 => (low.wrapping_add(1), needed - 1),
        3 => (low, random.one_of(&[65_535, 65_536, 65_537])),
        4 => (low, 0),
        5 => (random.word(), random.below(256)),
        6 => {
            let length = random.below(300);
            (length.wrapping_neg().wrapping_add(random.below(2)), length)
        }
        7 => match u32::MAX - low {
            // Up to 2^32 or a byte above, where that isn't too long.
            rest @ 0..=65_534 => (low, rest + 1 + random.below(2)),
            _ => (low, needed),
        },
        8..=11 => (low, needed),
        _ => {
            let before = random.below(48).min(low);
            (low - before, needed + before + random.below(48))
        }
    }
}

/// Memory whose numbers are often the value's low half, or beside it.
fn any_bytes(random: &mut Random, (first, length): (u32, u32), value: u32) -> Vec<u8> {
    let mut bytes = vec![0; length as usize];
    random.fill(&mut bytes);
    // Elements stand at even addresses.
    let front = (first % SIZE) as usize;
    if let Some(elements) = bytes.get_mut(front..) {
        for element in elements.chunks_exact_mut(SIZE as usize) {
            let near = match random.below(8) {
                0 => value.wrapping_sub(1),
                1 | 2 => value,
                3 => value.wrapping_add(1),
                // The two bytes changed places.
                4 => value.swap_bytes() >> 16,
                _ => continue,
            };
            element.copy_from_slice(&(near as u16).to_le_bytes());
        }
    }
    bytes
}

/// How many pairs a domain has, unless it is crossed or has more than any window.
fn pairs(domain: [u32; 4]) -> Option<u32> {
    let side = |low: u32, high: u32| high.checked_sub(low).filter(|rest| *rest < 4_096);
    let [i0, j0, i1, j1] = domain;
    Some((side(i0, i1)? + 1) * (side(j0, j1)? + 1))
}

/// A byte a pair, or a length beside that.
fn any_room(random: &mut Random, domain: [u32; 4]) -> usize {
    let exact = pairs(domain).unwrap_or(7);
    let length = match random.below(16) {
        0 => exact.saturating_sub(1),
        1 => exact + 1,
        2 => random.below(80),
        _ => exact,
    };
    length as usize
}

/// One survey by both programs: the answer, the room and what stands around it. Gives
/// the room's bytes where it is accepted.
fn survey(
    case: &mut Case,
    text: impl Fn() -> String,
    both: &Both,
    unit: &Unit,
    asked: &Asked,
) -> Agreed<Option<Vec<u8>>> {
    let Asked {
        value,
        domain,
        memory,
        first,
        room,
    } = asked;
    let mut filled = vec![0; room + 2 * FENCE];
    case.random.fill(&mut filled);
    let (mut ours, mut theirs) = (filled.clone(), filled.clone());
    let inner = FENCE..FENCE + room;
    let passed_before = [case.random.word()];
    let mut passed = passed_before;
    let number = lent::conditional_survey(
        &both.product,
        *value,
        *domain,
        memory,
        *first,
        &mut ours[inner.clone()],
        &mut passed,
    );
    let product = match number {
        0 => Ok(u64::from(passed[0])),
        refusal => Err(refusal),
    };
    let expected = unit.survey(*value, *domain, memory, *first, &mut theirs[inner.clone()]);
    case.agree_answer(&text, &product, &expected)?;
    case.agree(&text, &ours, &theirs)?;
    let mut room = vec![0; *room];
    let comfortable = both
        .product
        .survey(*value, *domain, memory, *first, &mut room);
    let comfortable = comfortable.map(u64::from).map_err(u32::from);
    case.agree(&text, &comfortable, &expected)?;
    match expected {
        Ok(count) => {
            case.agree(&text, &room, &theirs[inner].to_vec())?;
            let sum = room.iter().map(|byte| u64::from(*byte)).sum();
            case.agree(|| format!("the sum of {}", text()), &count, &sum)?;
            count_survey(case, both, unit, (count, room.len() as u64));
            Ok(Some(room))
        }
        Err(refusal) => {
            case.untouched(&text, &(ours, passed), &(filled, passed_before))?;
            count_causes(case, unit, asked, refusal);
            Ok(None)
        }
    }
}

/// Marks what an accepted survey was.
fn count_survey(case: &mut Case, both: &Both, unit: &Unit, (passed, pairs): (u64, u64)) {
    let (layout, _, _) = window_of(unit.buffer);
    let tally = &mut case.tally;
    tally.mark(if layout.tiled {
        "surveys of tiled buffers"
    } else {
        "surveys of linear buffers"
    });
    tally.mark(TESTS[unit.test.unwrap_or(0) as usize % TESTS.len()]);
    tally.add("pairs surveyed", pairs);
    if both.product.status().stopped {
        tally.mark("surveys of stopped sessions");
    }
    if both.product.status().open.is_some() {
        tally.mark("surveys inside an open command");
    }
    if passed != 0 && passed != pairs {
        tally.mark("surveys that some pairs pass and some don't");
    }
    if pairs > 4_096 {
        tally.mark("surveys of more than 4,096 pairs");
    }
}

/// Marks a refused survey that had a second cause, by the number that came first.
fn count_causes(case: &mut Case, unit: &Unit, asked: &Asked, refusal: u32) {
    let [i0, j0, i1, j1] = asked.domain;
    let other = |format: Format| format.format >> 24 != UINT16_1;
    let crossed = i0 > i1 || j0 > j1;
    let (_, step, height) = window_of(unit.buffer);
    let length = asked.memory.len() as u64;
    let memory = length == 0 || length > MOST || u64::from(asked.first) + length > 1 << 32;
    let room = pairs(asked.domain).map_or(false, |count| count as usize != asked.room);
    let causes = [
        (7, unit.buffer.is_none() || unit.test.is_none()),
        (3, unit.buffer.map_or(false, other)),
        (5, crossed),
        (
            10,
            unit.buffer.is_some() && !crossed && (i1 >= step || j1 >= height),
        ),
        (11, memory || room),
    ];
    if causes.iter().filter(|(_, there)| *there).count() > 1 {
        case.tally.mark(match refusal {
            7 => "surveys with two causes, of which 7 is first",
            3 => "surveys with two causes, of which 3 is first",
            5 => "surveys with two causes, of which 5 is first",
            10 => "surveys with two causes, of which 10 is first",
            _ => "surveys with two causes, of which another is first",
        });
    }
}

/// Single tests of some pairs of the domain, and of one anywhere. Those of the domain
/// are the bytes of a survey that was accepted.
fn single_tests(
    case: &mut Case,
    text: impl Fn() -> String,
    both: &Both,
    unit: &Unit,
    asked: &Asked,
    bytes: Option<Vec<u8>>,
) -> Agreement {
    let [i0, j0, i1, j1] = asked.domain;
    let (layout, _, _) = window_of(unit.buffer);
    let random = &mut case.random;
    let within = |random: &mut Random, low: u32, high: u32| match high.checked_sub(low) {
        Some(u32::MAX) | None => random.word(),
        Some(rest) => low + random.below(rest + 1),
    };
    let list = [
        (i0, j0),
        (i1, j1),
        (within(random, i0, i1), within(random, j0, j1)),
        layouts::pair(random, &layout),
    ];
    for (x, y) in list {
        let text = || format!("test of ({x}, {y}), as in {}", text());
        let filled = [case.random.word()];
        let mut passed = filled;
        let (memory, first) = (&asked.memory[..], asked.first);
        let pair = (x, y);
        let number =
            lent::conditional_test(&both.product, asked.value, pair, memory, first, &mut passed);
        let product = match number {
            0 => Ok(passed[0]),
            refusal => Err(refusal),
        };
        let expected = unit.pair(asked.value, x, y, memory, first);
        case.agree_answer(text, &product, &expected.map(u32::from))?;
        let comfortable = both
            .product
            .conditional_test(asked.value, x, y, memory, first);
        case.agree(text, &comfortable.map_err(u32::from), &expected)?;
        let inside = (i0..=i1).contains(&x) && (j0..=j1).contains(&y);
        if let Some(bytes) = bytes.as_ref().filter(|_| inside) {
            let place = (y - j0) as usize * (i1 - i0 + 1) as usize + (x - i0) as usize;
            case.agree(text, &product, &Ok(u32::from(bytes[place])))?;
            case.tally.mark("single tests that are a survey's bytes");
        }
        match expected {
            Ok(true) => case.tally.mark("single tests that pass"),
            Ok(false) => case.tally.mark("single tests that don't"),
            Err(_) => case.untouched(text, &passed, &filled)?,
        }
    }
    Ok(())
}
