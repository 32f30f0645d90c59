//! Streams of command words for the cases: mostly acceptable ones, built from
//! commands whose formats lie apart and whose domains fit; then, for half of
//! them, damage.

use crate::commands;
use crate::random::Random;
use egretfold::headers::{
    SET_COND_OUT_FMT, SET_COND_OUT_MASK, SET_COND_TEST, SET_DOMAIN, SET_INP_FMT, SET_INST_FMT,
    SET_OUT_FMT, SET_OUT_MASK, START_PROGRAM,
};
use second::layout::{judge, Window};

/// Every output's formats begin in a part of memory of its own, this many bytes
/// from the next output's: more than most windows' spans.
const PART: u32 = 1 << 23;

/// The largest window has this many columns and rows, and as many bytes at most
/// from its base on as lie between these bases.
const LARGEST: u32 = 4_096;
const LARGEST_PART: u32 = 1 << 28;

/// An output that was set, with its window.
#[derive(Clone, Copy)]
struct Output {
    base: u32,
    format: u32,
    height: u32,
    window: Window,
}

/// What the stream so far has set, as far as good commands need to know it.
struct Plan {
    words: Vec<u32>,
    outputs: [Option<Output>; 4],
    mask: u32,
    instructions: bool,
    domain: bool,
    /// One command in so many has a field at an edge.
    careful: u32,
}

/// A stream of words, of any kind.
pub fn any(random: &mut Random) -> Vec<u32> {
    if random.once_in(24) {
        return noise(random);
    }
    let mut words = good(random);
    if random.coin() {
        for _ in 0..random.one_of(&[1, 1, 1, 2, 5]) {
            damage(random, &mut words);
        }
    }
    words
}

/// A stream of good commands, of which few have a field at an edge. Most begin
/// with all that a start needs.
fn good(random: &mut Random) -> Vec<u32> {
    let mut plan = Plan {
        words: Vec::new(),
        outputs: [None; 4],
        mask: 0xFFFF,
        instructions: false,
        domain: false,
        careful: random.one_of(&[50, 200, 2_000]),
    };
    if random.once_in(32) {
        plan.careful = 10_000;
        large(random, &mut plan);
        return plan.words;
    }
    if !random.once_in(8) {
        preamble(random, &mut plan);
    }
    let most = random.one_of(&[8, 32, 64, 96]);
    for _ in 0..random.between(1, most) {
        command(random, &mut plan);
    }
    plan.words
}

/// Outputs of the largest window, the largest domain, and starts that claim 2^24
/// elements with each output that isn't silent: 65 of them with four outputs come to
/// more than 2^32.
fn large(random: &mut Random, plan: &mut Plan) {
    set_low_format(random, plan, SET_INST_FMT);
    for number in 0..random.one_of(&[1, 3, 4, 4, 4, 4]) {
        let format = random.below(5) << 24 | random.below(2) << 16 | LARGEST;
        let base = number * LARGEST_PART;
        put(random, plan, SET_OUT_FMT, [number, base, format, LARGEST]);
    }
    if random.once_in(4) {
        set_mask(random, plan);
    }
    let last = LARGEST - 1;
    put(random, plan, SET_DOMAIN, [0, 0, last, last]);
    for _ in 0..random.one_of(&[64, 65, 65, 66, 130]) {
        put(random, plan, START_PROGRAM, [0; 4]);
    }
}

/// An instruction format and an output or more in any order, some under a mask
/// that came before them, then a domain.
fn preamble(random: &mut Random, plan: &mut Plan) {
    if random.coin() {
        set_low_format(random, plan, SET_INST_FMT);
    }
    if random.once_in(3) {
        set_mask(random, plan);
    }
    for _ in 0..random.between(1, 3) {
        set_output(random, plan);
    }
    if !plan.instructions {
        set_low_format(random, plan, SET_INST_FMT);
    }
    set_domain(random, plan);
}

fn command(random: &mut Random, plan: &mut Plan) {
    match random.below(20) {
        0 | 1 => {
            let header = commands::quiet_header(random);
            put(random, plan, header, [0; 4]);
        }
        2 | 3 => {
            let header = random.one_of(&commands::LOW_FORMATS);
            set_low_format(random, plan, header);
        }
        4 | 5 => plain(random, plan, SET_INP_FMT),
        6 => plain(random, plan, SET_COND_OUT_FMT),
        7 => {
            set_mask(random, plan);
            domain_again(random, plan);
        }
        8 => plain(random, plan, SET_COND_OUT_MASK),
        9 => plain(random, plan, SET_COND_TEST),
        10 | 11 => {
            set_output(random, plan);
            domain_again(random, plan);
        }
        12..=14 => set_domain(random, plan),
        _ => start(random, plan),
    }
}

/// A command whose good fields depend on nothing else.
fn plain(random: &mut Random, plan: &mut Plan, header: u32) {
    let fields = commands::good_fields(random, header);
    put(random, plan, header, fields);
}

fn set_low_format(random: &mut Random, plan: &mut Plan, header: u32) {
    plain(random, plan, header);
    plan.instructions |= header == SET_INST_FMT;
}

fn set_mask(random: &mut Random, plan: &mut Plan) {
    let fields = commands::good_fields(random, SET_OUT_MASK);
    put(random, plan, SET_OUT_MASK, fields);
    plan.mask = fields[0];
}

/// Mostly a new domain, where an output that counts now may be smaller than the
/// one before.
fn domain_again(random: &mut Random, plan: &mut Plan) {
    if !random.once_in(8) {
        set_domain(random, plan);
    }
}

/// An output in its own part of memory; sometimes exactly behind another one or
/// over its last bytes, where refusal 9 begins, or at the very top of memory,
/// where its span ends at 2^32. A silent one may lie over another as it likes.
fn set_output(random: &mut Random, plan: &mut Plan) {
    let mut fields = commands::good_fields(random, SET_OUT_FMT);
    let number = fields[0];
    let silent = commands::unmasked(plan.mask, number, fields[2]) == 0;
    let other = plan.outputs[random.below(4) as usize];
    fields[1] = match (random.below(16), other) {
        (0, Some(other)) => behind(&other),
        (1, Some(other)) => behind(&other).wrapping_sub(2048),
        (2, _) => top_base(&fields),
        (3..=5, Some(other)) if silent => other.base,
        _ => number * PART + (random.below(64) << 11),
    };
    put(random, plan, SET_OUT_FMT, fields);
    let [_, base, format, height] = fields;
    if let Ok(window) = judge(&commands::layout(base, format, height)) {
        plan.outputs[number as usize] = Some(Output {
            base,
            format,
            height,
            window,
        });
    }
}

/// The first multiple of 2,048 behind a window; behind 2^32 is 0 again.
fn behind(output: &Output) -> u32 {
    let end = u64::from(output.base) + output.window.span;
    (end + 2047) as u32 & !2047
}

/// The last base from which the output's window still ends at 2^32 or below.
fn top_base(fields: &[u32; 4]) -> u32 {
    let [_, _, format, height] = *fields;
    let span = judge(&commands::layout(0, format, height)).map_or(2048, |window| window.span);
    ((1u64 << 32) - span) as u32 & !2047
}

/// A domain inside the window of every output that isn't silent; sometimes one
/// pair too large, or of any size.
fn set_domain(random: &mut Random, plan: &mut Plan) {
    let (mut i, mut j) = (4_095, 4_095);
    for (number, output) in (0..).zip(plan.outputs) {
        let counted = output.filter(|o| commands::unmasked(plan.mask, number, o.format) != 0);
        if let Some(Output { window, height, .. }) = counted {
            i = i.min(window.step - 1);
            j = j.min(height - 1);
        }
    }
    let mut fields = commands::good_domain(random, i, j);
    match random.below(64) {
        0 => fields[2] = (i + 1).min(4_095),
        1 => fields[3] = (j + 1).min(4_095),
        2 => fields = commands::good_domain(random, 4_095, 4_095),
        _ => {}
    }
    put(random, plan, SET_DOMAIN, fields);
    plan.domain = true;
}

/// A start, mostly after all that it needs.
fn start(random: &mut Random, plan: &mut Plan) {
    let ready = plan.domain && plan.instructions && plan.outputs.iter().any(Option::is_some);
    if ready || random.once_in(16) {
        put(random, plan, START_PROGRAM, [0; 4]);
    }
}

/// Adds the command's words, with a field at an edge now and then.
fn put(random: &mut Random, plan: &mut Plan, header: u32, mut fields: [u32; 4]) {
    if random.once_in(plan.careful) {
        commands::spoil(random, header, &mut fields);
    }
    let parameters = (header >> 16 & 0x3FFF) as usize + 1;
    plan.words.push(header);
    plan.words.extend(&fields[..parameters]);
}

/// Words without a plan: headers, small numbers and anything, mixed.
fn noise(random: &mut Random) -> Vec<u32> {
    let count = random.below(48);
    let tame = random.coin();
    let word = |random: &mut Random| match random.below(4) {
        _ if tame && random.coin() => 0,
        0 => commands::known_header(random),
        1 => random.below(16),
        2 => commands::low_base(random),
        _ => random.word(),
    };
    (0..count).map(|_| word(random)).collect()
}

/// One change to the words that no good writer would make.
fn damage(random: &mut Random, words: &mut Vec<u32>) {
    if words.is_empty() {
        words.push(random.word());
        return;
    }
    let place = random.below(words.len() as u32) as usize;
    let other = random.below(words.len() as u32) as usize;
    match random.below(8) {
        0 | 1 => words[place] ^= random.bit(),
        2 => {
            words.remove(place);
        }
        3 => words.insert(place, words[place]),
        4 => words.swap(place, other),
        5 => words.truncate(place),
        6 => words.insert(place, random.word()),
        _ => words.insert(place, commands::unknown_header(random)),
    }
}
