//! The benchmark's inputs: made from fixed seeds, so that every run times the same.

use bench::fast::address::translate;
use bench::fast::layout::{judge, Layout};
use egretfold::headers::{
    FLUSH_COND_OUT_CACHE, FLUSH_OUT_CACHE, INV_COND_OUT_CACHE, INV_CONSTB_CACHE, INV_CONSTF_CACHE,
    INV_CONSTI_CACHE, INV_INP_CACHE, INV_INST_CACHE, SET_COND_OUT_FMT, SET_COND_OUT_MASK,
    SET_COND_TEST, SET_CONSTB_FMT, SET_CONSTF_FMT, SET_CONSTI_FMT, SET_DOMAIN, SET_INP_FMT,
    SET_INST_FMT, SET_OUT_FMT, SET_OUT_MASK, START_PROGRAM, WAIT_FOR_IDLE,
};

/// The formats of constants, and the invalidations that go with them.
const CONSTANTS: [(u32, u32); 3] = [
    (SET_CONSTF_FMT, INV_CONSTF_CACHE),
    (SET_CONSTI_FMT, INV_CONSTI_CACHE),
    (SET_CONSTB_FMT, INV_CONSTB_CACHE),
];

const TILED: u32 = 1 << 16;
const SUPERFINE: u32 = 1 << 17;

/// How many pairs or addresses a line asks for in one pass.
const ASKED: usize = 2048;
/// One in this many of them is outside.
const OUTSIDE: u32 = 64;

/// Pseudo-random numbers (xorshift).
pub struct Random(u64);

impl Random {
    pub fn new(seed: u64) -> Random {
        Random(seed.wrapping_mul(0x9E37_79B9_7F4A_7C15) | 1)
    }

    pub fn word(&mut self) -> u32 {
        self.0 ^= self.0 << 13;
        self.0 ^= self.0 >> 7;
        self.0 ^= self.0 << 17;
        (self.0 >> 32) as u32
    }

    /// A number below `end`.
    pub fn below(&mut self, end: u32) -> u32 {
        ((u64::from(self.word()) * u64::from(end)) >> 32) as u32
    }

    /// True once in `times`.
    pub fn once_in(&mut self, times: u32) -> bool {
        self.below(times) == 0
    }
}

/// A stream of about this many words in which every command stands: jobs that set formats, a domain and masks, start a run,
/// and wait.
pub fn mixed_stream(words: usize) -> Vec<u32> {
    let mut random = Random::new(1);
    let mut stream = settings(1);
    while stream.len() < words {
        job(&mut stream, &mut random);
    }
    stream
}

/// The mixed stream of about this many words as a log, with a midnight before every so many of them.
pub fn mixed_log(words: usize, day: usize) -> Vec<u8> {
    let mut log = Vec::new();
    for (number, words) in (0..).zip(mixed_stream(words).chunks(day)) {
        record(&mut log, 2, number);
        for word in words {
            record(&mut log, 1, *word);
        }
    }
    log
}

/// One byte of kind, then the number, low byte first.
fn record(log: &mut Vec<u8>, kind: u8, number: u32) {
    log.push(kind);
    log.extend(number.to_le_bytes());
}

fn job(stream: &mut Vec<u32>, random: &mut Random) {
    if random.once_in(2) {
        stream.extend([INV_INST_CACHE, 0]);
        stream.extend([SET_INST_FMT, base(random, 8), 0x0400_0000 | pitch(random)]);
    }
    for (set, invalidate) in CONSTANTS {
        if random.once_in(3) {
            stream.extend([invalidate, 0]);
            stream.extend([set, base(random, 8), 0x0400_0000 | pitch(random)]);
        }
    }
    for _ in 0..1 + random.below(4) {
        let number = random.below(16);
        let (base, format) = (base(random, 9), input_format(random));
        stream.extend([SET_INP_FMT, number, base, format, height(random)]);
    }
    stream.extend([INV_INP_CACHE, 0]);
    if random.once_in(2) {
        let number = random.below(4);
        stream.extend(output(random, number));
    }
    if random.once_in(3) {
        stream.extend([SET_OUT_MASK, random.below(1 << 16)]);
    }
    if random.once_in(6) {
        conditional(stream, random);
    }
    if !random.once_in(4) {
        stream.extend(domain(random));
    }
    for _ in 0..1 + random.below(2) {
        stream.extend([START_PROGRAM, 0]);
    }
    if random.once_in(2) {
        stream.extend([FLUSH_OUT_CACHE, 0]);
    }
    stream.extend([WAIT_FOR_IDLE, 0]);
}

fn conditional(stream: &mut Vec<u32>, random: &mut Random) {
    let format = pitch(random);
    let base = base(random, 12);
    stream.extend([SET_COND_OUT_FMT, base, format, height(random)]);
    stream.extend([INV_COND_OUT_CACHE, 0]);
    stream.extend([SET_COND_OUT_MASK, random.below(2)]);
    stream.extend([SET_COND_TEST, random.below(8)]);
    stream.extend([FLUSH_COND_OUT_CACHE, 0]);
}

/// Words that leave a session ready to start, with this many outputs.
pub fn settings(outputs: u32) -> Vec<u32> {
    let mut random = Random::new(2);
    let mut words = vec![SET_INST_FMT, 0x1000, 0x0400_0010];
    for number in 0..outputs {
        words.extend(output(&mut random, number));
    }
    words.extend(domain(&mut random));
    words
}

/// Output formats whose windows hold every domain made here, and that never meet: each number has its own part of memory.
pub fn output(random: &mut Random, number: u32) -> [u32; 5] {
    let base = base(random, 2 * number);
    let format = random.below(5) << 24 | random.below(2) << 16 | pitch(random);
    [SET_OUT_FMT, number, base, format, height(random)]
}

pub fn domain(random: &mut Random) -> [u32; 5] {
    let (i0, j0) = (random.below(32), random.below(8));
    let (i1, j1) = (i0 + random.below(32), j0 + random.below(8));
    [SET_DOMAIN, i0, j0, i1, j1]
}

pub fn instructions(random: &mut Random) -> [u32; 3] {
    [SET_INST_FMT, base(random, 8), 0x0400_0000 | pitch(random)]
}

fn input_format(random: &mut Random) -> u32 {
    let code = random.below(5);
    let one_channel = code == 0 || code == 2;
    let superfine = if one_channel && random.once_in(2) {
        SUPERFINE
    } else {
        0
    };
    let tiled = if random.once_in(2) { TILED } else { 0 };
    code << 24 | superfine | tiled | pitch(random)
}

/// A base in one of sixteen parts of memory, far enough from its end for every window made here.
fn base(random: &mut Random, part: u32) -> u32 {
    part << 28 | random.below(0x8000) << 11
}

fn pitch(random: &mut Random) -> u32 {
    64 + 4 * random.below(240)
}

fn height(random: &mut Random) -> u32 {
    16 + random.below(1000)
}

/// Pairs inside a layout's window, and a few outside.
pub fn pairs(layout: &Layout, seed: u64) -> Vec<(u32, u32)> {
    let mut random = Random::new(seed);
    let step = judge(layout).expect("an accepted layout").step;
    let pair = |_| {
        let (x, y) = (random.below(step), random.below(layout.height));
        if random.once_in(OUTSIDE) {
            (x + step, y)
        } else {
            (x, y)
        }
    };
    (0..ASKED).map(pair).collect()
}

/// Addresses of bytes of a layout's elements, and a few that none owns.
pub fn addresses(layout: &Layout, seed: u64) -> Vec<u32> {
    let mut random = Random::new(seed);
    let span = judge(layout).expect("an accepted layout").span;
    let address = |(x, y)| match translate(layout, x, y) {
        Ok(found) => found.address + random.below(layout.size),
        Err(_) => layout.base + span + random.below(1 << 20),
    };
    pairs(layout, seed).into_iter().map(address).collect()
}
