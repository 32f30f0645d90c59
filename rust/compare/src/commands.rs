//! The commands as the cases need them, and made-up ones: formats with plausible
//! windows, domains, masks, starts. The headers are the boundary's names, apart from
//! both programs, so that a header that one of them lost is still asked for.

use crate::random::Random;
use egretfold::headers::{
    self, FLUSH_COND_OUT_CACHE, FLUSH_OUT_CACHE, INV_COND_OUT_CACHE, INV_CONSTB_CACHE,
    INV_CONSTF_CACHE, INV_CONSTI_CACHE, INV_INP_CACHE, INV_INST_CACHE, SET_COND_OUT_FMT,
    SET_COND_OUT_MASK, SET_COND_TEST, SET_CONSTB_FMT, SET_CONSTF_FMT, SET_CONSTI_FMT, SET_DOMAIN,
    SET_INP_FMT, SET_INST_FMT, SET_OUT_FMT, SET_OUT_MASK, START_PROGRAM, WAIT_FOR_IDLE,
};
use second::layout::Layout;

/// Every header, first those of commands that set nothing.
pub const HEADERS: [u32; 21] = [
    WAIT_FOR_IDLE,
    INV_INST_CACHE,
    INV_CONSTF_CACHE,
    INV_CONSTI_CACHE,
    INV_CONSTB_CACHE,
    INV_COND_OUT_CACHE,
    INV_INP_CACHE,
    FLUSH_OUT_CACHE,
    FLUSH_COND_OUT_CACHE,
    SET_INST_FMT,
    SET_CONSTF_FMT,
    SET_CONSTI_FMT,
    SET_CONSTB_FMT,
    SET_INP_FMT,
    SET_OUT_FMT,
    SET_COND_OUT_FMT,
    SET_OUT_MASK,
    SET_COND_OUT_MASK,
    SET_COND_TEST,
    SET_DOMAIN,
    START_PROGRAM,
];

/// wait_for_idle, the invalidations and the flushes: the first headers.
const QUIET: usize = 9;

/// The commands with a base and a format word alone.
pub const LOW_FORMATS: [u32; 4] = [SET_INST_FMT, SET_CONSTF_FMT, SET_CONSTI_FMT, SET_CONSTB_FMT];

/// A header of the table, all twenty-one alike.
pub fn known_header(random: &mut Random) -> u32 {
    random.one_of(&HEADERS)
}

/// The header of a command that sets nothing.
pub fn quiet_header(random: &mut Random) -> u32 {
    random.one_of(&HEADERS[..QUIET])
}

/// The name of the command with this header.
pub fn name(header: u32) -> &'static str {
    headers::name(header).unwrap_or(UNKNOWN)
}

/// The name of what is no command.
const UNKNOWN: &str = "no command";

/// A word that looks like a header and is in no line of the table: one that the
/// guide has and document 01 leaves out, the two house words that the guide's
/// headers replace, or a known one with a bit turned.
pub fn unknown_header(random: &mut Random) -> u32 {
    let word = match random.below(4) {
        0 => random.one_of(&[0xC000_0600, 0xC000_1C00, 0xC001_0200, 0xC000_0300]),
        1 => random.one_of(&[0xC003_8000, 0xC000_8100, 0xC000_0400, 0xC001_0500]),
        2 => random.word(),
        _ => known_header(random) ^ random.bit(),
    };
    if name(word) == UNKNOWN {
        word
    } else {
        // Bit 0 is zero in every known header.
        word ^ 1
    }
}

/// A base that is good and low, so that windows from it on are mostly accepted.
pub fn low_base(random: &mut Random) -> u32 {
    random.below(1 << 11) << 11
}

/// A format word with a small window, tiled or linear. `superfine` says whether
/// bit 17 may be set.
pub fn format_word(random: &mut Random, superfine: bool) -> u32 {
    let code = random.below(5);
    let tiled = random.below(2) << 16;
    let superfine = if superfine && random.once_in(4) {
        1 << 17
    } else {
        0
    };
    // 64 is the widest tile, so that a small pitch is a row of tiles or more.
    let pitch = match random.below(8) {
        0 => 4 * random.between(16, 1_024),
        1 => random.one_of(&[64, 96, 100, 128, 4_096]),
        _ => 4 * random.between(16, 80),
    };
    code << 24 | superfine | tiled | pitch
}

/// A format word for an input: superfine only where the code has one channel.
pub fn input_format_word(random: &mut Random) -> u32 {
    let word = format_word(random, true);
    let one_channel = matches!(word >> 24, 0 | 2);
    if one_channel {
        word
    } else {
        word & !(1 << 17)
    }
}

/// The layout that an accepted base, format word and height describe.
pub fn layout(base: u32, format: u32, height: u32) -> Layout {
    Layout {
        base,
        pitch: format & 0x1FFC,
        height,
        size: [2, 4, 4, 8, 16][code(format)],
        tiled: format >> 16 & 1 == 1,
    }
}

/// The channels that a format has, as the bits of an output's nibble: one, four,
/// one, two and four for codes 0 to 4.
pub fn channels(format: u32) -> u32 {
    [0x1, 0xF, 0x1, 0x3, 0xF][code(format)]
}

/// The channels of the format that the mask leaves to the output with this
/// number; the output is silent if there are none.
pub fn unmasked(mask: u32, number: u32, format: u32) -> u32 {
    mask >> (4 * number) & channels(format)
}

fn code(format: u32) -> usize {
    (format >> 24) as usize % 5
}

/// An output mask, often one under which some outputs are silent and others are
/// not, or all of them are.
pub fn output_mask(random: &mut Random) -> u32 {
    match random.below(8) {
        0 => 0,
        1 => 0xFFFF,
        2 => random.below(1 << 16),
        _ => (0..4).fold(0, |mask, number| mask | nibble(random) << (4 * number)),
    }
}

/// One output's bits of a mask: all, some, none, or those of channels that only
/// some formats have.
fn nibble(random: &mut Random) -> u32 {
    match random.below(4) {
        0 => random.below(16),
        1 => 0xF,
        _ => random.one_of(&[0x0, 0x0, 0x1, 0x2, 0x4, 0xC, 0xE]),
    }
}

pub fn small_height(random: &mut Random) -> u32 {
    match random.below(8) {
        0 => random.between(1, 4_096),
        1 => random.one_of(&[1, 8, 16, 32, 33, 4_096]),
        _ => random.between(1, 70),
    }
}

/// Good fields for the command with this header, 0 past the last. They are good
/// by themselves; a start may still be refused by its session.
pub fn good_fields(random: &mut Random, header: u32) -> [u32; 4] {
    match header {
        SET_INST_FMT | SET_CONSTF_FMT | SET_CONSTI_FMT | SET_CONSTB_FMT => {
            [low_base(random), format_word(random, true), 0, 0]
        }
        SET_INP_FMT => {
            let number = random.below(16);
            let format = input_format_word(random);
            [number, low_base(random), format, small_height(random)]
        }
        SET_OUT_FMT => {
            let number = random.below(4);
            let format = format_word(random, true);
            [number, low_base(random), format, small_height(random)]
        }
        SET_COND_OUT_FMT => {
            let format = format_word(random, true);
            [low_base(random), format, small_height(random), 0]
        }
        SET_DOMAIN => good_domain(random, 4_095, 4_095),
        SET_OUT_MASK => [output_mask(random), 0, 0, 0],
        SET_COND_OUT_MASK => [random.below(2), 0, 0, 0],
        SET_COND_TEST => [random.below(8), 0, 0, 0],
        _ => [0; 4],
    }
}

/// A domain with its last pair at (i, j) at most.
pub fn good_domain(random: &mut Random, i: u32, j: u32) -> [u32; 4] {
    let i1 = if random.once_in(4) {
        i
    } else {
        random.between(0, i)
    };
    let j1 = if random.once_in(4) {
        j
    } else {
        random.between(0, j)
    };
    [random.between(0, i1), random.between(0, j1), i1, j1]
}

/// Changes one field so that it is at the edge of its rule or beyond.
pub fn spoil(random: &mut Random, header: u32, fields: &mut [u32; 4]) {
    let parameters = ((header >> 16 & 0x3FFF) + 1).min(4);
    let place = random.below(parameters) as usize;
    fields[place] = match random.below(4) {
        0 => fields[place] ^ random.bit(),
        1 => random.word(),
        _ => edge(random, header, place, fields),
    };
}

/// A value at the edge of the rule for the field at this place.
fn edge(random: &mut Random, header: u32, place: usize, fields: &[u32; 4]) -> u32 {
    const NUMBERS: [u32; 7] = [3, 4, 5, 15, 16, 17, u32::MAX];
    const BASES: [u32; 6] = [1, 1_024, 2_047, 0xFFFF_F800, 0xFFFF_F000, 0xFFFE_0000];
    const HEIGHTS: [u32; 8] = [0, 1, 4_095, 4_096, 4_097, 8_191, 8_192, u32::MAX];
    match (header, place) {
        (SET_INP_FMT | SET_OUT_FMT, 0) => random.one_of(&NUMBERS),
        (SET_INP_FMT | SET_OUT_FMT, 1) => random.one_of(&BASES),
        (SET_INP_FMT | SET_OUT_FMT, 2) => edge_format(random, fields[2]),
        (SET_INP_FMT | SET_OUT_FMT, _) => random.one_of(&HEIGHTS),
        (SET_COND_OUT_FMT, 2) => random.one_of(&HEIGHTS),
        (SET_INST_FMT | SET_CONSTF_FMT | SET_CONSTI_FMT | SET_CONSTB_FMT | SET_COND_OUT_FMT, 0) => {
            random.one_of(&BASES)
        }
        (SET_INST_FMT | SET_CONSTF_FMT | SET_CONSTI_FMT | SET_CONSTB_FMT | SET_COND_OUT_FMT, _) => {
            edge_format(random, fields[1])
        }
        (SET_DOMAIN, 2) => fields[0].wrapping_sub(random.between(0, 2)),
        (SET_DOMAIN, 3) => fields[1].wrapping_sub(random.between(0, 2)),
        (SET_DOMAIN, _) => random.one_of(&[0, 4_095, 4_096, 8_191]),
        (SET_OUT_MASK, _) => random.one_of(&[0, 0xFFFF, 0x1_0000, 0x8000_0000]),
        (SET_COND_OUT_MASK, _) => random.one_of(&[0, 1, 2, 3]),
        (SET_COND_TEST, _) => random.one_of(&[0, 7, 8, 9]),
        _ => random.one_of(&[0, 1, 0x8000_0000]),
    }
}

/// A format word whose pitch, code or one reserved bit is at an edge.
fn edge_format(random: &mut Random, word: u32) -> u32 {
    match random.below(4) {
        0 => word & !0x1FFF | random.one_of(&[0, 4, 12, 28, 60, 4_100, 4_128, 4_160, 8_188]),
        1 => word & 0x00FF_FFFF | random.between(4, 7) << 24,
        2 => word ^ random.one_of(&[1, 2, 1 << 13, 1 << 15, 1 << 18, 1 << 23, 1 << 27, 1 << 31]),
        _ => word ^ 3 << 16,
    }
}
