//! Commands: the table of headers, what their parameter words may hold, and the writer.

use super::layout::{shape, window, Shape, Window, BASE_RESERVED, PITCH_BITS};
use super::refusal::{Answer, DOMAIN_ORDER, MALFORMED, NUMBER, ROOM};

pub(super) const TILED: u32 = 1 << 16;
pub(super) const SUPERFINE: u32 = 1 << 17;
/// A format word's named bits: pitch 12:2, tiled 16, superfine 17, code 26:24.
pub(super) const FORMAT_BITS: u32 = 0x0700_0000 | SUPERFINE | TILED | PITCH_BITS;
/// Codes 0 to 4, one bit each; and those with one channel, UINT16_1 and FLOAT32_1.
const CODES: u32 = 0b1_1111;
const ONE_CHANNEL: u32 = 0b0_0101;
/// Shapes by format code, linear and then tiled. Codes 5 to 7 are refused before this is read.
static SHAPES: [Shape; 16] = [
    shape(1, false),
    shape(2, false),
    shape(2, false),
    shape(3, false),
    shape(4, false),
    shape(4, false),
    shape(4, false),
    shape(4, false),
    shape(1, true),
    shape(2, true),
    shape(2, true),
    shape(3, true),
    shape(4, true),
    shape(4, true),
    shape(4, true),
    shape(4, true),
];

/// The channels of each format code, a bit each. Codes 5 to 7 are refused before this is read.
static CHANNELS: [u32; 8] = [0b0001, 0b1111, 0b0001, 0b0011, 0b1111, 0, 0, 0];

const HEIGHT_BITS: u32 = 0x1FFF;
const PLACE_BITS: u32 = 0xFFF;
const OUTPUT_MASK_BITS: u32 = 0xFFFF;
const CONDITIONAL_MASK_BITS: u32 = 1;
const TEST_BITS: u32 = 7;
const INPUT_BITS: u32 = 15;
const OUTPUT_BITS: u32 = 3;

/// What a party owns, a bit each: inputs from bit 0 on, outputs from here on, and what is party 0's alone.
pub(super) const FIRST_OUTPUT: u32 = 16;
const COMMON: u32 = 1 << 20;
pub(super) const EVERYTHING: u32 = (1 << 21) - 1;

/// A format as a command sets it. Instructions and constants have height 1.
#[derive(Clone, Copy, Debug, PartialEq, Eq)]
pub struct Format {
    pub base: u32,
    pub word: u32,
    pub height: u32,
}

impl Format {
    #[inline(always)]
    pub(super) fn code(&self) -> u32 {
        self.word >> 24 & 7
    }

    /// The format's channels, a bit each from bit 0 on.
    #[inline(always)]
    pub(super) fn channels(&self) -> u32 {
        CHANNELS[self.code() as usize]
    }

    #[inline(always)]
    pub(super) fn pitch(&self) -> u32 {
        self.word & PITCH_BITS
    }

    #[inline(always)]
    pub(super) fn tiled(&self) -> bool {
        self.word & TILED != 0
    }

    /// The window of a format whose reserved bits were judged before. 3 for its code, 6.
    #[inline(always)]
    pub(super) fn window(&self) -> Answer<Window> {
        if self.code() > 4 {
            return Err(MALFORMED);
        }
        let shape = SHAPES[(self.word >> 24 & 7 | self.word >> 13 & 8) as usize];
        window(shape, self.base, self.pitch(), self.height)
    }
}

/// The domain of a start, both ends included.
#[derive(Clone, Copy, Debug, PartialEq, Eq)]
pub struct Domain {
    pub i0: u32,
    pub j0: u32,
    pub i1: u32,
    pub j1: u32,
}

impl Domain {
    #[inline(always)]
    pub(super) fn in_order(&self) -> Answer<()> {
        if self.i0 > self.i1 || self.j0 > self.j1 {
            return Err(DOMAIN_ORDER);
        }
        Ok(())
    }

    #[inline(always)]
    pub(super) fn pairs(&self) -> u64 {
        u64::from(self.i1 - self.i0 + 1) * u64::from(self.j1 - self.j0 + 1)
    }
}

#[derive(Clone, Copy, Debug, PartialEq, Eq)]
pub enum Command {
    WaitForIdle,
    InvalidateInstructions,
    InvalidateFloats,
    InvalidateIntegers,
    InvalidateBooleans,
    InvalidateConditional,
    InvalidateInputs,
    FlushOutputs,
    FlushConditional,
    SetInstructions(Format),
    SetFloats(Format),
    SetIntegers(Format),
    SetBooleans(Format),
    SetInput(u32, Format),
    SetOutput(u32, Format),
    SetConditional(Format),
    SetOutputMask(u32),
    SetConditionalMask(u32),
    SetTest(u32),
    SetDomain(Domain),
    Start,
}

impl Command {
    /// How many parameter words the command has.
    #[inline(always)]
    pub(super) fn parameters(&self) -> usize {
        use Command::*;
        match self {
            SetInstructions(_) | SetFloats(_) | SetIntegers(_) | SetBooleans(_) => 2,
            SetConditional(_) => 3,
            SetInput(..) | SetOutput(..) | SetDomain(_) => 4,
            _ => 1,
        }
    }
}

/// The commands without what they carry.
#[derive(Clone, Copy, Debug, PartialEq, Eq)]
pub(super) enum Kind {
    WaitForIdle,
    InvalidateInstructions,
    InvalidateFloats,
    InvalidateIntegers,
    InvalidateBooleans,
    InvalidateConditional,
    InvalidateInputs,
    FlushOutputs,
    FlushConditional,
    SetInstructions,
    SetFloats,
    SetIntegers,
    SetBooleans,
    SetInput,
    SetOutput,
    SetConditional,
    SetOutputMask,
    SetConditionalMask,
    SetTest,
    SetDomain,
    Start,
}

/// A line of the command table: what each parameter word may not have.
pub(super) struct Line {
    /// The bits of what a party must own for its header.
    pub(super) asks: u32,
    pub header: u32,
    /// Bits that refuse a parameter; none past the last one.
    pub refused: [u32; 4],
    /// The refusal of the first parameter's bits: 4 for an input or output number, else 3.
    pub first_refusal: u32,
    /// The format codes that a superfine format may have.
    pub superfine_codes: u32,
    pub kind: Kind,
    pub parameters: u8,
    /// Which parameter is a format word; 4 where none is.
    pub format_at: u8,
}

impl Line {
    /// Refusals 3 and 4 of one parameter word.
    #[inline(always)]
    pub fn judge(&self, index: usize, word: u32) -> Answer<()> {
        if word & self.refused[index] != 0 {
            return Err(if index == 0 {
                self.first_refusal
            } else {
                MALFORMED
            });
        }
        if index == usize::from(self.format_at) && !self.allows_format(word) {
            return Err(MALFORMED);
        }
        Ok(())
    }

    #[inline(always)]
    pub fn allows_format(&self, word: u32) -> bool {
        let codes = if word & SUPERFINE != 0 {
            self.superfine_codes
        } else {
            CODES
        };
        codes >> (word >> 24 & 7) & 1 != 0
    }
}

/// What a party must own to send a line's header: the bit of what is party 0's, or nothing.
const fn asked_for(kind: Kind) -> u32 {
    match kind {
        Kind::SetFloats
        | Kind::SetIntegers
        | Kind::SetBooleans
        | Kind::SetConditional
        | Kind::SetConditionalMask
        | Kind::SetTest => COMMON,
        _ => 0,
    }
}

const fn line(header: u32, kind: Kind, refused: [u32; 4], format_at: u8) -> Line {
    Line {
        asks: asked_for(kind),
        header,
        refused,
        first_refusal: MALFORMED,
        superfine_codes: CODES,
        kind,
        parameters: (header >> 16 & 3) as u8 + 1,
        format_at,
    }
}

const fn plain(header: u32, kind: Kind, bits: u32) -> Line {
    line(header, kind, [!bits, 0, 0, 0], 4)
}

const fn short_format(header: u32, kind: Kind) -> Line {
    line(header, kind, [BASE_RESERVED, !FORMAT_BITS, 0, 0], 1)
}

const fn numbered(header: u32, kind: Kind, bits: u32, superfine_codes: u32) -> Line {
    Line {
        first_refusal: NUMBER,
        superfine_codes,
        ..line(
            header,
            kind,
            [!bits, BASE_RESERVED, !FORMAT_BITS, !HEIGHT_BITS],
            2,
        )
    }
}

/// An operation that no known header has. The operation of this header lies past the table, so no word finds it.
const UNKNOWN: Line = plain(u32::MAX, Kind::WaitForIdle, 0);

/// The command table, by operation.
static TABLE: [Line; 28] = [
    UNKNOWN,
    UNKNOWN,
    UNKNOWN,
    UNKNOWN,
    UNKNOWN,
    UNKNOWN,
    UNKNOWN,
    line(0xC003_0700, Kind::SetDomain, [!PLACE_BITS; 4], 4),
    plain(0xC000_0800, Kind::Start, 0),
    plain(0xC000_0900, Kind::WaitForIdle, 0),
    short_format(0xC001_0A00, Kind::SetInstructions),
    numbered(0xC003_0B00, Kind::SetInput, INPUT_BITS, ONE_CHANNEL),
    numbered(0xC003_0C00, Kind::SetOutput, OUTPUT_BITS, CODES),
    line(
        0xC002_0D00,
        Kind::SetConditional,
        [BASE_RESERVED, !FORMAT_BITS, !HEIGHT_BITS, 0],
        1,
    ),
    short_format(0xC001_0E00, Kind::SetFloats),
    short_format(0xC001_0F00, Kind::SetIntegers),
    short_format(0xC001_1000, Kind::SetBooleans),
    plain(0xC000_1100, Kind::InvalidateInstructions, 0),
    plain(0xC000_1200, Kind::InvalidateFloats, 0),
    plain(0xC000_1300, Kind::InvalidateIntegers, 0),
    plain(0xC000_1400, Kind::InvalidateBooleans, 0),
    plain(0xC000_1500, Kind::InvalidateConditional, 0),
    plain(0xC000_1600, Kind::InvalidateInputs, 0),
    plain(0xC000_1700, Kind::FlushOutputs, 0),
    plain(0xC000_1800, Kind::FlushConditional, 0),
    plain(0xC000_1900, Kind::SetOutputMask, OUTPUT_MASK_BITS),
    plain(0xC000_1A00, Kind::SetConditionalMask, CONDITIONAL_MASK_BITS),
    plain(0xC000_1B00, Kind::SetTest, TEST_BITS),
];

/// The table's line for a header word.
#[inline(always)]
pub(super) fn line_of(header: u32) -> Option<&'static Line> {
    let operation = (header >> 8 & 0xFF) as usize;
    TABLE.get(operation).filter(|line| line.header == header)
}

/// The command's words to the front of the room, and how many they are. 3, 4, 5, 6, then 11.
#[inline(never)]
pub fn write_command(command: &Command, room: &mut [u32]) -> Answer<usize> {
    use Command::*;
    match *command {
        WaitForIdle => put(room, [0xC000_0900, 0]),
        InvalidateInstructions => put(room, [0xC000_1100, 0]),
        InvalidateFloats => put(room, [0xC000_1200, 0]),
        InvalidateIntegers => put(room, [0xC000_1300, 0]),
        InvalidateBooleans => put(room, [0xC000_1400, 0]),
        InvalidateConditional => put(room, [0xC000_1500, 0]),
        InvalidateInputs => put(room, [0xC000_1600, 0]),
        FlushOutputs => put(room, [0xC000_1700, 0]),
        FlushConditional => put(room, [0xC000_1800, 0]),
        SetInstructions(format) => put_short_format(room, 0xC001_0A00, format),
        SetFloats(format) => put_short_format(room, 0xC001_0E00, format),
        SetIntegers(format) => put_short_format(room, 0xC001_0F00, format),
        SetBooleans(format) => put_short_format(room, 0xC001_1000, format),
        SetInput(number, format) => {
            put_numbered(room, 0xC003_0B00, number, INPUT_BITS, ONE_CHANNEL, format)
        }
        SetOutput(number, format) => {
            put_numbered(room, 0xC003_0C00, number, OUTPUT_BITS, CODES, format)
        }
        SetConditional(format) => put_conditional(room, format),
        SetOutputMask(mask) => put_bits(room, 0xC000_1900, mask, OUTPUT_MASK_BITS),
        SetConditionalMask(mask) => put_bits(room, 0xC000_1A00, mask, CONDITIONAL_MASK_BITS),
        SetTest(test) => put_bits(room, 0xC000_1B00, test, TEST_BITS),
        SetDomain(domain) => put_domain(room, domain),
        Start => put(room, [0xC000_0800, 0]),
    }
}

#[inline(always)]
fn put<const N: usize>(room: &mut [u32], words: [u32; N]) -> Answer<usize> {
    room.get_mut(..N).ok_or(ROOM)?.copy_from_slice(&words);
    Ok(N)
}

#[inline(always)]
fn put_bits(room: &mut [u32], header: u32, word: u32, bits: u32) -> Answer<usize> {
    if word & !bits != 0 {
        return Err(MALFORMED);
    }
    put(room, [header, word])
}

fn put_short_format(room: &mut [u32], header: u32, format: Format) -> Answer<usize> {
    // a height is no word of these commands: it is 1
    let format = Format {
        height: 1,
        ..format
    };
    well_formed(&format, CODES)?;
    format.window()?;
    put(room, [header, format.base, format.word])
}

fn put_conditional(room: &mut [u32], format: Format) -> Answer<usize> {
    well_formed(&format, CODES)?;
    format.window()?;
    put(room, [0xC002_0D00, format.base, format.word, format.height])
}

fn put_numbered(
    room: &mut [u32],
    header: u32,
    number: u32,
    bits: u32,
    superfine_codes: u32,
    format: Format,
) -> Answer<usize> {
    well_formed(&format, superfine_codes)?;
    if number & !bits != 0 {
        return Err(NUMBER);
    }
    format.window()?;
    put(
        room,
        [header, number, format.base, format.word, format.height],
    )
}

fn put_domain(room: &mut [u32], domain: Domain) -> Answer<usize> {
    let Domain { i0, j0, i1, j1 } = domain;
    if (i0 | j0 | i1 | j1) & !PLACE_BITS != 0 {
        return Err(MALFORMED);
    }
    domain.in_order()?;
    put(room, [0xC003_0700, i0, j0, i1, j1])
}

/// A format's own 3: reserved bits of its words, its code, and superfine on several channels where that is barred.
#[inline(always)]
fn well_formed(format: &Format, superfine_codes: u32) -> Answer<()> {
    let reserved =
        format.base & BASE_RESERVED | format.word & !FORMAT_BITS | format.height & !HEIGHT_BITS;
    let codes = if format.word & SUPERFINE != 0 {
        superfine_codes
    } else {
        CODES
    };
    if reserved != 0 || codes >> format.code() & 1 == 0 {
        return Err(MALFORMED);
    }
    Ok(())
}
