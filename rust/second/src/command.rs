//! Document 01, "The command words": the table of known headers with the kinds
//! of their parameters, the bits that each kind may have, and the writer.

use crate::layout::{judge, Layout};
use crate::session::Format;
use crate::{bits, Answer};

/// A command: its header word and its parameter words, 0 past the last.
#[derive(Clone, Copy, Debug, PartialEq, Eq)]
pub struct Command {
    pub header: u32,
    pub fields: [u32; 4],
}

/// What a parameter word means, which fixes the bits it may have.
#[derive(Clone, Copy, Debug, PartialEq, Eq)]
pub(crate) enum Kind {
    /// Must be 0; a command keeps nothing of it.
    Reserved,
    /// An input's number, the whole word.
    InputNumber,
    /// An output's number, the whole word.
    OutputNumber,
    /// Bits 31:11.
    Base,
    /// A format word to which the superfine rule doesn't apply.
    Format,
    /// An input's format word, to which the superfine rule applies.
    InputFormat,
    /// Bits 12:0.
    Height,
    /// Bits 15:0, bit 4n+c for output n, channel c.
    OutputMask,
    /// Bit 0.
    ConditionalMask,
    /// Bits 2:0.
    Test,
    /// One of the domain's four numbers, bits 11:0.
    DomainEnd,
}

/// One line of the command table.
#[derive(Debug)]
pub(crate) struct Line {
    pub header: u32,
    pub parameters: &'static [Kind],
}

pub(crate) const SET_DOMAIN: u32 = 0xC003_0700;
pub(crate) const START_PROGRAM: u32 = 0xC000_0800;
pub(crate) const SET_INST_FMT: u32 = 0xC001_0A00;
pub(crate) const SET_INP_FMT: u32 = 0xC003_0B00;
pub(crate) const SET_OUT_FMT: u32 = 0xC003_0C00;
pub(crate) const SET_COND_OUT_FMT: u32 = 0xC002_0D00;
pub(crate) const SET_CONSTF_FMT: u32 = 0xC001_0E00;
pub(crate) const SET_CONSTI_FMT: u32 = 0xC001_0F00;
pub(crate) const SET_CONSTB_FMT: u32 = 0xC001_1000;
pub(crate) const SET_OUT_MASK: u32 = 0xC000_1900;
pub(crate) const SET_COND_OUT_MASK: u32 = 0xC000_1A00;
pub(crate) const SET_COND_TEST: u32 = 0xC000_1B00;

const RESERVED: &[Kind] = &[Kind::Reserved];
const BASE_FORMAT: &[Kind] = &[Kind::Base, Kind::Format];
const INPUT: &[Kind] = &[
    Kind::InputNumber,
    Kind::Base,
    Kind::InputFormat,
    Kind::Height,
];
const OUTPUT: &[Kind] = &[Kind::OutputNumber, Kind::Base, Kind::Format, Kind::Height];
const CONDITIONAL: &[Kind] = &[Kind::Base, Kind::Format, Kind::Height];
const DOMAIN: &[Kind] = &[
    Kind::DomainEnd,
    Kind::DomainEnd,
    Kind::DomainEnd,
    Kind::DomainEnd,
];

/// "Only these are known". The two headers of set_domain and start_program are
/// the guide's, which document 01 puts in place of its house words.
pub(crate) static TABLE: [Line; 21] = [
    // wait_for_idle
    line(0xC000_0900, RESERVED),
    // invalidate the instruction, float, integer, boolean constant, conditional
    // output and input caches
    line(0xC000_1100, RESERVED),
    line(0xC000_1200, RESERVED),
    line(0xC000_1300, RESERVED),
    line(0xC000_1400, RESERVED),
    line(0xC000_1500, RESERVED),
    line(0xC000_1600, RESERVED),
    // flush the output and conditional output caches
    line(0xC000_1700, RESERVED),
    line(0xC000_1800, RESERVED),
    line(SET_INST_FMT, BASE_FORMAT),
    line(SET_CONSTF_FMT, BASE_FORMAT),
    line(SET_CONSTI_FMT, BASE_FORMAT),
    line(SET_CONSTB_FMT, BASE_FORMAT),
    line(SET_INP_FMT, INPUT),
    line(SET_OUT_FMT, OUTPUT),
    line(SET_COND_OUT_FMT, CONDITIONAL),
    line(SET_OUT_MASK, &[Kind::OutputMask]),
    line(SET_COND_OUT_MASK, &[Kind::ConditionalMask]),
    line(SET_COND_TEST, &[Kind::Test]),
    line(SET_DOMAIN, DOMAIN),
    line(START_PROGRAM, RESERVED),
];

const fn line(header: u32, parameters: &'static [Kind]) -> Line {
    Line { header, parameters }
}

/// The header's line of the table; 2 if it stands in none.
pub(crate) fn line_of(header: u32) -> Answer<&'static Line> {
    for line in &TABLE {
        if line.header == header {
            return Ok(line);
        }
    }
    Err(2)
}

/// How many parameters a header announces; 2 if it isn't known.
pub fn parameters(header: u32) -> Answer<u32> {
    let line = line_of(header)?;
    Ok(line.parameters.len() as u32)
}

/// What a format code says of an element.
#[derive(Clone, Copy, Debug, PartialEq, Eq)]
pub(crate) struct FormatCode {
    pub code: u32,
    pub size: u32,
    pub channels: u32,
}

const CODES: [FormatCode; 5] = [
    // UINT16_1, UINT8_4, FLOAT32_1, FLOAT32_2, FLOAT32_4
    code(0, 2, 1),
    code(1, 4, 4),
    code(2, 4, 1),
    code(3, 8, 2),
    code(4, 16, 4),
];

const fn code(code: u32, size: u32, channels: u32) -> FormatCode {
    FormatCode {
        code,
        size,
        channels,
    }
}

impl FormatCode {
    /// The code in bits 26:24 of a format word; `None` for 5 to 7.
    pub(crate) fn of(format: u32) -> Option<FormatCode> {
        let wanted = bits(format, 26, 24);
        CODES.iter().copied().find(|known| known.code == wanted)
    }
}

/// Whether no reserved bit of a format word is set and its code is known. The
/// named bits are 12:2, 16, 17 and 26:24.
pub(crate) fn format_word_is_allowed(format: u32) -> bool {
    bits(format, 1, 0) == 0
        && bits(format, 15, 13) == 0
        && bits(format, 23, 18) == 0
        && bits(format, 31, 27) == 0
        && FormatCode::of(format).is_some()
}

/// Bit 17.
pub(crate) fn is_superfine(format: u32) -> bool {
    bits(format, 17, 17) == 1
}

/// The layout that a base, a format word and a height describe; `None` where the
/// code names no size. Superfine plays no part in it.
pub(crate) fn layout_of(base: u32, format: u32, height: u32) -> Option<Layout> {
    let code = FormatCode::of(format)?;
    Some(Layout {
        base,
        // "the word's bits 12:0 with the low two zero"
        pitch: bits(format, 12, 2) * 4,
        height,
        size: code.size,
        tiled: bits(format, 16, 16) == 1,
    })
}

/// The refusal (3 or 4) that a parameter word causes by itself.
pub(crate) fn judge_word(kind: Kind, word: u32) -> Answer<()> {
    let allowed = match kind {
        Kind::Reserved => word == 0,
        Kind::InputNumber => return if word > 15 { Err(4) } else { Ok(()) },
        Kind::OutputNumber => return if word > 3 { Err(4) } else { Ok(()) },
        Kind::Base => bits(word, 10, 0) == 0,
        Kind::Format => format_word_is_allowed(word),
        Kind::InputFormat => format_word_is_allowed(word) && superfine_rule_holds(word),
        Kind::Height => bits(word, 31, 13) == 0,
        Kind::OutputMask => bits(word, 31, 16) == 0,
        Kind::ConditionalMask => bits(word, 31, 1) == 0,
        Kind::Test => bits(word, 31, 3) == 0,
        Kind::DomainEnd => bits(word, 31, 12) == 0,
    };
    if allowed {
        Ok(())
    } else {
        Err(3)
    }
}

/// "Superfine on an input with several channels (codes 1, 3, 4) gets 3".
fn superfine_rule_holds(format: u32) -> bool {
    match FormatCode::of(format) {
        Some(code) => !is_superfine(format) || code.channels == 1,
        None => false,
    }
}

/// The format that a command sets, if it sets one. Where the command has no
/// height (instructions and constants), the height is 1.
pub(crate) fn format_of(line: &Line, fields: &[u32; 4]) -> Option<Format> {
    let mut base = None;
    let mut format = None;
    let mut height = 1;
    for (place, kind) in line.parameters.iter().enumerate() {
        match kind {
            Kind::Base => base = Some(fields[place]),
            Kind::Format | Kind::InputFormat => format = Some(fields[place]),
            Kind::Height => height = fields[place],
            _ => {}
        }
    }
    Some(Format {
        base: base?,
        format: format?,
        height,
    })
}

/// The refusal (5, then 6) that a command's words cause together. Each of them
/// has passed [`judge_word`].
pub(crate) fn judge_together(line: &Line, fields: &[u32; 4]) -> Answer<()> {
    if line.header == SET_DOMAIN {
        let [i0, j0, i1, j1] = *fields;
        if i0 > i1 || j0 > j1 {
            return Err(5);
        }
    }
    if let Some(format) = format_of(line, fields) {
        let layout = layout_of(format.base, format.format, format.height).ok_or(3u32)?;
        judge(&layout)?;
    }
    Ok(())
}

/// The command's words. 2 for an unknown header; then all fields are asked for
/// 3, then for 4, then 5 and 6, and last the room, counted in words, for 11.
/// A reserved parameter has no field, so its word is 0 whatever stands there.
pub fn write(command: &Command, room: usize) -> Answer<Vec<u32>> {
    let line = line_of(command.header)?;
    let fields = written_fields(line, &command.fields);
    for wanted in [3, 4] {
        for (kind, field) in line.parameters.iter().zip(fields) {
            if judge_word(*kind, field) == Err(wanted) {
                return Err(wanted);
            }
        }
    }
    judge_together(line, &fields)?;
    let mut words = vec![line.header];
    words.extend(&fields[..line.parameters.len()]);
    if room < words.len() {
        return Err(11);
    }
    Ok(words)
}

/// The fields that the command has; 0 for the others.
fn written_fields(line: &Line, given: &[u32; 4]) -> [u32; 4] {
    let mut fields = [0; 4];
    for (place, kind) in line.parameters.iter().enumerate() {
        if *kind != Kind::Reserved {
            fields[place] = given[place];
        }
    }
    fields
}

#[cfg(test)]
mod tests {
    use super::*;

    fn command(header: u32, fields: [u32; 4]) -> Command {
        Command { header, fields }
    }

    fn written(header: u32, fields: [u32; 4]) -> Answer<Vec<u32>> {
        write(&command(header, fields), 5)
    }

    #[test]
    fn the_table_obeys_the_header_rule() {
        for line in &TABLE {
            assert_eq!(bits(line.header, 31, 30), 3);
            let count = bits(line.header, 29, 16) + 1;
            assert_eq!(count as usize, line.parameters.len());
            assert_eq!(bits(line.header, 7, 0), 0);
            assert_eq!(parameters(line.header), Ok(count));
        }
    }

    #[test]
    fn the_operations_are_7_to_1b_once_each() {
        let mut operations: Vec<u32> = TABLE.iter().map(|l| bits(l.header, 15, 8)).collect();
        operations.sort_unstable();
        let wanted: Vec<u32> = (0x07..=0x1B).collect();
        assert_eq!(operations, wanted);
    }

    #[test]
    fn headers_that_differ_in_one_bit_get_2() {
        for line in &TABLE {
            for bit in (0..8).chain(16..32) {
                let other = line.header ^ 1 << bit;
                assert_eq!(parameters(other), Err(2), "{other:08X}");
                assert_eq!(written(other, [0; 4]), Err(2), "{other:08X}");
            }
        }
    }

    #[test]
    fn headers_of_no_line_get_2() {
        // The house words that the guide's replace, the guide's commands that
        // document 01 leaves out, and others.
        for header in [
            0xC003_8000,
            0xC000_8100,
            0xC000_0600,
            0xC000_1C00,
            0xC001_0200,
            0xC000_0300,
            0xC000_0400,
            0xC001_0500,
            0,
            u32::MAX,
            0xC000_0000,
        ] {
            assert_eq!(parameters(header), Err(2), "{header:08X}");
            assert_eq!(write(&command(header, [9; 4]), 0), Err(2), "{header:08X}");
        }
    }

    /// The kind's bits that may be set, tried bit by bit.
    fn free_bits(kind: Kind, rest: u32) -> u32 {
        let mut free = 0;
        for bit in 0..32 {
            if judge_word(kind, rest | 1 << bit).is_ok() {
                free |= 1 << bit;
            }
        }
        free
    }

    #[test]
    fn reserved_bits_of_each_kind() {
        assert_eq!(free_bits(Kind::Reserved, 0), 0);
        assert_eq!(free_bits(Kind::Base, 0), 0xFFFF_F800);
        assert_eq!(free_bits(Kind::Format, 0), 0x0703_1FFC);
        assert_eq!(free_bits(Kind::Height, 0), 0x1FFF);
        assert_eq!(free_bits(Kind::OutputMask, 0), 0xFFFF);
        assert_eq!(free_bits(Kind::ConditionalMask, 0), 1);
        assert_eq!(free_bits(Kind::Test, 0), 7);
        assert_eq!(free_bits(Kind::DomainEnd, 0), 0xFFF);
        assert_eq!(free_bits(Kind::InputFormat, 0), 0x0703_1FFC);
        // With superfine, of the codes with one bit only 2 has one channel.
        assert_eq!(free_bits(Kind::InputFormat, 1 << 17), 0x0203_1FFC);
    }

    #[test]
    fn numbers_get_4_and_never_3() {
        for word in [0, 1, 3] {
            assert_eq!(judge_word(Kind::OutputNumber, word), Ok(()));
        }
        for word in [4, 15, 16, 0x8000_0000, u32::MAX] {
            assert_eq!(judge_word(Kind::OutputNumber, word), Err(4));
        }
        for word in [0, 4, 15] {
            assert_eq!(judge_word(Kind::InputNumber, word), Ok(()));
        }
        for word in [16, 17, 0x8000_0000, u32::MAX] {
            assert_eq!(judge_word(Kind::InputNumber, word), Err(4));
        }
    }

    #[test]
    fn codes_and_the_superfine_rule() {
        for code in 0..8u32 {
            let plain = code << 24 | 32;
            let fine = plain | 1 << 17;
            let known = if code <= 4 { Ok(()) } else { Err(3) };
            assert_eq!(judge_word(Kind::Format, plain), known);
            assert_eq!(judge_word(Kind::Format, fine), known);
            assert_eq!(judge_word(Kind::InputFormat, plain), known);
            let single = if code == 0 || code == 2 {
                Ok(())
            } else {
                Err(3)
            };
            assert_eq!(judge_word(Kind::InputFormat, fine), single);
        }
    }

    #[test]
    fn a_format_word_in_parts() {
        let layout = layout_of(0x800, 0x0201_0064, 18).unwrap();
        assert_eq!(layout.pitch, 100);
        assert_eq!(layout.size, 4);
        assert!(layout.tiled);
        let sizes: Vec<u32> = (0..5)
            .map(|code| layout_of(0, code << 24, 1).unwrap().size)
            .collect();
        assert_eq!(sizes, [2, 4, 4, 8, 16]);
        assert_eq!(layout_of(0, 0x0500_0000, 1), None);
        assert_eq!(layout_of(0, 0x1FFC, 1).unwrap().pitch, 8188);
    }

    #[test]
    fn the_writer_gives_the_words() {
        assert_eq!(
            written(SET_OUT_FMT, [0, 0x800, 0x0201_0064, 0x12]),
            Ok(vec![0xC003_0C00, 0, 0x800, 0x0201_0064, 0x12])
        );
        assert_eq!(
            written(SET_INST_FMT, [0x1000, 0x0400_0010, 0, 0]),
            Ok(vec![0xC001_0A00, 0x1000, 0x0400_0010])
        );
        assert_eq!(
            written(SET_DOMAIN, [0, 0, 0x5F, 0x11]),
            Ok(vec![0xC003_0700, 0, 0, 0x5F, 0x11])
        );
        assert_eq!(
            written(SET_COND_TEST, [7, 0, 0, 0]),
            Ok(vec![0xC000_1B00, 7])
        );
        // Superfine is kept where it is ignored.
        assert_eq!(
            written(SET_COND_OUT_FMT, [0, 0x0402_0010, 1, 0]),
            Ok(vec![0xC002_0D00, 0, 0x0402_0010, 1])
        );
    }

    #[test]
    fn reserved_parameters_and_fields_past_the_last_are_not_looked_at() {
        for line in &TABLE {
            if line.parameters == RESERVED {
                assert_eq!(written(line.header, [9; 4]), Ok(vec![line.header, 0]));
            }
        }
        assert_eq!(
            written(SET_OUT_MASK, [5, u32::MAX, u32::MAX, u32::MAX]),
            Ok(vec![SET_OUT_MASK, 5])
        );
        assert_eq!(
            written(SET_INST_FMT, [0, 0x20, u32::MAX, 0]),
            Ok(vec![SET_INST_FMT, 0, 0x20])
        );
    }

    #[test]
    fn the_writers_3() {
        for (header, fields) in [
            (SET_INP_FMT, [0, 1, 0x20, 1]),
            (SET_INP_FMT, [0, 0x400, 0x20, 1]),
            (SET_INP_FMT, [0, 0, 0x0102_0020, 1]),
            (SET_OUT_FMT, [0, 0, 0x0500_0020, 1]),
            (SET_OUT_FMT, [0, 0, 0x21, 1]),
            (SET_OUT_FMT, [0, 0, 0x20, 8192]),
            (SET_COND_OUT_FMT, [0, 0x20, u32::MAX, 0]),
            (SET_OUT_MASK, [0x1_0000, 0, 0, 0]),
            (SET_COND_OUT_MASK, [2, 0, 0, 0]),
            (SET_COND_TEST, [8, 0, 0, 0]),
            (SET_DOMAIN, [0, 0, 4096, 0]),
        ] {
            assert_eq!(written(header, fields), Err(3), "{header:08X} {fields:X?}");
        }
    }

    #[test]
    fn the_writers_order() {
        // 3 of any field beats 4 of the number, 4 beats 6, 5 and 6 beat 11.
        assert_eq!(written(SET_INP_FMT, [16, 1, 0x20, 0]), Err(3));
        assert_eq!(written(SET_INP_FMT, [16, 0, 0x20, 8192]), Err(3));
        assert_eq!(written(SET_INP_FMT, [16, 0, 0x0302_0020, 1]), Err(3));
        assert_eq!(written(SET_INP_FMT, [16, 0, 0, 0]), Err(4));
        assert_eq!(written(SET_OUT_FMT, [4, 0, 0x20, 1]), Err(4));
        assert_eq!(written(SET_OUT_FMT, [u32::MAX, 0, 0x20, 0]), Err(4));
        assert_eq!(written(SET_DOMAIN, [5, 0, 4, 4096]), Err(3));
        let crossed = command(SET_DOMAIN, [5, 0, 4, 0]);
        assert_eq!(write(&crossed, 0), Err(5));
        let flat = command(SET_OUT_FMT, [3, 0, 0x20, 0]);
        assert_eq!(write(&flat, 0), Err(6));
    }

    #[test]
    fn the_writers_5() {
        assert_eq!(written(SET_DOMAIN, [1, 0, 0, 0]), Err(5));
        assert_eq!(written(SET_DOMAIN, [0, 1, 0, 0]), Err(5));
        assert_eq!(written(SET_DOMAIN, [4095, 4095, 4095, 4094]), Err(5));
        assert!(written(SET_DOMAIN, [4095, 4095, 4095, 4095]).is_ok());
        assert!(written(SET_DOMAIN, [0, 0, 0, 0]).is_ok());
    }

    #[test]
    fn the_writers_6() {
        for height in [0, 4097, 8191] {
            assert_eq!(written(SET_OUT_FMT, [0, 0, 0x20, height]), Err(6));
            assert_eq!(written(SET_COND_OUT_FMT, [0, 0x20, height, 0]), Err(6));
        }
        assert!(written(SET_OUT_FMT, [0, 0, 0x20, 4096]).is_ok());
        // Instructions and constants have height 1.
        for header in [SET_INST_FMT, SET_CONSTF_FMT, SET_CONSTI_FMT, SET_CONSTB_FMT] {
            assert_eq!(written(header, [0, 0, 0, 0]), Err(6));
            // FLOAT32_4, 128 columns: 2,048 bytes; 130 columns are too many.
            assert!(written(header, [0xFFFF_F800, 0x0400_0080, 0, 0]).is_ok());
            assert_eq!(written(header, [0xFFFF_F800, 0x0400_0084, 0, 0]), Err(6));
            // Tiled, a whole row of tiles is needed.
            assert!(written(header, [0xFFFF_F800, 0x0401_0010, 0, 0]).is_ok());
            assert_eq!(written(header, [0xFFFF_F800, 0x0401_0020, 0, 0]), Err(6));
        }
    }

    #[test]
    fn the_writers_room() {
        for line in &TABLE {
            let fields = match line.parameters {
                BASE_FORMAT => [0, 0x20, 0, 0],
                CONDITIONAL => [0, 0x20, 1, 0],
                INPUT | OUTPUT => [0, 0, 0x20, 1],
                _ => [0; 4],
            };
            let needed = line.parameters.len() + 1;
            for room in 0..8 {
                let answer = write(&command(line.header, fields), room);
                if room < needed {
                    assert_eq!(answer, Err(11));
                } else {
                    assert_eq!(answer.map(|words| words.len()), Ok(needed));
                }
            }
        }
    }
}
