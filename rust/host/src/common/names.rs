//! The names of document 01 and of the guide: commands, their parameters, the
//! element formats. What a word means is asked of the product; this table only
//! gives it a name.

use egretfold::headers;

/// What a parameter word is.
#[derive(Clone, Copy, Debug, PartialEq, Eq)]
pub enum Kind {
    Reserved,
    Input,
    Output,
    Base,
    Format,
    Height,
    OutputMask,
    ConditionalMask,
    Test,
    I0,
    J0,
    I1,
    J1,
}

/// A line of the command table.
#[derive(Debug)]
pub struct Line {
    pub header: u32,
    pub name: &'static str,
    pub parameters: &'static [Kind],
}

pub const INPUTS: u32 = 16;
pub const OUTPUTS: u32 = 4;

const QUIET: &[Kind] = &[Kind::Reserved];
const STORE: &[Kind] = &[Kind::Base, Kind::Format];
const INPUT: &[Kind] = &[Kind::Input, Kind::Base, Kind::Format, Kind::Height];
const OUTPUT: &[Kind] = &[Kind::Output, Kind::Base, Kind::Format, Kind::Height];
const CONDITIONAL: &[Kind] = &[Kind::Base, Kind::Format, Kind::Height];
const DOMAIN: &[Kind] = &[Kind::I0, Kind::J0, Kind::I1, Kind::J1];

const fn line(header: u32, parameters: &'static [Kind]) -> Line {
    let name = match headers::name(header) {
        Some(name) => name,
        None => panic!("every header here has a name"),
    };
    Line {
        header,
        name,
        parameters,
    }
}

/// The commands in the order of their operations.
pub const COMMANDS: [Line; 21] = [
    line(headers::SET_DOMAIN, DOMAIN),
    line(headers::START_PROGRAM, QUIET),
    line(headers::WAIT_FOR_IDLE, QUIET),
    line(headers::SET_INST_FMT, STORE),
    line(headers::SET_INP_FMT, INPUT),
    line(headers::SET_OUT_FMT, OUTPUT),
    line(headers::SET_COND_OUT_FMT, CONDITIONAL),
    line(headers::SET_CONSTF_FMT, STORE),
    line(headers::SET_CONSTI_FMT, STORE),
    line(headers::SET_CONSTB_FMT, STORE),
    line(headers::INV_INST_CACHE, QUIET),
    line(headers::INV_CONSTF_CACHE, QUIET),
    line(headers::INV_CONSTI_CACHE, QUIET),
    line(headers::INV_CONSTB_CACHE, QUIET),
    line(headers::INV_COND_OUT_CACHE, QUIET),
    line(headers::INV_INP_CACHE, QUIET),
    line(headers::FLUSH_OUT_CACHE, QUIET),
    line(headers::FLUSH_COND_OUT_CACHE, QUIET),
    line(headers::SET_OUT_MASK, &[Kind::OutputMask]),
    line(headers::SET_COND_OUT_MASK, &[Kind::ConditionalMask]),
    line(headers::SET_COND_TEST, &[Kind::Test]),
];

/// The line with this header.
pub fn command(header: u32) -> Option<&'static Line> {
    COMMANDS.iter().find(|line| line.header == header)
}

/// The line with this name.
pub fn command_named(name: &str) -> Option<&'static Line> {
    COMMANDS.iter().find(|line| line.name == name)
}

/// The name that goes with a header, also where there is none.
pub fn command_name(header: u32) -> &'static str {
    command(header).map_or("no command", |line| line.name)
}

impl Kind {
    /// The parameter's name in a listing and in JSON.
    pub fn name(self) -> &'static str {
        match self {
            Kind::Reserved => "reserved",
            Kind::Input => "input",
            Kind::Output => "output",
            Kind::Base => "base",
            Kind::Format => "format",
            Kind::Height => "height",
            Kind::OutputMask => "mask",
            Kind::ConditionalMask => "conditional mask",
            Kind::Test => "test",
            Kind::I0 => "i0",
            Kind::J0 => "j0",
            Kind::I1 => "i1",
            Kind::J1 => "j1",
        }
    }

    /// The bits that document 01 names; all others are reserved. An input or
    /// output number is the whole word.
    pub fn named_bits(self) -> u32 {
        match self {
            Kind::Reserved => 0,
            Kind::Input | Kind::Output => u32::MAX,
            Kind::Base => 0xFFFF_F800,
            Kind::Format => 0x0703_1FFC,
            Kind::Height => 0x1FFF,
            Kind::OutputMask => 0xFFFF,
            Kind::ConditionalMask => 1,
            Kind::Test => 7,
            Kind::I0 | Kind::J0 | Kind::I1 | Kind::J1 => 0xFFF,
        }
    }
}

/// A conditional test: its name, and how it is written between value and buffer.
pub struct Test {
    pub name: &'static str,
    /// None where nothing is compared.
    pub sign: Option<&'static str>,
}

const fn test(name: &'static str, sign: Option<&'static str>) -> Test {
    Test { name, sign }
}

/// The conditional tests by their numbers, 0 to 7.
const TESTS: [Test; 8] = [
    test("never", None),
    test("less", Some("<")),
    test("less or equal", Some("<=")),
    test("equal", Some("=")),
    test("at least", Some(">=")),
    test("greater", Some(">")),
    test("not equal", Some("<>")),
    test("always", None),
];

/// The test with this number.
pub fn conditional_test(number: u32) -> Option<&'static Test> {
    TESTS.get(number as usize)
}

/// An element format: its name, its size in bytes and its channels.
pub struct ElementFormat {
    pub name: &'static str,
    pub size: u32,
    pub channels: u32,
}

const fn element(name: &'static str, size: u32, channels: u32) -> ElementFormat {
    ElementFormat {
        name,
        size,
        channels,
    }
}

/// The formats by their codes, 0 to 4.
const FORMATS: [ElementFormat; 5] = [
    element("UINT16_1", 2, 1),
    element("UINT8_4", 4, 4),
    element("FLOAT32_1", 4, 1),
    element("FLOAT32_2", 8, 2),
    element("FLOAT32_4", 16, 4),
];

/// A format word's fields, read off its bits.
#[derive(Clone, Copy, Debug, PartialEq, Eq)]
pub struct FormatWord(pub u32);

impl FormatWord {
    pub fn pitch(self) -> u32 {
        self.0 & 0x1FFC
    }

    pub fn tiled(self) -> bool {
        self.0 >> 16 & 1 == 1
    }

    pub fn superfine(self) -> bool {
        self.0 >> 17 & 1 == 1
    }

    pub fn code(self) -> u32 {
        self.0 >> 24 & 7
    }

    /// The code's format, where it has one.
    pub fn element(self) -> Option<&'static ElementFormat> {
        FORMATS.get(self.code() as usize)
    }
}

#[cfg(test)]
mod tests {
    use super::{command, command_named, COMMANDS};
    use egretfold::headers::NAMES;

    #[test]
    fn the_table_is_the_products() {
        for line in &COMMANDS {
            let count = line.parameters.len() as u32;
            assert_eq!(
                egretfold::parameters(line.header),
                Ok(count),
                "{}",
                line.name
            );
        }
        // The boundary names every header that the product knows.
        for (header, name) in NAMES {
            assert!(command(header).is_some(), "{name}");
        }
    }

    #[test]
    fn names_and_headers_find_the_same_line() {
        for line in &COMMANDS {
            let by_name = command_named(line.name).map(|found| found.header);
            let by_header = command(line.header).map(|found| found.name);
            assert_eq!((by_name, by_header), (Some(line.header), Some(line.name)));
            // By this `encode` tells a name from a word.
            assert!(line.name.contains('_'));
        }
    }
}
