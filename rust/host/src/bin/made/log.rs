//! Logs of stations with two cameras, for the programs that make samples and fleets.

use egretfold::headers::{SET_DOMAIN, SET_INST_FMT, SET_OUT_FMT, START_PROGRAM, WAIT_FOR_IDLE};

/// Two cameras of 640 x 480 pixels, UINT8_4 in tiles, each with an output
/// of its own. A frame claims 614,400 elements.
#[rustfmt::skip]
pub const CAMERAS: [u32; 18] = [
    SET_INST_FMT, 0x1000, 0x0400_0010,
    SET_OUT_FMT, 0, 0x0010_0000, 0x0101_0280, 480,
    SET_OUT_FMT, 1, 0x0030_0000, 0x0101_0280, 480,
    SET_DOMAIN, 0, 0, 639, 479,
];

pub const FRAME: [u32; 4] = [START_PROGRAM, 0, WAIT_FOR_IDLE, 0];

/// A log under way.
pub struct Log {
    pub bytes: Vec<u8>,
}

impl Log {
    pub fn new() -> Log {
        Log { bytes: Vec::new() }
    }

    /// One byte of kind, then the number's four bytes, low byte first.
    fn record(&mut self, kind: u8, number: u32) {
        self.bytes.push(kind);
        self.bytes.extend(number.to_le_bytes());
    }

    pub fn words(mut self, words: &[u32]) -> Log {
        for word in words {
            self.record(1, *word);
        }
        self
    }

    pub fn midnight(mut self, day: u32) -> Log {
        self.record(2, day);
        self
    }

    pub fn frames(self, count: usize) -> Log {
        self.words(&FRAME.repeat(count))
    }
}
