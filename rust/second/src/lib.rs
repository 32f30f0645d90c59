//! A second program for document 01, "Command streams, tile addresses and flow
//! words: exact rules". It is slow and plain on purpose: it is there to be
//! compared, answer by answer, with a program that was made another way.
//!
//! Each module follows one section of document 01, in that section's order:
//!
//! * [`command`]: the command table, the bits of each parameter, the writer;
//! * [`session`]: the reader of command words, its settings and its tallies;
//! * [`lessees`]: a session that two parties share, from document 02's request 9;
//! * [`layout`]: what a layout is, the row step, the span, the window rule;
//! * [`address`]: a pair's address, and the way back by search;
//! * [`picture`]: whole rectangles of elements, from document 02's request 13;
//! * [`memory`]: elements read and written in lent memory, the superfine read;
//! * [`flow`]: programs of flow words, and a group stepped through them, with the
//!   loops of document 02's request 4;
//! * [`log`]: a station's log over midnight, from document 02's request 1;
//! * [`survey`]: conditional output tests, from document 02's request 12;
//! * `silent`: outputs that a start passes over, from document 02's request 2;
//! * `edition`: what a pair is credited, from document 02's request 10;
//! * [`score`]: a month of a log scored against its lease line, from document
//!   02's request 5;
//! * [`fleet`]: the months of up to 64 stations in one report, from document 02's
//!   request 14;
//! * [`growing`]: that report over any number of stations, added one by one.
//!
//! Every refusal is document 01's number, as the `Err` of an [`Answer`].

#![forbid(unsafe_code)]

pub mod address;
pub mod command;
mod edition;
pub mod fleet;
pub mod flow;
pub mod growing;
pub mod layout;
pub mod lessees;
pub mod log;
pub mod memory;
pub mod picture;
pub mod score;
pub mod session;
mod silent;
pub mod survey;

/// What an entry answers: its result, or document 01's refusal number.
pub type Answer<T> = Result<T, u32>;

/// The bits `high` down to `low` of a word, moved down to bit 0. Document 01
/// names every field this way ("bits 12:0").
pub(crate) fn bits(word: u32, high: u32, low: u32) -> u32 {
    let count = high - low + 1;
    let cut = u64::from(word) >> low;
    // In 64 bits, so that 31:0 needs no case of its own; less than 2^32 again.
    (cut % (1u64 << count)) as u32
}

#[cfg(test)]
mod tests {
    use super::bits;

    #[test]
    fn bits_are_cut_out_and_moved_down() {
        assert_eq!(bits(0xFFFF_FFFF, 31, 0), 0xFFFF_FFFF);
        assert_eq!(bits(0xC003_0700, 31, 30), 3);
        assert_eq!(bits(0xC003_0700, 29, 16), 3);
        assert_eq!(bits(0xC003_0700, 15, 8), 7);
        assert_eq!(bits(0x8000_0000, 31, 31), 1);
        assert_eq!(bits(0x0000_1000, 11, 0), 0);
        assert_eq!(bits(0x0000_1FFF, 12, 12), 1);
    }
}
