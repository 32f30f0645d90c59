//! What the words of two parties met, counted for the tests to look at: 20 and what comes before it, masks that name
//! another's outputs, and a party that goes on beside a stopped one.

use crate::commands;
use crate::lessees::is_one;
use crate::mixture::{Word, OF_PARTY_0};
use crate::tally::Tally;
use egretfold::headers::{SET_INP_FMT, SET_OUT_FMT, SET_OUT_MASK, START_PROGRAM};
use egretfold::Party;
use second::layout::judge;
use second::lessees::Lessees;
use second::session::{Format, Reply};
use second::Answer;

/// Counts a word's answer, by the session before it and after it.
pub fn count(
    tally: &mut Tally,
    before: &Lessees,
    after: &Lessees,
    (party, word): Word,
    answer: &Answer<Reply>,
) {
    let open = before.open(is_one(party));
    let number = matches!(open, Some((SET_INP_FMT | SET_OUT_FMT, 0)));
    match answer {
        Err(20) => tally.mark(match (open, party) {
            (None, _) => "headers of party 0's by party 1",
            (Some((SET_INP_FMT, _)), Party::Zero) => "inputs of party 1's by party 0",
            (Some((SET_INP_FMT, _)), Party::One) => "inputs of party 0's by party 1",
            (Some(_), Party::Zero) => "outputs of party 1's by party 0",
            (Some(_), Party::One) => "outputs of party 0's by party 1",
        }),
        // Nobody owns such a number, and 4 comes first.
        Err(4) if number => tally.mark("numbers that nobody has"),
        Err(1) if party == Party::One && OF_PARTY_0.contains(&word) => {
            tally.mark("headers of party 0's by party 1, stopped");
        }
        Ok(reply) => {
            if before.stopped(!is_one(party)) {
                tally.mark("words taken beside a stopped party");
            }
            if let Reply::Done(command) = reply {
                completed(tally, before, after, party, (command.header, word));
            }
        }
        _ => {}
    }
}

fn completed(
    tally: &mut Tally,
    before: &Lessees,
    after: &Lessees,
    party: Party,
    (header, word): (u32, u32),
) {
    if header == SET_OUT_MASK && after.output_mask() != word {
        tally.mark("masks that leave another's bits");
        if before.output_mask() != after.output_mask() {
            tally.mark("masks that leave another's bits and change one's own");
        }
    }
    if header == START_PROGRAM {
        tally.mark(match party {
            Party::Zero => "starts of party 0",
            Party::One => "starts of party 1",
        });
        if before.stopped(!is_one(party)) {
            tally.mark("starts beside a stopped party");
        }
        if outputs_share_a_byte(after) {
            tally.mark("starts with two outputs that share a byte");
        }
    }
}

/// Two set outputs that share a byte: in a start that passed, one of them is silent or another's.
fn outputs_share_a_byte(session: &Lessees) -> bool {
    let set = (0..4).filter_map(|number| session.output(number).ok().flatten());
    let spans: Vec<(u64, u64)> = set.filter_map(|format| span(&format)).collect();
    spans.iter().enumerate().any(|(place, (first, end))| {
        let mut later = spans[place + 1..].iter();
        later.any(|(other, other_end)| first < other_end && other < end)
    })
}

/// The first byte of a window, and one past its last.
fn span(format: &Format) -> Option<(u64, u64)> {
    let layout = commands::layout(format.base, format.format, format.height);
    let first = u64::from(format.base);
    Some((first, first + judge(&layout).ok()?.span))
}
