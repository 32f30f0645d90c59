//! A group's whole state, as either program has it.

use crate::case::{Agreement, Case};
use crate::loops::{LOOP, REP};
use egretfold::lengths::CELLS;
use egretfold::lent;
use second::flow::{Group, Loop, Mode, Processor};

/// The first of the product's cells past its returns.
const REST: usize = 12;

/// The cells of the mode, of the killed and of the innermost loop, counted from there.
const MODE: usize = 0;
const KILLED: usize = 1;
const LOOPS: usize = 2;

/// One group of each program, which take the same steps.
#[derive(Clone)]
pub struct Both {
    pub product: egretfold::Group,
    pub second: Group,
}

/// A group's state, from either program.
#[derive(Clone, Debug, PartialEq, Eq)]
pub struct Seen {
    members: u32,
    active: u32,
    /// Of all 32 processors, 0 for active ones and those above the group.
    counters: [u32; 32],
    position: u32,
    /// Oldest first.
    returns: Vec<u32>,
    /// What is told of the loops: the aL shown, then kind, count and aL of each of
    /// four, innermost first.
    loops: [u32; 13],
    /// The product's cells past its returns: the mode, the killed, the open loops, and zeros.
    rest: [u32; CELLS - REST],
    /// Whether the product's own check takes its cells, as it does all that it gave out.
    checked: bool,
}

impl Both {
    /// Compares the two groups' states.
    pub fn agree(&self, case: &Case, asked: impl Fn() -> String) -> Agreement {
        let asked = || format!("the group after {}", asked());
        case.agree(asked, &seen(&self.product), &seen_in_second(&self.second))
    }
}

pub fn seen(group: &egretfold::Group) -> Seen {
    let mut counters = [0; 32];
    for (number, counter) in (0..).zip(&mut counters) {
        *counter = group.counter(number);
    }
    let mut rest = [0; CELLS - REST];
    rest.copy_from_slice(&group.cells()[REST..]);
    // Filled, so that each number is seen to be written.
    let mut loops = [u32::MAX; 13];
    lent::group_loops(group, &mut loops);
    Seen {
        members: group.mask(),
        active: group.active(),
        counters,
        position: group.position(),
        returns: group.returns(),
        loops,
        rest,
        checked: lent::group_check(group.cells()),
    }
}

pub fn seen_in_second(group: &Group) -> Seen {
    let mut seen = Seen {
        members: 0,
        active: 0,
        counters: [0; 32],
        position: group.position,
        returns: group.returns.clone(),
        loops: [0; 13],
        rest: [0; CELLS - REST],
        checked: true,
    };
    seen.rest[MODE] = match group.mode {
        Mode::Full => 0,
        Mode::Partial => 1,
    };
    seen.loops[0] = group.al();
    for (place, open) in group.loops.iter().rev().enumerate() {
        let (told, cell) = loop_seen(open);
        seen.loops[3 * place + 1..][..3].copy_from_slice(&told);
        seen.rest[LOOPS + place] = cell;
    }
    seen.rest[KILLED] = group.killed;
    for (number, processor) in group.processors.iter().enumerate() {
        if group.killed >> number & 1 == 1 {
            continue;
        }
        seen.members |= 1 << number;
        match processor {
            Processor::Active => seen.active |= 1 << number,
            Processor::Inactive(counter) => seen.counters[number] = *counter,
        }
    }
    seen
}

/// What the product tells of a loop, and the cell that holds it.
fn loop_seen(open: &Loop) -> ([u32; 3], u32) {
    match *open {
        Loop::Rep { count } => ([REP, count, 0], count),
        Loop::Loop { count, al, step } => {
            let step = step as u32 & 0xFF;
            ([LOOP, count, al], count | al << 8 | step << 16 | 1 << 24)
        }
    }
}
