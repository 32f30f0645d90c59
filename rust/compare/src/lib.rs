//! The product, over its C boundary, compared with the second program, which was
//! made apart from it, on millions of made-up inputs: good ones, ones at the
//! edges of the rules, damaged ones and noise.
//!
//! There are sixteen kinds of cases, one module each:
//!
//! * [`addresses`]: layouts judged, pairs translated, addresses located back;
//! * [`memory`]: elements read and written in lent memory, superfine reads;
//! * [`streams`]: streams of command words, by words, in pieces and uncut;
//! * [`writer`]: commands written to words;
//! * [`flow`]: programs loaded, with and without loops, groups stepped and run;
//! * [`logs`]: logs of a station over midnight, cut anywhere;
//! * [`scores`]: months of such logs scored against lease lines;
//! * [`modes`]: groups in full and in partial mode, side by side;
//! * [`kills`]: groups killed in part between steps and runs, registers of floats;
//! * [`lessees`]: words of two parties on one card, mixed, and one party's replaced;
//! * [`surveys`]: conditional tests and surveys of domains;
//! * [`pictures`]: rectangles painted into memory and copied out of it;
//! * [`fleets`]: the logs and lease lines of up to 64 stations in one report;
//! * [`growing`]: that report over any number of stations, added and joined;
//! * [`states`]: states kept as bytes at random places, and gone on with;
//! * [`trims`]: logs of days and of years whose replays are trimmed on the way.
//!
//! Every case is made from its kind, a seed and its number alone, so that any
//! case can be run again by itself. The tests run fixed cases; the program
//! `compare` runs as many as it is given time for.

#![forbid(unsafe_code)]

pub mod addresses;
pub mod case;
pub mod commands;
pub mod editions;
pub mod fleets;
pub mod floats;
pub mod flow;
pub mod groups;
pub mod growing;
pub mod kills;
pub mod layouts;
pub mod lessees;
pub mod logs;
pub mod loops;
pub mod memory;
pub mod mixture;
pub mod modes;
pub mod options;
pub mod owned;
pub mod pictures;
pub mod programs;
pub mod random;
pub mod records;
pub mod reduced;
pub mod scores;
pub mod settings;
pub mod starts;
pub mod states;
pub mod streams;
pub mod surveys;
pub mod tally;
pub mod trims;
pub mod turns;
pub mod words;
pub mod writer;

use case::{Agreement, Case, Difference};
use random::Random;
use std::any::Any;
use std::fmt;
use std::ops::Range;
use std::panic::{catch_unwind, AssertUnwindSafe};
use tally::Tally;

#[derive(Clone, Copy, Debug, PartialEq, Eq)]
pub enum Kind {
    Addresses,
    Memory,
    Streams,
    Writer,
    Flow,
    Logs,
    Scores,
    Modes,
    Kills,
    Lessees,
    Surveys,
    Pictures,
    Fleets,
    States,
    Growing,
    Trims,
}

impl Kind {
    pub const ALL: [Kind; 16] = [
        Kind::Addresses,
        Kind::Memory,
        Kind::Streams,
        Kind::Writer,
        Kind::Flow,
        Kind::Logs,
        Kind::Scores,
        Kind::Modes,
        Kind::Kills,
        Kind::Lessees,
        Kind::Surveys,
        Kind::Pictures,
        Kind::Fleets,
        Kind::States,
        Kind::Growing,
        Kind::Trims,
    ];

    pub fn name(self) -> &'static str {
        match self {
            Kind::Addresses => "addresses",
            Kind::Memory => "memory",
            Kind::Streams => "streams",
            Kind::Writer => "writer",
            Kind::Flow => "flow",
            Kind::Logs => "logs",
            Kind::Scores => "scores",
            Kind::Modes => "modes",
            Kind::Kills => "kills",
            Kind::Lessees => "lessees",
            Kind::Surveys => "surveys",
            Kind::Pictures => "pictures",
            Kind::Fleets => "fleets",
            Kind::States => "states",
            Kind::Growing => "growing",
            Kind::Trims => "trims",
        }
    }

    pub fn named(name: &str) -> Option<Kind> {
        Kind::ALL.iter().copied().find(|kind| kind.name() == name)
    }

    fn run(self, case: &mut Case) -> Agreement {
        match self {
            Kind::Addresses => addresses::run(case),
            Kind::Memory => memory::run(case),
            Kind::Streams => streams::run(case),
            Kind::Writer => writer::run(case),
            Kind::Flow => flow::run(case),
            Kind::Logs => logs::run(case),
            Kind::Scores => scores::run(case),
            Kind::Modes => modes::run(case),
            Kind::Kills => kills::run(case),
            Kind::Lessees => lessees::run(case),
            Kind::Surveys => surveys::run(case),
            Kind::Pictures => pictures::run(case),
            Kind::Fleets => fleets::run(case),
            Kind::States => states::run(case),
            Kind::Growing => growing::run(case),
            Kind::Trims => trims::run(case),
        }
    }
}

/// A case that found a difference.
#[derive(Clone, Debug, PartialEq, Eq)]
pub struct Failure {
    pub kind: Kind,
    pub seed: u64,
    pub number: u64,
    pub difference: Difference,
}

impl fmt::Display for Failure {
    fn fmt(&self, f: &mut fmt::Formatter<'_>) -> fmt::Result {
        let (kind, seed, number) = (self.kind.name(), self.seed, self.number);
        writeln!(f, "A difference in case {number} of {kind}, seed {seed}:")?;
        writeln!(f, "{}", self.difference)?;
        writeln!(f, "To run this case by itself:")?;
        write!(
            f,
            "    ./compare --kind {kind} --seed {seed} --case {number}"
        )
    }
}

/// Runs one case. Aloud, it prints both answers of every comparison on the way.
pub fn run_case(
    kind: Kind,
    seed: u64,
    number: u64,
    tally: &mut Tally,
    aloud: bool,
) -> Result<(), Box<Failure>> {
    let random = Random::of_case(kind as u64, seed, number);
    let (_, agreement) = run_with(kind, random, tally, aloud);
    agreement.map_err(|difference| {
        Box::new(Failure {
            kind,
            seed,
            number,
            difference: *difference,
        })
    })
}

/// Runs the case that these numbers make: how many of them it drew, and what came of it.
pub fn run_with(kind: Kind, random: Random, tally: &mut Tally, aloud: bool) -> (usize, Agreement) {
    let mut case = Case {
        random,
        tally,
        aloud,
    };
    case.tally.cases += 1;
    // A program that panics is told from one that answers, with the same report.
    let ended = catch_unwind(AssertUnwindSafe(|| kind.run(&mut case)));
    let agreement = ended.unwrap_or_else(|panic| Err(Box::new(panicked(&*panic))));
    (case.random.drawn(), agreement)
}

/// What is told as asked where a program panicked.
pub const PANICKED: &str = "a call that did not come back";

fn panicked(panic: &(dyn Any + Send)) -> Difference {
    let text = panic
        .downcast_ref::<String>()
        .cloned()
        .or_else(|| panic.downcast_ref::<&str>().map(|text| text.to_string()))
        .unwrap_or_default();
    Difference {
        asked: PANICKED.to_string(),
        product: format!("panic: {text}"),
        expected: "an answer".to_string(),
    }
}

/// Runs the cases with these numbers, up to the first difference.
pub fn run_cases(
    kind: Kind,
    seed: u64,
    numbers: Range<u64>,
    tally: &mut Tally,
) -> Result<(), Box<Failure>> {
    for number in numbers {
        run_case(kind, seed, number, tally, false)?;
    }
    Ok(())
}
