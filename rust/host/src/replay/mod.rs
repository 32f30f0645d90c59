//! `egretfold replay`: a station's log, day by day.

mod about;
pub mod days;
mod first;
pub mod kept;
pub mod log;
pub mod pieces;
pub mod resumed;
mod wrong;

use crate::common::digits::Digits;
use crate::common::edition::{self, EditionOption};
use crate::common::failure::{Failure, Outcome};
use crate::common::files::Files;
use crate::input::source::Source;
use crate::replay::pieces::RepeatOption;
use crate::replay::resumed::{StateOptions, Whose};
use clap::Args;
use std::io::Write;
use std::path::PathBuf;

/// Printed behind the help text.
pub const EXAMPLES: &str = "\
A record is a byte of kind and a number of four bytes, low byte first: kind 1 a command
word, kind 2 a midnight with the number of the day that begins. Exit status 1 also where
a word was refused: the days go on, but later words add nothing.
--save keeps the state at the log's end in a file, also inside a command or a record; --resume goes on
from it, with the bytes that came behind. Of the days it keeps the last one alone: what ended before it is one
row. --save-all keeps them all. A log that is stopped isn't saved.

Examples, from the repository's root:
  egretfold replay samples/three-days.log
  egretfold replay --json samples/refused.log
  egretfold replay --csv samples/three-days.log
  egretfold replay --edition 2 samples/station-14.log
  head -c 98 samples/three-days.log | egretfold replay -
  egretfold replay samples/station-14-march.log --save march.state
  egretfold replay samples/station-14-april.log --resume samples/station-14-march.state";

#[derive(Args)]
pub struct Options {
    /// The log; several files in their order are one log; standard input for - or where none is given
    files: Vec<PathBuf>,
    /// One JSON object a part and for the whole, a line each
    #[arg(long, conflicts_with = "csv")]
    json: bool,
    /// One row of comma-separated values a part
    #[arg(long)]
    csv: bool,
    /// Large numbers without commas between their digits
    #[arg(long, conflicts_with_all = ["json", "csv"])]
    plain: bool,
    #[command(flatten)]
    repeat: RepeatOption,
    #[command(flatten)]
    state: StateOptions,
    #[command(flatten)]
    edition: EditionOption,
}

impl Options {
    /// Names the files of the line.
    pub fn name(&self, files: &mut Files) {
        files.reads_all("LOG", &self.files);
        self.state.name(files);
    }
}

pub fn run(options: &Options, files: &mut Files, out: &mut dyn Write) -> Outcome {
    let edition = options.edition.accepted().map_err(edition::refused)?;
    let saved = options.state.place()?;
    let log = options.state.begin(edition)?;
    let mut log = log.taking_repeats(options.repeat.repeated_pieces);
    let ended = log.read(Source::open_all(&options.files)?);
    if log.is_again() {
        return ended;
    }
    let told = match (options.json, options.csv) {
        (true, _) => days::json(&log, out),
        (_, true) => days::csv(&log, out),
        _ => days::table(&log, Digits::plain(options.plain), out),
    };
    Failure::both(ended, told)?;
    // What stopped the replay tells more than a word that it went on after.
    let outcome = match log.stop.as_ref().or(log.word.as_ref()) {
        Some(refused) => Err(Failure::Refused(log.complaint(refused)).hinted(log.hint())),
        None => Ok(()),
    };
    match saved {
        Some(saved) => saved.save(&log, &Whose::default(), outcome, files),
        None => outcome,
    }
}
