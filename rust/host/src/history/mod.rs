//! `egretfold history`: months' scores side by side, station by station.
//!
//! The scores are read by the fleet's own reader; `months` puts them beside each other by their `period`, `odds`
//! tells where they contradict each other, and the forms are the `text`, the `rows` for programs and the `page`.

mod months;
mod odds;
mod page;
mod period;
mod rows;
mod text;

use crate::common::digits::Digits;
use crate::common::failure::{Failure, Outcome};
use crate::common::files::Files;
use crate::common::replaced::{Goes, Kind};
use crate::common::text::count;
use crate::fleet::scores;
use crate::history::months::History;
use crate::score::civil::Date;
use crate::score::issue;
use clap::Args;
use std::io::Write;
use std::path::PathBuf;

/// Printed behind the help text.
pub const EXAMPLES: &str = "\
SCORES are files of what score --json and fleet --json print, a month or many in a file, in any order. Stations are
known by their names, and months stand beside each other by their dates, or by their days' numbers where there are none.
What is worse than the month before is told, and where scores contradict each other: the same days with other
numbers, leases that overlap, dates that don't go with the days, another edition. These months are shown, and nothing
is reckoned from them.
Exit status: 0 fine, 1 scores contradict each other, 2 a wrong command line or a file that has no scores.

Examples, from the repository's root:
  for month in april may june; do egretfold fleet samples/months/$month.csv --json >$month.scores; done
  egretfold history april.scores may.scores june.scores
  egretfold history *.scores --html history.html";

#[derive(Args)]
pub struct Options {
    /// Lines of score --json or fleet --json; standard input for - or where none is given
    #[arg(value_name = "SCORES")]
    files: Vec<PathBuf>,
    /// One JSON object a station and month, a line each, then one a month and one for the whole
    #[arg(long)]
    json: bool,
    /// Large numbers without commas between their digits
    #[arg(long, conflicts_with = "json")]
    plain: bool,
    /// Write a page for a browser, whole in this file; an earlier page of ours there is replaced,
    /// nothing else; - for standard output, in place of the text
    #[arg(long, value_name = "FILE")]
    html: Option<PathBuf>,
    /// The date of issue, for the page; today (UTC) where none is given
    #[arg(long, value_name = "YYYY-MM-DD", value_parser = Date::parse)]
    issued: Option<Date>,
}

impl Options {
    /// Names the files of the line.
    pub fn name(&self, files: &mut Files) {
        files.reads_all("SCORES", &self.files);
        files.writes("--html", self.html.as_deref());
    }
}

pub fn run(options: &Options, files: &mut Files, out: &mut dyn Write) -> Outcome {
    let form = options.json.then_some("--json");
    let html = Goes::asked(options.html.as_deref(), Kind::Html, form)?;
    let outlines = scores::outlines(&options.files)?;
    if outlines.is_empty() {
        return Err(Failure::wrong("there is no score in these files"));
    }
    let history = History::of(outlines)?;
    let date = issue::day_of(options.issued);
    let told = html.write(|| page::html(&history, date), files, out);
    let told = told.and_then(|()| {
        if html.is_standard() {
            Ok(())
        } else if options.json {
            rows::json(&history, date, out)
        } else {
            text::tell(&history, Digits::plain(options.plain), out)
        }
    });
    let outcome = match history.odds.len() as u64 {
        0 => Ok(()),
        odds => Err(Failure::Refused(format!(
            "the scores contradict each other: {}",
            count(odds, "contradiction")
        ))),
    };
    Failure::both(outcome, told)
}
