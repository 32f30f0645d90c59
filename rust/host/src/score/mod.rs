//! `egretfold score`: a month of a station's log, scored against its lease line.

pub mod asked;
pub mod block;
pub mod card;
pub mod checks;
pub mod civil;
pub mod issue;
pub mod month;
pub mod outline;
pub mod picture;
pub mod rows;
pub mod sample;
mod station;

use crate::common::digits::Digits;
use crate::common::edition::EditionOption;
use crate::common::failure::{Failure, Outcome};
use crate::common::files::Files;
use crate::common::replaced::{Goes, Kind};
use crate::fleet::files::{self, Named};
use crate::fleet::{cells, page};
use crate::input::numbers;
use crate::input::source::Source;
use crate::replay::log::Log;
use crate::replay::pieces::RepeatOption;
use crate::replay::resumed::StateOptions;
use crate::score::asked::{accepted, dates, month_of, wrong_from, Asked, Card, LeaseLine};
use crate::score::civil::Date;
use crate::score::issue::Issue;
use crate::score::month::Score;
use clap::Args;
use egretfold::{Edition, Verdict};
use std::io::{self, Write};
use std::path::PathBuf;

/// Printed behind the help text.
pub const EXAMPLES: &str = "\
A lease line is the number of its first day, 1 to 31 days, and 0 to 100000000 elements owed a
day; the last day's number is below 2^32. A day is served what it claimed, up to what it owes;
a day without a midnight in the log is served 0. A month is full where every day owes more
than 0 and is served in full, \"nothing owed\" where days owe 0, else short. A dark day is
served nothing of what it owes.
With --edition 2 a pair counts the unmasked channels of each output, where edition 1 counts an
output that isn't silent once.
Exit status: 0 full or nothing owed, 3 short, 1 refused, 2 a wrong command line or file. With --engine it is 0 in all
of these cases, once the line that says which is printed.
Where there is no score, a card asked for with --svg or --html says so, in place of an earlier one.
--save keeps the state at the log's end in a file, and --resume goes on from it: so a month whose set-up lies in the
month before is scored from its own files, for years. A lease may begin on the last day that the state has, not
earlier: it keeps that one alone.

Examples, from the repository's root:
  egretfold score samples/station-14.log --first-day 101 --days 30 --owed 14000000
  egretfold score samples/station-15 --first-day 101 --days 30 --owed 14,000,000
  egretfold score samples/station-14.log --first-day 101 --days 30 --owed 56000000 --edition 2
  egretfold score samples/full-month.log --first-day 131 --days 31 --owed 14000000 --from 2026-05-01 --csv
  egretfold score samples/station-14.log --first-day 101 --days 30 --owed 14000000 --from 2026-04-01 --svg april.svg --station 14 --lessee 'the harbour'
  egretfold score samples/station-14-april.log --resume samples/station-14-march.state --first-day 101 --days 30 --owed 14000000";

#[derive(Args)]
pub struct Options {
    /// The log; several files in their order are one log, and so are a folder's, in name order; standard input for - or where
    /// none is given
    #[arg(value_name = "LOG")]
    files: Vec<PathBuf>,
    /// The number of the lease's first day
    #[arg(long, value_name = "D", value_parser = numbers::count, allow_negative_numbers = true)]
    first_day: u32,
    /// How many days the lease has, 1 to 31
    #[arg(long, value_name = "N", value_parser = numbers::count, allow_negative_numbers = true)]
    days: u32,
    /// Elements owed a day, 0 to 100000000, or as 14,000,000
    #[arg(long, value_name = "K", value_parser = cells::grouped, allow_negative_numbers = true)]
    owed: u32,
    /// The first day's date, to show dates beside the days' numbers
    #[arg(long, value_name = "YYYY-MM-DD", value_parser = Date::parse)]
    from: Option<Date>,
    /// One JSON object a day and for the whole, a line each
    #[arg(long, conflicts_with = "csv")]
    json: bool,
    /// One row of comma-separated values a day
    #[arg(long)]
    csv: bool,
    /// Large numbers without commas between their digits
    #[arg(long, conflicts_with_all = ["json", "csv"])]
    plain: bool,
    /// Draw the month as a calendar to be printed, into this file; an earlier picture of ours there is replaced,
    /// nothing else; - for standard output, in place of the text
    #[arg(long, value_name = "FILE")]
    svg: Option<PathBuf>,
    /// Write the month as a page for a browser, whole in this file; an earlier page of ours there is replaced,
    /// nothing else; - for standard output, in place of the text
    #[arg(long, value_name = "FILE")]
    html: Option<PathBuf>,
    /// End with 0 once the month's line is printed, whatever it says: for engines, to which another status is a failure
    #[arg(long, requires = "json")]
    engine: bool,
    #[command(flatten)]
    repeat: RepeatOption,
    #[command(flatten)]
    state: StateOptions,
    #[command(flatten)]
    edition: EditionOption,
    #[command(flatten)]
    issue: issue::IssueOptions,
}

impl Options {
    /// Names the files of the line.
    pub fn name(&self, files: &mut Files) {
        files.reads_all("LOG", &self.logs().files);
        self.state.name(files);
        files.writes("--svg", self.svg.as_deref());
        files.writes("--html", self.html.as_deref());
    }

    /// The log's files, those of folders among them.
    fn logs(&self) -> Named {
        files::in_folders(&self.files)
    }

    fn asked(&self) -> Asked {
        let logs = self.logs();
        logs.tell_passed();
        Asked {
            edition: self.edition.number,
            line: LeaseLine {
                first_day: self.first_day,
                days: self.days,
                owed: self.owed,
            },
            from: self.from,
            resume: self.state.resume.clone(),
            saves: self.state.saves(),
            repeats: self.repeat.repeated_pieces,
            files: logs.files,
            called: None,
            issue: Issue::new(&self.issue),
        }
    }

    /// What goes to standard output beside a picture or a page that is asked for there.
    fn form(&self) -> Option<&'static str> {
        (self.json || self.csv).then_some("--json and --csv")
    }
}

/// Where the picture and the page go.
struct Places {
    svg: Goes,
    html: Goes,
}

impl Places {
    fn asked(options: &Options) -> Outcome<Places> {
        let svg = Goes::asked(options.svg.as_deref(), Kind::Svg, options.form())?;
        let taken = options.form().or(svg.is_standard().then_some("--svg -"));
        let html = Goes::asked(options.html.as_deref(), Kind::Html, taken)?;
        Ok(Places { svg, html })
    }

    /// Where there is no score they say so, in place of earlier ones, which would no
    /// longer be true.
    fn write(&self, card: &Card, files: &mut Files, out: &mut dyn Write) -> Outcome {
        self.svg.write(|| picture::svg(card), files, out)?;
        self.html.write(|| page::of_one(card), files, out)
    }

    fn take_standard(&self) -> bool {
        self.svg.is_standard() || self.html.is_standard()
    }
}

pub fn run(options: &Options, files: &mut Files, out: &mut dyn Write) -> Outcome {
    let places = Places::asked(options)?;
    let saved = options.state.place()?;
    let asked = options.asked();
    let (card, log) = asked.scored()?;
    let told = places.write(&card, files, out);
    let told = if places.take_standard() {
        told
    } else {
        told.and_then(|()| show_as_asked(options, &card, out))
    };
    let ended = if options.engine {
        Ok(())
    } else {
        card.outcome()
    };
    let outcome = match (saved, log) {
        (Some(saved), Some(log)) => saved.save(&log, &asked.whose(), ended, files),
        _ => ended,
    };
    Failure::both(outcome, told)
}

fn show_as_asked(options: &Options, card: &Card, out: &mut dyn Write) -> Outcome {
    match card {
        _ if options.json => rows::json(card, out),
        Card::Scored(score) if options.csv => csv(score, out),
        Card::Scored(score) => card::text(score, Digits::plain(options.plain), out),
        Card::Unscored(_) => Ok(()),
    }
}

/// The card of a log that is at hand.
pub fn show(source: Source, line: LeaseLine, from: Date, out: &mut dyn Write) -> Outcome<Verdict> {
    let lease = accepted(line).map_err(Failure::wrong)?;
    let mut log = Log::new(Edition::First);
    log.read(vec![source])?;
    let dates = dates(Some(from), &lease).map_err(wrong_from)?;
    let score = Score::new(lease, dates, month_of(&log, &lease)?, &log, Issue::nobody());
    card::text(&score, Digits::Grouped, out)?;
    Ok(score.month.verdict)
}

/// The rows have no place for what is told below the card, so it goes to standard
/// error.
fn csv(score: &Score, out: &mut dyn Write) -> Outcome {
    rows::csv(score, out)?;
    out.flush()?;
    for check in &score.checks {
        // Where standard error is closed, the rows must do.
        let _ = writeln!(io::stderr(), "check before sending: {}", check.text);
    }
    Ok(())
}
