//! `egretfold fleet`: a month of many stations, scored against their lease lines.
//!
//! The lease file is read by `leases`, with `cells` and `files`; the logs are read side by
//! side by `stations`, and added to the product's report. `commands` gives the lines for
//! scoring elsewhere, `scores` reads what they print, and `join` holds it against the lease
//! file. A `month` of cards, each `kept` in a `spool` with its `briefs` in memory, is told as
//! `text`, as `rows`, as a `page` and as a folder of `cards`, which `verify` holds against their
//! logs; `lessees` has what each lessee's stations come to.

mod briefs;
mod cards;
pub mod cells;
mod commands;
pub mod files;
mod held;
mod join;
mod kept;
mod leases;
mod lessees;
pub mod month;
pub mod page;
mod rows;
pub mod scores;
mod spool;
mod states;
pub mod stations;
pub mod text;
mod verify;
mod workers;

use crate::common::digits::Digits;
use crate::common::edition::{self, EditionOption};
use crate::common::failure::{Failure, Outcome};
use crate::common::files::Files;
use crate::common::replaced::{Goes, Kind};
use crate::fleet::join::By;
use crate::fleet::leases::{Leases, Row, Rows};
use crate::fleet::month::{Fleet, Only, Sort};
use crate::fleet::page::linked::{self, Linked};
use crate::fleet::stations::Group;
use crate::replay::pieces::RepeatOption;
use crate::score::civil::Date;
use crate::score::issue;
use clap::Args;
use egretfold::Edition;
use std::io::{self, Write};
use std::path::{Path, PathBuf};

/// Printed behind the help text.
pub const EXAMPLES: &str = "\
The lease file has a row a station, as a spreadsheet writes it, below a row of names: station, log,
first day, days, owed; lessee, first date, state, lease (its number) and time zone may stand there
too. A log is a file, several parted by semicolons, a folder of daily files in name order, or a
pattern with * and ?, from the lease file's folder on. All that is wrong with the file is told at
once, before any log is read.
A state is a file to go on from, as --save-states saved it, or the folder that it is in; where it is blank the log
is read from nothing.
A station whose log is refused or can't be read is told in its row, and the others are scored.
Exit status: 0 all full or nothing owed, 3 one is short, 1 one has no score, 2 a wrong command line or
lease file.
With --verify each card is verified, differs, or is unreadable, missing or nobody's, as egretfold verify --help tells, and its
lease line and names are held against the lease file's. Exit status: 0 all are verified, 1 one differs, is missing or is
nobody's, 2 one is unreadable.

Examples, from the repository's root:
  egretfold fleet samples/leases.csv
  egretfold fleet samples/leases.csv --sort station --csv
  egretfold fleet samples/leases.csv --csv-days
  egretfold fleet samples/leases.csv --html april.html --cards cards
  egretfold fleet samples/leases.csv --verify cards
  egretfold fleet samples/leases.csv --lessee Harbour --only short
  egretfold fleet samples/leases.csv --commands | sh >scores; egretfold fleet samples/leases.csv --from-scores scores";

#[derive(Args)]
pub struct Options {
    /// The lease file, a row a station; standard input for -
    #[arg(value_name = "LEASES.csv", required_unless_present = "from_scores")]
    leases: Option<PathBuf>,
    /// Join the lines of score --json in these files, in place of reading logs; with a lease file, each of its stations is
    /// due, else the fleet is who stands there
    #[arg(long, value_name = "FILE", num_args = 1.., conflicts_with = "number")]
    from_scores: Option<Vec<PathBuf>>,
    /// With --from-scores and a lease file: hold each score's digest against its log, where that can be read here
    #[arg(long, requires = "from_scores", requires = "leases")]
    check_logs: bool,
    /// Print the line of score --json for each station, and read no log
    #[arg(long, conflicts_with_all = ["from_scores", "json", "csv", "csv_days", "csv_lessees", "plain", "html", "cards", "only"])]
    commands: bool,
    /// Print the lines of those stations alone that have no score in these files, or one that says that the log couldn't
    /// be read
    #[arg(long, value_name = "FILE", num_args = 1.., requires = "commands")]
    missing: Option<Vec<PathBuf>>,
    /// The order of the stations
    #[arg(long, value_enum, default_value_t = Sort::Worst)]
    sort: Sort,
    /// The stations of this lessee alone; where no scores are joined, no other log is read
    #[arg(long, value_name = "NAME")]
    lessee: Option<String>,
    /// Tell these stations alone; totals, cards and exit status are of all
    #[arg(long, value_enum, value_name = "KIND")]
    only: Option<Only>,
    /// One JSON object a station, a lessee and for the fleet, a line each
    #[arg(long, conflicts_with_all = ["csv", "csv_lessees"])]
    json: bool,
    /// One row of comma-separated values a station
    #[arg(long, conflicts_with = "csv_lessees")]
    csv: bool,
    /// One row of comma-separated values for each day of each station that has a score
    #[arg(long, conflicts_with_all = ["json", "csv", "csv_lessees"])]
    csv_days: bool,
    /// One row of comma-separated values a lessee, of what its stations come to
    #[arg(long, conflicts_with = "only")]
    csv_lessees: bool,
    /// Large numbers without commas between their digits
    #[arg(long, conflicts_with_all = ["json", "csv", "csv_days", "csv_lessees"])]
    plain: bool,
    /// Write the month as a page for a browser, into this file; an earlier page of ours there is replaced,
    /// nothing else; - for standard output, in place of the text. With more than 100 stations their cards are files beside it, in the
    /// folder of --cards, or of april.html in april-cards
    #[arg(long, value_name = "FILE")]
    html: Option<PathBuf>,
    /// Keep all cards in the page, however many stations there are
    #[arg(long, requires = "html")]
    one_file: bool,
    /// Draw each station's card into this folder, in place of its earlier one
    #[arg(long, value_name = "DIR")]
    cards: Option<PathBuf>,
    /// Hold each station's card in this folder, which --cards wrote, against its log, which is scored anew
    #[arg(long, value_name = "FOLDER", requires = "leases",
        conflicts_with_all = ["from_scores", "commands", "csv", "csv_days", "plain", "html", "cards", "save_states", "sort", "issued"])]
    verify: Option<PathBuf>,
    /// Save each station's state at its log's end in this folder, by the station's name, for the column state of the next
    /// month's lease file; an earlier state of the same station there is replaced, nothing else
    #[arg(long, value_name = "FOLDER", conflicts_with = "from_scores")]
    save_states: Option<PathBuf>,
    /// The date of issue; today (UTC) where none is given
    #[arg(long, value_name = "YYYY-MM-DD", value_parser = Date::parse)]
    issued: Option<Date>,
    #[command(flatten)]
    repeat: RepeatOption,
    #[command(flatten)]
    edition: EditionOption,
}

impl Options {
    /// Names the files of the line but for those that the lease file names.
    pub fn name(&self, files: &mut Files) {
        files.reads("LEASES.csv", self.leases.as_deref());
        for scores in self.from_scores.iter().flatten() {
            files.reads("--from-scores", Some(scores));
        }
        for scores in self.missing.iter().flatten() {
            files.reads("--missing", Some(scores));
        }
        files.writes("--html", self.html.as_deref());
    }
}

pub fn run(options: &Options, files: &mut Files, out: &mut dyn Write) -> Outcome {
    let edition = options.edition.accepted().map_err(edition::refused)?;
    let rows = [options.csv, options.csv_days, options.csv_lessees];
    let for_programs = options.json || rows.contains(&true);
    let form = for_programs.then_some("--json, --csv, --csv-days and --csv-lessees");
    let html = Goes::asked(options.html.as_deref(), Kind::Html, form)?;
    let date = issue::day_of(options.issued);
    let rows = match &options.leases {
        Some(file) => Some(options.rows(file, (edition, date))?),
        None => None,
    };
    if let Some(rows) = &rows {
        name_rows(rows, options, files)?;
    }
    if let Some(folder) = &options.save_states {
        cards::folder(folder)?;
    }
    let rows = match rows {
        Some(rows) if options.commands => {
            let rows = match &options.missing {
                Some(scored) => join::missing(scored, &rows)?,
                None => rows,
            };
            return commands::tell(&options.asked_for(rows)?, out);
        }
        rows => rows,
    };
    let joined = match &options.from_scores {
        Some(scored) => Some(options.joined(scored, rows.as_ref())?),
        None => None,
    };
    let stations = match (&joined, &rows) {
        (Some(joined), _) => joined.cards.briefs().len(),
        (None, Some(rows)) => options.count(rows)?,
        (None, None) => 0,
    };
    if options.html.is_some() {
        page::holds(stations)?;
    }
    let folder = options.cards_folder(stations);
    if let Some(folder) = &folder {
        if let (Some(joined), None) = (&joined, &rows) {
            let stations = joined.cards.names(|card| card.station().to_string());
            let stations = stations.collect::<io::Result<Vec<String>>>()?;
            cards::are_apart(&stations)?;
            for station in &stations {
                cards::name(folder, station, files);
            }
            files.are_apart()?;
        }
        cards::folder(folder)?;
    }
    let mut group = match (joined, rows) {
        (Some(joined), _) => joined,
        (None, Some(rows)) => stations::read(edition, &options.asked_for(rows)?)?,
        (None, None) => Group::new(edition, 0),
    };
    files.states(std::mem::take(&mut group.states));
    let fleet = Fleet::new(group, options.sort, options.only, date)?;
    if let Some(folder) = &options.verify {
        return verify::run(&fleet, folder, options.json, out);
    }
    if let Some(folder) = &folder {
        // Of one lessee, those of the others may stand there too.
        cards::write(&fleet, folder, options.lessee.is_none(), files)?;
    }
    let told = match &options.html {
        Some(_) => {
            let linked = options.linked(stations, folder.as_deref());
            let page = page::html(&fleet, linked.as_ref())?;
            html.write(|| page, files, out)
        }
        None => Ok(()),
    };
    let told = told.and_then(|()| match options {
        _ if html.is_standard() => Ok(()),
        Options { json: true, .. } => rows::json(&fleet, out),
        Options { csv: true, .. } => rows::csv(&fleet, out),
        Options { csv_days: true, .. } => rows::csv_days(&fleet, out),
        Options {
            csv_lessees: true, ..
        } => lessees::csv(&fleet.subtotals, out),
        _ => text::tell(&fleet, Digits::plain(options.plain), out),
    });
    let outcome = fleet.outcome().map_err(|failure| {
        let saved = options.save_states.as_ref();
        failure.hinted(saved.map(|_| "no state is saved without a score".to_string()))
    });
    Failure::both(outcome, told)
}

/// Names the files that the lease file tells of: the stations' cards, and their logs, which are read where there are no scores, and
/// also by who runs the lines of --commands.
fn name_rows(rows: &Rows, options: &Options, files: &mut Files) -> Outcome {
    if let Some(folder) = &options.cards_folder(options.count(rows)?) {
        for row in rows.iter() {
            let row = row?;
            if options.is_asked_for(&row) {
                cards::name(folder, row.station(), files);
            }
        }
    }
    if let Some(folder) = &options.verify {
        verify::name(folder, rows, files)?;
    }
    for row in rows.iter() {
        let row = row?;
        for file in &row.asked.files {
            files.reads_last(|| format!("the log of station {}", row.station()), file);
        }
        let what = format!("the state of station {}", row.station());
        files.reads(&what, row.asked.resume.as_deref());
        files.writes(states::OPTION, row.save.as_deref());
    }
    files.are_apart()
}

impl Options {
    /// The lease file's rows, or all that is wrong with them for what is asked.
    fn rows(&self, file: &Path, by: (Edition, Date)) -> Outcome<Rows> {
        let mut leases = Leases::read(file, by, |row| {
            row.asked.repeats = self.repeat.repeated_pieces;
            states::put(self.save_states.as_deref(), row);
        })?;
        if let Some(folder) = &self.cards_folder(self.count(&leases.rows)?) {
            let faults = cards::faults(folder, &leases.rows)?;
            leases.add_faults(faults);
        }
        if self.save_states.is_some() {
            let faults = states::faults(&leases.rows)?;
            leases.add_faults(faults);
        }
        if self.commands {
            let faults = commands::faults(&leases.rows)?;
            leases.add_faults(faults);
        }
        let rows = leases.rows()?;
        match &self.lessee {
            Some(lessee) if self.count(&rows)? == 0 => {
                let known = rows.iter().map(|row| Ok(row?.asked.issue));
                Err(lessees::unknown(lessee, known))
            }
            _ => Ok(rows),
        }
    }

    /// Whether a row is of the lessee whose stations are asked for, or all are.
    fn is_asked_for(&self, row: &Row) -> bool {
        let lessee = self.lessee.as_deref();
        lessee.map_or(true, |lessee| row.asked.issue.is_leased_to(lessee))
    }

    fn count(&self, rows: &Rows) -> io::Result<usize> {
        if self.lessee.is_none() {
            return Ok(rows.len());
        }
        let count = rows.iter().map(|row| Ok(self.is_asked_for(&row?)));
        count.map(|is| is.map(usize::from)).sum()
    }

    fn asked_for(&self, rows: Rows) -> io::Result<Rows> {
        if self.lessee.is_none() {
            return Ok(rows);
        }
        let mut asked_for = Rows::new();
        for row in rows.iter() {
            let row = row?;
            if self.is_asked_for(&row) {
                asked_for.push(&row)?;
            }
        }
        Ok(asked_for)
    }

    /// The scores that came, of the lessee whose stations are asked for.
    fn joined(&self, scored: &[PathBuf], rows: Option<&Rows>) -> Outcome<Group> {
        let by = By {
            rows,
            logs: self.check_logs,
            issued: self.issued,
        };
        let joined = join::joined(scored, &by)?;
        match &self.lessee {
            Some(lessee) => lessees::stations_of(lessee, joined),
            None => Ok(joined),
        }
    }

    /// Whether so many stations' cards are files that the page leads to.
    fn is_linked(&self, stations: usize) -> bool {
        let page = self.html.as_deref().filter(|page| *page != Path::new("-"));
        page.is_some() && !self.one_file && stations > linked::WHOLE
    }

    /// Where cards are drawn: as it was asked, else beside the page of a large fleet.
    fn cards_folder(&self, stations: usize) -> Option<PathBuf> {
        let page = self.html.as_deref().filter(|_| self.is_linked(stations));
        self.cards.clone().or_else(|| page.map(linked::beside))
    }

    fn linked(&self, stations: usize, folder: Option<&Path>) -> Option<Linked> {
        let page = self.html.as_deref().filter(|_| self.is_linked(stations))?;
        Some(Linked::new(page, folder?))
    }
}
