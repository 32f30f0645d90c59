//! The form of a fleet's month that people read on a terminal.

use crate::common::digits::Digits;
use crate::common::failure::Outcome;
use crate::common::text;
use crate::fleet::lessees;
use crate::fleet::month::{station, Fleet};
use crate::score::asked::Card;
use crate::score::month::{shown, Day, Score, Served};
use std::io::{self, Write};

/// A row's columns but the last, which is as long as it is.
const COLUMNS: usize = 7;

/// A column is no wider; a longer name moves its own row alone.
const WIDEST: usize = 60;

struct Row {
    columns: [String; COLUMNS],
    behind: String,
}

/// A heading, a row a station and the totals, the four numbers in words, the dark days,
/// and what to check before cards are sent.
pub fn tell(fleet: &Fleet, digits: Digits, out: &mut dyn Write) -> Outcome {
    writeln!(out, "fleet of {}", fleet.heading())?;
    if let Some(rule) = fleet.rule {
        writeln!(out, "{rule}")?;
    }
    writeln!(out)?;
    table(fleet, digits, out)?;
    lessees::text(&fleet.subtotals, digits, out)?;
    writeln!(out)?;
    writeln!(out, "{}", four(fleet, digits))?;
    list(fleet, out, "dark days:", dark_days)?;
    list(fleet, out, "check before sending:", checks)?;
    list(fleet, out, "no score:", unscored)
}

/// The stations' lines below a heading, where there are any.
fn list<L: IntoIterator<Item = String>>(
    fleet: &Fleet,
    out: &mut dyn Write,
    heading: &str,
    lines: fn(&Card) -> L,
) -> Outcome {
    let mut read = Ok(());
    let cards = fleet
        .told()
        .map_while(|told| told.map_err(|error| read = Err(error)).ok());
    text::list(out, heading, cards.flat_map(|(_, card)| lines(&card)))?;
    Ok(read?)
}

/// The four numbers of the stations that have a score.
pub fn four(fleet: &Fleet, digits: Digits) -> String {
    let four = &fleet.four;
    let percent = match fleet.percent() {
        Some(percent) => format!(" ({percent})"),
        None => String::new(),
    };
    let (served, owed) = (digits.of(four.served), digits.of(four.owed));
    let days = text::count(four.silent_days, "dark day");
    let smallest = match fleet.smallest() {
        Some(station) => format!("smallest part: station {station}"),
        None => "no station owes anything".to_string(),
    };
    format!("served {served} of {owed} elements owed{percent}, {days}, {smallest}")
}

/// "14: 109 to 112 (2026-04-09 to 2026-04-12)".
fn dark_days(card: &Card) -> Option<String> {
    let dark = dark(card.score()?);
    (!dark.is_empty()).then(|| format!("{}: {}", station(card), dark))
}

/// The dark days of a month, those in a row as one.
pub fn dark(score: &Score) -> String {
    let mut rows: Vec<(&Day, &Day)> = Vec::new();
    for day in score.days.iter().filter(|day| day.is_dark()) {
        match rows.last_mut() {
            Some((_, last)) if last.number + 1 == day.number => *last = day,
            _ => rows.push((day, day)),
        }
    }
    let told = |(first, last): &(&Day, &Day)| {
        let date = |day: &Day| day.date.map(|date| date.to_string());
        let dates = date(first).zip(date(last));
        match (first.number == last.number, dates) {
            (true, Some((date, _))) => format!("{} ({date})", first.number),
            (true, None) => first.number.to_string(),
            (false, Some((from, to))) => {
                format!("{} to {} ({from} to {to})", first.number, last.number)
            }
            (false, None) => format!("{} to {}", first.number, last.number),
        }
    };
    rows.iter().map(told).collect::<Vec<_>>().join(", ")
}

fn checks(card: &Card) -> Vec<String> {
    let checks = card.score().map_or(&[][..], |score| &score.checks);
    let told = checks
        .iter()
        .map(|check| format!("{}: {}", station(card), check.text));
    told.collect()
}

fn unscored(card: &Card) -> Option<String> {
    match card {
        Card::Scored(_) => None,
        Card::Unscored(unscored) => {
            let why = unscored.why.replace('\n', ";");
            Some(format!("{}: {}", station(card), why))
        }
    }
}

/// The table, row by row: first how wide its columns are, then each of them.
fn table(fleet: &Fleet, digits: Digits, out: &mut dyn Write) -> Outcome {
    let all = || {
        let stations = fleet.told().map(move |told| Ok(row(&told?.1, digits)));
        let total = std::iter::once_with(move || Ok(total(fleet, digits)));
        let head = std::iter::once_with(|| io::Result::Ok(head()));
        head.chain(stations).chain(total)
    };
    let mut widths = [0; COLUMNS];
    for row in all() {
        for (width, column) in widths.iter_mut().zip(&row?.columns) {
            *width = column.chars().count().max(*width).min(WIDEST);
        }
    }
    let [a, b, c, d, e, f, g] = widths;
    // Without a column where no station has a lessee.
    let has_lessees = fleet.has_lessees();
    for row in all() {
        let row = row?;
        let [station, lessee, served, owed, part, dark, full] = &row.columns;
        let lessee = if has_lessees {
            format!("  {lessee:<b$}")
        } else {
            String::new()
        };
        let numbers = format!("{served:>c$}  {owed:>d$}  {part:>e$}  {dark:>f$}  {full:>g$}");
        let line = format!("{station:<a$}{lessee}  {numbers}  {}", row.behind);
        writeln!(out, "{}", line.trim_end())?;
    }
    Ok(())
}

fn head() -> Row {
    let names = [
        "station", "lessee", "served", "owed", "part", "dark", "full",
    ];
    Row {
        columns: names.map(String::from),
        behind: "verdict".to_string(),
    }
}

fn row(card: &Card, digits: Digits) -> Row {
    let lessee = card.issue().lessee.clone().unwrap_or_default();
    let station = station(card).to_string();
    let score = match card {
        Card::Scored(score) => score,
        Card::Unscored(unscored) => {
            let [served, owed, part, dark, full] = [(); 5].map(|()| "-".to_string());
            return Row {
                columns: [station, lessee, served, owed, part, dark, full],
                behind: unscored.name().to_string(),
            };
        }
    };
    let explained = match score.explanation() {
        Some(text) => format!(": perhaps because {text}"),
        None => String::new(),
    };
    Row {
        columns: [
            station,
            lessee,
            digits.of(score.month.served),
            digits.of(score.month.owed),
            shown(score.percent(), "-"),
            score.count(Served::Dark).to_string(),
            score.count(Served::InFull).to_string(),
        ],
        behind: format!("{}{explained}", score.verdict_name()),
    }
}

fn total(fleet: &Fleet, digits: Digits) -> Row {
    Row {
        columns: [
            "total".to_string(),
            String::new(),
            digits.of(fleet.four.served),
            digits.of(fleet.four.owed),
            shown(fleet.percent(), "-"),
            fleet.four.silent_days.to_string(),
            fleet.full_days().to_string(),
        ],
        behind: String::new(),
    }
}
