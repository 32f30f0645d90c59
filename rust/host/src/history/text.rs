//! The form of a history that people read on a terminal.

use crate::common::digits::Digits;
use crate::common::edition;
use crate::common::failure::Outcome;
use crate::common::text::{count, list};
use crate::history::months::{History, Month, Station, Total};
use crate::history::period::span;
use crate::score::card::bar;
use crate::score::month::shown;
use crate::score::outline::Came;
use egretfold::Edition;
use std::io::Write;

/// A row's columns but the last, which is as long as it is.
const COLUMNS: usize = 8;

/// A column is no wider; a longer name moves its own row alone.
const WIDEST: usize = 60;

struct Row {
    columns: [String; COLUMNS],
    behind: String,
}

/// A heading, a row a station and month with its bar, the months' totals, what got worse, what has no score, and
/// where scores contradict each other.
pub fn tell(history: &History, digits: Digits, out: &mut dyn Write) -> Outcome {
    writeln!(out, "history of {}", heading(history))?;
    for number in history.editions() {
        if let Ok(edition) = Edition::of(number) {
            writeln!(out, "{}", edition::rule(edition))?;
        }
    }
    writeln!(out)?;
    table(history, digits, out)?;
    let worse = history.worse().map(|(station, month, change)| {
        format!("{}, {}: {}", station.name, month.period, change.told())
    });
    list(out, "what got worse:", worse)?;
    list(out, "no score:", history.months().filter_map(unscored))?;
    let odds = history.odds.iter().map(|odds| odds.told());
    list(out, "scores that contradict each other:", odds)
}

/// "2 stations over 3 months, 2026-04 to 2026-06".
pub fn heading(history: &History) -> String {
    let stations = count(history.stations.len() as u64, "station");
    let months = count(history.totals.len() as u64, "month");
    match &history.totals[..] {
        [] => stations,
        [only] => format!("{stations} over 1 month, {}", only.period),
        [first, .., last] => format!(
            "{stations} over {months}, {}",
            span(first.period, last.period)
        ),
    }
}

fn unscored((station, month): (&Station, &Month)) -> Option<String> {
    match &month.outline.came {
        Came::Scored(_) => None,
        Came::Unscored { why, .. } => {
            let why = why.replace('\n', ";");
            Some(format!("{}, {}: {why}", station.name, month.period))
        }
    }
}

/// First how wide its columns are, then each row.
fn table(history: &History, digits: Digits, out: &mut dyn Write) -> Outcome {
    let all = || {
        let months = history
            .months()
            .map(move |(station, month)| row(station, month, digits));
        let totals = history.totals.iter().map(move |month| total(month, digits));
        std::iter::once_with(head).chain(months).chain(totals)
    };
    let mut widths = [0; COLUMNS];
    for row in all() {
        for (width, column) in widths.iter_mut().zip(&row.columns) {
            *width = column.chars().count().max(*width).min(WIDEST);
        }
    }
    // Without a column where no station has a lessee.
    let has_lessees = history
        .stations
        .iter()
        .any(|station| station.lessee.is_some());
    let [a, b, c, d, e, f, g, h] = widths;
    for row in all() {
        let [station, lessee, month, served, owed, part, dark, full] = &row.columns;
        let lessee = if has_lessees {
            format!("  {lessee:<b$}")
        } else {
            String::new()
        };
        let numbers = format!("{served:>d$}  {owed:>e$}  {part:>f$}  {dark:>g$}  {full:>h$}");
        let line = format!(
            "{station:<a$}{lessee}  {month:<c$}  {numbers}  {}",
            row.behind
        );
        writeln!(out, "{}", line.trim_end())?;
    }
    Ok(())
}

fn head() -> Row {
    let names = [
        "station", "lessee", "month", "served", "owed", "part", "dark", "full",
    ];
    Row {
        columns: names.map(String::from),
        behind: "served of owed".to_string(),
    }
}

fn row(station: &Station, month: &Month, digits: Digits) -> Row {
    let lessee = month.outline.lessee.clone().unwrap_or_default();
    let [served, owed, part, dark, full] = match month.outline.sums() {
        Some(sums) => [
            digits.of(sums.served),
            digits.of(sums.owed),
            shown(sums.percent(), "-"),
            sums.dark.len().to_string(),
            sums.full_days.to_string(),
        ],
        None => [(); 5].map(|()| "-".to_string()),
    };
    let drawn = month.outline.sums().map(|sums| bar(sums.served, sums.owed));
    let drawn = drawn.unwrap_or_else(|| " ".repeat(bar(0, 0).len()));
    let changed = match &month.change {
        _ if month.at_odds => ": contradicted by another score".to_string(),
        Some(change) => format!(": {}", change.told()),
        None => String::new(),
    };
    Row {
        columns: [
            station.name.clone(),
            lessee,
            month.period.to_string(),
            served,
            owed,
            part,
            dark,
            full,
        ],
        behind: format!("{drawn}  {}{changed}", month.outline.name()),
    }
}

fn total(total: &Total, digits: Digits) -> Row {
    let numbers = match &total.told {
        Some(told) => [
            digits.of(told.served),
            digits.of(told.owed),
            shown(total.percent(), "-"),
            told.silent_days.to_string(),
        ],
        None => [(); 4].map(|()| "-".to_string()),
    };
    let [served, owed, part, dark] = numbers;
    let drawn = total.told.map(|told| bar(told.served, told.owed));
    let drawn = drawn.unwrap_or_else(|| " ".repeat(bar(0, 0).len()));
    let stations = count(total.stations as u64, "station");
    Row {
        columns: [
            "total".to_string(),
            String::new(),
            total.period.to_string(),
            served,
            owed,
            part,
            dark,
            String::new(),
        ],
        behind: format!("{drawn}  {stations}"),
    }
}
