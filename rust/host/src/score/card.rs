//! The card: a month as people read it.

use crate::common::digits::Digits;
use crate::common::edition;
use crate::common::failure::Outcome;
use crate::score::month::{filled, Day, Score};
use std::io::Write;

/// Characters of a bar.
const BAR: usize = 20;

/// A heading, a row a day and the totals, what to check before the card is sent, and
/// the verdict.
pub fn text(score: &Score, digits: Digits, out: &mut dyn Write) -> Outcome {
    writeln!(out, "score of {}", score.log_name())?;
    if let Some(whose) = score.issue.whose() {
        writeln!(out, "{whose}")?;
    }
    if let Some(number) = score.issue.lease() {
        writeln!(out, "{number}")?;
    }
    writeln!(out, "{}", lease(score, digits))?;
    if score.issue.zone.is_some() {
        writeln!(out, "{}", score.issue.days())?;
    }
    writeln!(out, "{}", edition::rule(score.edition))?;
    for line in score.digests() {
        writeln!(out, "{line}")?;
    }
    writeln!(out)?;
    for line in table(score, digits) {
        writeln!(out, "{line}")?;
    }
    writeln!(out)?;
    if !score.checks.is_empty() {
        writeln!(out, "check before sending:")?;
        for check in &score.checks {
            writeln!(out, "  {}", check.text)?;
        }
        writeln!(out)?;
    }
    writeln!(out, "{}", score.verdict())?;
    Ok(())
}

/// The lease line in words.
fn lease(score: &Score, digits: Digits) -> String {
    let lease = &score.lease;
    let (first, last) = (lease.first_day(), lease.last_day());
    let days = match lease.days() {
        1 => format!("day {first}"),
        count => format!("{count} days, {first} to {last}"),
    };
    let dates = match score.dates() {
        Some((first, last)) if first == last => format!(" ({first})"),
        Some((first, last)) => format!(" ({first} to {last})"),
        None => String::new(),
    };
    let owed = match lease.owed() {
        1 => "1 element".to_string(),
        owed => format!("{} elements", digits.of(u64::from(owed))),
    };
    format!("lease of {days}{dates}, {owed} owed a day")
}

/// A row of the table: its columns, and behind them a bar and marks.
struct Row {
    columns: [String; 5],
    behind: String,
}

/// The rows, each column as wide as it must be: numbers to the right, dates to the
/// left.
fn table(score: &Score, digits: Digits) -> Vec<String> {
    let mut rows = vec![Row {
        columns: ["day", "date", "claimed", "served", "owed"].map(String::from),
        behind: "served of owed".to_string(),
    }];
    rows.extend(score.days.iter().map(|day| row(day, digits)));
    rows.push(total(score, digits));
    let width = |place: usize| rows.iter().map(|row| row.columns[place].len()).max();
    let [a, b, c, d, e] = [0, 1, 2, 3, 4].map(|place| width(place).unwrap_or(0));
    let dated = score.dates().is_some();
    let line = |row: &Row| {
        let [day, date, claimed, served, owed] = &row.columns;
        let date = if dated {
            format!("  {date:<b$}")
        } else {
            String::new()
        };
        let numbers = format!("{claimed:>c$}  {served:>d$}  {owed:>e$}");
        format!("{day:>a$}{date}  {numbers}  {}", row.behind)
    };
    rows.iter().map(line).collect()
}

fn row(day: &Day, digits: Digits) -> Row {
    let dark = if day.is_dark() { "  dark" } else { "" };
    let absent = if day.in_log {
        ""
    } else {
        "  no midnight in the log"
    };
    Row {
        columns: [
            day.number.to_string(),
            day.date.map_or(String::new(), |date| date.to_string()),
            digits.of(day.claimed),
            digits.of(day.served),
            digits.of(day.owed),
        ],
        behind: bar(day.served, day.owed) + dark + absent,
    }
}

fn total(score: &Score, digits: Digits) -> Row {
    let claimed: u64 = score.days.iter().map(|day| day.claimed).sum();
    let (served, owed) = (score.month.served, score.month.owed);
    Row {
        columns: [
            "total".to_string(),
            String::new(),
            digits.of(claimed),
            digits.of(served),
            digits.of(owed),
        ],
        behind: match score.percent() {
            Some(percent) => format!("{}  {percent}", bar(served, owed)),
            None => bar(served, owed),
        },
    }
}

/// The served part of what is owed; dashes where nothing is.
pub fn bar(served: u64, owed: u64) -> String {
    if owed == 0 {
        return format!("[{}]", "-".repeat(BAR));
    }
    let part = filled(served, owed, BAR as u64, 1) as usize;
    format!("[{}{}]", "#".repeat(part), ".".repeat(BAR - part))
}
