//! A fleet as lines for a shell: `score --json` of each station, to be spread over many
//! machines.

use crate::common::failure::Outcome;
use crate::common::visible;
use crate::fleet::leases::{fault, Fault, Row, Rows};
use std::io::{self, Write};
use std::path::Path;

/// The most bytes of a line: GNU parallel takes half of what the system gives an argument,
/// 65,536 bytes, less its own and the environment's.
const LONGEST: usize = 60_000;

/// Rows whose line no engine would run as it stands. They are told before any line is.
pub fn faults(rows: &Rows) -> io::Result<Vec<Fault>> {
    let mut faults = Vec::new();
    for row in rows.iter() {
        faults.extend(faults_of(&row?));
    }
    Ok(faults)
}

fn faults_of(row: &Row) -> Vec<Fault> {
    let logs = row.asked.files.iter().map(|file| ("log", file));
    let states = row.asked.resume.iter().chain(&row.save);
    let files = logs.chain(states.map(|file| ("state", file)));
    let wrong = files.filter_map(|(column, file)| Some((column, unfit(file)?)));
    let wrong = wrong.map(|(column, why)| {
        let cause = format!("{why}; give it another name, or score without --commands");
        fault(row.line, column, cause)
    });
    let mut faults: Vec<Fault> = wrong.collect();
    let length = line(row).len();
    if faults.is_empty() && length > LONGEST {
        let files = row.asked.files.len();
        let cause = format!(
            "the line of its {files} files has {length} bytes, and engines take {LONGEST}; \
             put files together, or score without --commands"
        );
        faults.push(fault(row.line, "log", cause));
    }
    faults
}

/// Why a name can't stand in a line, if it can't: the lines are text, and what a terminal
/// obeys is never written into text as it is.
fn unfit(file: &Path) -> Option<String> {
    match file.to_str() {
        None => Some(format!("{file:?} isn't UTF-8")),
        Some(name) if visible::line(name) != name => Some(format!(
            "{file:?} has a line end or another control character"
        )),
        Some(_) => None,
    }
}

/// A line a station, in the lease file's order.
pub fn tell(rows: &Rows, out: &mut dyn Write) -> Outcome {
    for row in rows.iter() {
        writeln!(out, "{}", line(&row?))?;
    }
    Ok(())
}

fn line(row: &Row) -> String {
    let asked = &row.asked;
    let line = &asked.line;
    let mut words: Vec<String> = ["egretfold", "score", "--json", "--engine"]
        .map(String::from)
        .to_vec();
    let mut put = |option: &str, value: String| words.push(format!("{option}={}", quoted(&value)));
    put("--edition", asked.edition.to_string());
    put("--first-day", line.first_day.to_string());
    put("--days", line.days.to_string());
    put("--owed", line.owed.to_string());
    for (option, value) in [
        ("--from", asked.from.map(|date| date.to_string())),
        ("--station", asked.issue.station.clone()),
        ("--lessee", asked.issue.lessee.clone()),
        ("--lease", asked.issue.lease.clone()),
        ("--time-zone", asked.issue.zone.clone()),
        ("--issued", Some(asked.issue.date.to_string())),
        ("--resume", asked.resume.as_deref().map(named)),
        ("--save", row.save.as_deref().map(named)),
    ] {
        if let Some(value) = value {
            put(option, value);
        }
    }
    if asked.repeats {
        words.push("--repeated-pieces".into());
    }
    words.push("--".into());
    words.extend(asked.files.iter().map(|file| quoted(&named(file))));
    words.join(" ")
}

fn named(file: &Path) -> String {
    file.display().to_string()
}

/// A word that a shell takes as it is, or in quotes.
fn quoted(text: &str) -> String {
    let plain = |letter: char| letter.is_ascii_alphanumeric() || "-_./,:=@%+".contains(letter);
    if !text.is_empty() && text.chars().all(plain) {
        text.to_string()
    } else {
        format!("'{}'", text.replace('\'', r"'\''"))
    }
}

#[cfg(test)]
mod tests {
    use super::quoted;

    #[test]
    fn a_shell_takes_words_as_they_are() {
        assert_eq!(quoted("logs/day-01.log"), "logs/day-01.log");
        assert_eq!(quoted("the harbour's"), r"'the harbour'\''s'");
        assert_eq!(quoted("$(x)"), "'$(x)'");
        assert_eq!(quoted(""), "''");
    }
}
