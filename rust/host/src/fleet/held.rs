//! Scores that came from elsewhere, held against what is known here: the row's files, their
//! digests where that is asked for, and themselves.

use crate::common::digest::{self, Digest, Finished};
use crate::common::failure::{Failure, Outcome};
use crate::fleet::leases::Row;
use crate::fleet::scores::Place;
use crate::input::source::{Source, PIECE};
use crate::score::checks::Check;
use crate::score::month::Day;
use std::io::{self, Write};

/// The checks of days that a log hasn't.
const NOT_THERE: [&str; 2] = ["not_covered", "no_midnight"];

/// A score's inputs are its row's files.
pub fn files(row: &Row, inputs: &[String], place: &Place) -> Outcome {
    let due = row.asked.names();
    if inputs == due {
        return Ok(());
    }
    let (station, line) = (row.station(), row.line);
    let differs = inputs.iter().zip(&due).find(|(is, due)| is != due);
    let cause = match differs {
        Some((is, due)) => format!("{is:?}, where {due:?} is due"),
        None => format!("{} of them, where {} are due", inputs.len(), due.len()),
    };
    Err(Failure::Wrong(format!(
        "{place}: station {station} is scored of other files than those of line {line}: {cause}\n  \
         join in the folder, and with the lease file, that --commands had"
    )))
}

/// The log's bytes, where they can be read here, are those that were scored.
pub fn digest(row: &Row, scored: Option<Finished>, place: &Place) -> Outcome {
    let station = row.station();
    let (read, scored) = match (sha256(row), scored) {
        (Ok(read), Some(scored)) => (read, scored),
        (Err(Failure::Wrong(cause) | Failure::Refused(cause)), Some(_)) => {
            // Where standard error is closed, the report must do.
            let _ = writeln!(
                io::stderr(),
                "station {station}: its log isn't checked: {cause}"
            );
            return Ok(());
        }
        (_, None) => {
            let told = format!("{place}: station {station} is scored without a digest of its log");
            return Err(Failure::Wrong(told));
        }
        (Err(failure), _) => return Err(failure),
    };
    let told = digest::hex;
    if read == scored {
        Ok(())
    } else {
        Err(Failure::Wrong(format!(
            "{place}: station {station} is scored of other bytes than its log has: SHA-256 {}, where {} is due",
            told(scored),
            told(read)
        )))
    }
}

fn sha256(row: &Row) -> Outcome<Finished> {
    let mut digest = Digest::new();
    let mut piece = vec![0; PIECE];
    for mut source in Source::open_all(&row.asked.files)? {
        loop {
            match source.fill(&mut piece)? {
                0 => break,
                count => digest.update(&piece[..count]),
            }
        }
    }
    Ok(digest.finished())
}

/// Days, and the checks that are told of them, say one thing: a day claims only where the log
/// has it, the log's days stand in a row, and days that it hasn't are told.
pub fn agree(days: &[Day], checks: &[Check]) -> Result<(), String> {
    if let Some(day) = days.iter().find(|day| !day.in_log && day.claimed > 0) {
        let (number, claimed) = (day.number, day.claimed);
        return Err(format!(
            "day {number} claims {claimed}, and the log doesn't have it"
        ));
    }
    let changes = days
        .windows(2)
        .filter(|two| two[0].in_log != two[1].in_log)
        .count();
    let ends = days.first().zip(days.last());
    let outside = ends.map_or(false, |(first, last)| !first.in_log || !last.in_log);
    if changes > 2 || (changes == 2 && !outside) {
        return Err("the days that the log has don't stand in a row".to_string());
    }
    let missing = days.iter().any(|day| !day.in_log);
    let told = checks.iter().any(|check| NOT_THERE.contains(&&*check.key));
    if missing == told {
        Ok(())
    } else {
        Err("the checks don't say what the days say of those that the log has".to_string())
    }
}
