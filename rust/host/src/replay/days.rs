//! The forms of `replay`: a table of the days, and JSON; also what `score` tells of a
//! log beside its score.

use crate::common::digits::Digits;
use crate::common::edition;
use crate::common::failure::Outcome;
use crate::common::names;
use crate::common::schema;
use crate::common::text;
use crate::explain::cause::Refused;
use crate::replay::kept::RECORD;
use crate::replay::log::{Log, RefusedAt};
use egretfold::Part;
use serde_json::{json, Value};
use std::io::{self, Write};

/// A line for what ended before the first midnight, for each day and for all of
/// it; then how the log ends and what was refused.
pub fn table(log: &Log, digits: Digits, out: &mut dyn Write) -> Outcome {
    let mut rows = vec![["day", "runs", "claimed"].map(String::from)];
    let total = ("total".to_string(), total(log));
    for (name, part) in parts(log).chain([total]) {
        rows.push([name, digits.of(part.runs), digits.of(part.claims)]);
    }
    let width = |place: usize| rows.iter().map(|row| row[place].len()).max();
    let [a, b, c] =
        [(0, 10), (1, 10), (2, 17)].map(|(place, least)| width(place).unwrap_or(least).max(least));
    for [name, runs, claimed] in &rows {
        writeln!(out, "{name:>a$}  {runs:>b$}  {claimed:>c$}")?;
    }
    writeln!(
        out,
        "{}: {}, {}",
        text::count(log.records(), "record"),
        text::count(log.words(), "word"),
        text::count(log.midnights(), "midnight"),
    )?;
    writeln!(out, "{}", edition::rule(log.edition()))?;
    if let Some(resumed) = &log.resumed {
        writeln!(out, "{resumed}")?;
    }
    for note in notes(log) {
        writeln!(out, "{note}")?;
    }
    Ok(())
}

/// What ended before the first midnight and each day, by their names.
fn parts(log: &Log) -> impl Iterator<Item = (String, Part)> + '_ {
    let days = log.replay.days();
    let days = days
        .into_iter()
        .map(|day| (day.number.to_string(), day.part));
    std::iter::once(("before".to_string(), log.replay.before())).chain(days)
}

/// A head and a row for what ended before the first midnight and for each day. The
/// rows have no place for what is told below the table: it goes to standard error.
pub fn csv(log: &Log, out: &mut dyn Write) -> Outcome {
    writeln!(out, "day,runs,claimed,edition")?;
    let edition = log.edition().number();
    for (name, part) in parts(log) {
        writeln!(out, "{name},{},{},{edition}", part.runs, part.claims)?;
    }
    out.flush()?;
    tell_notes(log);
    Ok(())
}

/// The notes on standard error. Where that is closed, the rows must do.
fn tell_notes(log: &Log) {
    for note in notes(log) {
        let _ = writeln!(io::stderr(), "{note}");
    }
}

fn total(log: &Log) -> Part {
    let session = log.replay.session();
    Part {
        runs: session.runs(),
        claims: session.claims(),
    }
}

/// What was refused, and what the log's end cuts.
pub fn notes(log: &Log) -> Vec<String> {
    let mut lines = Vec::new();
    if let Some((place, refused)) = &log.word {
        let after = text::count(log.words_after(), "word");
        lines.push(format!("{place}: word {refused}"));
        lines.push(format!("  the days go on, {after} after it without effect"));
    }
    if let Some((place, refused)) = &log.stop {
        let after = text::count(log.bytes_after(), "byte");
        lines.push(format!("{place}: {refused}"));
        lines.push(format!(
            "  the replay is stopped, {after} after it not taken"
        ));
    }
    lines.extend(open_command(log));
    lines.extend(unfinished_record(log));
    lines
}

/// How the log's end cuts a command.
pub fn open_command(log: &Log) -> Option<String> {
    let (name, taken, due) = open(log)?;
    Some(format!(
        "ends inside {name}: {taken} of its {due} parameters taken"
    ))
}

/// How the log's end cuts a record.
pub fn unfinished_record(log: &Log) -> Option<String> {
    let unfinished = log.replay.status().unfinished;
    let record = log.records();
    (unfinished > 0).then(|| {
        format!("ends inside record {record}: {unfinished} of its {RECORD} bytes, counted nowhere")
    })
}

/// The open command at the end: its name, parameters taken, parameters due.
fn open(log: &Log) -> Option<(&'static str, u32, u32)> {
    let (header, taken) = log.replay.session().status().open?;
    let due = egretfold::parameters(header).unwrap_or(0);
    Some((names::command_name(header), taken, due))
}

/// A line for what ended before the first midnight, for each day, and one for the
/// whole.
pub fn json(log: &Log, out: &mut dyn Write) -> Outcome {
    let Part { runs, claims } = log.replay.before();
    schema::line(out, json!({"day": null, "runs": runs, "claims": claims}))?;
    for day in log.replay.days() {
        let Part { runs, claims } = day.part;
        let value = json!({"day": day.number, "runs": runs, "claims": claims});
        schema::line(out, value)?;
    }
    schema::line(out, json!({ "summary": summary(log) }))
}

/// All of a log but its days.
pub fn summary(log: &Log) -> Value {
    let status = log.replay.status();
    let Part { runs, claims } = total(log);
    let inputs: Vec<&String> = log.inputs.iter().map(|(name, _)| name).collect();
    let word = log.word.as_ref().map(|word| {
        let mut value = as_json(word);
        value["words_after"] = json!(log.words_after());
        value
    });
    let stop = log.stop.as_ref().map(|stop| {
        let mut value = as_json(stop);
        value["bytes_after"] = json!(log.bytes_after());
        value
    });
    let open = open(log)
        .map(|(name, taken, due)| json!({"command": name, "taken": taken, "parameters": due}));
    let mut summary = json!({
        "inputs": inputs,
        "bytes": log.bytes,
        "taken": log.taken,
        "records": log.records(),
        "words": log.words(),
        "midnights": log.midnights(),
        "first_day": status.days.map(|(first, _)| first),
        "last_day": status.days.map(|(_, last)| last),
        "edition": log.edition().number(),
        "runs": runs,
        "claims": claims,
        "open": open,
        "unfinished_bytes": status.unfinished,
        "refused_word": word,
        "refusal": stop,
    });
    if let Some(resumed) = &log.resumed {
        summary["resumed_at"] = json!(resumed.bytes);
        summary["resumed_from"] = json!({"state": resumed.name, "sha256": resumed.sha256()});
        summary["forgotten_midnights"] = json!(log.forgotten);
    }
    summary
}

fn as_json((place, Refused { number, cause }): &RefusedAt) -> Value {
    let mut value = json!({"byte": place.byte, "record": place.record, "day": place.day});
    if let Some((name, at)) = &place.input {
        value["input"] = json!(name);
        value["input_byte"] = json!(at);
    }
    value["refused"] = json!(number);
    value["cause"] = json!(cause);
    value
}
