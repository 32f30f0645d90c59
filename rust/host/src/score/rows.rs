//! The forms of a month that programs read: JSON, and rows of comma-separated
//! values.

use crate::common::failure::Outcome;
use crate::common::{schema, sheet};
use crate::score::asked::{Card, LeaseLine, Unscored};
use crate::score::checks::Check;
use crate::score::civil::Date;
use crate::score::month::{put_percent, Day, Score, Served};
use csv::Writer;
use serde_json::{json, Value};
use std::io::{self, Write};

/// A line for each day, and one for the month; that one alone where there is no score.
pub fn json(card: &Card, out: &mut dyn Write) -> Outcome {
    let summary = match card {
        Card::Scored(score) => {
            days(score, out)?;
            summary(score)
        }
        Card::Unscored(unscored) => unscored_summary(unscored),
    };
    schema::line(out, json!({ "summary": summary }))
}

fn days(score: &Score, out: &mut dyn Write) -> Outcome {
    for day in &score.days {
        let value = json!({
            "station": score.issue.station,
            "day": day.number,
            "date": day.date.map(|date| date.to_string()),
            "claimed": day.claimed,
            "served": day.served,
            "owed": day.owed,
            "dark": day.is_dark(),
            "in_log": day.in_log,
        });
        schema::line(out, value)?;
    }
    Ok(())
}

fn summary(score: &Score) -> Value {
    let from = score.dates().map(|(first, _)| first);
    let mut summary = json!({
        "edition": score.edition.number(),
        "lease": lease(&score.line(), from),
        "refusal": null,
    });
    score.issue.put(&mut summary);
    summary["sha256"] = json!(score.digest);
    if let Some(began) = &score.began {
        summary["began_from"] = began.json();
    }
    let checks: Vec<Value> = score.checks.iter().map(Check::json).collect();
    summary["checks"] = json!(checks);
    summary["served"] = json!(score.month.served);
    summary["owed"] = json!(score.month.owed);
    put_percent(score.percent(), &mut summary);
    summary["verdict"] = json!(score.verdict_name());
    summary["full_days"] = json!(score.count(Served::InFull));
    summary["part_days"] = json!(score.count(Served::InPart));
    summary["dark_days"] = json!(score.count(Served::Dark));
    summary["log"] = score.log.clone();
    summary
}

/// What was refused, or couldn't be read, in place of a score.
fn unscored_summary(unscored: &Unscored) -> Value {
    let lease = lease(&unscored.line, unscored.from);
    let mut summary = json!({
        "edition": unscored.edition,
        "lease": lease,
        "refusal": unscored.refusal,
    });
    unscored.issue.put(&mut summary);
    summary["inputs"] = json!(unscored.inputs);
    summary["unscored"] = json!({"name": unscored.name(), "why": unscored.why});
    if !unscored.log.is_null() {
        summary["log"] = unscored.log.clone();
    }
    summary
}

/// The lease line, with the first day's date.
pub fn lease(line: &LeaseLine, from: Option<Date>) -> Value {
    let from = from.map(|date| date.to_string());
    json!({"first_day": line.first_day, "days": line.days, "owed": line.owed, "from": from})
}

/// The columns of a day behind those that say whose it is, and where the date stands among them.
pub const DAY_COLUMNS: [&str; 8] = [
    "day", "date", "claimed", "served", "owed", "dark", "in_log", "edition",
];
const DATE: usize = 1;

/// A day's values, in the columns' order.
pub fn day_values(score: &Score, day: &Day) -> [String; 8] {
    [
        day.number.to_string(),
        day.date.map_or(String::new(), |date| date.to_string()),
        day.claimed.to_string(),
        day.served.to_string(),
        day.owed.to_string(),
        day.is_dark().to_string(),
        day.in_log.to_string(),
        score.edition.number().to_string(),
    ]
}

/// Writes a row, in which no value is run as a formula.
pub fn write_row<W: Write>(writer: &mut Writer<W>, values: &[String]) -> Outcome {
    let cells = values
        .iter()
        .map(|text| sheet::written(text).into_owned().into_bytes());
    writer.write_record(cells).map_err(io::Error::from)?;
    Ok(())
}

/// A head and a row a day, with the station, and with the date where dates are known.
pub fn csv(score: &Score, out: &mut dyn Write) -> Outcome {
    let dated = score.dates().is_some();
    let row = |whose: &str, values: &[String]| -> Vec<String> {
        let kept = values.iter().enumerate();
        let kept = kept.filter(|(place, _)| dated || *place != DATE);
        let kept = kept.map(|(_, value)| value.clone());
        std::iter::once(whose.to_string()).chain(kept).collect()
    };
    let mut writer = Writer::from_writer(out);
    write_row(&mut writer, &row("station", &DAY_COLUMNS.map(String::from)))?;
    let station = score.issue.station.as_deref().unwrap_or_default();
    for day in &score.days {
        write_row(&mut writer, &row(station, &day_values(score, day)))?;
    }
    writer.flush()?;
    Ok(())
}
