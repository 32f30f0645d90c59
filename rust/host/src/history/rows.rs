//! The form of a history that programs read.

use crate::common::failure::Outcome;
use crate::common::schema;
use crate::history::months::{Change, History, Month, Station, Total};
use crate::history::odds::Odds;
use crate::score::civil::Date;
use crate::score::issue::VERSION;
use crate::score::month::put_percent;
use crate::score::outline::Came;
use crate::score::rows::lease;
use serde_json::{json, Value};
use std::cmp::Ordering;
use std::io::Write;

/// A line for each station and month, one for each month, and one for the whole.
pub fn json(history: &History, date: Date, out: &mut dyn Write) -> Outcome {
    for (station, month) in history.months() {
        schema::line(out, row(station, month))?;
    }
    for total in &history.totals {
        schema::line(out, json!({ "total": total_of(total) }))?;
    }
    let odds: Vec<Value> = history.odds.iter().map(Odds::json).collect();
    let periods = history.totals.iter().map(|total| total.period.to_string());
    let summary = json!({
        "stations": history.stations.len(),
        "months": periods.collect::<Vec<String>>(),
        "worse": history.worse().count(),
        "contradictions": odds,
        "issued": date.to_string(),
        "version": VERSION,
    });
    schema::line(out, json!({ "history": summary }))
}

fn row(station: &Station, month: &Month) -> Value {
    let outline = &month.outline;
    let mut value = json!({
        "station": station.name,
        "lessee": outline.lessee,
        "month": month.period.to_string(),
        "edition": outline.edition,
        "lease": lease(&outline.line, outline.from),
        "contradicted": month.at_odds,
    });
    match &outline.came {
        Came::Scored(sums) => {
            value["served"] = json!(sums.served);
            value["owed"] = json!(sums.owed);
            put_percent(sums.percent(), &mut value);
            value["dark_days"] = json!(sums.dark.len());
            value["dark"] = json!(sums.dark);
            value["full_days"] = json!(sums.full_days);
            value["part_days"] = json!(sums.part_days);
            value["verdict"] = json!(outline.name());
            value["explained"] = json!(sums.explained);
            value["change"] = json!(month.change.as_ref().map(change));
        }
        Came::Unscored { why, .. } => {
            value["unscored"] = json!({"name": outline.name(), "why": why});
        }
    }
    value
}

fn change(change: &Change) -> Value {
    let part = match change.part {
        Ordering::Less => "worse",
        Ordering::Equal => "same",
        Ordering::Greater => "better",
    };
    json!({"since": change.since.to_string(), "part": part, "dark_days": change.dark})
}

fn total_of(total: &Total) -> Value {
    let told = total.told.as_ref();
    let mut value = json!({
        "month": total.period.to_string(),
        "stations": total.stations,
        "served": told.map(|told| told.served),
        "owed": told.map(|told| told.owed),
        "dark_days": told.map(|told| told.silent_days),
    });
    put_percent(total.percent(), &mut value);
    value
}
