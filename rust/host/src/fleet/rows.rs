//! The forms of a fleet's month that programs read: JSON, and rows of comma-separated
//! values.

use crate::common::failure::Outcome;
use crate::common::schema;
use crate::fleet::lessees;
use crate::fleet::month::{station, Fleet};
use crate::score::asked::Card;
use crate::score::checks::Check;
use crate::score::issue::VERSION;
use crate::score::month::{put_percent, Percent, Score, Served};
use crate::score::rows::{day_values, lease, write_row, DAY_COLUMNS};
use csv::Writer;
use serde_json::{json, Value};
use std::io::Write;

/// A line for each station, and one for the fleet.
pub fn json(fleet: &Fleet, out: &mut dyn Write) -> Outcome {
    for told in fleet.told() {
        let (_, card) = &told?;
        let mut value = json!({
            "station": station(card),
            "lessee": card.issue().lessee,
            "lease_number": card.issue().lease,
            "time_zone": card.issue().zone,
            "edition": card.edition(),
            "lease": lease(&card.line(), card.from()),
        });
        match card {
            Card::Scored(score) => put(score, &mut value),
            Card::Unscored(unscored) => {
                value["refusal"] = unscored.refusal.clone();
                value["unscored"] = json!({"name": unscored.name(), "why": unscored.why});
            }
        }
        schema::line(out, value)?;
    }
    lessees::json(&fleet.subtotals, out)?;
    let four = &fleet.four;
    let mut value = json!({
        "stations": fleet.stations(),
        "told": fleet.count_told(),
        "scored": fleet.scored(),
        "served": four.served,
        "owed": four.owed,
    });
    put_percent(fleet.percent(), &mut value);
    value["dark_days"] = json!(four.silent_days);
    value["station"] = json!(fleet.smallest());
    value["place"] = json!(fleet.smallest);
    value["full_days"] = json!(fleet.full_days());
    value["issued"] = json!(fleet.date.to_string());
    value["version"] = json!(VERSION);
    schema::line(out, json!({ "fleet": value }))
}

fn put(score: &Score, value: &mut Value) {
    let checks: Vec<Value> = score.checks.iter().map(Check::json).collect();
    let dark = score.days.iter().filter(|day| day.is_dark());
    value["sha256"] = json!(score.digest);
    if let Some(began) = &score.began {
        value["began_from"] = began.json();
    }
    value["checks"] = json!(checks);
    value["served"] = json!(score.month.served);
    value["owed"] = json!(score.month.owed);
    put_percent(score.percent(), value);
    value["dark_days"] = json!(score.count(Served::Dark));
    value["dark"] = json!(dark.map(|day| day.number).collect::<Vec<u32>>());
    value["full_days"] = json!(score.count(Served::InFull));
    value["part_days"] = json!(score.count(Served::InPart));
    value["verdict"] = json!(score.verdict_name());
    value["explained"] = json!(score.explanation());
}

/// A head and a row a station. Those that have no score say why in the last column.
pub fn csv(fleet: &Fleet, out: &mut dyn Write) -> Outcome {
    let head = [
        "station",
        "lessee",
        "first_day",
        "days",
        "owed_a_day",
        "edition",
        "served",
        "owed",
        "percent",
        "percent_text",
        "dark_days",
        "full_days",
        "part_days",
        "verdict",
        "explained",
    ];
    let mut writer = Writer::from_writer(out);
    write_row(&mut writer, &head.map(String::from))?;
    for told in fleet.told() {
        let (_, card) = told?;
        write_row(&mut writer, &row(&card))?;
    }
    writer.flush()?;
    Ok(())
}

/// A head and a row for each day of each station that has a score.
pub fn csv_days(fleet: &Fleet, out: &mut dyn Write) -> Outcome {
    let row = |whose: [String; 2], values: [String; 8]| [&whose[..], &values[..]].concat();
    let mut writer = Writer::from_writer(out);
    let head = row(
        ["station", "lessee"].map(String::from),
        DAY_COLUMNS.map(String::from),
    );
    write_row(&mut writer, &head)?;
    for told in fleet.told() {
        let (_, card) = told?;
        let lessee = card.issue().lessee.clone().unwrap_or_default();
        let whose = [station(&card).to_string(), lessee];
        if let Card::Scored(score) = &card {
            for day in &score.days {
                write_row(&mut writer, &row(whose.clone(), day_values(score, day)))?;
            }
        }
    }
    writer.flush()?;
    Ok(())
}

fn row(card: &Card) -> [String; 15] {
    let line = card.line();
    let begin = [
        station(card).to_string(),
        card.issue().lessee.clone().unwrap_or_default(),
        line.first_day.to_string(),
        line.days.to_string(),
        line.owed.to_string(),
        card.edition().to_string(),
    ];
    let end = match card {
        Card::Scored(score) => [
            score.month.served.to_string(),
            score.month.owed.to_string(),
            score.percent().map_or(String::new(), Percent::digits),
            score
                .percent()
                .map_or(String::new(), |percent| percent.to_string()),
            score.count(Served::Dark).to_string(),
            score.count(Served::InFull).to_string(),
            score.count(Served::InPart).to_string(),
            score.verdict_name().to_string(),
            score.explanation().unwrap_or_default(),
        ],
        Card::Unscored(unscored) => {
            let [a, b, c, d, e, f, g] = [(); 7].map(|()| String::new());
            let why = unscored.why.replace('\n', ";");
            [a, b, c, d, e, f, g, unscored.name().to_string(), why]
        }
    };
    let [a, b, c, d, e, f] = begin;
    let [g, h, i, j, k, l, m, n, o] = end;
    [a, b, c, d, e, f, g, h, i, j, k, l, m, n, o]
}
