//! What the stations of each lessee come to, by the product's own report.

use crate::common::digits::Digits;
use crate::common::failure::{Failure, Outcome};
use crate::common::schema;
use crate::fleet::files::name_order;
use crate::fleet::kept::Kept;
use crate::fleet::stations::{refused, Group};
use crate::score::issue::Issue;
use crate::score::month::{put_percent, shown, Percent, Served};
use crate::score::rows::write_row;
use csv::Writer;
use egretfold::{Edition, Fleet, FleetTold, Verdict};
use serde_json::{json, Value};
use std::collections::{BTreeMap, BTreeSet};
use std::io::{self, Write};

/// A lessee's stations together.
pub struct Subtotal {
    /// None for stations that have none.
    pub lessee: Option<String>,
    pub stations: usize,
    /// How many of them have a score, and how many of those are short.
    pub scored: usize,
    pub short: usize,
    pub full_days: usize,
    pub told: FleetTold,
}

impl Subtotal {
    pub fn percent(&self) -> Option<Percent> {
        Percent::of(self.told.served, self.told.owed)
    }

    /// The lessee's name, or a blank.
    pub fn name(&self) -> &str {
        self.lessee.as_deref().unwrap_or_default()
    }

    fn json(&self) -> Value {
        let mut value = json!({
            "lessee": self.lessee,
            "stations": self.stations,
            "scored": self.scored,
            "short": self.short,
            "served": self.told.served,
            "owed": self.told.owed,
            "dark_days": self.told.silent_days,
            "full_days": self.full_days,
        });
        put_percent(self.percent(), &mut value);
        value
    }
}

/// The stations of a lessee, of these.
pub fn stations_of(lessee: &str, group: Group) -> Outcome<Group> {
    let mut of_lessee: Option<Group> = None;
    for card in group.cards.all() {
        let card = card?;
        if card.issue().is_leased_to(lessee) {
            let begin = || Group::new(edition_of(&card), 0);
            of_lessee.get_or_insert_with(begin).take(&card)?;
        }
    }
    let known = || group.cards.all().map(|card| Ok(card?.issue().clone()));
    of_lessee.ok_or_else(|| unknown(lessee, known()))
}

/// The edition that it is scored by.
fn edition_of(card: &Kept) -> Edition {
    // All cards of a fleet are of one that there is.
    Edition::of(card.edition()).unwrap_or(Edition::First)
}

/// A name that no station is leased to, beside those that there are.
pub fn unknown(lessee: &str, known: impl Iterator<Item = io::Result<Issue>>) -> Failure {
    let names = known.filter_map(|issue| issue.map(|issue| issue.lessee).transpose());
    let names = match names.collect::<io::Result<BTreeSet<String>>>() {
        Ok(names) => names,
        Err(error) => return error.into(),
    };
    let mut names: Vec<String> = names.into_iter().collect();
    names.sort_by(|one, other| name_order(one, other));
    let known = if names.is_empty() {
        "no station has a lessee".to_string()
    } else {
        format!("the lessees are {names:?}")
    };
    Failure::Wrong(format!(
        "--lessee: no station is leased to {lessee:?}; {known}"
    ))
}

/// What the cards come to that were put there, by their lessees.
#[derive(Default)]
pub struct Sums {
    by_lessee: BTreeMap<Option<String>, Sum>,
}

/// The same of one lessee.
struct Sum {
    report: Fleet,
    stations: usize,
    short: usize,
    full_days: usize,
}

impl Sums {
    pub fn put(&mut self, card: &Kept) -> Outcome {
        let begin = || Sum {
            report: Fleet::new(edition_of(card)),
            stations: 0,
            short: 0,
            full_days: 0,
        };
        let lessee = card.issue().lessee.clone();
        let sum = self.by_lessee.entry(lessee).or_insert_with(begin);
        sum.stations += 1;
        if let Some(scored) = card.scored() {
            let dark = scored.count(Served::Dark) as u64;
            let added = sum
                .report
                .add_month(scored.total.served, scored.total.owed, dark);
            added.map_err(refused)?;
            sum.short += usize::from(scored.total.verdict == Verdict::Short);
            sum.full_days += scored.count(Served::InFull);
        }
        Ok(())
    }

    /// By the lessees' names.
    pub fn subtotals(self) -> Vec<Subtotal> {
        let subtotal = |(lessee, sum): (Option<String>, Sum)| {
            let told = sum.report.tell();
            Subtotal {
                lessee,
                stations: sum.stations,
                scored: told.stations as usize,
                short: sum.short,
                full_days: sum.full_days,
                told,
            }
        };
        let mut subtotals: Vec<Subtotal> = self.by_lessee.into_iter().map(subtotal).collect();
        subtotals.sort_by(|one, other| name_order(one.name(), other.name()));
        subtotals
    }
}

/// Whether they tell more than the total does.
pub fn are_told(subtotals: &[Subtotal]) -> bool {
    subtotals.len() > 1
}

/// A table below the stations'.
pub fn text(subtotals: &[Subtotal], digits: Digits, out: &mut dyn Write) -> Outcome {
    if !are_told(subtotals) {
        return Ok(());
    }
    let head = [
        "lessee", "stations", "served", "owed", "part", "dark", "full", "short",
    ];
    let mut rows = vec![head.map(String::from)];
    rows.extend(subtotals.iter().map(|subtotal| row(subtotal, digits)));
    let width = |place: usize| rows.iter().map(|row| row[place].chars().count()).max();
    let widths = [0, 1, 2, 3, 4, 5, 6, 7].map(|place| width(place).unwrap_or(0));
    writeln!(out)?;
    for row in &rows {
        let first = widths[0];
        let mut line = format!("{:<first$}", row[0]);
        for (text, width) in row.iter().zip(widths).skip(1) {
            line += &format!("  {text:>width$}");
        }
        writeln!(out, "{line}")?;
    }
    Ok(())
}

fn row(subtotal: &Subtotal, digits: Digits) -> [String; 8] {
    let name = match &subtotal.lessee {
        Some(name) => name.clone(),
        None => "(none)".to_string(),
    };
    [
        name,
        subtotal.stations.to_string(),
        digits.of(subtotal.told.served),
        digits.of(subtotal.told.owed),
        shown(subtotal.percent(), "-"),
        subtotal.told.silent_days.to_string(),
        subtotal.full_days.to_string(),
        subtotal.short.to_string(),
    ]
}

/// A line a lessee.
pub fn json(subtotals: &[Subtotal], out: &mut dyn Write) -> Outcome {
    for subtotal in subtotals.iter().filter(|_| are_told(subtotals)) {
        schema::line(out, json!({ "subtotal": subtotal.json() }))?;
    }
    Ok(())
}

/// A head and a row a lessee.
pub fn csv(subtotals: &[Subtotal], out: &mut dyn Write) -> Outcome {
    let head = [
        "lessee",
        "stations",
        "scored",
        "short",
        "served",
        "owed",
        "percent",
        "percent_text",
        "dark_days",
        "full_days",
    ];
    let mut writer = Writer::from_writer(out);
    write_row(&mut writer, &head.map(String::from))?;
    for subtotal in subtotals {
        let told = &subtotal.told;
        let cells = [
            subtotal.name().to_string(),
            subtotal.stations.to_string(),
            subtotal.scored.to_string(),
            subtotal.short.to_string(),
            told.served.to_string(),
            told.owed.to_string(),
            subtotal.percent().map_or(String::new(), Percent::digits),
            shown(subtotal.percent(), ""),
            told.silent_days.to_string(),
            subtotal.full_days.to_string(),
        ];
        write_row(&mut writer, &cells)?;
    }
    writer.flush()?;
    Ok(())
}
