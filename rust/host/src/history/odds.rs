//! Scores that contradict each other: the same days twice, leases that overlap, dates that don't go with the
//! days' numbers, and editions whose parts can't be compared.

use crate::common::digits::grouped;
use crate::history::months::{Month, Total};
use crate::history::period::Period;
use crate::score::outline::{Came, Outline};
use serde_json::{json, Value};

pub struct Odds {
    /// Blank where it is of many.
    pub station: String,
    pub text: String,
}

impl Odds {
    pub fn told(&self) -> String {
        if self.station.is_empty() {
            self.text.clone()
        } else {
            format!("{}: {}", self.station, self.text)
        }
    }

    pub fn json(&self) -> Value {
        let station = (!self.station.is_empty()).then_some(&self.station);
        json!({"station": station, "text": self.text})
    }
}

/// A station's, whose months stand in the order of their days; those that can't both be true are marked.
pub fn of_station(station: &str, months: &mut [Month], odds: &mut Vec<Odds>) {
    let mut tell = |text: String| {
        odds.push(Odds {
            station: station.to_string(),
            text,
        })
    };
    // The month that reaches furthest.
    let mut furthest = 0;
    for place in 1..months.len() {
        let (one, other) = (&months[furthest], &months[place]);
        if let Some(text) = overlap(&one.outline, &other.outline) {
            tell(text);
            months[furthest].at_odds = true;
            months[place].at_odds = true;
        }
        let (before, this) = (&months[place - 1].outline, &months[place].outline);
        if let Some(text) = dates(before, this) {
            tell(text);
        }
        if before.edition != this.edition {
            tell(format!(
                "{} are scored by edition {}, and {} by edition {}: their parts can't be compared",
                days(before),
                before.edition,
                days(this),
                this.edition
            ));
        }
        if last_day(this) > last_day(&months[furthest].outline) {
            furthest = place;
        }
    }
}

/// Months whose stations are scored by two editions.
pub fn of_editions(totals: &[Total]) -> impl Iterator<Item = Odds> + '_ {
    let mixed = totals.iter().filter(|total| total.told.is_none());
    mixed.map(|total| Odds {
        station: String::new(),
        text: format!(
            "{}: stations are scored by two editions, so they have no total",
            total.period
        ),
    })
}

fn overlap(one: &Outline, other: &Outline) -> Option<String> {
    let is_same = (one.line.first_day, one.line.days) == (other.line.first_day, other.line.days);
    if is_same {
        return Some(format!(
            "{} are scored twice: {} ({}), and {} ({})",
            days(one),
            came(one),
            one.place,
            came(other),
            other.place
        ));
    }
    (u64::from(other.line.first_day) <= last_day(one)).then(|| {
        format!(
            "the leases of {} ({}) and {} ({}) overlap",
            days(one),
            one.place,
            days(other),
            other.place
        )
    })
}

/// What a score says, as far as two can differ in it.
fn came(month: &Outline) -> String {
    let came = match &month.came {
        Came::Scored(sums) => {
            let (served, owed) = (grouped(sums.served), grouped(sums.owed));
            let dark = sums.dark.len();
            format!("{served} of {owed} served, {dark} dark")
        }
        Came::Unscored { .. } => month.name().to_string(),
    };
    let lessee = month.lessee.as_ref();
    let lessee = lessee.map_or(String::new(), |name| format!(", leased to {name}"));
    let from = month
        .from
        .map_or(String::new(), |date| format!(", from {date}"));
    format!("{came} by edition {}{lessee}{from}", month.edition)
}

/// Two leases that give a day two dates.
fn dates(one: &Outline, other: &Outline) -> Option<String> {
    let (from, other_from) = (one.from?, other.from?);
    let by_numbers = i64::from(other.line.first_day) - i64::from(one.line.first_day);
    let by_dates = i64::from(other_from.number()) - i64::from(from.number());
    (by_dates != by_numbers).then(|| {
        let (one, other) = (days(one), days(other));
        format!(
            "{one} begin with {from}, and {other} with {other_from}: {by_numbers} days apart by their numbers, {by_dates} by their dates"
        )
    })
}

fn last_day(month: &Outline) -> u64 {
    (u64::from(month.line.first_day) + u64::from(month.line.days)).saturating_sub(1)
}

/// "days 101 to 130".
fn days(month: &Outline) -> Period {
    let first = u64::from(month.line.first_day);
    let last = last_day(month).max(first);
    Period::Numbered { first, last }
}
