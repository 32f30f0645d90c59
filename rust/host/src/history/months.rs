//! Months of stations side by side: each station's in the order of its days, what changed from one to the
//! next, and what all stations of a month come to. The order in which the scores came doesn't matter.

use crate::common::failure::Outcome;
use crate::fleet::files::name_order;
use crate::fleet::stations::refused;
use crate::history::odds::{self, Odds};
use crate::history::period::Period;
use crate::score::month::Percent;
use crate::score::outline::{Came, Outline};
use egretfold::{Edition, Fleet, FleetTold};
use std::cmp::Ordering;
use std::collections::BTreeMap;

pub struct History {
    /// By their names.
    pub stations: Vec<Station>,
    /// What the stations of each month come to, in the months' order.
    pub totals: Vec<Total>,
    /// Where scores contradict each other.
    pub odds: Vec<Odds>,
}

pub struct Station {
    pub name: String,
    /// That of the last month which has one.
    pub lessee: Option<String>,
    /// In the order of their days.
    pub months: Vec<Month>,
}

pub struct Month {
    pub outline: Outline,
    pub period: Period,
    /// Whether another score says otherwise: then it is shown, and nothing is reckoned from it.
    pub at_odds: bool,
    pub change: Option<Change>,
}

/// How a month is beside the one before it that has a score.
pub struct Change {
    pub since: Period,
    /// The part that was served then.
    pub was: String,
    /// Of the served part.
    pub part: Ordering,
    /// How many dark days more, or fewer.
    pub dark: i64,
}

impl Change {
    pub fn is_worse(&self) -> bool {
        self.part == Ordering::Less || self.dark > 0
    }

    /// "worse than 2026-04 (100 %), 3 more dark days".
    pub fn told(&self) -> String {
        let (since, was) = (self.since, &self.was);
        let part = match self.part {
            Ordering::Less => format!("worse than {since} ({was})"),
            Ordering::Equal => format!("as {since}"),
            Ordering::Greater => format!("better than {since} ({was})"),
        };
        let days = |count: u64| if count == 1 { "day" } else { "days" };
        let count = self.dark.unsigned_abs();
        match self.dark.cmp(&0) {
            Ordering::Less => format!("{part}, {count} fewer dark {}", days(count)),
            Ordering::Equal => part,
            Ordering::Greater => format!("{part}, {count} more dark {}", days(count)),
        }
    }
}

/// What the stations of a month come to: those that have a score which no other contradicts.
pub struct Total {
    pub period: Period,
    pub stations: usize,
    /// None where they are scored by two editions.
    pub told: Option<FleetTold>,
}

impl Total {
    pub fn percent(&self) -> Option<Percent> {
        self.told
            .and_then(|told| Percent::of(told.served, told.owed))
    }
}

impl History {
    pub fn of(outlines: Vec<Outline>) -> Outcome<History> {
        let mut stations: BTreeMap<String, Vec<Outline>> = BTreeMap::new();
        for outline in outlines {
            let months = stations.entry(outline.station.clone()).or_default();
            months.push(outline);
        }
        let mut odds = Vec::new();
        let mut stations: Vec<Station> = stations
            .into_iter()
            .map(|(name, months)| Station::of(name, months, &mut odds))
            .collect();
        stations.sort_by(|one, other| name_order(&one.name, &other.name));
        let totals = totals(&stations)?;
        odds.extend(odds::of_editions(&totals));
        odds.sort_by(|one, other| name_order(&one.station, &other.station));
        Ok(History {
            stations,
            totals,
            odds,
        })
    }

    /// The stations' months, each with its station.
    pub fn months(&self) -> impl Iterator<Item = (&Station, &Month)> {
        self.stations
            .iter()
            .flat_map(|station| station.months.iter().map(move |month| (station, month)))
    }

    /// The months that got worse.
    pub fn worse(&self) -> impl Iterator<Item = (&Station, &Month, &Change)> {
        self.months().filter_map(|(station, month)| {
            let change = month.change.as_ref().filter(|change| change.is_worse())?;
            Some((station, month, change))
        })
    }

    /// The editions by which they are scored.
    pub fn editions(&self) -> Vec<u32> {
        let mut editions: Vec<u32> = self
            .months()
            .map(|(_, month)| month.outline.edition)
            .collect();
        editions.sort_unstable();
        editions.dedup();
        editions
    }
}

impl Station {
    fn of(name: String, mut months: Vec<Outline>, odds: &mut Vec<Odds>) -> Station {
        months.sort_by(by_days);
        let months = without_repeats(months);
        let months = months.into_iter().map(|outline| Month {
            period: Period::of(&outline),
            outline,
            at_odds: false,
            change: None,
        });
        let mut months: Vec<Month> = months.collect();
        odds::of_station(&name, &mut months, odds);
        put_changes(&mut months);
        let mut lessees = months.iter().rev();
        let lessee = lessees.find_map(|month| month.outline.lessee.clone());
        Station {
            name,
            lessee,
            months,
        }
    }
}

/// By the lease's days, and then by all else that is told, so that the files' order doesn't matter.
fn by_days(one: &Outline, other: &Outline) -> Ordering {
    fn days(month: &Outline) -> (u32, u32) {
        (month.line.first_day, month.line.days)
    }
    fn sums(month: &Outline) -> Option<(u64, u64)> {
        month.sums().map(|sums| (sums.served, sums.owed))
    }
    days(one)
        .cmp(&days(other))
        .then_with(|| sums(one).cmp(&sums(other)))
        .then_with(|| one.edition.cmp(&other.edition))
        // With a date before without, since that is the one which stays.
        .then_with(|| other.from.cmp(&one.from))
        .then_with(|| other.lessee.cmp(&one.lessee))
        .then_with(|| one.place.cmp(&other.place))
}

/// One of those that say the same of the same days. One that says that the log couldn't be read gives way:
/// the station was tried again.
fn without_repeats(months: Vec<Outline>) -> Vec<Outline> {
    let mut kept: Vec<Outline> = Vec::new();
    for month in months {
        let same_days = |other: &Outline| {
            let days = |month: &Outline| (month.line.first_day, month.line.days);
            days(other) == days(&month)
        };
        let earlier = kept.iter().rposition(same_days);
        match earlier {
            Some(place) if says_the_same(&kept[place], &month) => {}
            Some(place) if is_unread(&kept[place]) => kept[place] = month,
            Some(_) if is_unread(&month) => {}
            _ => kept.push(month),
        }
    }
    kept
}

fn is_unread(month: &Outline) -> bool {
    matches!(month.came, Came::Unscored { refused: false, .. })
}

/// Where one is silent on a date or a lessee, the other doesn't contradict it.
fn says_the_same(one: &Outline, other: &Outline) -> bool {
    fn agree<T: PartialEq>(one: &Option<T>, other: &Option<T>) -> bool {
        one.is_none() || other.is_none() || one == other
    }
    one.line == other.line
        && one.edition == other.edition
        && one.came == other.came
        && agree(&one.from, &other.from)
        && agree(&one.lessee, &other.lessee)
}

/// Each month beside the last one before it of which something can be reckoned.
fn put_changes(months: &mut [Month]) {
    let mut before: Option<usize> = None;
    for place in 0..months.len() {
        if months[place].at_odds || months[place].outline.sums().is_none() {
            continue;
        }
        months[place].change = before.and_then(|before| change(&months[before], &months[place]));
        before = Some(place);
    }
}

/// None where nothing is owed, or another edition was scored by: then the parts can't be compared.
fn change(before: &Month, month: &Month) -> Option<Change> {
    let (was, is) = (before.outline.sums()?, month.outline.sums()?);
    if before.outline.edition != month.outline.edition || is.owed == 0 {
        return None;
    }
    let part = |served: u64, owed: u64| u128::from(served) * u128::from(owed);
    Some(Change {
        since: before.period,
        was: was.percent()?.to_string(),
        part: part(is.served, was.owed).cmp(&part(was.served, is.owed)),
        dark: is.dark.len() as i64 - was.dark.len() as i64,
    })
}

/// What the stations of each month come to, by the product's own report.
fn totals(stations: &[Station]) -> Outcome<Vec<Total>> {
    let mut periods: BTreeMap<Period, Vec<&Outline>> = BTreeMap::new();
    for month in stations.iter().flat_map(|station| &station.months) {
        let of_period = periods.entry(month.period).or_default();
        if !month.at_odds && month.outline.sums().is_some() {
            of_period.push(&month.outline);
        }
    }
    let total = |(period, months): (Period, Vec<&Outline>)| {
        let editions = || months.iter().map(|month| month.edition);
        let one = editions().min() == editions().max();
        let edition = editions()
            .next()
            .and_then(|number| Edition::of(number).ok());
        let edition = edition.unwrap_or(Edition::First);
        Ok(Total {
            period,
            stations: months.len(),
            told: if one {
                Some(sum(edition, &months)?)
            } else {
                None
            },
        })
    };
    periods.into_iter().map(total).collect()
}

fn sum(edition: Edition, months: &[&Outline]) -> Outcome<FleetTold> {
    let mut report = Fleet::new(edition);
    for sums in months.iter().filter_map(|month| month.sums()) {
        let added = report.add_month(sums.served, sums.owed, sums.dark.len() as u64);
        added.map_err(refused)?;
    }
    Ok(report.tell())
}
