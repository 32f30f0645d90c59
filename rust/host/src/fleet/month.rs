//! A fleet's month: its stations' cards with what they come to together.

use crate::common::digest::Digest;
use crate::common::edition;
use crate::common::failure::{Failure, Outcome};
use crate::common::text;
use crate::fleet::briefs::{Brief, Cards, End};
use crate::fleet::files::name_order;
use crate::fleet::kept::{Kept, Total};
use crate::fleet::lessees::{self, Subtotal};
use crate::fleet::stations::Group;
use crate::score::asked::Card;
use crate::score::checks::Check;
use crate::score::civil::Date;
use crate::score::month::Percent;
use clap::ValueEnum;
use egretfold::{Edition, FleetTold, Verdict};
use std::cmp::{Ordering, Reverse};
use std::collections::HashMap;
use std::io;

/// The order in which stations are told.
#[derive(Clone, Copy, Debug, PartialEq, Eq, ValueEnum)]
pub enum Sort {
    /// Those without a score, then the smallest served part first
    Worst,
    /// As they stand in the lease file
    Lease,
    /// By their names
    Station,
    /// By their lessees' names
    Lessee,
    /// The most dark days first
    #[value(alias = "silent")]
    Dark,
}

/// The checks that are told of stations beside each other, by their keys: a log by itself doesn't tell them.
pub const OF_THE_FLEET: [&str; 2] = [SAME_LOG, OTHER_DAYS];

const SAME_LOG: &str = "same_log";
const OTHER_DAYS: &str = "other_days";

/// The stations that are told.
#[derive(Clone, Copy, Debug, PartialEq, Eq, ValueEnum)]
pub enum Only {
    /// Those whose month is short
    Short,
    /// Those whose month is full
    Full,
    /// Those that have no score
    Unscored,
}

impl Only {
    fn has(self, brief: &Brief) -> bool {
        let verdict = brief.total().map(|total| total.verdict);
        match self {
            Only::Short => verdict == Some(Verdict::Short),
            Only::Full => verdict == Some(Verdict::Full),
            Only::Unscored => verdict.is_none(),
        }
    }

    fn told(self) -> &'static str {
        match self {
            Only::Short => "are short",
            Only::Full => "are full",
            Only::Unscored => "have no score",
        }
    }
}

pub struct Fleet {
    cards: Cards,
    /// The report of the stations that have a score.
    pub four: FleetTold,
    /// The place of the station with the smallest part, and its name.
    pub smallest: Option<usize>,
    smallest_name: Option<String>,
    /// The edition's rule, which is the same for all of them.
    pub rule: Option<&'static str>,
    /// What each lessee's stations come to.
    pub subtotals: Vec<Subtotal>,
    /// The places of those that are told, in that order.
    order: Vec<u32>,
    only: Option<Only>,
    /// The places of stations that have another's log, by its digest, and those of one log in their order.
    twins: Vec<u32>,
    /// The ways to count days that most stations share, at most two of them.
    common: Vec<Counted>,
    /// When the report is issued.
    pub date: Date,
}

impl Fleet {
    pub fn new(group: Group, sort: Sort, only: Option<Only>, date: Date) -> Outcome<Fleet> {
        let cards = group.cards.in_places();
        let four = group.report.tell();
        // The report counts the stations that were added to it: those with a score.
        let smallest = four.station.and_then(|number| {
            let places = (0..).zip(cards.briefs());
            let mut scored = places.filter(|(_, brief)| brief.total().is_some());
            scored.nth(number as usize).map(|(place, _)| place)
        });
        let name = |place| cards.get(place).map(|card| card.station().to_string());
        let edition = match cards.briefs() {
            [] => None,
            _ => Edition::of(cards.get(0)?.edition()).ok(),
        };
        let mut sums = lessees::Sums::default();
        let mut ways = Ways::default();
        for (place, card) in cards.all().enumerate() {
            let card = card?;
            sums.put(&card)?;
            ways.put(place, &card);
        }
        let mut order = order(&cards, sort)?;
        order.retain(|place| only.map_or(true, |only| only.has(&cards.briefs()[*place as usize])));
        Ok(Fleet {
            four,
            smallest,
            smallest_name: smallest.map(name).transpose()?,
            rule: edition.map(edition::rule),
            subtotals: sums.subtotals(),
            order,
            only,
            common: ways.common(&cards)?,
            twins: twins(cards.briefs()),
            cards,
            date,
        })
    }

    pub fn stations(&self) -> usize {
        self.cards.briefs().len()
    }

    /// How many stations are told.
    pub fn count_told(&self) -> usize {
        self.order.len()
    }

    /// The stations as they are told, with their places.
    pub fn told(&self) -> impl Iterator<Item = io::Result<(usize, Card)>> + '_ {
        let places = self.order.iter().map(|place| *place as usize);
        places.map(|place| Ok((place, self.card(place)?)))
    }

    /// The stations in the lease file's order.
    pub fn cards(&self) -> impl Iterator<Item = io::Result<Card>> + '_ {
        (0..self.stations()).map(|place| self.card(place))
    }

    fn card(&self, place: usize) -> io::Result<Card> {
        let mut card = self.cards.get(place)?;
        if let Some(others) = self.others(place)? {
            let text = format!("the log is byte for byte that of station {others} too");
            card.check(Check::new(SAME_LOG, text, None));
        }
        if let Some(other) = other_way(&card, &self.common) {
            let text = format!("its days have other dates: {}, {other}", dated(&card));
            card.check(Check::new(OTHER_DAYS, text, None));
        }
        Ok(card.card())
    }

    /// The first stations beside this one whose log is the same bytes, and how many more there are.
    fn others(&self, place: usize) -> io::Result<Option<String>> {
        const FIRST: usize = 3;
        let digest = |place: usize| self.cards.briefs()[place].digest;
        let due = digest(place);
        let begin = self
            .twins
            .partition_point(|twin| digest(*twin as usize) < due);
        let end = self
            .twins
            .partition_point(|twin| digest(*twin as usize) <= due);
        let same = self.twins[begin..end].iter().map(|twin| *twin as usize);
        let others = same.filter(|other| *other != place).take(FIRST);
        let names = others.map(|other| Ok(self.cards.get(other)?.station().to_string()));
        let names = names.collect::<io::Result<Vec<String>>>()?.join(", ");
        Ok(match (end - begin).saturating_sub(1) {
            0 => None,
            count if count <= FIRST => Some(names),
            count => Some(format!("{names} and {} more", count - FIRST)),
        })
    }

    /// What the months come to that have a score.
    fn totals(&self) -> impl Iterator<Item = &Total> {
        self.cards.briefs().iter().filter_map(Brief::total)
    }

    /// How many stations have a score.
    pub fn scored(&self) -> usize {
        self.totals().count()
    }

    pub fn has_lessees(&self) -> bool {
        self.cards.briefs().iter().any(|brief| brief.has_lessee)
    }

    pub fn percent(&self) -> Option<Percent> {
        Percent::of(self.four.served, self.four.owed)
    }

    /// The name of the station with the smallest part.
    pub fn smallest(&self) -> Option<&str> {
        self.smallest_name.as_deref()
    }

    fn count(&self, verdict: Verdict) -> usize {
        let is = |total: &&Total| total.verdict == verdict;
        self.totals().filter(is).count()
    }

    /// Days that were served in full.
    pub fn full_days(&self) -> usize {
        let days = self.cards.briefs().iter();
        days.map(|brief| usize::from(brief.full)).sum()
    }

    /// "14 stations: 1 short, 11 full, 1 refused, 1 not scored; told here: those that are short".
    pub fn heading(&self) -> String {
        let ends = |is: fn(&End) -> bool| {
            let briefs = self.cards.briefs().iter();
            briefs.filter(|brief| is(&brief.end)).count()
        };
        let kinds = [
            (self.count(Verdict::Full), "full"),
            (self.count(Verdict::Short), "short"),
            (self.count(Verdict::NothingOwed), "nothing owed"),
            (ends(|end| matches!(end, End::Refused)), "REFUSED"),
            (ends(|end| matches!(end, End::NotScored)), "NOT SCORED"),
        ];
        let kinds = kinds.iter().filter(|(count, _)| *count > 0);
        let kinds: Vec<String> = kinds
            .map(|(count, kind)| format!("{count} {kind}"))
            .collect();
        let stations = text::count(self.stations() as u64, "station");
        let only = match self.only {
            Some(only) => format!("; told here: those that {}", only.told()),
            None => String::new(),
        };
        format!("{stations}: {}{only}", kinds.join(", "))
    }

    /// How the fleet ends: a station without a score weighs more than a short month.
    pub fn outcome(&self) -> Outcome {
        let mut names = Vec::new();
        for (place, brief) in self.cards.briefs().iter().enumerate() {
            if brief.total().is_none() {
                names.push(self.cards.get(place)?.station().to_string());
            }
        }
        match names.len() {
            0 if self.count(Verdict::Short) > 0 => Err(Failure::Short),
            0 => Ok(()),
            1 => Err(Failure::Refused(format!(
                "station {} has no score",
                names[0]
            ))),
            count => {
                let names = names.join(", ");
                Err(Failure::Refused(format!(
                    "{count} stations have no score: {names}"
                )))
            }
        }
    }
}

/// A station's name; a score by itself may have none.
pub fn station(card: &Card) -> &str {
    card.issue().station.as_deref().unwrap_or("-")
}

/// The places in this order; what is equal stays in the lease file's.
fn order(cards: &Cards, sort: Sort) -> io::Result<Vec<u32>> {
    let briefs = cards.briefs();
    let mut order: Vec<u32> = (0..).take(briefs.len()).collect();
    let brief = |place: u32| &briefs[place as usize];
    let lessee = |card: &Kept| card.issue().lessee.clone().unwrap_or_default();
    match sort {
        Sort::Lease => {}
        Sort::Station => {
            let names = Names::of(cards, |card| card.station().to_string())?;
            order.sort_by(|one, other| name_order(names.at(*one), names.at(*other)));
        }
        Sort::Lessee => {
            let names = Names::of(cards, lessee)?;
            order.sort_by(|one, other| name_order(names.at(*one), names.at(*other)));
        }
        // Those without a score first: they have no number.
        Sort::Dark => order.sort_by_key(|place| {
            let brief = brief(*place);
            brief.total().map(|_| Reverse(brief.dark))
        }),
        Sort::Worst => order.sort_by(|one, other| worst(brief(*one), brief(*other))),
    }
    Ok(order)
}

/// A name a place, one behind the other.
struct Names {
    text: String,
    ends: Vec<usize>,
}

impl Names {
    fn of(cards: &Cards, name: impl Fn(&Kept) -> String) -> io::Result<Names> {
        let mut names = Names {
            text: String::new(),
            ends: vec![0],
        };
        for name in cards.names(name) {
            names.text += &name?;
            names.ends.push(names.text.len());
        }
        Ok(names)
    }

    fn at(&self, place: u32) -> &str {
        let place = place as usize;
        &self.text[self.ends[place]..self.ends[place + 1]]
    }
}

/// Without a score, then by the served part, and last those that owe nothing.
fn worst(one: &Brief, other: &Brief) -> Ordering {
    let part = |brief: &Brief| brief.total().map(|total| (total.served, total.owed));
    match (part(one), part(other)) {
        (None, None) => Ordering::Equal,
        (None, _) => Ordering::Less,
        (_, None) => Ordering::Greater,
        (Some((_, 0)), Some((_, 0))) => Ordering::Equal,
        (Some((_, 0)), _) => Ordering::Greater,
        (_, Some((_, 0))) => Ordering::Less,
        (Some((served, owed)), Some((theirs, owe))) => {
            let one = u128::from(served) * u128::from(owe);
            one.cmp(&(u128::from(theirs) * u128::from(owed)))
        }
    }
}

/// Logs of two stations that are the same bytes: one of them is in the wrong place. Empty
/// ones are told as empty.
fn twins(briefs: &[Brief]) -> Vec<u32> {
    let empty = Digest::new().finished();
    let digest = |place: &u32| briefs[*place as usize].digest;
    let has_bytes = |place: &u32| digest(place).map_or(false, |digest| digest != empty);
    let mut places: Vec<u32> = (0..).take(briefs.len()).filter(has_bytes).collect();
    // Stable, so that those of one log stay in their order.
    places.sort_by_key(digest);
    let is_twin = |at: usize| {
        let beside = [at.wrapping_sub(1), at + 1].map(|at| places.get(at).map(digest));
        beside.contains(&Some(digest(&places[at])))
    };
    let twins = (0..places.len()).filter(|at| is_twin(*at));
    twins.map(|at| places[at]).collect()
}

/// How far a station's dates stand from its days' numbers, the same for all stations that count days alike.
fn apart(card: &Kept) -> Option<i64> {
    let (line, from) = card.lease();
    Some(i64::from(from?.number()) - i64::from(line.first_day))
}

/// A way to count days, and what tells it of the first station that does.
struct Counted {
    apart: i64,
    dated: String,
}

/// The ways to count days: how many stations share each, and the place of the first.
#[derive(Default)]
struct Ways {
    ways: HashMap<i64, (usize, usize)>,
}

impl Ways {
    fn put(&mut self, place: usize, card: &Kept) {
        if let Some(apart) = apart(card) {
            self.ways.entry(apart).or_insert((0, place)).0 += 1;
        }
    }

    /// The first two of those that are as common as any; none where no two stations share anything, so that each counts
    /// days of its own, unless there are but two of them.
    fn common(&self, cards: &Cards) -> io::Result<Vec<Counted>> {
        let most = self.ways.values().map(|(count, _)| *count).max();
        let most = most.unwrap_or(0);
        let two_stations = most == 1 && self.ways.len() == 2;
        if most < 2 && !two_stations {
            return Ok(Vec::new());
        }
        let common = self.ways.iter().filter(|(_, (count, _))| *count == most);
        let mut common: Vec<(usize, i64)> =
            common.map(|(apart, (_, place))| (*place, *apart)).collect();
        common.sort_unstable();
        let counted = |(place, apart)| {
            let dated = dated(&cards.get(place)?);
            Ok(Counted { apart, dated })
        };
        common.into_iter().take(2).map(counted).collect()
    }
}

/// What most stations share and this one doesn't: a number or a date of its days may be another's.
fn other_way<'a>(card: &Kept, common: &'a [Counted]) -> Option<&'a str> {
    let own = apart(card)?;
    let other = common.iter().find(|one| one.apart != own)?;
    Some(&other.dated)
}

/// "day 101 of station 14 is 2026-04-01", where it has a date.
fn dated(card: &Kept) -> String {
    let (line, from) = card.lease();
    let (first, station) = (line.first_day, card.station());
    let from = from.map_or(String::new(), |from| from.to_string());
    format!("day {first} of station {station} is {from}")
}

#[cfg(test)]
mod tests {
    use super::*;
    use crate::common::digits::Digits;
    use crate::fleet::kept::tests::{score, unscored};
    use crate::fleet::spool::Spool;
    use crate::fleet::{rows, text as terminal};

    /// Stations of one log, of other ones, and without a score, by a spool with this room.
    fn fleet(room: usize, sort: Sort) -> Fleet {
        let mut group = Group::new(Edition::First, 0);
        group.cards = Cards::new(Spool::with_room(room), 0);
        for number in 0..60 {
            let name = format!("s{}", number * 7 % 60);
            let card = match number % 5 {
                0 => Card::Unscored(unscored(&name)),
                kind => {
                    let mut score = score(&name, 90 + number % 7, None);
                    // Logs of their own, for some.
                    score.digest = score.digest.filter(|_| kind > 2);
                    Card::Scored(score)
                }
            };
            assert!(group.take(&Kept::of(card)).is_ok());
        }
        let fleet = Fleet::new(group, sort, None, Date::today());
        fleet.ok().expect("a fleet")
    }

    fn told(fleet: &Fleet) -> [String; 3] {
        let mut forms = [Vec::new(), Vec::new(), Vec::new()];
        assert!(terminal::tell(fleet, Digits::Grouped, &mut forms[0]).is_ok());
        assert!(rows::json(fleet, &mut forms[1]).is_ok());
        assert!(rows::csv(fleet, &mut forms[2]).is_ok());
        forms.map(|form| String::from_utf8_lossy(&form).into_owned())
    }

    /// A fleet that stands in a file, but for the last cards or card by card, tells what it tells in memory.
    #[test]
    fn a_fleet_in_a_file_tells_the_same() {
        for sort in Sort::value_variants() {
            let due = told(&fleet(usize::MAX, *sort));
            assert!(due[0].contains(" and 20 more too"), "{}", due[0]);
            let stations = due[1].lines().filter(|line| line.contains("\"lease\":"));
            assert_eq!(stations.count(), 60);
            for room in [5_000, 0] {
                assert_eq!(told(&fleet(room, *sort)), due, "{sort:?}");
            }
        }
    }
}
