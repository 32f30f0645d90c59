//! A fleet that was scored elsewhere: the cards that came, held against the lease file, and against each other.

use crate::common::failure::{Failure, Outcome};
use crate::common::text;
use crate::fleet::held;
use crate::fleet::kept::Kept;
use crate::fleet::leases::{Row, Rows};
use crate::fleet::month::OF_THE_FLEET;
use crate::fleet::scores::{self, Came};
use crate::fleet::spool::Spool;
use crate::fleet::stations::Group;
use crate::score::asked::{Asked, LeaseLine};
use crate::score::checks::Check;
use crate::score::civil::Date;
use crate::score::issue::VERSION;
use egretfold::Edition;
use std::cmp::Reverse;
use std::collections::HashMap;
use std::io;
use std::path::PathBuf;

/// The checks that are told of scores as they are joined, by their keys: no log tells them.
pub const OF_THE_JOIN: [&str; 3] = [OTHER_ISSUE, OTHER_VERSION, OTHER_LEASE];

const OTHER_ISSUE: &str = "other_issue";
const OTHER_VERSION: &str = "other_version";
const OTHER_LEASE: &str = "other_lease";

/// What scores are joined by.
pub struct By<'a> {
    /// The lease file's rows.
    pub rows: Option<&'a Rows>,
    /// Whether digests are held against the logs.
    pub logs: bool,
    /// The date of issue that was asked for.
    pub issued: Option<Date>,
}

/// The cards that these files tell, in the lease file's order where there is one, and the
/// report of their months.
pub fn joined(files: &[PathBuf], by: &By) -> Outcome<Group> {
    let mut told = Told::read(files, by.logs)?;
    let first = told
        .first
        .as_ref()
        .ok_or_else(|| Failure::wrong("there is no score in what is joined"))?;
    let edition = first.edition;
    let edition = Edition::of(edition)
        .map_err(|_| Failure::Wrong(format!("there is no edition {edition}")))?;
    let issued = by.issued.unwrap_or(first.issued);
    let mut group = Group::new(edition, by.rows.map_or(told.places.len(), Rows::len));
    let rows = match by.rows {
        Some(rows) => rows,
        None => {
            let common = told.leases.common();
            for at in told.places.iter().flatten() {
                let mut came = told.came(*at)?;
                tell_others(&mut came, issued);
                tell_other_lease(&mut came, common);
                group.take(&came.card)?;
            }
            return Ok(group);
        }
    };
    // The lease file's stations are all that there are.
    for row in rows.iter() {
        let row = row?;
        let card = match told.due(&row)? {
            Some(mut came) => {
                tell_others(&mut came, issued);
                came.card
            }
            None => {
                let due = "no score of it is among those that are joined";
                Kept::of(row.asked.missing(edition, due))
            }
        };
        group.take(&card)?;
    }
    told.no_stranger()?;
    Ok(group)
}

/// A score that another version printed, or that is of another date of issue.
fn tell_others(Came { card, place }: &mut Came, issued: Date) {
    let (date, version) = (card.issue().date, card.issue().version.to_string());
    if date != issued {
        let text = format!("its score was issued on {date}, where {issued} is due: {place}");
        card.check(Check::new(OTHER_ISSUE, text, None));
    }
    if version != VERSION {
        let text = format!(
            "its score was printed by egretfold {version}, and is joined by {VERSION}: {place}"
        );
        card.check(Check::new(OTHER_VERSION, text, None));
    }
}

/// Puts what was told as a card's score was joined among the checks that are told anew, behind those of its log.
pub fn say_again(checks: &mut Vec<Check>, said: &[Check]) {
    let of_the_fleet = |check: &Check| OF_THE_FLEET.contains(&&*check.key);
    let place = checks.iter().position(of_the_fleet);
    let place = place.unwrap_or(checks.len());
    let said = said
        .iter()
        .filter(|check| OF_THE_JOIN.contains(&&*check.key));
    checks.splice(place..place, said.cloned());
}

/// The days of a lease: its first day's number, how many they are, and the first date.
type Days = (u32, u32, Option<Date>);

fn days(card: &Kept) -> Days {
    let (line, from) = card.lease();
    (line.first_day, line.days, from)
}

/// The days that scores are of: how many are of each, and which came first, counted from 0.
#[derive(Default)]
struct Leases {
    counts: HashMap<Days, (usize, usize)>,
}

impl Leases {
    fn put(&mut self, card: &Kept) {
        let next = self.counts.len();
        self.counts.entry(days(card)).or_insert((0, next)).0 += 1;
    }

    /// The days that most are of, the first of those that are as many, so that the answer is one.
    fn common(&self) -> Option<Days> {
        let counts = self.counts.iter();
        let common = counts.max_by_key(|(_, (count, came))| (*count, Reverse(*came)));
        common.map(|(days, _)| *days)
    }
}

/// A score of other days than most: without a lease file nobody else knows that it is another month's.
fn tell_other_lease(Came { card, place }: &mut Came, common: Option<Days>) {
    if let Some(common) = common.filter(|common| *common != days(card)) {
        let (is, others) = (days_of(days(card)), days_of(common));
        let text = format!("its score is of {is}, and others are of {others}: {place}");
        card.check(Check::new(OTHER_LEASE, text, None));
    }
}

/// A lease in words, without what it owes.
fn days_of((first_day, days, from): Days) -> String {
    let days = text::count(u64::from(days), "day");
    let from = from.map_or(String::new(), |from| format!(" ({from})"));
    format!("{days} from day {first_day}{from} on")
}

/// The rows whose stations have no score yet in these files: none came, or one that says
/// that the log couldn't be read.
pub fn missing(files: &[PathBuf], rows: &Rows) -> Outcome<Rows> {
    let mut told = Told::read(files, false)?;
    let mut missing = Rows::new();
    for row in rows.iter() {
        let row = row?;
        let card = told.due(&row)?;
        let other = card
            .as_ref()
            .filter(|came| came.card.edition() != row.asked.edition);
        if let Some(Came { card, place }) = other {
            let (name, by, due) = (row.station(), card.edition(), row.asked.edition);
            return Err(Failure::Wrong(format!(
                "{place}: station {name} is scored by edition {by}, and edition {due} is asked for"
            )));
        }
        if card.map_or(true, |came| came.card.is_unread()) {
            missing.push(&row)?;
        }
    }
    told.no_stranger()?;
    Ok(missing)
}

/// What is asked of the first card that came.
struct First {
    station: String,
    /// The number of its edition, which all have.
    edition: u32,
    issued: Date,
}

/// The cards that came, one a station.
struct Told {
    cards: Spool,
    /// Where each stands, in the order in which the stations came; none once it is taken.
    places: Vec<Option<u64>>,
    /// The stations' numbers in that order.
    numbers: HashMap<String, usize>,
    first: Option<First>,
    leases: Leases,
    /// Whether their digests are held against the logs.
    logs: bool,
}

impl Told {
    fn read(files: &[PathBuf], logs: bool) -> Outcome<Told> {
        let mut told = Told {
            cards: Spool::new(),
            places: Vec::new(),
            numbers: HashMap::new(),
            first: None,
            leases: Leases::default(),
            logs,
        };
        scores::read(files, |came| told.put(&came))?;
        Ok(told)
    }

    /// Of two of a station the one that says that the log couldn't be read gives way: the
    /// station was tried again.
    fn put(&mut self, came: &Came) -> Outcome {
        let card = &came.card;
        let name = card.station();
        let first = self.first.get_or_insert_with(|| First {
            station: name.to_string(),
            edition: card.edition(),
            issued: card.issue().date,
        });
        if first.edition != card.edition() {
            return Err(mixed(first, came));
        }
        self.leases.put(card);
        let number = match self.numbers.get(name) {
            Some(number) => *number,
            None => {
                self.numbers.insert(name.to_string(), self.places.len());
                self.places.push(None);
                self.places.len() - 1
            }
        };
        let earlier = self.places[number].map(|at| self.came(at)).transpose()?;
        match earlier {
            Some(earlier) if earlier.card.is_unread() => {}
            Some(_) if card.is_unread() => return Ok(()),
            Some(earlier) => return Err(twice(name, &earlier, came)),
            None => {}
        }
        self.places[number] = Some(self.cards.put(came)?);
        Ok(())
    }

    fn came(&self, at: u64) -> io::Result<Came> {
        let (came, _) = self.cards.get(at)?;
        Ok(came)
    }

    /// The card of a row, which must be of its lease line.
    fn due(&mut self, row: &Row) -> Outcome<Option<Came>> {
        let number = self.numbers.get(row.station());
        let came = match number.and_then(|number| self.places[*number].take()) {
            Some(at) => self.came(at)?,
            None => return Ok(None),
        };
        if let Some(cause) = of_another(&came.card, row) {
            let (name, line, place) = (row.station(), row.line, &came.place);
            return Err(Failure::Wrong(format!(
                "{place}: station {name} is scored for another lease than that of line {line}: {cause}\n  \
                 take its lines away where they are an earlier month's, and score it again"
            )));
        }
        held::files(row, came.card.inputs(), &came.place)?;
        match came.card.scored() {
            Some(scored) if self.logs => held::digest(row, scored.digest, &came.place)?,
            _ => {}
        }
        Ok(Some(came))
    }

    /// Nobody is left who has no row.
    fn no_stranger(&self) -> Outcome {
        let at = match self.places.iter().flatten().next() {
            Some(at) => *at,
            None => return Ok(()),
        };
        let Came { card, place } = self.came(at)?;
        let name = card.station();
        Err(Failure::Wrong(format!(
            "{place}: station {name} is scored and has no row in the lease file"
        )))
    }
}

/// In what a card isn't of its row's lease, where it isn't.
fn of_another(card: &Kept, row: &Row) -> Option<String> {
    let Asked {
        line, from, issue, ..
    } = &row.asked;
    let (is, is_from) = card.lease();
    let told = |is: &Option<String>| is.clone().unwrap_or_else(|| "none".to_string());
    let words = |line: &LeaseLine, from| {
        let days = days_of((line.first_day, line.days, from));
        format!("{days}, {} owed a day", line.owed)
    };
    let of_card = card.issue();
    let pairs = [
        ("lessee", &of_card.lessee, &issue.lessee),
        ("lease number", &of_card.lease, &issue.lease),
        ("time zone", &of_card.zone, &issue.zone),
    ];
    if (is, is_from) != (*line, *from) {
        return Some(format!(
            "{}, where {} are due",
            words(&is, is_from),
            words(line, *from)
        ));
    }
    if let Some((what, is, due)) = pairs.iter().find(|(_, is, due)| is != due) {
        return Some(format!(
            "its {what} is {}, where {} is due",
            told(is),
            told(due)
        ));
    }
    let began = card
        .scored()?
        .began
        .as_ref()
        .map(|began| began.state.clone());
    let due = row.asked.state_name();
    (began != due).then(|| {
        format!(
            "it goes on from state {}, where {} is due",
            told(&began),
            told(&due)
        )
    })
}

fn mixed(first: &First, other: &Came) -> Failure {
    let First {
        station, edition, ..
    } = first;
    let (name, by) = (other.card.station(), other.card.edition());
    Failure::Wrong(format!(
        "{}: station {station} is scored by edition {edition} and station {name} by edition {by}",
        other.place
    ))
}

/// Two scores of one station, each with its place and its lease.
fn twice(name: &str, earlier: &Came, later: &Came) -> Failure {
    let told = |Came { card, place }: &Came| format!("{place} ({})", days_of(days(card)));
    Failure::Wrong(format!(
        "station {name} is scored twice: {} and {}\n  take one of them away; where one is of an earlier month, that one",
        told(earlier),
        told(later)
    ))
}
