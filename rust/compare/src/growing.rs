//! Cases of the report that grows: stations are added in groups, by their logs and by their months' numbers, with refusals
//! between them; groups are joined in their order. Told after every call, and beside request 14's report where that takes them.

use crate::case::{Agreement, Case};
use crate::editions;
use crate::fleets::{self, Given};
use crate::random::Random;
use egretfold::{lent, Edition, Fleet, FleetTold, Replay};
use second::growing::{Growing, Told};
use second::score::Lease;

/// The most that a month owes.
const MOST_OWED: u64 = 3_100_000_000;

/// One report in both programs.
#[derive(Clone)]
struct Both {
    product: Fleet,
    second: Growing,
}

pub fn run(case: &mut Case) -> Agreement {
    let edition = editions::any(case);
    begin(case)?;
    match case.random.below(16) {
        0 | 1 => doubled(case, edition),
        2 => late(case, edition),
        _ => grown(case, edition),
    }
}

/// A number of no edition begins nothing.
fn begin(case: &mut Case) -> Agreement {
    let number = editions::none(&mut case.random);
    let product = lent::fleet_begin(number).map(drop).map_err(u32::from);
    let second = Growing::new(number).map(drop);
    case.agree(|| format!("edition {number}"), &product, &second)
}

impl Both {
    fn new(edition: Edition) -> Both {
        let second = Growing::new(edition.number());
        Both {
            product: Fleet::new(edition),
            second: second.expect("both editions are accepted"),
        }
    }

    /// What a call answered, and what both tell after it.
    fn told(
        &self,
        case: &mut Case,
        asked: &str,
        product: u32,
        second: Result<(), u32>,
    ) -> Agreement {
        let number = second.err().unwrap_or(0);
        case.tally.answer(number);
        case.agree(|| asked.to_string(), &product, &number)?;
        let told = as_product(self.second.tell());
        case.agree(
            || format!("told after {asked}"),
            &self.product.tell(),
            &told,
        )
    }

    fn add(&mut self, case: &mut Case, edition: Edition, station: &Given) -> Agreement {
        let lease = match narrow(station) {
            Some(lease) => lease,
            None => return Ok(()),
        };
        let mut replay = Replay::new(edition);
        replay.feed(&station.log);
        let line = (lease.first_day, lease.days, lease.owed);
        let product = lent::fleet_add(&mut self.product, &replay, line);
        let second = self.second.add(edition.number(), &lease, &station.log);
        let asked = format!(
            "a station's log, {edition:?}, {lease:?}, {:X?}",
            station.log
        );
        self.told(case, &asked, product, second)
    }

    fn add_month(&mut self, case: &mut Case, month: [u64; 3]) -> Agreement {
        let [served, owed, silent] = month;
        let product = lent::fleet_add_month(&mut self.product, served, owed, silent);
        let second = self.second.add_month(served, owed, silent);
        self.told(case, &format!("a month of {month:?}"), product, second)
    }

    fn join(&mut self, case: &mut Case, other: &Both) -> Agreement {
        let product = lent::fleet_join(&mut self.product, &other.product);
        let second = self.second.join(&other.second);
        let asked = format!(
            "a join of {:?} and {:?}",
            self.second.tell(),
            other.second.tell()
        );
        self.told(case, &asked, product, second)
    }
}

fn as_product(told: Told) -> FleetTold {
    FleetTold {
        stations: told.stations,
        served: told.served,
        owed: told.owed,
        silent_days: told.silent_days,
        station: told.station,
    }
}

/// The lease line, where 32 bits hold it.
fn narrow(station: &Given) -> Option<Lease> {
    let number = |number: u64| u32::try_from(number).ok();
    let [first_day, days, owed] = station.lease;
    Some(Lease {
        first_day: number(first_day)?,
        days: number(days)?,
        owed: number(owed)?,
    })
}

/// Groups of stations, joined in their order, are the stations one by one.
fn grown(case: &mut Case, edition: Edition) -> Agreement {
    let groups = case.random.between(1, 4);
    let most = if case.random.once_in(16) { 60 } else { 8 };
    // Whether months come by their numbers too, of which no log is kept.
    let numbers = case.random.coin();
    let mut all: Option<Both> = None;
    let mut whole = Both::new(edition);
    let mut stations = Vec::new();
    for _ in 0..groups {
        let mut group = Both::new(edition);
        for _ in 0..case.random.between(0, most) {
            disturbed(case, edition, &mut group)?;
            if numbers && case.random.coin() {
                let month = month(&mut case.random);
                group.add_month(case, month)?;
                whole.add_month(case, month)?;
            } else {
                let station = fleets::station(&mut case.random);
                group.add(case, edition, &station)?;
                whole.add(case, edition, &station)?;
                stations.push(station);
            }
        }
        match &mut all {
            None => all = Some(group),
            Some(all) => all.join(case, &group)?,
        }
    }
    let all = all.unwrap_or_else(|| Both::new(edition));
    let told = all.product.tell();
    case.agree(
        || "groups joined in their order".to_string(),
        &all.product,
        &whole.product,
    )?;
    count(case, &told, groups);
    if numbers {
        Ok(())
    } else {
        as_reported(case, edition, &stations, &told)
    }
}

/// Stations around the 64th, and far behind it, whose part is the smallest or that alone owe anything: those before them are full or owe
/// nothing.
fn late(case: &mut Case, edition: Edition) -> Agreement {
    let before = if case.random.coin() {
        case.random.between(62, 66)
    } else {
        case.random.between(0, 200)
    };
    let owed = u64::from(case.random.below(2)) * MOST_OWED;
    let short = case.random.one_of(&[0, 0, 1, MOST_OWED]);
    let mut all = Both::new(edition);
    let mut group = Both::new(edition);
    for number in 0..before + case.random.between(0, 3) {
        let month = if number >= before {
            [owed - short.min(owed), owed, 0]
        } else {
            [owed, owed, 0]
        };
        group.add_month(case, month)?;
        if case.random.once_in(20) {
            all.join(case, &group)?;
            group = Both::new(edition);
        }
    }
    if case.random.coin() {
        group.add_month(case, [1, 2, 0])?;
    }
    all.join(case, &group)?;
    count(case, &all.product.tell(), 2);
    Ok(())
}

/// Request 14's report of the stations that were added, as far as that takes them.
fn as_reported(
    case: &mut Case,
    edition: Edition,
    stations: &[Given],
    told: &FleetTold,
) -> Agreement {
    let (logs, numbers) = fleets::slices(stations);
    let mut room = [0; 4];
    let number = lent::fleet_report(edition.number(), &logs, &numbers, &mut room);
    if number != 0 {
        // Too many, or one of them was refused and isn't among those added.
        return Ok(());
    }
    case.tally.mark("reports that request 14's tells too");
    let due = [
        told.served,
        told.owed,
        told.silent_days,
        told.station.unwrap_or(64),
    ];
    case.agree(|| format!("{} stations", stations.len()), &room, &due)
}

/// A call that is refused, or seldom one that is not: nothing of it stays where it is.
fn disturbed(case: &mut Case, edition: Edition, group: &mut Both) -> Agreement {
    if !case.random.once_in(4) {
        return Ok(());
    }
    let mut station = fleets::station(&mut case.random);
    fleets::damage(&mut case.random, &mut station);
    let mut tried = group.clone();
    match case.random.below(4) {
        0 => tried.add(case, editions::other(edition), &station),
        1 => tried.join(case, &Both::new(editions::other(edition))),
        2 => {
            let month = no_month(&mut case.random);
            tried.add_month(case, month)
        }
        _ => tried.add(case, edition, &station),
    }
}

/// A month's numbers: of few elements, so that parts tie, or of the most.
fn month(random: &mut Random) -> [u64; 3] {
    let owed = match random.below(4) {
        0 => 0,
        1 => MOST_OWED - u64::from(random.below(3)),
        _ => u64::from(random.below(7)),
    };
    let served = match random.below(3) {
        0 => owed,
        1 => owed.saturating_sub(u64::from(random.below(4))),
        _ => owed.min(u64::from(random.below(4))),
    };
    [served, owed, u64::from(random.below(32))]
}

/// Numbers that no month has, each by one too many or by far.
fn no_month(random: &mut Random) -> [u64; 3] {
    let [served, owed, silent] = month(random);
    let far = random.one_of(&[1, 1, 1 << 32, u64::MAX - MOST_OWED]);
    match random.below(3) {
        0 => [served, MOST_OWED + far, silent],
        1 => [owed + far, owed, silent],
        _ => [served, owed, 31 + far],
    }
}

/// A report joined with itself until it is full or nearly so: the sums come near what 64 bits hold, and what then comes gets 22.
fn doubled(case: &mut Case, edition: Edition) -> Agreement {
    let mut fleet = Both::new(edition);
    let one = month(&mut case.random);
    fleet.add_month(case, one)?;
    for _ in 0..31 {
        let same = fleet.clone();
        fleet.join(case, &same)?;
    }
    let half = fleet.clone();
    // Another month between the halves, so that the last of them doesn't fit.
    if case.random.coin() {
        let other = month(&mut case.random);
        fleet.add_month(case, other)?;
    }
    fleet.join(case, &half)?;
    if fleet.second.tell().stations == 1 << 32 {
        case.tally.mark("reports of 2^32 stations");
    }
    for _ in 0..3 {
        let station = fleets::station(&mut case.random);
        fleet.add(case, edition, &station)?;
        let month = no_month(&mut case.random);
        fleet.add_month(case, month)?;
        disturbed(case, edition, &mut fleet)?;
    }
    fleet.join(case, &Both::new(edition))
}

/// What the report was, for the tests to look at.
fn count(case: &mut Case, told: &FleetTold, groups: u32) {
    let tally = &mut *case.tally;
    if groups > 1 {
        tally.mark("reports joined of groups");
    }
    if told.stations > 64 {
        tally.mark("reports of more than 64 stations");
    }
    if told.station.map_or(false, |station| station >= 64) {
        tally.mark("reports that name station 64 or a later one");
    }
    if told.station == Some(64) {
        tally.mark("reports that name station 64");
    }
    if told.stations > 64 && told.station.is_none() {
        tally.mark("reports of more than 64 stations that owe nothing");
    }
}
