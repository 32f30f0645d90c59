//! Cases of the seventh kind: a station's log, given to the product cut at random
//! bytes, is scored against lease lines, good ones and ones out of their bounds,
//! and so by the second program.

use crate::case::{Agreement, Case};
use crate::editions;
use crate::random::Random;
use crate::records;
use egretfold::lengths::DAYS;
use egretfold::{lent, Edition, Lease as ProductLease, Month as ProductMonth, Replay as Product};
use second::log::{Day, Replay as Second};
use second::score::{Lease, Month, ScoredDay, Verdict};

/// Lease lines that each log is scored against.
const LEASES: u32 = 8;

const MOST_DAYS: u32 = DAYS as u32;
const MOST_OWED: u32 = 100_000_000;

pub fn run(case: &mut Case) -> Agreement {
    let edition = editions::any(case);
    let log = records::any(&mut case.random);
    let mut second = Second::new_in(edition.number()).expect("an edition of document 02");
    second.feed(&log);
    let product = fed_in_pieces(&mut case.random, edition, &log);
    case.tally.add("bytes", log.len() as u64);
    for _ in 0..LEASES {
        let lease = lease(&mut case.random, &second);
        let asked = || format!("{lease:?} and log {log:X?}");
        let expected = lease.month(&second);
        case.agree(asked, &judged(edition, &lease), &lease.judge())?;
        editions::refuse_score(case, &lease, &log)?;
        rooms(case, &lease, &product, &expected, asked)?;
        // The product's comfortable form is asked where the lease line can be had.
        if let Ok(accepted) = ProductLease::new(lease.first_day, lease.days, lease.owed) {
            let month = product.score(&accepted).map(of_product);
            let month = month.map_err(u32::from);
            case.agree(asked, &month, &expected)?;
        }
        count(case, &lease, &second, &expected);
    }
    Ok(())
}

fn fed_in_pieces(random: &mut Random, edition: Edition, log: &[u8]) -> Product {
    let mut product = Product::new(edition);
    let length = random.one_of(&[1, 4, 7, 64, 1_000]);
    let mut left = log;
    while !left.is_empty() {
        let most = (left.len() as u32).min(length);
        let (piece, rest) = left.split_at(random.between(0, most) as usize);
        product.feed(piece);
        left = rest;
    }
    product
}

/// A lease line of any kind: about one in four has a number out of its bounds.
pub fn lease(random: &mut Random, log: &Second) -> Lease {
    if random.once_in(4) {
        if let Some(lease) = served_days(random, log) {
            return lease;
        }
    }
    let days = days(random, log);
    let first_day = first_day(random, log, days);
    let owed = owed(random, log);
    Lease {
        first_day,
        days,
        owed,
    }
}

/// A lease of days that all have claims, and owe about the least of them: full, or
/// short by little.
fn served_days(random: &mut Random, log: &Second) -> Option<Lease> {
    let claim = |day: &&Day| day.part.claims > 0;
    let served: Vec<&Day> = log.days().iter().filter(claim).collect();
    let first = random.one_of(&[*served.first()?, *served.last()?]);
    let in_a_row = log
        .days()
        .iter()
        .skip_while(|day| day.number != first.number);
    let days: Vec<&Day> = in_a_row
        .take_while(claim)
        .take(MOST_DAYS as usize)
        .collect();
    let least = days.iter().map(|day| day.part.claims).min()?;
    Some(Lease {
        first_day: first.number,
        days: days.len() as u32,
        owed: around(random, least),
    })
}

fn days(random: &mut Random, log: &Second) -> u32 {
    match random.below(12) {
        0 => random.one_of(&[0, MOST_DAYS + 1]),
        1 => random.word(),
        2 => random.one_of(&[1, MOST_DAYS]),
        // As many as the log has, so that all may be served.
        3..=6 => (log.days().len() as u32).clamp(1, MOST_DAYS),
        7..=9 => random.between(1, 4),
        _ => random.between(1, MOST_DAYS),
    }
}

/// A first day so that the lease lies before the log's days, across an end of
/// them, inside or behind them; and around the last day's number.
fn first_day(random: &mut Random, log: &Second, days: u32) -> u32 {
    let ends = log.days().first().zip(log.days().last());
    let (first, last) = ends.map_or((0, 0), |(first, last)| (first.number, last.number));
    let length = days.min(MOST_DAYS);
    match random.below(12) {
        0 => random.word(),
        // The last day is the last number, or one past it.
        1 => (u32::MAX - length).wrapping_add(random.between(1, 2)),
        2 => first.saturating_sub(random.between(length, length + 3)),
        3 | 4 => first.saturating_sub(random.below(length + 1)),
        5 | 6 => random.between(first, last),
        7 => last.saturating_sub(random.below(length + 1)),
        8 => last.saturating_add(random.between(0, 3)),
        _ => first,
    }
}

/// What a day owes: nothing, numbers around a day's claims and their least, and
/// around the bound.
fn owed(random: &mut Random, log: &Second) -> u32 {
    let claims: Vec<u64> = log.days().iter().map(|day| day.part.claims).collect();
    let least = claims.iter().copied().filter(|count| *count > 0).min();
    match random.below(12) {
        0 | 1 => 0,
        2 => random.word(),
        3 => MOST_OWED + random.below(2),
        4 => random.below(MOST_OWED),
        5 | 6 if !claims.is_empty() => {
            let claims = random.one_of(&claims);
            around(random, claims)
        }
        _ => around(random, least.unwrap_or(1)),
    }
}

/// These claims, one less or one more.
fn around(random: &mut Random, claims: u64) -> u32 {
    let claims = claims.min(u64::from(MOST_OWED)) as u32;
    match random.below(4) {
        0 => claims.saturating_sub(1),
        1 => claims + 1,
        _ => claims,
    }
}

fn judged(edition: Edition, lease: &Lease) -> Result<(), u32> {
    let line = (lease.first_day, lease.days, lease.owed);
    match lent::score_lease(edition.number(), line) {
        0 => Ok(()),
        number => Err(number),
    }
}

pub fn of_product(month: ProductMonth) -> Month {
    let day = |day: &egretfold::ScoredDay| ScoredDay {
        number: day.number,
        claimed: day.claimed,
        served: day.served,
    };
    Month {
        days: month.days.iter().map(day).collect(),
        served: month.served,
        owed: month.owed,
        verdict: match month.verdict {
            egretfold::Verdict::Full => Verdict::Full,
            egretfold::Verdict::Short => Verdict::Short,
            egretfold::Verdict::NothingOwed => Verdict::NothingOwed,
        },
    }
}

/// The rooms of the C function: claimed, served, month.
type Rooms = ([u64; DAYS], [u64; DAYS], [u64; 3]);

/// The C function itself, with any lease line: a refusal touches no room, and an
/// answer fills all of them.
fn rooms(
    case: &mut Case,
    lease: &Lease,
    product: &Product,
    expected: &Result<Month, u32>,
    asked: impl Fn() -> String,
) -> Agreement {
    let filled = case.random.long();
    let mut rooms: Rooms = ([filled; DAYS], [filled; DAYS], [filled; 3]);
    let untouched = rooms;
    let numbers = (lease.first_day, lease.days, lease.owed);
    let (claimed, served, month) = (&mut rooms.0, &mut rooms.1, &mut rooms.2);
    let number = lent::score_month(product, numbers, claimed, served, month);
    case.agree(
        &asked,
        &number,
        &expected.as_ref().err().copied().unwrap_or(0),
    )?;
    match expected {
        Ok(month) => case.agree(asked, &rooms, &in_rooms(month)),
        Err(_) => case.untouched(asked, &rooms, &untouched),
    }
}

fn in_rooms(month: &Month) -> Rooms {
    let mut rooms: Rooms = ([0; DAYS], [0; DAYS], [0; 3]);
    for (place, day) in month.days.iter().enumerate() {
        rooms.0[place] = day.claimed;
        rooms.1[place] = day.served;
    }
    let verdict = match month.verdict {
        Verdict::Full => 0,
        Verdict::Short => 1,
        Verdict::NothingOwed => 2,
    };
    rooms.2 = [month.served, month.owed, verdict];
    rooms
}

/// What the lease line and the log were, for the tests to look at.
fn count(case: &mut Case, lease: &Lease, log: &Second, expected: &Result<Month, u32>) {
    let tally = &mut *case.tally;
    tally.answer(expected.as_ref().err().copied().unwrap_or(0));
    if lease.judge().is_err() && log.stopped().is_some() {
        tally.mark("lease lines refused before a stopped log");
    }
    for (name, holds) in bounds(lease) {
        if holds {
            tally.mark(name);
        }
    }
    let month = match expected {
        Ok(month) => month,
        Err(_) => return,
    };
    tally.mark(match month.verdict {
        Verdict::Full => "full months",
        Verdict::Short => "short months",
        Verdict::NothingOwed => "months that owe nothing",
    });
    if month.verdict == Verdict::Full && month.days.len() > 1 {
        tally.mark("full months of several days");
    }
    let claimed: u64 = month.days.iter().map(|day| day.claimed).sum();
    if month.verdict == Verdict::Short && claimed >= month.owed {
        tally.mark("short months that a surplus would fill");
    }
    if month.days.iter().any(|day| day.claimed >= 1 << 32) {
        tally.mark("months with a day of 2^32 elements or more");
    }
    if let Some(name) = lie(lease, log) {
        tally.mark(name);
    }
    if month.served > 0 && log.refused().is_some() {
        tally.mark("scores of logs with a refused word");
    }
    if log.unfinished() > 0 {
        tally.mark("scores of logs with an unfinished record");
    }
    if has_the_day_before(lease, log) && log.before().claims > 0 {
        tally.mark("leases with the day before the first midnight, which has claims");
    }
}

/// Each bound of the lease line, on both of its sides.
fn bounds(lease: &Lease) -> [(&'static str, bool); 8] {
    let accepted = lease.judge().is_ok();
    let last = u64::from(lease.first_day) + u64::from(lease.days);
    [
        ("lease lines of 1 day", accepted && lease.days == 1),
        (
            "lease lines of 31 days",
            accepted && lease.days == MOST_DAYS,
        ),
        ("lease lines of 0 days", lease.days == 0),
        ("lease lines of 32 days", lease.days == MOST_DAYS + 1),
        (
            "lease lines that owe 100,000,000",
            accepted && lease.owed == MOST_OWED,
        ),
        (
            "lease lines that owe 100,000,001",
            lease.owed == MOST_OWED + 1,
        ),
        (
            "lease lines up to the last day's number",
            accepted && last == 1 << 32,
        ),
        (
            "lease lines one day past the last number",
            lease.days > 1 && last == (1 << 32) + 1,
        ),
    ]
}

/// Whether the lease has the day before the log's first one.
fn has_the_day_before(lease: &Lease, log: &Second) -> bool {
    let from = u64::from(lease.first_day);
    let days = from..from + u64::from(lease.days);
    let first = log.days().first().map(|day| u64::from(day.number));
    first.map_or(false, |first| days.contains(&first.wrapping_sub(1)))
}

/// How the lease lies to the log's days.
fn lie(lease: &Lease, log: &Second) -> Option<&'static str> {
    let first = u64::from(log.days().first()?.number);
    let last = u64::from(log.days().last()?.number);
    let from = u64::from(lease.first_day);
    let to = from + u64::from(lease.days) - 1;
    Some(match (from < first, to > last) {
        _ if to < first => "leases before the log's days",
        _ if from > last => "leases behind the log's days",
        (true, true) => "leases around the log's days",
        (true, false) => "leases across the log's first day",
        (false, true) => "leases across the log's last day",
        (false, false) => "leases inside the log's days",
    })
}
