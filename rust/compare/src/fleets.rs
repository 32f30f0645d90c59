//! Cases of the report over a fleet: the logs and lease lines of up to 64 stations, and of more, are reported on by both
//! programs; good ones, ones with a refused log or lease line, and slices that don't fit.

use crate::case::{Agreement, Case};
use crate::editions;
use crate::random::Random;
use crate::records::{self, record, MIDNIGHT, WORD};
use egretfold::headers::{SET_DOMAIN, SET_INST_FMT, SET_OUT_FMT, SET_OUT_MASK, START_PROGRAM};
use egretfold::{fleet_report, lent, Edition, FleetReport, Lease as ProductLease};
use second::fleet::report;
use second::score::{score_in, Lease};

/// The most stations of a report; as a station's number, none.
const MOST: usize = 64;

/// A station as both programs take it: its log, and first day, days and what a day owes.
#[derive(Clone)]
pub struct Given {
    pub log: Vec<u8>,
    pub lease: [u64; 3],
}

/// What a start of a small station claims under edition 1.
const CLAIM: u64 = 15;

pub fn run(case: &mut Case) -> Agreement {
    let edition = editions::any(case);
    let stations = stations(&mut case.random);
    reported(case, edition, &stations)?;
    joined(case, edition, &stations)?;
    spoiled(case, edition, &stations)
}

/// How many stations a fleet has: few, and around the most.
fn stations(random: &mut Random) -> Vec<Given> {
    let count = match random.below(12) {
        0 => 0,
        1 => random.one_of(&[63, 64, 64, 65, 66]),
        2 => random.between(9, 64),
        _ => random.between(1, 8),
    };
    // One station in so many is damaged.
    let careful = random.one_of(&[8, 100, 100_000]);
    // Stations of one kind tie often.
    let alike = random.once_in(8).then(|| station(random));
    let one = |random: &mut Random| match &alike {
        Some(station) if !random.once_in(4) => station.clone(),
        _ => station(random),
    };
    (0..count)
        .map(|_| {
            let mut station = one(random);
            if random.once_in(careful) {
                damage(random, &mut station);
            }
            station
        })
        .collect()
}

pub fn station(random: &mut Random) -> Given {
    match random.below(16) {
        0 => any_log(random),
        1 => large(random),
        _ => small(random),
    }
}

/// An output of one of the formats, a mask, and some days with a few starts each; a lease that lies across them.
fn small(random: &mut Random) -> Given {
    let format = random.below(5) << 24 | 0x20;
    let mask = random.one_of(&[0xFFFF, 0xFFFF, 0xFFFE, 0xFFFC, 0xFFF0, 0xFFF7]);
    let settings = [
        &[SET_INST_FMT, 0x1000, 0x0400_0010][..],
        &[SET_OUT_FMT, 0, 0x4000, format, 4, SET_OUT_MASK, mask],
        &[SET_DOMAIN, 3, 1, 7, 3],
    ];
    let first = random.one_of(&[0, 5, 300, u32::MAX - 6]);
    let days = random.below(5);
    let mut log = words(&settings.concat());
    for day in 0..days {
        log.extend(record(MIDNIGHT, first + day));
        for _ in 0..random.below(4) {
            log.extend(words(&[START_PROGRAM, 0]));
        }
    }
    let owed = random.one_of(&[0, 1, CLAIM, 2 * CLAIM, 2 * CLAIM, 4 * CLAIM, 100_000_000]);
    let offset = u64::from(random.below(3));
    Given {
        log,
        lease: [
            (u64::from(first) + offset).saturating_sub(u64::from(random.below(2))),
            u64::from(random.between(1, 5)),
            owed,
        ],
    }
}

/// A month that is served up to the most that a lease owes, or short of it by little: the products of served and owed go past
/// 63 bits.
fn large(random: &mut Random) -> Given {
    let mut settings = vec![SET_INST_FMT, 0, 0x20];
    for number in 0..4 {
        settings.extend([SET_OUT_FMT, number, number << 28, 0x0400_1000, 4096]);
    }
    settings.extend([SET_DOMAIN, 0, 0, 4095, 4095]);
    let mut log = words(&settings);
    for day in 0..31 {
        log.extend(record(MIDNIGHT, day));
        // Two starts claim 134,217,728 elements under edition 1, four times as many under edition 2.
        let starts = if random.once_in(40) { 1 } else { 2 };
        log.extend(words(&[START_PROGRAM, 0].repeat(starts)));
    }
    let owed = 100_000_000 - u64::from(random.below(3));
    Given {
        log,
        lease: [0, 31, owed],
    }
}

/// A log of the kind that replays are compared on, with a lease over its first days.
fn any_log(random: &mut Random) -> Given {
    let log = records::any(random);
    let mut second = second::log::Replay::new();
    second.feed(&log);
    let first = second.days().first().map_or(0, |day| day.number);
    let most = u64::from(u32::MAX - first).clamp(1, 31);
    let days = u64::from(random.between(1, most as u32));
    let claims = second.days().iter().map(|day| day.part.claims).max();
    Given {
        log,
        lease: [u64::from(first), days, claims.unwrap_or(1).min(100_000_000)],
    }
}

fn words(words: &[u32]) -> Vec<u8> {
    words.iter().flat_map(|word| record(WORD, *word)).collect()
}

/// A log or a lease line that is refused: 18, 19 or 21.
pub fn damage(random: &mut Random, station: &mut Given) {
    match random.below(8) {
        0 | 1 => station.log.push(random.one_of(&[0, 3, 255])),
        2 => {
            station.log.extend(record(MIDNIGHT, 7));
            station.log.extend(record(MIDNIGHT, 7));
        }
        3 => station.lease[1] = random.one_of(&[0, 32, 1 << 32, (1 << 32) + 1, u64::MAX]),
        4 => station.lease[2] = random.one_of(&[100_000_001, 1 << 32, u64::MAX]),
        // The low 32 bits alone would do.
        5 => station.lease[random.below(3) as usize] += 1 << 32,
        6 => station.lease[0] = random.one_of(&[1 << 32, u64::MAX]),
        _ => {
            station.lease[0] = u64::from(u32::MAX);
            station.lease[1] = 2;
        }
    }
}

/// The two slices of a fleet.
pub fn slices(stations: &[Given]) -> (Vec<u8>, Vec<u64>) {
    let (mut logs, mut numbers) = (Vec::new(), Vec::new());
    for Given { log, lease } in stations {
        logs.extend(log);
        numbers.push(log.len() as u64);
        numbers.extend(lease);
    }
    (logs, numbers)
}

/// A report as the product's comfortable form tells it, from the second program.
fn as_product(report: second::fleet::Report) -> FleetReport {
    FleetReport {
        served: report.served,
        owed: report.owed,
        silent_days: report.silent_days,
        station: (report.station != MOST as u64).then_some(report.station as usize),
    }
}

/// The fleet as it is, by both forms of the product; the comfortable one is asked where all lease lines can be had.
fn reported(case: &mut Case, edition: Edition, stations: &[Given]) -> Agreement {
    let (logs, numbers) = slices(stations);
    let asked = || format!("{edition:?}, {numbers:?}, {logs:X?}");
    let expected = report(edition.number(), &logs, &numbers, 4);
    case.tally.answer(expected.err().unwrap_or(0));
    rooms(case, edition.number(), (&logs, &numbers), 4)?;
    if let Some(lines) = lines(stations) {
        let product = fleet_report(edition, &logs, &lines).map_err(u32::from);
        case.agree(asked, &product, &expected.map(as_product))?;
        case.tally.mark("fleets by their lease lines");
    }
    if let Ok(report) = expected {
        count(case, edition, stations, &as_product(report));
    }
    Ok(())
}

/// The length and the lease line of each station, where none is refused.
fn lines(stations: &[Given]) -> Option<Vec<(usize, ProductLease)>> {
    let narrow = |number: u64| u32::try_from(number).ok();
    let line = |Given { log, lease }: &Given| {
        let [first_day, days, owed] = *lease;
        let lease = ProductLease::new(narrow(first_day)?, narrow(days)?, narrow(owed)?);
        Some((log.len(), lease.ok()?))
    };
    stations.iter().map(line).collect()
}

/// The C function itself: what it returns, and what it leaves in a room of this length.
fn rooms(
    case: &mut Case,
    edition: u32,
    (logs, numbers): (&[u8], &[u64]),
    length: usize,
) -> Agreement {
    let asked = || format!("edition {edition}, {numbers:?}, room of {length}, {logs:X?}");
    let filled = vec![case.random.long(); length];
    let (mut product, mut second) = (filled.clone(), filled);
    let number = lent::fleet_report(edition, logs, numbers, &mut product);
    let expected = second::fleet::fleet(edition, logs, numbers, &mut second);
    case.agree(asked, &number, &expected)?;
    case.agree(asked, &product, &second)
}

/// A fleet joined of two: sums add up, and the station named is one of the two that the parts name.
fn joined(case: &mut Case, edition: Edition, stations: &[Given]) -> Agreement {
    let at = case.random.between(0, stations.len() as u32) as usize;
    let fleet = |stations: &[Given]| {
        let (logs, numbers) = slices(stations);
        let mut room = [0; 4];
        let number = lent::fleet_report(edition.number(), &logs, &numbers, &mut room);
        (number == 0).then_some(room)
    };
    let (one, two) = stations.split_at(at);
    if let (Some(all), Some(one), Some(two)) = (fleet(stations), fleet(one), fleet(two)) {
        let asked = || format!("a fleet of {} joined of {at} and the rest", stations.len());
        for place in 0..3 {
            case.agree(asked, &all[place], &(one[place] + two[place]))?;
        }
        let none = MOST as u64;
        let moved = match two[3] {
            station if station == none => none,
            station => station + at as u64,
        };
        case.agree(asked, &(all[3] == one[3] || all[3] == moved), &true)?;
        case.tally.mark("fleets joined of two");
    }
    Ok(())
}

/// Slices that don't fit, numbers that aren't in fours, rooms of another length and numbers of no edition; also several of
/// these at once, so that their order is seen.
fn spoiled(case: &mut Case, edition: Edition, stations: &[Given]) -> Agreement {
    let (mut logs, mut numbers) = slices(stations);
    let (mut edition, mut room) = (edition.number(), 4);
    for _ in 0..case.random.one_of(&[1, 1, 2]) {
        let random = &mut case.random;
        match random.below(6) {
            0 => edition = editions::none(random),
            1 => room = random.one_of(&[0, 1, 3, 5, 8]),
            2 => {
                numbers.truncate(random.below(numbers.len() as u32 + 1) as usize);
            }
            3 => numbers.push(random.long()),
            4 => {
                if random.coin() {
                    logs.push(0);
                } else {
                    logs.pop();
                }
            }
            _ => wrapped(random, &mut numbers),
        }
    }
    let answer = report(edition, &logs, &numbers, room);
    case.tally.answer(answer.err().unwrap_or(0));
    rooms(case, edition, (&logs, &numbers), room)
}

/// Two stations more, or two stations' lengths, so that the sum is the same only where it wraps.
fn wrapped(random: &mut Random, numbers: &mut Vec<u64>) {
    let (one, other) = random.one_of(&[
        (1 << 63, 1 << 63),
        (u64::MAX, 1),
        (u64::MAX - 4, 5),
        (1 << 32, (u32::MAX as u64) << 32),
    ]);
    let places = [0, 4].map(|place| place < numbers.len());
    if places == [true, true] && random.coin() {
        numbers[0] = numbers[0].wrapping_add(one);
        numbers[4] = numbers[4].wrapping_add(other);
    } else {
        numbers.extend([one, 0, 1, 0, other, 0, 1, 0]);
    }
}

/// What the fleet was, for the tests to look at.
fn count(case: &mut Case, edition: Edition, stations: &[Given], fleet: &FleetReport) {
    let tally = &mut *case.tally;
    match stations.len() {
        0 => tally.mark("empty fleets"),
        MOST => tally.mark("fleets of 64 stations"),
        _ => {}
    }
    if !stations.is_empty() && fleet.station.is_none() {
        tally.mark("fleets that owe nothing");
    }
    if fleet.silent_days > 0 {
        tally.mark("fleets with silent days");
    }
    if fleet.station.map_or(false, |station| station > 0) {
        tally.mark("fleets that name a station but the first");
    }
    let parts: Vec<(u128, u128)> = stations
        .iter()
        .filter_map(|station| part(edition, station))
        .filter(|(_, owed)| *owed > 0)
        .collect();
    let least = parts
        .iter()
        .copied()
        .min_by(|(a, b), (c, d)| (a * d).cmp(&(c * b)));
    if let Some((served, owed)) = least {
        let ties = parts.iter().filter(|(a, b)| a * owed == served * b).count();
        if ties > 1 {
            tally.mark("fleets with a tie for the smallest part");
        }
        if served > 0 && parts.iter().any(|(a, b)| a * owed != served * b) {
            tally.mark("fleets with parts to compare");
        }
        if parts.iter().any(|(a, _)| a * owed >= 1 << 63) {
            tally.mark("products of 2^63 or more");
        }
    }
}

/// What a station serves and owes, where it has a score.
fn part(edition: Edition, station: &Given) -> Option<(u128, u128)> {
    let narrow = |number: u64| u32::try_from(number).ok();
    let [first_day, days, owed] = station.lease;
    let lease = Lease {
        first_day: narrow(first_day)?,
        days: narrow(days)?,
        owed: narrow(owed)?,
    };
    let month = score_in(edition.number(), &lease, &station.log).ok()?;
    Some((u128::from(month.served), u128::from(month.owed)))
}
