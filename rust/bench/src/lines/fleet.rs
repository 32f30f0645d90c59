//! A fleet's report over 64 months of about 1 MB each, and one that grows by 10,000 months.

use crate::inputs::mixed_log;
use crate::table::Table;
use bench::fast::fleet as fast;
use bench::fast::{log, session};
use egretfold::{lent, Edition, Fleet, Replay};

const STATIONS: usize = 64;
const DAYS: usize = 30;
/// A record has five bytes: about 1 MB a log.
const WORDS: usize = 200_000;
/// Elements owed a day: some days of the log are served in full and some aren't.
const OWED: u64 = 1_000_000;

/// Months that are added to a growing report.
const MONTHS: usize = 10_000;

pub fn add(table: &mut Table) {
    add_report(table);
    add_growing(table);
}

fn add_report(table: &mut Table) {
    let name = "fleet report, 64 months of 1 MB, a byte";
    if !table.wants(name) {
        return;
    }
    let (logs, numbers) = fleet(WORDS / 100);
    check(&logs, &numbers);
    let (logs, numbers) = fleet(WORDS);
    table.line(
        name,
        logs.len(),
        || {
            let mut room = [0; 4];
            assert_eq!(lent::fleet_report(1, &logs, &numbers, &mut room), 0);
            room.iter().sum()
        },
        || {
            let mut room = [0; 4];
            assert_eq!(fast::report(1, &logs, &numbers, &mut room), Ok(()));
            room.iter().sum()
        },
    );
}

/// The logs, one behind the other, and four numbers for each. They differ in where they end.
fn fleet(words: usize) -> (Vec<u8>, Vec<u64>) {
    let month = mixed_log(words, words / DAYS);
    let (mut logs, mut numbers) = (Vec::new(), Vec::new());
    for station in 0..STATIONS {
        let length = month.len() - 5 * 7 * station;
        logs.extend(&month[..length]);
        numbers.extend([length as u64, 0, DAYS as u64, OWED]);
    }
    (logs, numbers)
}

/// Equal answers, under both editions and where a station is refused.
fn check(logs: &[u8], numbers: &[u64]) {
    let mut refused = numbers.to_vec();
    refused[4 * 63 + 2] = 32;
    for edition in [1, 2, 3] {
        for numbers in [numbers, &refused[..]] {
            let (mut product, mut rust) = ([7; 4], [7; 4]);
            let number = lent::fleet_report(edition, logs, numbers, &mut product);
            let by_rust = fast::report(edition, logs, numbers, &mut rust);
            assert_eq!(number, by_rust.err().unwrap_or(0), "edition {edition}");
            assert_eq!(product, rust, "edition {edition}");
        }
    }
}

/// The replays of a few logs, added one after another under lease lines that differ.
fn add_growing(table: &mut Table) {
    let name = "growing report, 10,000 months added, a month";
    if !table.wants(name) {
        return;
    }
    let (product, rust) = replays();
    let line = |station: usize| (0, DAYS as u32, (OWED as usize + station % 1000) as u32);
    table.line(
        name,
        MONTHS,
        || {
            let mut fleet = Fleet::new(Edition::First);
            for station in 0..MONTHS {
                let replay = &product[station % STATIONS];
                assert_eq!(lent::fleet_add(&mut fleet, replay, line(station)), 0);
            }
            let mut room = [0; 5];
            lent::fleet_tell(&fleet, &mut room);
            room.iter().sum()
        },
        || {
            let mut fleet = fast::Fleet::new(session::Edition::First);
            for station in 0..MONTHS {
                let replay = &rust[station % STATIONS];
                assert_eq!(fleet.add(replay, line(station)), Ok(()));
            }
            fleet.told().iter().sum()
        },
    );
}

/// Of the same logs, on either side.
fn replays() -> (Vec<Replay>, Vec<log::Replay>) {
    let (logs, numbers) = fleet(WORDS / 100);
    let mut rest = &logs[..];
    let (mut product, mut rust) = (Vec::new(), Vec::new());
    for station in numbers.chunks_exact(4) {
        let (log, behind) = rest.split_at(station[0] as usize);
        rest = behind;
        product.push(Replay::new(Edition::First));
        rust.push(log::Replay::new());
        assert_eq!(
            product.last_mut().map(|replay| replay.feed(log).refusal),
            Some(None)
        );
        assert_eq!(
            rust.last_mut().map(|replay| replay.feed(log).refusal),
            Some(None)
        );
    }
    (product, rust)
}
