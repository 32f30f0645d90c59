//! A fleet's report: each station's log replayed and scored by itself. And one that grows, a replay at a time.

use super::log::Replay;
use super::refusal::{Answer, LEASE, MALFORMED, ROOM, STATIONS};
use super::session::Edition;

const MOST_STATIONS: usize = 64;
const MOST_DAYS: u64 = 31;
const MOST_OWED: u64 = 100_000_000;

/// What a station's month comes to.
#[derive(Clone, Copy)]
struct Month {
    served: u64,
    owed: u64,
    silent: u64,
}

/// A report that grows: what the stations so far come to, and the one with the smallest served part.
pub struct Fleet {
    edition: Edition,
    stations: u64,
    served: u64,
    owed: u64,
    silent: u64,
    smallest: Option<(u64, Month)>,
}

impl Fleet {
    pub fn new(edition: Edition) -> Fleet {
        Fleet {
            edition,
            stations: 0,
            served: 0,
            owed: 0,
            silent: 0,
            smallest: None,
        }
    }

    /// Adds the station of a replay, under its lease line. 3, 22, then 21, 18 or 19.
    #[inline(never)]
    pub fn add(&mut self, replay: &Replay, (first, days, owed): (u32, u32, u32)) -> Answer<()> {
        if replay.session().edition() != self.edition {
            return Err(MALFORMED);
        }
        if self.stations >> 32 != 0 {
            return Err(STATIONS);
        }
        let line = [first, days, owed].map(u64::from);
        check(line)?;
        if let Some(number) = replay.stopped() {
            return Err(number);
        }
        self.put(month(replay, line));
        Ok(())
    }

    fn put(&mut self, month: Month) {
        self.served += month.served;
        self.owed += month.owed;
        self.silent += month.silent;
        // a product is at most 3,100,000,000 squared, below 2^64
        let less = |other: Month| month.served * other.owed < other.served * month.owed;
        if month.owed > 0 && self.smallest.map_or(true, |(_, other)| less(other)) {
            self.smallest = Some((self.stations, month));
        }
        self.stations += 1;
    }

    /// Served, owed, silent days, the station with the smallest served part, and 1 where there is one.
    pub fn told(&self) -> [u64; 5] {
        let (station, named) = match self.smallest {
            Some((number, _)) => (number, 1),
            None => (MOST_STATIONS as u64, 0),
        };
        [self.served, self.owed, self.silent, station, named]
    }
}

/// Served, owed, silent days and the station with the smallest served part, into the room. 3, 11, 22, then 21, 18 or 19.
#[inline(never)]
pub fn report(edition: u32, logs: &[u8], numbers: &[u64], room: &mut [u64]) -> Answer<()> {
    let edition = match edition {
        1 => Edition::First,
        2 => Edition::Second,
        _ => return Err(MALFORMED),
    };
    let stations = numbers.chunks_exact(4);
    let mut lengths = stations.clone().map(|station| station[0]);
    let all = lengths.try_fold(0u64, |sum, length| sum.checked_add(length));
    if numbers.len() % 4 != 0 || room.len() != 4 || all != Some(logs.len() as u64) {
        return Err(ROOM);
    }
    if stations.len() > MOST_STATIONS {
        return Err(STATIONS);
    }
    let mut fleet = Fleet::new(edition);
    let mut rest = logs;
    for station in stations {
        let (log, behind) = rest.split_at(station[0] as usize);
        rest = behind;
        let line = [station[1], station[2], station[3]];
        check(line)?;
        let mut replay = Replay::new_in(edition);
        if let Some(number) = replay.feed(log).refusal {
            return Err(number);
        }
        fleet.put(month(&replay, line));
    }
    room.copy_from_slice(&fleet.told()[..4]);
    Ok(())
}

/// A lease line's bounds. 21.
fn check([first, days, owed]: [u64; 3]) -> Answer<()> {
    let bounds = (1..=MOST_DAYS).contains(&days) && owed <= MOST_OWED;
    if !bounds || first > u64::from(u32::MAX) || first + days > 1 << 32 {
        return Err(LEASE);
    }
    Ok(())
}

fn month(replay: &Replay, [first, days, owed]: [u64; 3]) -> Month {
    let mut month = Month {
        served: 0,
        owed: owed * days,
        silent: 0,
    };
    for day in first..first + days {
        let served = replay.claimed_on(day as u32).min(owed);
        month.served += served;
        month.silent += u64::from(owed > 0 && served == 0);
    }
    month
}
