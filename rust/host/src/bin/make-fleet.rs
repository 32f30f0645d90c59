//! Makes a fleet's logs and its lease file, to try `fleet` on many stations. From rust/:
//!
//!     cargo run --release -p host --bin make-fleet FOLDER STATIONS BYTES
//!
//! writes so many logs of about so many bytes each, and leases.csv. The months are those
//! of a fleet: most days are full; there are dark ones, days in part, a log that ends
//! early, one that lost a record, and a station whose log is missing.

#![forbid(unsafe_code)]

#[path = "made/log.rs"]
mod log;
#[path = "../score/station.rs"]
#[allow(dead_code)] // what it owes and its dates are for the score
mod station;

use egretfold::headers::WAIT_FOR_IDLE;
use log::{Log, CAMERAS};
use station::{DAYS, FIRST_DAY, FROM, OWED};
use std::path::Path;
use std::{env, fs, io, process};

/// A frame an hour makes a full day.
const FRAMES: u32 = 24;

/// Bytes of a record.
const RECORD: usize = 5;

const LESSEES: [&str; 7] = [
    "Harbour",
    "Lighthouse",
    "\"Pier, north\"",
    "Mole",
    "Breakwater",
    "Ferry",
    "Salt works",
];

/// The numbers of a station, each from the one before.
struct Numbers(u64);

impl Numbers {
    fn below(&mut self, bound: u32) -> u32 {
        self.0 ^= self.0 << 13;
        self.0 ^= self.0 >> 7;
        self.0 ^= self.0 << 17;
        (self.0 >> 33) as u32 % bound
    }
}

/// The frames of each day.
fn month(numbers: &mut Numbers) -> Vec<u32> {
    // No two logs are the same.
    let mut days: Vec<u32> = (0..DAYS).map(|_| FRAMES + numbers.below(3)).collect();
    // One station of three has some trouble.
    if numbers.below(3) > 0 {
        return days;
    }
    for day in &mut days {
        match numbers.below(8) {
            0 => *day = 0,
            1 => *day = numbers.below(FRAMES),
            _ => {}
        }
    }
    days
}

/// A log of about so many bytes: between a day's frames the card waits.
fn log(numbers: &mut Numbers, bytes: usize) -> Vec<u8> {
    let mut log = Log::new().words(&CAMERAS);
    let words = bytes / RECORD / DAYS as usize;
    for (place, frames) in (0..).zip(month(numbers)) {
        log = log.midnight(FIRST_DAY + place).frames(frames as usize);
        let rest = words.saturating_sub(4 * frames as usize + 1) / 2;
        log = log.words(&[WAIT_FOR_IDLE, 0].repeat(rest));
    }
    // The last day is over.
    log.midnight(FIRST_DAY + DAYS).bytes
}

/// The log without this midnight.
fn without(log: &[u8], day: u32) -> Vec<u8> {
    let lost = Log::new().midnight(day).bytes;
    let records = log.chunks(RECORD).filter(|record| *record != lost);
    records.flatten().copied().collect()
}

fn make(folder: &Path, stations: u64, bytes: usize) -> io::Result<()> {
    fs::create_dir_all(folder)?;
    let mut leases = String::from("station,lessee,log,first day,days,owed,first date\r\n");
    for station in 1..=stations {
        let mut numbers = Numbers(0x9E37_79B9_7F4A_7C15 ^ (station << 17));
        let mut log = log(&mut numbers, bytes);
        match station % 97 {
            // Ends early, inside a record.
            5 => log.truncate(log.len() * 2 / 3 / RECORD * RECORD + 2),
            // Lost the midnight of the 17th.
            11 => log = without(&log, FIRST_DAY + 16),
            _ => {}
        }
        let name = format!("station-{station:03}.log");
        // One log in 97 is missing.
        if station % 97 != 17 {
            fs::write(folder.join(&name), log)?;
        }
        let lessee = LESSEES[numbers.below(LESSEES.len() as u32) as usize];
        let owed = format!(
            "{},{:03},{:03}",
            OWED / 1_000_000,
            OWED / 1_000 % 1_000,
            OWED % 1_000
        );
        let row = format!("{station},{lessee},{name},{FIRST_DAY},{DAYS},\"{owed}\",{FROM}\r\n");
        leases.push_str(&row);
    }
    fs::write(folder.join("leases.csv"), leases)
}

fn main() -> io::Result<()> {
    let arguments: Vec<String> = env::args().skip(1).collect();
    let numbers = |place: usize| {
        arguments
            .get(place)
            .and_then(|text| text.parse::<u64>().ok())
    };
    match (arguments.first(), numbers(1), numbers(2)) {
        (Some(folder), Some(stations), Some(bytes)) => {
            make(Path::new(folder), stations, bytes as usize)
        }
        _ => {
            eprintln!("make-fleet FOLDER STATIONS BYTES");
            process::exit(2);
        }
    }
}
