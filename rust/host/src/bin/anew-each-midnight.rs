//! Station 14's month by a tool that starts anew at each midnight, which is wrong,
//! beside the score by one session over the whole log. It is here so that
//! samples/README.md can show the difference. From the repository's root:
//!
//!     cargo run -q --release --manifest-path rust/Cargo.toml -p host --bin anew-each-midnight

#![forbid(unsafe_code)]

#[path = "../score/station.rs"]
#[allow(dead_code)] // the dates are for the card
mod station;

use egretfold::{Edition, Lease, Month, Replay, Verdict};

const LOG: &[u8] = include_bytes!("../../../../samples/station-14.log");

const RECORD: usize = 5;
const MIDNIGHT: u8 = 2;

/// A replay of its own for the bytes, scored from this day on.
fn scored(bytes: &[u8], first_day: u32, days: u32) -> (Month, Replay) {
    let mut replay = Replay::new(Edition::First);
    replay.feed(bytes);
    let month = Lease::new(first_day, days, station::OWED).and_then(|lease| replay.score(&lease));
    (month.expect("the sample isn't refused"), replay)
}

/// The records from each midnight to the next.
fn parts(log: &[u8]) -> Vec<Vec<u8>> {
    let mut parts: Vec<Vec<u8>> = Vec::new();
    for record in log.chunks(RECORD) {
        if record[0] == MIDNIGHT {
            parts.push(Vec::new());
        }
        // What comes before the first midnight is on no day.
        if let Some(part) = parts.last_mut() {
            part.extend(record);
        }
    }
    parts
}

fn main() {
    let (month, _) = scored(LOG, station::FIRST_DAY, station::DAYS);
    let (mut served, mut full_made_dark, mut short_made_full) = (0, 0, 0);
    let owed = u64::from(station::OWED);
    println!("  day  one session  anew each midnight");
    for (day, part) in month.days.iter().zip(parts(LOG)) {
        let (anew, replay) = scored(&part, day.number, 1);
        let refused = replay.status().refused.and_then(|word| {
            let (number, record) = (word.refusal.number(), word.record_after(0)?);
            Some(format!("  refused {number} at its record {record}"))
        });
        let refused = refused.unwrap_or_default();
        println!(
            "{:>5}  {:>11}  {:>18}{refused}",
            day.number, day.served, anew.served
        );
        served += anew.served;
        full_made_dark += u32::from(day.served == owed && anew.served == 0);
        short_made_full += u32::from(day.served < owed && anew.verdict == Verdict::Full);
    }
    println!("total  {:>11}  {served:>18}", month.served);
    println!("called dark and served in full: {full_made_dark}; called full and short: {short_made_full}");
}
