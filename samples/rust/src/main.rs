//! A first program over the crate `egretfold`: an address there and back, a stream fed to a session, and station 14's month replayed
//! and scored:
//!
//!     cargo run -- ../station-14.log

use egretfold::headers::{SET_DOMAIN, SET_INST_FMT, SET_OUT_FMT, START_PROGRAM};
use egretfold::{locate, translate, Edition, Layout, Lease, Refusal, Replay, Session, Verdict};
use std::error::Error;
use std::fs::File;
use std::io::Read;
use std::process::ExitCode;

/// Window C3 of document 01.
const WINDOW: Layout = Layout {
    base: 0,
    pitch: 100,
    height: 20,
    size: 4,
    tiled: true,
};

/// Document 01's whole stream, then a word that is no header.
#[rustfmt::skip]
const STREAM: [u32; 16] = [
    SET_INST_FMT, 0x1000, 0x0400_0010,
    SET_OUT_FMT, 0, 0x800, 0x0201_0064, 18,
    SET_DOMAIN, 0, 0, 95, 17,
    START_PROGRAM, 0,
    7,
];

fn there_and_back() -> Result<(), Refusal> {
    let at = translate(&WINDOW, 37, 18)?;
    let (address, run) = (at.address, at.run);
    println!("(37, 18) is at {address}, and {run} elements follow each other from there");
    let (x, y, place) = locate(&WINDOW, address + 2)?;
    println!("byte {} is place {place} of ({x}, {y})", address + 2);
    if translate(&WINDOW, 96, 0) == Err(Refusal::PairOutside) {
        println!("(96, 0) is outside its window");
    }
    Ok(())
}

fn a_stream() {
    let mut session = Session::new(Edition::First);
    let fed = session.feed(&STREAM);
    let (taken, commands) = (fed.taken, fed.commands);
    let (runs, claims) = (session.runs(), session.claims());
    println!("{taken} words, {commands} commands, {runs} run, {claims} elements claimed");
    if fed.refusal == Some(Refusal::UnknownHeader) {
        println!("word {taken} is no header");
    }
}

/// A log in pieces, as they come, and its month.
fn a_month(name: &str) -> Result<Verdict, Box<dyn Error>> {
    let lease = Lease::new(101, 30, 14_000_000)?;
    let (mut file, mut replay) = (File::open(name)?, Replay::new(Edition::First));
    let mut piece = [0; 4096];
    loop {
        let length = file.read(&mut piece)?;
        if length == 0 {
            break;
        }
        if let Some(refusal) = replay.feed(&piece[..length]).refusal {
            return Err(refusal.into());
        }
    }
    let month = replay.score(&lease)?;
    for day in month.days.iter().filter(|day| day.served < 14_000_000) {
        println!("day {}: {} served of {} claimed", day.number, day.served, day.claimed);
    }
    let called = match month.verdict {
        Verdict::Full => "full",
        Verdict::Short => "short",
        Verdict::NothingOwed => "nothing owed",
    };
    println!("{called}: {} of {} elements", month.served, month.owed);
    Ok(month.verdict)
}

fn all(name: &str) -> Result<Verdict, Box<dyn Error>> {
    there_and_back()?;
    a_stream();
    a_month(name)
}

/// The exit status that `egretfold score` has.
fn main() -> ExitCode {
    let name = match std::env::args().nth(1) {
        Some(name) => name,
        None => {
            eprintln!("usage: station LOG");
            return ExitCode::from(2);
        }
    };
    match all(&name) {
        Ok(Verdict::Short) => ExitCode::from(3),
        Ok(_) => ExitCode::SUCCESS,
        Err(error) => {
            eprintln!("{error}");
            ExitCode::FAILURE
        }
    }
}
