//! The program `compare`: runs cases of all kinds in turn, on two threads, until
//! its seconds are over, and says how many agreed. See `compare --help`.

use compare::case::say;
use compare::options::{self, Wish};
use compare::random::Random;
use compare::reduced::reduced;
use compare::tally::Tally;
use compare::{run_case, run_cases, run_with, Failure, Kind};
use std::process::ExitCode;
use std::sync::atomic::{AtomicU64, Ordering};
use std::sync::Mutex;
use std::thread;
use std::time::{Duration, Instant};

/// Cases that a thread takes at a time: some milliseconds of work.
const BLOCK: u64 = 1_000;

fn main() -> ExitCode {
    let arguments: Vec<String> = std::env::args().skip(1).collect();
    match options::parse(&arguments) {
        Ok(Wish::Help) => {
            say(&options::HELP);
            ExitCode::SUCCESS
        }
        Ok(Wish::Case { kind, seed, number }) => one_case(kind, seed, number),
        Ok(Wish::Draws { kind, list }) => drawn_case(kind, &list),
        Ok(Wish::Cases {
            kinds,
            seed,
            seconds,
        }) => many_cases(kinds, seed, seconds),
        Err(wrong) => {
            eprintln!("{wrong}\n\n{}", options::HELP);
            ExitCode::from(2)
        }
    }
}

fn one_case(kind: Kind, seed: u64, number: u64) -> ExitCode {
    let mut tally = Tally::new();
    match run_case(kind, seed, number, &mut tally, true) {
        Ok(()) => end(1, 0),
        Err(failure) => {
            say(&format!("\n{failure}\n\n{}", reduced(&failure)));
            end(1, 1)
        }
    }
}

fn drawn_case(kind: Kind, list: &[u64]) -> ExitCode {
    let (_, ended) = run_with(kind, Random::of_list(list), &mut Tally::new(), true);
    end(1, u64::from(ended.is_err()))
}

/// The last line, and the number that the program ends with.
fn end(cases: u64, differences: u64) -> ExitCode {
    let ending = |count| if count == 1 { "" } else { "s" };
    let (a, b) = (ending(cases), ending(differences));
    say(&format!("{cases} case{a}, {differences} difference{b}"));
    if differences == 0 {
        ExitCode::SUCCESS
    } else {
        ExitCode::from(1)
    }
}

/// What the threads share.
struct Work {
    kinds: Vec<Kind>,
    seed: u64,
    until: Instant,
    /// Blocks handed out so far: the kinds take turns.
    blocks: AtomicU64,
    /// The counts of each kind, in the order of `kinds`.
    tallies: Mutex<Vec<Tally>>,
    failure: Mutex<Option<Failure>>,
}

fn many_cases(kinds: Vec<Kind>, seed: u64, seconds: u64) -> ExitCode {
    let work = Work {
        seed,
        until: Instant::now() + Duration::from_secs(seconds),
        blocks: AtomicU64::new(0),
        tallies: Mutex::new(vec![Tally::new(); kinds.len()]),
        failure: Mutex::new(None),
        kinds,
    };
    thread::scope(|scope| {
        scope.spawn(|| work.go_on());
        scope.spawn(|| work.go_on());
        if is_terminal() {
            scope.spawn(|| work.show_progress());
        }
    });
    work.report()
}

impl Work {
    fn go_on(&self) {
        while !self.is_over() {
            let block = self.blocks.fetch_add(1, Ordering::Relaxed);
            let place = block as usize % self.kinds.len();
            let first = block / self.kinds.len() as u64 * BLOCK;
            let mut tally = Tally::new();
            let kind = self.kinds[place];
            let ended = run_cases(kind, self.seed, first..first + BLOCK, &mut tally);
            self.tallies.lock().unwrap()[place].merge(&tally);
            if let Err(failure) = ended {
                self.failure.lock().unwrap().get_or_insert(*failure);
            }
        }
    }

    fn is_over(&self) -> bool {
        Instant::now() >= self.until || self.failure.lock().unwrap().is_some()
    }

    fn cases(&self) -> u64 {
        let tallies = self.tallies.lock().unwrap();
        tallies.iter().map(|tally| tally.cases).sum()
    }

    fn show_progress(&self) {
        while !self.is_over() {
            let left = self.until.saturating_duration_since(Instant::now());
            eprint!("\r{} cases, {} s left   ", self.cases(), left.as_secs());
            thread::sleep(Duration::from_millis(250));
        }
        eprint!("\r{:40}\r", "");
    }

    fn report(&self) -> ExitCode {
        let tallies = self.tallies.lock().unwrap().clone();
        let failure = self.failure.lock().unwrap().clone();
        for (kind, tally) in self.kinds.iter().zip(&tallies) {
            // A failed case is counted as run; it did not agree.
            let failed = failure.iter().filter(|found| found.kind == *kind).count();
            let agreed = tally.cases - failed as u64;
            say(&format!("{}: {agreed} cases agreed", kind.name()));
            say(&tally.describe());
        }
        if let Some(failure) = &failure {
            say(&format!("{failure}\n\n{}", reduced(failure)));
        }
        end(self.cases(), failure.iter().count() as u64)
    }
}

/// Whether standard error is a terminal, by the name of what it is connected to.
fn is_terminal() -> bool {
    let name = std::fs::read_link("/proc/self/fd/2").unwrap_or_default();
    name.starts_with("/dev/pts") || name.starts_with("/dev/tty")
}
