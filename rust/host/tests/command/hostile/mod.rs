//! A driver of hostile cases: it makes one from its number, runs the command, and holds what must hold whatever is asked.
//!
//! By itself it runs a fixed list of cases. `tools/hostile` runs others for as long as it is told, and holds a build with
//! overflow checks against the shipped one. It sets HOSTILE_SECONDS, how long; HOSTILE_SEED, which cases; HOSTILE_OTHER, the
//! other build; HOSTILE_COUNTS, the file that gets the counts; and HOSTILE_CASE, the number of the only case.

mod aimed;
mod forged;
mod jobs;
mod lines;
mod made;
mod names;

use crate::common::Folder;
use compare::random::Random;
use std::collections::BTreeMap;
use std::env;
use std::ffi::OsString;
use std::fmt::Write as _;
use std::fs;
use std::panic;
use std::path::Path;
use std::process::{Command, Output};
use std::sync::Mutex;
use std::thread;
use std::time::{Duration, Instant};

/// A kind of case: its name, so many of them in a round, and what makes a case, runs it and panics where something doesn't hold.
type Kind = (&'static str, u64, fn(&mut Scene));

/// A kind more is a line more.
const KINDS: &[Kind] = &[
    ("lines", 16, lines::drive),
    ("outputs aimed at inputs", 6, aimed::drive),
    ("kills", 1, jobs::killed),
    ("full disks", 3, jobs::full),
    ("names through shells", 1, names::drive),
    ("forged scores", 2, forged::scores),
    ("forged states", 2, forged::states),
];

/// The cases of the fixed list.
const CASES: u64 = 2_200;

/// Where a case is made and run.
pub struct Scene<'a> {
    pub random: Random,
    /// A folder of its own, empty.
    pub folder: &'a Path,
    /// The build with overflow checks, where there is one.
    pub other: Option<OsString>,
    /// The line at hand, for who looks at a fault.
    line: &'a Mutex<String>,
}

impl Scene<'_> {
    /// Tells what is run now.
    pub fn is_about(&self, line: &dyn std::fmt::Debug) {
        *self.line.lock().expect("no other has it") = format!("{line:?}");
    }

    /// The shipped build or the other one, whose answers are the same.
    pub fn program(&mut self) -> OsString {
        match &self.other {
            Some(other) if self.random.coin() => other.clone(),
            _ => shipped(),
        }
    }
}

pub fn shipped() -> OsString {
    env!("CARGO_BIN_EXE_egretfold").into()
}

/// What must hold of the end of any run that no signal ended.
pub fn hold_end(output: &Output) {
    let errors = String::from_utf8_lossy(&output.stderr);
    let fault = errors.contains("panicked") || errors.contains("fault of the program");
    assert!(!fault, "{errors}");
    let status = output.status.code();
    assert!(
        status.map_or(false, |status| status <= 3),
        "{status:?}: {errors}"
    );
}

/// Runs it to its end.
pub fn ended(mut command: Command) -> Output {
    let output = command.output().expect("the command runs");
    hold_end(&output);
    output
}

fn number(name: &str) -> Option<u64> {
    env::var(name).ok()?.parse().ok()
}

/// The kind of a case, by its place in the round.
fn kind_of(case: u64) -> (&'static str, fn(&mut Scene)) {
    let round: u64 = KINDS.iter().map(|(_, times, _)| times).sum();
    let mut place = case % round;
    for (name, times, drive) in KINDS {
        if place < *times {
            return (name, *drive);
        }
        place -= times;
    }
    unreachable!("the place is in the round")
}

/// Runs one case; gives its kind, and what was run where it failed.
fn run(case: u64, folder: &Path) -> (&'static str, Result<(), String>) {
    let (name, drive) = kind_of(case);
    let seed = number("HOSTILE_SEED").unwrap_or(1);
    let _ = fs::remove_dir_all(folder);
    fs::create_dir_all(folder).expect("a folder");
    let line = Mutex::new(String::new());
    let failed = panic::catch_unwind(|| {
        drive(&mut Scene {
            random: Random::of_case(98, seed, case),
            folder,
            other: env::var_os("HOSTILE_OTHER"),
            line: &line,
        });
    });
    let told = || {
        let line = line.lock().map_or(String::new(), |line| line.clone());
        format!("{name}, case {case} of seed {seed}: {line}")
    };
    (name, failed.map_err(|_| told()))
}

fn drive_share(share: u64, shares: u64) {
    let folder = Folder::new(&format!("hostile-{share}"));
    for case in (share..CASES).step_by(shares as usize) {
        if let (_, Err(told)) = run(case, &folder.0.join("own")) {
            panic!("{told}");
        }
    }
}

#[test]
fn hostile_cases_of_even_numbers() {
    drive_share(0, 2);
}

#[test]
fn hostile_cases_of_odd_numbers() {
    drive_share(1, 2);
}

/// What was run of a kind.
#[derive(Default)]
struct Count {
    passed: u64,
    failed: Vec<String>,
}

/// Runs cases until the time is over, on two threads.
fn drive_for(time: Duration) -> BTreeMap<&'static str, Count> {
    let counts = Mutex::new(BTreeMap::<&str, Count>::new());
    let begun = Instant::now();
    let share = |share: u64| {
        let folder = Folder::new(&format!("hostile-for-{share}"));
        for case in (share..).step_by(2) {
            if begun.elapsed() >= time {
                return;
            }
            let (name, result) = run(case, &folder.0.join("own"));
            let mut counts = counts.lock().expect("nothing panics that has it");
            let count = counts.entry(name).or_default();
            match result {
                Ok(()) => count.passed += 1,
                Err(told) => count.failed.push(told),
            }
        }
    };
    thread::scope(|scope| {
        scope.spawn(|| share(0));
        scope.spawn(|| share(1));
    });
    counts.into_inner().expect("nothing panics that has it")
}

/// What `tools/hostile` asks for; nothing where it doesn't.
#[test]
fn for_as_long_as_is_asked() {
    let counts = match (number("HOSTILE_CASE"), number("HOSTILE_SECONDS")) {
        (Some(case), _) => {
            let folder = Folder::new("hostile-case");
            let (_, result) = run(case, &folder.0.join("own"));
            return result.expect("the case holds");
        }
        (None, Some(seconds)) => drive_for(Duration::from_secs(seconds)),
        (None, None) => return,
    };
    let (mut passed, mut failed, mut text) = (0, 0, String::new());
    for (name, count) in &counts {
        let _ = writeln!(text, "{:>8}  {name}", count.passed);
        for told in &count.failed {
            let _ = writeln!(text, "FAILED: {told}");
        }
        passed += count.passed;
        failed += count.failed.len();
    }
    let _ = writeln!(text, "{passed} passed, {failed} failed");
    match env::var_os("HOSTILE_COUNTS") {
        Some(file) => fs::write(file, &text).expect("the counts are written"),
        None => print!("{text}"),
    }
    assert!(passed > 0 && failed == 0, "{text}");
}
