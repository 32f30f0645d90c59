//! The C boundary called from C: compiles the programs in c/ with the header as it is
//! delivered, links them with the same static library as the Rust side, and runs
//! them. Each says itself which call differs.

use std::path::{Path, PathBuf};
use std::process::Command;

fn here() -> &'static Path {
    Path::new(env!("CARGO_MANIFEST_DIR"))
}

/// The compiled program of this name, in the folder that cargo keeps for tests.
fn compiled(name: &str) -> PathBuf {
    let program = Path::new(env!("CARGO_TARGET_TMPDIR")).join(name);
    let output = Command::new("cc")
        .args(["-O1", "-std=c99", "-Wall", "-Wextra", "-Werror", "-I"])
        .arg(here().join("../../include"))
        .arg(here().join(format!("c/{name}.c")))
        .arg(egretfold::ARCHIVE)
        .arg("-o")
        .arg(&program)
        .output()
        .expect("cc runs");
    let told = String::from_utf8_lossy(&output.stderr).into_owned();
    assert!(output.status.success(), "{told}");
    program
}

#[test]
fn every_function_answers_c_as_the_header_says() {
    let output = Command::new(compiled("calls")).output().expect("it runs");
    let told = String::from_utf8_lossy(&output.stdout).into_owned();
    assert_eq!(output.status.code(), Some(0), "{told}");
    let count = told.strip_prefix("calls: ");
    let count = count.and_then(|rest| rest.strip_suffix(" agreed\n"));
    let count: u32 = count.and_then(|n| n.parse().ok()).expect("a count");
    // A number that only grows with the file; a program that checks nothing fails.
    assert!(count >= 100, "only {count} answers were checked");
}

/// Damaged states are refused, or taken and then do no harm: the program ends by itself, which it doesn't where a call
/// leaves its arrays. Its lines: "sessions: 8 states, 32187 flips refused, 3141 taken and fed".
#[test]
fn every_flipped_bit_of_a_state_is_refused_or_does_no_harm() {
    let output = Command::new(compiled("flips")).output().expect("it runs");
    let told = String::from_utf8_lossy(&output.stdout).into_owned();
    assert_eq!(output.status.code(), Some(0), "{told}");
    println!("{told}");
    let names = ["sessions", "pairs", "replays", "groups"];
    for ((line, name), least) in told.lines().zip(names).zip([8, 3, 6, 16]) {
        let numbers: Vec<u64> = line
            .split([' ', ','])
            .filter_map(|word| word.parse().ok())
            .collect();
        assert!(line.starts_with(&format!("{name}: ")), "{line}");
        // Most damage is found, and some is none: a base elsewhere, a tally that may be.
        let [states, refused, taken] = numbers[..] else {
            panic!("{line}")
        };
        assert!(
            states == least && refused > 4 * taken && taken > 50 * states,
            "{line}"
        );
    }
    assert_eq!(told.lines().count(), names.len());
}
