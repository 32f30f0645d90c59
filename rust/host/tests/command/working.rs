//! The working by hand comes to the product's answer: the command itself compares
//! the two and fails where they differ, so it is enough that it answers.

use crate::common::{complained, egretfold, told};
use std::fmt::Write;

/// Windows that span several tiles each way, for every size, linear and tiled.
fn windows() -> impl Iterator<Item = (u32, &'static str)> {
    let sizes = [1, 2, 4, 8, 16].into_iter();
    sizes.flat_map(|size| [(size, ""), (size, "--tiled")])
}

/// A row step of at least 192 elements whatever the size, which is three of the
/// widest tiles, and more rows than three of the tallest have.
const WINDOW: &str = "--base 10000 --pitch 196 --height 100";
const STEP: u32 = 192;
const HEIGHT: u32 = 100;

#[test]
fn every_pair_of_a_window_is_worked_as_it_is_translated() {
    let mut pairs = String::new();
    for y in 0..HEIGHT {
        for x in 0..STEP {
            writeln!(pairs, "{x},{y}").expect("text grows");
        }
    }
    for (size, tiled) in windows() {
        let line = format!("address {WINDOW} --size {size} {tiled} --work --json");
        let output = egretfold(&line, pairs.as_bytes());
        assert_eq!(complained(&output), "", "{line}");
        assert_eq!(output.status.code(), Some(0), "{line}");
        let answers = told(&output)
            .lines()
            .filter(|line| line.contains("\"work\""))
            .count();
        assert_eq!(answers as u32, STEP * HEIGHT, "{line}");
    }
}

#[test]
fn every_byte_of_a_window_is_worked_as_it_is_located() {
    for (size, tiled) in windows() {
        let owned = STEP * HEIGHT * size;
        // Every byte of a small window, one in seven of a large one: 7 is apart
        // from every power of two.
        let step = if size < 4 { 1 } else { 7 };
        let mut addresses = String::new();
        let mut asked = 0;
        for offset in (0..owned).step_by(step) {
            writeln!(addresses, "{:X}", 0x10000 + offset).expect("text grows");
            asked += 1;
        }
        let line = format!("locate {WINDOW} --size {size} {tiled} --work --json");
        let output = egretfold(&line, addresses.as_bytes());
        let answers = told(&output)
            .lines()
            .filter(|line| line.contains("\"place\":") && line.contains("\"work\""))
            .count();
        let refused = told(&output)
            .lines()
            .filter(|line| line.contains("\"refused\":12"))
            .count();
        assert_eq!(answers + refused, asked, "{line}");
        // Rows past the height stand only in the last tiles of a tiled window.
        assert!(
            answers > asked * 9 / 10 && (refused == 0 || !tiled.is_empty()),
            "{line}"
        );
    }
}
