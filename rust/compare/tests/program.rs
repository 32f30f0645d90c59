//! The program `compare` itself: its answers to good and bad command lines.

use compare::Kind;
use std::process::{Command, Output};

fn compare(line: &str) -> Output {
    let mut program = Command::new(env!("CARGO_BIN_EXE_compare"));
    let output = program.args(line.split_whitespace()).output();
    output.expect("the program runs")
}

fn text(output: &Output) -> String {
    String::from_utf8_lossy(&output.stdout).into_owned()
}

#[test]
fn help_is_given() {
    let output = compare("--help");
    assert_eq!(output.status.code(), Some(0));
    assert!(text(&output).contains("--seconds S"));
}

#[test]
fn a_wrong_line_ends_with_2_and_the_help_text() {
    for line in [
        "--kind nothing",
        "--case 1",
        "--kind flow --draws x",
        "--seconds",
        "--seed -1",
        "more",
    ] {
        let output = compare(line);
        assert_eq!(output.status.code(), Some(2), "{line}");
        assert_eq!(text(&output), "", "{line}");
        let wrong = String::from_utf8_lossy(&output.stderr).into_owned();
        assert!(wrong.contains("usage: ./compare"), "{line}");
    }
}

#[test]
fn one_case_prints_both_answers() {
    for kind in Kind::ALL.map(Kind::name) {
        let output = compare(&format!("--kind {kind} --seed 5 --case 3"));
        assert_eq!(output.status.code(), Some(0), "{kind}");
        let text = text(&output);
        let count = |word| text.matches(word).count();
        assert!(count("    product   ") > 0, "{kind}");
        assert_eq!(count("    product   "), count("    expected  "), "{kind}");
        assert!(text.ends_with("1 case, 0 differences\n"), "{kind}");
    }
}

#[test]
fn a_case_of_drawn_numbers_is_run() {
    for list in ["0", "1f,ffffffffffffffff,8000000000000000"] {
        let output = compare(&format!("--kind addresses --draws {list}"));
        assert_eq!(output.status.code(), Some(0), "{list}");
        assert!(text(&output).ends_with("1 case, 0 differences\n"), "{list}");
    }
}

#[test]
fn a_case_is_the_same_every_time() {
    let line = "--kind streams --seed 8 --case 21";
    assert_eq!(text(&compare(line)), text(&compare(line)));
}

#[test]
fn all_kinds_run_until_the_seconds_are_over() {
    let output = compare("--seconds 1 --seed 2");
    assert_eq!(output.status.code(), Some(0));
    let text = text(&output);
    for kind in Kind::ALL.map(Kind::name) {
        assert!(text.contains(&format!("{kind}: ")), "{kind}");
    }
    assert!(text.ends_with(" cases, 0 differences\n"), "{text}");
}
