//! Scores that came from elsewhere and say what isn't so: other files, other bytes, days and
//! checks that contradict each other, text that a terminal would obey.

use crate::common::{complained, sample, told, with_input, Folder};
use serde_json::{json, Value};
use std::fs;
use std::process::{Command, Output};

/// Two stations; the lease of the first has two days more than its log.
const ROWS: &str =
    "station,log,first day,days,owed\n1,a.log,101,5,1728\n2,b.log;c.log,101,3,1728\n";

struct Joined {
    folder: Folder,
    /// The lines of their scores.
    scores: Vec<Value>,
}

impl Joined {
    fn new(name: &str) -> Joined {
        let folder = Folder::new(name);
        let log = sample("three-days.log");
        folder.write("leases.csv", ROWS.as_bytes());
        folder.write("a.log", &log);
        folder.write("b.log", &log[..100]);
        folder.write("c.log", &log[100..]);
        let mut joined = Joined {
            folder,
            scores: Vec::new(),
        };
        let lines = joined.sh(
            "$E fleet leases.csv --commands --issued 2026-05-02 | sed \"s|^egretfold|$E|\" | sh",
        );
        let lines = told(&lines);
        joined.scores = lines
            .lines()
            .map(|line| serde_json::from_str(line).expect("JSON"))
            .collect();
        assert_eq!(joined.scores.len(), 5 + 1 + 3 + 1);
        joined
    }

    fn sh(&self, script: &str) -> Output {
        let mut command = Command::new("sh");
        command.arg("-c").arg(format!("cd \"$0\" && {script}"));
        command.arg(&self.folder.0);
        command.env("E", env!("CARGO_BIN_EXE_egretfold"));
        with_input(command, b"")
    }

    /// Joins the scores after this change of them.
    fn forged(&self, change: impl Fn(&mut Vec<Value>), more: &str) -> Output {
        let mut scores = self.scores.clone();
        change(&mut scores);
        let lines: String = scores.iter().map(|line| format!("{line}\n")).collect();
        self.folder.write("scores", lines.as_bytes());
        self.sh(&format!(
            "$E fleet leases.csv --from-scores scores --issued 2026-05-02 {more}"
        ))
    }

    fn is_told(&self, cause: &str, change: impl Fn(&mut Vec<Value>)) {
        let output = self.forged(change, "");
        assert_eq!(output.status.code(), Some(2), "{cause}: {}", told(&output));
        assert_eq!(told(&output), "", "{cause}");
        assert!(
            complained(&output).contains(cause),
            "{cause}: {}",
            complained(&output)
        );
    }
}

#[test]
fn scores_are_of_their_rows_files() {
    let joined = Joined::new("joined-files");
    let due = joined.sh("$E fleet leases.csv --issued 2026-05-02");
    assert_eq!(told(&joined.forged(|_| {}, "")), told(&due));
    let cause = "station 1 is scored of other files than those of line 2: \"x.log\", where \"a.log\" is due";
    joined.is_told(cause, |scores| {
        scores[5]["summary"]["log"]["inputs"] = json!(["x.log"])
    });
    let cause =
        "station 2 is scored of other files than those of line 3: 1 of them, where 2 are due";
    joined.is_told(cause, |scores| {
        scores[9]["summary"]["log"]["inputs"] = json!(["b.log"])
    });
    // Two stations' scores exchanged.
    joined.is_told("is scored", |scores| {
        for line in &mut scores[..5] {
            line["station"] = json!("2");
        }
        for line in &mut scores[6..9] {
            line["station"] = json!("1");
        }
        scores[5]["summary"]["station"] = json!("2");
        scores[9]["summary"]["station"] = json!("1");
    });
}

#[test]
fn scores_that_contradict_themselves_are_told() {
    let joined = Joined::new("joined-days");
    joined.is_told(
        "line 6: station 1: day 102 claims 1728, and the log doesn't have it",
        |scores| {
            scores[1]["in_log"] = json!(false);
        },
    );
    joined.is_told(
        "line 6: station 1: the checks don't say what the days say",
        |scores| {
            scores[5]["summary"]["checks"] = json!([]);
        },
    );
    joined.is_told(
        "line 6: station 1: the checks don't say what the days say",
        |scores| {
            scores[3]["in_log"] = json!(true);
            scores[4]["in_log"] = json!(true);
        },
    );
    joined.is_told(
        "line 6: station 1: the days that the log has don't stand in a row",
        |scores| {
            scores[4]["in_log"] = json!(true);
        },
    );
    joined.is_told(
        "line 4: station 1: the line of day 104 isn't this lease's",
        |scores| {
            scores[3]["dark"] = json!(false);
        },
    );
}

#[test]
fn text_of_scores_is_filtered_as_all_text_is() {
    let joined = Joined::new("joined-text");
    let hostile = "x\u{1b}]0;y\u{7}\u{202E}\u{9b}2J";
    let change = |scores: &mut Vec<Value>| {
        let summary = &mut scores[5]["summary"];
        summary["version"] = json!(hostile);
        summary["checks"][0]["text"] = json!(hostile);
        summary["checks"][0]["explains"] = json!(format!("a\nb{hostile}"));
        let other = &mut scores[9]["summary"];
        other["unscored"] = json!({"name": "NOT SCORED", "why": hostile});
        other["inputs"] = other["log"]["inputs"].clone();
        scores.drain(6..9);
    };
    for form in ["", "--csv", "--json", "--html page.html --cards cards"] {
        let output = joined.forged(change, form);
        assert_eq!(output.status.code(), Some(1), "{}", complained(&output));
        let plain = |text: &str| {
            !text.contains(|letter: char| {
                letter != '\n' && (letter.is_control() || letter == '\u{202E}')
            })
        };
        assert!(
            plain(&told(&output)) && plain(&complained(&output)),
            "{form}"
        );
        for file in ["page.html", "cards/1.svg", "cards/2.svg"] {
            let text = fs::read_to_string(joined.folder.0.join(file)).unwrap_or_default();
            assert!(plain(&text), "{file}");
            assert_eq!(text.is_empty(), !form.contains("--html"), "{file}");
        }
    }
}

#[test]
fn digests_are_held_against_the_logs_where_they_can_be_read() {
    let joined = Joined::new("joined-logs");
    let due = joined.sh("$E fleet leases.csv --issued 2026-05-02");
    let output = joined.forged(|_| {}, "--check-logs");
    assert_eq!(
        (told(&output), complained(&output)),
        (told(&due), String::new())
    );
    assert_eq!(output.status, due.status);
    let output = joined.forged(
        |scores| scores[5]["summary"]["sha256"] = json!(null),
        "--check-logs",
    );
    assert!(complained(&output).contains("station 1 is scored without a digest of its log"));
    let mut log = sample("three-days.log");
    log[150] ^= 1;
    joined.folder.write("c.log", &log[100..]);
    let output = joined.forged(|_| {}, "--check-logs");
    assert_eq!(
        (output.status.code(), told(&output)),
        (Some(2), String::new())
    );
    let cause = "station 2 is scored of other bytes than its log has: SHA-256 ";
    assert!(
        complained(&output).contains(cause),
        "{}",
        complained(&output)
    );
    fs::remove_file(joined.folder.0.join("c.log")).expect("it goes");
    let output = joined.forged(|_| {}, "--check-logs");
    assert_eq!(told(&output), told(&due));
    let note = "station 2: its log isn't checked: c.log: No such file or directory (os error 2)\n";
    assert_eq!(complained(&output), note);
}

#[test]
fn a_page_holds_so_many_stations() {
    let folder = Folder::new("joined-page");
    let rows: String = (0..5_001)
        .map(|number| format!("s{number},a.log,101,3,1728\n"))
        .collect();
    let rows = format!("station,log,first day,days,owed\n{rows}");
    let leases = folder.write("leases.csv", rows.as_bytes());
    let page = folder.0.join("page.html");
    let line = format!("fleet {leases} --html {}", page.display());
    let output = crate::common::egretfold(&line, b"");
    assert_eq!(output.status.code(), Some(2));
    let due = "egretfold: --html: a page holds 5000 stations at most, and these are 5001; --cards draws any number\n";
    assert_eq!(complained(&output), due);
    assert!(!page.exists());
}
