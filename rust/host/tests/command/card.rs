//! The card that is signed, and what is to be checked before it is sent.

use crate::common::{
    archive, complained, egretfold, last_line, midnights, root, sample, told, with_input, words,
    Folder,
};
use egretfold::headers::{SET_DOMAIN, START_PROGRAM};
use serde_json::Value;
use std::fs;
use std::path::Path;
use std::process::Command;

const APRIL: &str = "--first-day 101 --days 30 --owed 14000000 --from 2026-04-01";

/// The card in this file.
fn card(file: &str) -> String {
    fs::read_to_string(file).expect("the card is there")
}

#[test]
fn a_card_says_whose_it_is_and_what_it_is_of() {
    let folder = Folder::new("card");
    let file = folder.0.join("april.svg").display().to_string();
    let mut line = Command::new(env!("CARGO_BIN_EXE_egretfold"));
    line.args(["score", "samples/station-14.log", "--svg", &file]);
    line.args(APRIL.split_whitespace());
    line.args([
        "--station",
        "14 <north>",
        "--lessee",
        "Harbour & Sons",
        "--issued",
        "2026-05-02",
    ]);
    let output = with_input(line, b"");
    let heading = "\nStation 14 <north>, leased to Harbour & Sons\n";
    assert!(told(&output).contains(heading), "{}", told(&output));
    let version = told(&egretfold("-V", b""));
    let mut sum = Command::new("sha256sum");
    sum.arg("samples/station-14.log");
    let sum = told(&with_input(sum, b""));
    let digest = sum.split_whitespace().next().expect("a digest");
    let card = card(&file);
    for shown in [
        ">April 2026</text>",
        ">Station 14 &lt;north&gt;, leased to Harbour &amp; Sons</text>",
        ">Log station-14.log</text>",
        ">85.08 %: 25 days in full, 1 in part, 4 dark</text>",
        ">lessor: signature, place and date</text>",
        ">lessee: signature, place and date</text>",
        &format!(">Issued 2026-05-02 by {}</text>", version.trim()),
        &format!(">SHA-256 of the log's bytes: {digest}</text>"),
        &format!(
            ">SHA-256 of the proved archive that scored it: {}</text>",
            archive()
        ),
    ] {
        assert!(card.contains(shown), "{shown}");
    }
    assert!(!card.contains("samples/"), "no path is printed");
    assert!(!card.contains("Check before sending"));
    let json = egretfold(
        &format!("score samples/station-14.log {APRIL} --json --issued 2026-05-02"),
        b"",
    );
    let summary = &last_line(&told(&json))["summary"];
    assert_eq!(summary["sha256"], digest);
    assert_eq!(summary["issued"], "2026-05-02");
    assert_eq!(summary["percent"], 85.08);
    assert_eq!(summary["percent_text"], "85.08 %");
    assert_eq!(summary["checks"], Value::Array(vec![]));
}

/// Of several inputs the digest is of all bytes in their order, and what gzip packed is
/// the log that it packed.
#[test]
fn the_digest_is_of_the_logs_bytes() {
    let folder = Folder::new("digest");
    let log = sample("station-14.log");
    let (first, second) = log.split_at(7_001);
    let files = format!("{} {}", folder.write("a", first), folder.write("b", second));
    let digest = |output| last_line(&told(&output))["summary"]["sha256"].clone();
    let line = format!("{APRIL} --json");
    let whole = digest(egretfold(&format!("score - {line}"), &log));
    assert_eq!(
        digest(egretfold(&format!("score {files} {line}"), b"")),
        whole
    );
    let mut gzip = Command::new("gzip");
    gzip.arg("-c");
    let packed = with_input(gzip, &log).stdout;
    assert_eq!(
        digest(egretfold(&format!("score - {line}"), &packed)),
        whole
    );
}

/// What holds of this log and lease: on the terminal, in JSON, on the card, beside the
/// rows; and the last line, which is the verdict's.
fn checked(log: &[u8], lease: &str) -> (Vec<String>, String) {
    let folder = Folder::new("checks");
    let file = folder.0.join("card.svg").display().to_string();
    let text = told(&egretfold(&format!("score - {lease} --svg {file}"), log));
    let begin = text.split("check before sending:\n").nth(1).unwrap_or("");
    let texts = begin.lines().map_while(|line| line.strip_prefix("  "));
    let texts: Vec<String> = texts.map(String::from).collect();
    let json = told(&egretfold(&format!("score - {lease} --json"), log));
    let summary = last_line(&json)["summary"].clone();
    let checks = summary["checks"].as_array().expect("a list");
    let by_json: Vec<&str> = checks
        .iter()
        .map(|check| check["text"].as_str().expect("text"))
        .collect();
    assert_eq!(by_json, texts);
    let keys: Vec<&String> = summary.as_object().expect("an object").keys().collect();
    let place = |key: &str| keys.iter().position(|other| *other == key);
    assert!(place("checks") < place("verdict"));
    let rows = complained(&egretfold(&format!("score - {lease} --csv"), log));
    let told: Vec<&str> = rows
        .lines()
        .map(|line| &line["check before sending: ".len()..])
        .collect();
    assert_eq!(told, texts);
    // On the card a long one is broken into lines.
    let card = card(&file).replace("</text>\n", "\n");
    let verdict = card.find(">SHORT\n").or(card.find(">FULL\n"));
    for text in &texts {
        let begin: String = text.chars().take(60).collect();
        let at = card
            .find(&begin)
            .unwrap_or_else(|| panic!("{begin} is on the card"));
        assert!(Some(at) < verdict, "{text} stands above the verdict");
    }
    (texts, text.lines().last().unwrap_or_default().to_string())
}

#[test]
fn what_holds_is_told_above_the_verdict() {
    let month = sample("station-14.log");
    let lease = "--first-day 101 --days 30 --owed 14000000";
    let (texts, verdict) = checked(&month, lease);
    assert!(texts.is_empty(), "{texts:?}");
    assert_eq!(
        verdict,
        "short: of 30 days, 25 served in full, 1 in part, 4 dark"
    );
    // Another month's log.
    let month = &month[..month.len() - 5];
    let (texts, verdict) = checked(month, "--first-day 131 --days 30 --owed 1");
    assert_eq!(
        texts,
        [
            "the log covers days 101 to 130, and 0 of the lease's 30 days are among them",
            "the log has 30 days outside the lease: 101 to 130",
        ]
    );
    assert!(
        verdict.ends_with("; this may be because the log doesn't cover the lease"),
        "{verdict}"
    );
    // A day too early, and a lease inside the log.
    let (texts, _) = checked(month, "--first-day 100 --days 30 --owed 1");
    assert_eq!(
        texts,
        [
            "the log covers days 101 to 130, and 29 of the lease's 30 days are among them",
            "the log has 1 day outside the lease: 130",
        ]
    );
    let (texts, _) = checked(month, "--first-day 105 --days 2 --owed 1");
    assert_eq!(
        texts,
        ["the log has 28 days outside the lease: 101 to 104 and 107 to 130"]
    );
}

#[test]
fn a_log_that_is_not_whole_is_told() {
    let lease = "--first-day 101 --days 1 --owed 1";
    let (texts, verdict) = checked(b"", lease);
    assert_eq!(
        texts,
        [
            "the log is empty",
            "the log has no midnight at all, so it covers no day"
        ]
    );
    assert!(
        verdict.ends_with("; this may be because the log is empty"),
        "{verdict}"
    );
    let (texts, verdict) = checked(&words(&[SET_DOMAIN, 0]), lease);
    assert_eq!(
        texts,
        [
            "the log has no midnight at all, so it covers no day",
            "ends inside set_domain: 1 of its 4 parameters taken",
        ]
    );
    assert!(
        verdict.ends_with("; this may be because the log has no midnight"),
        "{verdict}"
    );
    // The files from the set-up on are missing.
    let log = [midnights(101..102), words(&[START_PROGRAM, 0]), vec![1, 0]].concat();
    let (texts, verdict) = checked(&log, lease);
    assert_eq!(texts.len(), 3, "{texts:?}");
    let due = "the first start was refused 7 before anything was set: files from the set-up on are missing; \
               the state saved at the end of the month before would do (score --resume)";
    assert_eq!(texts[0], due);
    assert!(
        texts[1].contains("day 101: word refused 7, start without "),
        "{}",
        texts[1]
    );
    assert_eq!(
        texts[2],
        "ends inside record 3: 2 of its 5 bytes, counted nowhere"
    );
    let because = "; this may be because the set-up is missing and a word was refused";
    assert!(verdict.ends_with(because), "{verdict}");
    // A word refused after all that was owed explains nothing.
    let refused = &sample("refused.log")[..140];
    let (texts, verdict) = checked(refused, "--first-day 101 --days 1 --owed 3457");
    assert!(texts[0].contains("day 102: word refused 4, "), "{texts:?}");
    assert_eq!(
        verdict,
        "short: of 1 day, 0 served in full, 1 in part, 0 dark"
    );
}

#[test]
fn an_empty_file_among_several_is_told() {
    let folder = Folder::new("empty");
    let empty = folder.write("12.log", b"");
    let output = egretfold(
        &format!("score {empty} samples/station-14.log {APRIL}"),
        b"",
    );
    assert!(
        told(&output).contains(&format!("\n  {empty} is empty\n")),
        "{}",
        told(&output)
    );
    assert!(told(&output).ends_with("; this may be because an input is empty\n"));
}

#[test]
fn rows_tell_which_days_the_log_has() {
    let output = egretfold(
        "score samples/station-14.log --first-day 130 --days 3 --owed 1 --csv",
        b"",
    );
    let text = told(&output);
    let ends: Vec<&str> = text
        .lines()
        .map(|line| line.rsplit(',').nth(1).expect("a value"))
        .collect();
    assert_eq!(ends, ["in_log", "true", "true", "false"]);
}

/// No card of an earlier month is left where there is no score now.
#[test]
fn a_card_without_a_score_says_so() {
    let folder = Folder::new("unscored");
    let empty = folder.0.join("egretfold-empty-log");
    fs::create_dir(&empty).expect("a folder");
    let empty = empty.display().to_string();
    for (log, lease, name, why, status) in [
        (
            "samples/damaged.log",
            APRIL,
            "REFUSED",
            "damaged.log: byte 7394, record 1478, day 116: refused 19, ",
            1,
        ),
        (
            "samples/station-14.log",
            "--first-day 1 --days 32 --owed 1",
            "REFUSED",
            "refused 21, 32 days are over 31",
            1,
        ),
        (
            "samples/no-such.log",
            APRIL,
            "NOT SCORED",
            "no-such.log: No such file",
            2,
        ),
        (
            &*empty,
            APRIL,
            "NOT SCORED",
            "egretfold-empty-log: is an empty folder",
            2,
        ),
    ] {
        for earlier in [
            Some(&b"<svg data-by=\"egretfold\" of a full month"[..]),
            None,
        ] {
            let file = folder.0.join("card.svg").display().to_string();
            let _ = fs::remove_file(&file);
            if let Some(earlier) = earlier {
                folder.write("card.svg", earlier);
            }
            let output = egretfold(
                &format!("score {log} {lease} --svg {file} --station 14"),
                b"",
            );
            assert_eq!(output.status.code(), Some(status), "{log}");
            let card = card(&file);
            for shown in [&format!(">{name}</text>"), why, ">Station 14</text>"] {
                assert!(card.contains(shown), "{log}: {shown}");
            }
            assert!(
                !card.contains("samples/") && !card.contains("signature"),
                "{log}"
            );
        }
    }
    fs::remove_dir(&empty).expect("it goes");
    assert_eq!(fs::read_dir(&folder.0).expect("the folder").count(), 1);
    // A log in a card's place stays a log.
    let log = folder.write("a.log", &sample("damaged.log"));
    let output = egretfold(
        &format!("score samples/damaged.log {APRIL} --svg {log}"),
        b"",
    );
    assert_eq!(output.status.code(), Some(2));
    assert_eq!(fs::read(&log).expect("the log"), sample("damaged.log"));
}

#[test]
fn the_version_names_the_kit_that_proved_it_and_the_archive() {
    let long = told(&egretfold("--version", b""));
    let short = told(&egretfold("-V", b""));
    let kit = Path::new(egretfold::ARCHIVE).with_file_name("kit.txt");
    // An archive that was brought here has no record, and none is made up.
    let kit = fs::read_to_string(kit).unwrap_or_else(|_| "a kit that was not recorded".into());
    let kit = kit.trim();
    let mut sum = Command::new("sha256sum");
    sum.arg(egretfold::ARCHIVE);
    let sum = told(&with_input(sum, b""));
    let sum = sum.split_whitespace().next().expect("a digest");
    let due = format!("{short}proved with {kit}\nSHA-256 of the proved archive: {sum}\n");
    assert_eq!(long, due);
    assert_eq!(archive(), sum);
}

#[test]
fn the_version_names_its_commit() {
    let version = told(&egretfold("-V", b""));
    let mut git = Command::new("git");
    git.args(["rev-parse", "--short=12", "HEAD"])
        .current_dir(root());
    // Where there is no repository, there is no commit to name.
    if let Some(commit) = git.output().ok().filter(|output| output.status.success()) {
        assert!(version.contains(told(&commit).trim()), "{version}");
    }
}
