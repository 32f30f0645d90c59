//! `egretfold history`: months' scores side by side, by whichever form they came, in whichever order; what got worse;
//! and scores that contradict each other or are forged.

use crate::common::{complained, egretfold, last_line, told, with_input, Folder};
use crate::score::well_formed;
use serde_json::{json, Value};
use std::fs;
use std::process::{Command, Output};

const MONTHS: [&str; 3] = ["april", "may", "june"];

/// Three months of two stations, as `fleet --json` tells them.
struct Months {
    folder: Folder,
}

impl Months {
    fn new(name: &str) -> Months {
        let folder = Folder::new(name);
        for month in MONTHS {
            let line = format!("fleet samples/months/{month}.csv --json --issued 2026-07-02");
            folder.write(month, told(&egretfold(&line, b"")).as_bytes());
        }
        Months { folder }
    }

    fn history(&self, files: &str) -> Output {
        let mut command = Command::new("sh");
        command
            .arg("-c")
            .arg(format!("cd \"$0\" && $E history {files}"));
        command
            .arg(&self.folder.0)
            .env("E", env!("CARGO_BIN_EXE_egretfold"));
        with_input(command, b"")
    }

    fn lines(&self, month: &str) -> Vec<Value> {
        let text = fs::read_to_string(self.folder.0.join(month)).expect("the scores");
        let lines = text.lines();
        lines
            .map(|line| serde_json::from_str(line).expect("JSON"))
            .collect()
    }

    /// Writes a month's first line, changed, as scores of their own.
    fn put(&self, name: &str, month: &str, change: impl Fn(&mut Value)) {
        let mut line = self.lines(month)[0].clone();
        change(&mut line);
        self.folder.write(name, format!("{line}\n").as_bytes());
    }
}

#[test]
fn months_stand_side_by_side_in_any_order() {
    let months = Months::new("history-order");
    let due = months.history("april may june");
    assert_eq!(due.status.code(), Some(0), "{}", complained(&due));
    let text = told(&due);
    assert!(
        text.starts_with("history of 2 stations over 3 months, 2026-04 to 2026-06\n"),
        "{text}"
    );
    for line in [
        "21       Harbour  2026-05  28,000,000  31,000,000  90.32 %     3    28  [##################..]  short: worse than 2026-04 (100 %), 3 more dark days\n",
        "21       Harbour  2026-06  30,000,000  30,000,000    100 %     0    30  [####################]  full: better than 2026-05 (90.32 %), 3 fewer dark days\n",
        "total             2026-05  59,000,000  62,000,000  95.16 %     3        [###################.]  2 stations\n",
        "what got worse:\n  21, 2026-05: worse than 2026-04 (100 %), 3 more dark days\n  22, 2026-06: worse than 2026-05 (100 %)\n",
    ] {
        assert!(text.contains(line), "{line} in {text}");
    }
    for files in [
        "june april may",
        "may june april",
        "june may april april june",
    ] {
        assert_eq!(told(&months.history(files)), text, "{files}");
    }
    let json = told(&months.history("april may june --json"));
    for files in ["june april may", "may may june april"] {
        assert_eq!(
            told(&months.history(&format!("{files} --json"))),
            json,
            "{files}"
        );
    }
    // By standard input too.
    let all = MONTHS.map(|month| fs::read(months.folder.0.join(month)).expect("the scores"));
    assert_eq!(told(&egretfold("history", &all.concat())), text);
}

/// The lines of `score --json` have the days, those of `fleet --json` the sums: they come to the same.
#[test]
fn scores_and_a_fleets_lines_come_to_the_same() {
    let months = Months::new("history-forms");
    let due = told(&months.history("april may june"));
    let mut scores = Vec::new();
    for month in MONTHS {
        let line = format!("fleet samples/months/{month}.csv --commands --issued 2026-07-02");
        let lines = told(&egretfold(&line, b"")).replace("egretfold score", "$E score");
        let mut shell = Command::new("sh");
        shell
            .args(["-c", &lines])
            .env("E", env!("CARGO_BIN_EXE_egretfold"));
        scores.extend(with_input(shell, b"").stdout);
    }
    months.folder.write("scores", &scores);
    assert_eq!(told(&months.history("scores")), due);
    // Both together are no contradiction.
    let both = months.history("scores april june may");
    assert_eq!((told(&both), both.status.code()), (due, Some(0)));
}

#[test]
fn the_forms_of_a_history_agree() {
    let months = Months::new("history-json");
    let text = told(&months.history("april may june --plain"));
    let json = told(&months.history("april may june --json"));
    let lines: Vec<Value> = json
        .lines()
        .map(|line| serde_json::from_str(line).expect("JSON"))
        .collect();
    assert_eq!(lines.len(), 5 + 3 + 1);
    for line in &lines[..5] {
        let (served, owed) = (&line["served"], &line["owed"]);
        let station = line["station"].as_str().expect("a name");
        let month = line["month"].as_str().expect("a month");
        let row = text
            .lines()
            .find(|row| row.starts_with(station) && row.contains(month));
        let row = row.expect("its row");
        assert!(row.contains(&format!("{served}  {owed}")), "{row}");
        let worse = line["change"]["part"] == "worse";
        assert_eq!(row.contains("worse than"), worse, "{row}");
    }
    assert_eq!(lines[6]["total"]["served"], 59_000_000);
    let whole = &last_line(&json)["history"];
    assert_eq!(
        (&whole["stations"], &whole["worse"]),
        (&json!(2), &json!(2))
    );
    assert_eq!(whole["months"], json!(["2026-04", "2026-05", "2026-06"]));
    // The page has each part, a bar a month, and fetches nothing.
    let page = told(&months.history("april may june --html - --issued 2026-07-02"));
    let body = page.strip_prefix("<!DOCTYPE html>\n").expect("a page");
    assert!(well_formed(body) > 60, "{page}");
    for part in [
        "▼ 90.32 %",
        "▼ 85.86 %",
        "<span class=\"dark\">3 dark</span>",
        "95.16 %",
        "Issued 2026-07-02",
    ] {
        assert!(page.contains(part), "{part}");
    }
    assert_eq!(page.matches("<svg class=\"bars\"").count(), 2);
    assert_eq!(page.matches("<tr data-station=").count(), 2);
    for fetched in ["src=", "@import", "<link", "http://", "https://"] {
        assert!(!page.contains(fetched), "{fetched}");
    }
}

/// Told with both places, shown, and reckoned in nothing.
fn is_told(months: &Months, files: &str, cause: &str) {
    let output = months.history(files);
    assert_eq!(output.status.code(), Some(1), "{cause}");
    let text = told(&output);
    let odds = text.split("\nscores that contradict each other:\n").nth(1);
    assert!(
        odds.map_or(false, |odds| odds.contains(cause)),
        "{cause} in {text}"
    );
    assert!(complained(&output).starts_with("egretfold: the scores contradict each other: "));
    let json = last_line(&told(&months.history(&format!("{files} --json"))));
    let list = json["history"]["contradictions"].to_string();
    let cause = cause.split_once(": ").map_or(cause, |(_, text)| text);
    assert!(list.contains(cause), "{cause} in {list}");
    let page = told(&months.history(&format!("{files} --html -")));
    assert!(
        page.contains("<h2>Scores that contradict each other</h2>"),
        "{page}"
    );
}

#[test]
fn scores_that_contradict_each_other_are_told() {
    let months = Months::new("history-odds");
    // The same days with other numbers.
    months.put("other", "may", |line| {
        line["served"] = json!(27_000_000);
        line["full_days"] = json!(27);
        line["dark_days"] = json!(4);
        line["dark"] = json!([140, 141, 142, 143]);
    });
    let cause = "21: days 131 to 161 are scored twice: 27,000,000 of 31,000,000 served, 4 dark by edition 1, leased to Harbour, from 2026-05-01 (other: line 1), and 28,000,000 of 31,000,000 served, 3 dark by edition 1, leased to Harbour, from 2026-05-01 (may: line 1)";
    is_told(&months, "april may june other", cause);
    is_told(&months, "other june may april", cause);
    let text = told(&months.history("april may june other"));
    assert_eq!(
        text.matches(": contradicted by another score").count(),
        2,
        "{text}"
    );
    // Neither is in the month's total, and June is compared with April.
    assert!(
        text.contains("total             2026-05  31,000,000  31,000,000    100 %"),
        "{text}"
    );
    assert!(text.contains("2026-06  30,000,000  30,000,000    100 %     0    30  [####################]  full: as 2026-04\n"), "{text}");
    // Leases that overlap.
    months.put("over", "may", |line| {
        line["lease"]["first_day"] = json!(129);
        line["lease"]["from"] = json!("2026-04-29");
    });
    let cause = "21: the leases of days 101 to 130 (april: line 1) and days 129 to 159 (over: line 1) overlap";
    is_told(&months, "over april", cause);
    // Dates that don't go with the days.
    months.put("dates", "may", |line| {
        line["lease"]["from"] = json!("2026-05-02")
    });
    let cause = "21: days 101 to 130 begin with 2026-04-01, and days 131 to 161 with 2026-05-02: 30 days apart by their numbers, 31 by their dates";
    is_told(&months, "dates april", cause);
    // Another edition: the parts aren't compared, and the stations have no total.
    months.put("edition", "may", |line| line["edition"] = json!(2));
    let cause = "21: days 101 to 130 are scored by edition 1, and days 131 to 161 by edition 2: their parts can't be compared";
    is_told(&months, "april edition", cause);
    months.put("edition", "may", |line| {
        line["edition"] = json!(2);
        line["station"] = json!("23");
    });
    is_told(
        &months,
        "may edition",
        "2026-05: stations are scored by two editions, so they have no total",
    );
    let total = told(&months.history("may edition"));
    assert!(
        total.contains("\ntotal             2026-05           -           -        -     -"),
        "{total}"
    );
    // Another lessee for the same days.
    months.put("lessee", "may", |line| line["lessee"] = json!("Mole"));
    is_told(
        &months,
        "lessee may",
        "21: days 131 to 161 are scored twice",
    );
}

/// A log that couldn't be read gives way to the score of another try; one that was refused doesn't.
#[test]
fn a_station_that_was_tried_again_is_no_contradiction() {
    let months = Months::new("history-again");
    let unscored = |name: &'static str| {
        move |line: &mut Value| {
            let lease = line["lease"].clone();
            *line = json!({"station": "21", "lessee": "Harbour", "edition": 1, "lease": lease, "refusal": null,
                "unscored": {"name": name, "why": "no such file"}, "schema": 1});
        }
    };
    let due = told(&months.history("april may june"));
    months.put("unread", "may", unscored("NOT SCORED"));
    for files in ["april may june unread", "unread june may april"] {
        let output = months.history(files);
        assert_eq!(
            (told(&output), output.status.code()),
            (due.clone(), Some(0))
        );
    }
    // By itself it is a month without a score, beside which nothing is compared.
    let text = told(&months.history("april unread"));
    assert!(text.contains("2026-05           -           -      -     -     -                          NOT SCORED\n"), "{text}");
    assert!(
        text.contains("\nno score:\n  21, 2026-05: no such file\n"),
        "{text}"
    );
    months.put("refused", "may", unscored("REFUSED"));
    is_told(
        &months,
        "may refused",
        "21: days 131 to 161 are scored twice: REFUSED by edition 1",
    );
}

/// What is told of a change, and the change.
type Change = (&'static str, fn(&mut Value));

/// The fleet's own reader: what is no month's is told with its place, and nothing reaches a terminal raw.
#[test]
fn forged_scores_are_told() {
    let months = Months::new("history-forged");
    let wrong = "x: line 1: station 21: its numbers are no month's of this lease";
    let changes: [Change; 12] = [
        (wrong, |line| line["served"] = json!(28_000_001)),
        (wrong, |line| line["owed"] = json!(31_000_001)),
        (wrong, |line| line["full_days"] = json!(29)),
        (wrong, |line| line["full_days"] = json!(u64::MAX)),
        (wrong, |line| line["part_days"] = json!(u64::MAX)),
        (wrong, |line| line["dark_days"] = json!(2)),
        (wrong, |line| line["dark"] = json!([140, 141, 162])),
        (wrong, |line| line["verdict"] = json!("full")),
        ("x: line 1: station 21: refused 21", |line| {
            line["lease"]["days"] = json!(32)
        }),
        ("x: line 1: station 21: there is no edition 3", |line| {
            line["edition"] = json!(3)
        }),
        (
            "x: line 1: station 21: is no line of score --json: served is missing",
            |line| line["served"] = json!(-1),
        ),
        ("x: line 1: station 21: \"May\" is no date", |line| {
            line["lease"]["from"] = json!("May")
        }),
    ];
    for (cause, change) in changes {
        months.put("x", "may", change);
        let output = months.history("x");
        assert_eq!(
            (told(&output).as_str(), output.status.code()),
            ("", Some(2)),
            "{cause}"
        );
        assert!(
            complained(&output).contains(cause),
            "{cause}: {}",
            complained(&output)
        );
    }
    months.put("x", "may", |line| {
        let hostile = "x\u{1b}]0;y\u{7}\u{202E}\u{9b}2J<script>";
        line["station"] = json!(hostile);
        line["lessee"] = json!(hostile);
        line["explained"] = json!(hostile);
    });
    for form in ["", "--json", "--html -"] {
        let text = told(&months.history(&format!("x {form}")));
        assert!(text.contains("0;y"), "{text}");
        let obeyed = |letter: char| letter == '\u{202E}' || letter.is_control() && letter != '\n';
        assert!(!text.contains(obeyed), "{text:?}");
        assert!(text.matches("<script>").count() <= 1 || form == "--json" || form.is_empty());
    }
    // Nothing in it, cut, and no scores at all.
    months.folder.write("x", b"");
    assert_eq!(
        complained(&months.history("x")),
        "egretfold: there is no score in these files\n"
    );
    months.folder.write("x", b"station,lessee\n");
    assert!(complained(&months.history("x")).starts_with("egretfold: x: line 1: is no JSON: "));
    // A fleet's lines have no days, which the join wants.
    let mut command = Command::new(env!("CARGO_BIN_EXE_egretfold"));
    command
        .args(["fleet", "--from-scores"])
        .arg(months.folder.0.join("may"));
    let errors = complained(&with_input(command, b""));
    assert!(errors.contains("may: line 1: station 21: is a line of fleet --json, which has no days; join what score --json prints"), "{errors}");
}

#[test]
fn a_page_is_written_over_no_scores() {
    let months = Months::new("history-files");
    let before = fs::read(months.folder.0.join("may")).expect("the scores");
    for line in [
        "may --html may",
        "april may --html ./may",
        "april --html may",
    ] {
        let output = months.history(line);
        assert_eq!(output.status.code(), Some(2), "{line}");
        assert_ne!(complained(&output), "", "{line}");
        assert_eq!(
            fs::read(months.folder.0.join("may")).expect("the scores"),
            before
        );
    }
    let output = months.history("april may --html page.html --output text");
    assert_eq!(output.status.code(), Some(0), "{}", complained(&output));
    let page = fs::read_to_string(months.folder.0.join("page.html")).expect("the page");
    assert!(page.contains("Month by month"));
    let text = fs::read_to_string(months.folder.0.join("text")).expect("the text");
    assert!(text.starts_with("history of 2 stations over 2 months"));
}

/// Lines from before dark days were called so, and before there was a schema's number.
#[test]
fn earlier_lines_are_read() {
    let months = Months::new("history-earlier");
    let due = told(&months.history("april may june"));
    for month in MONTHS {
        let text = fs::read_to_string(months.folder.0.join(month)).expect("the scores");
        let earlier = text
            .replace("\"dark", "\"silent")
            .replace(",\"schema\":1}", "}");
        assert_ne!(earlier, text);
        months.folder.write(month, earlier.as_bytes());
    }
    assert_eq!(told(&months.history("april may june")), due);
}

/// Without dates the days' numbers part the months.
#[test]
fn months_without_dates_stand_by_their_days() {
    let months = Months::new("history-days");
    for month in ["april", "may"] {
        months.put(&format!("{month}-days"), month, |line| {
            line["lease"]["from"] = Value::Null
        });
    }
    let text = told(&months.history("may-days april-days"));
    assert!(
        text.starts_with("history of 1 station over 2 months, days 101 to 161\n"),
        "{text}"
    );
    assert!(
        text.contains("short: worse than days 101 to 130 (100 %), 3 more dark days\n"),
        "{text}"
    );
}
