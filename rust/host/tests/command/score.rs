//! `score`: the samples' scores, lease lines and dates that are not as they should
//! be, logs cut into files, long logs, and the picture's file.

use crate::common::Folder;
use crate::common::{
    complained, egretfold, last_line, midnights, peak_on, sample, told, with_input, words,
};
use egretfold::headers::WAIT_FOR_IDLE;
use std::fs;
use std::os::unix::fs::symlink;
use std::process::{Command, Output};

const APRIL: &str = "--first-day 101 --days 30 --owed 14000000 --from 2026-04-01";
const MAY: &str = "--first-day 131 --days 31 --owed 14000000 --from 2026-05-01";
const FEBRUARY: &str = "--first-day 42 --days 28 --owed 0 --from 2026-02-01";

fn score(log: &str, line: &str) -> Output {
    egretfold(&format!("score {log} {line}"), b"")
}

/// The rows of `--csv`, without their head, as their values behind the station's name.
fn rows(output: &Output) -> Vec<Vec<String>> {
    let text = told(output);
    let values = |line: &str| line.split(',').skip(1).map(String::from).collect();
    text.lines().skip(1).map(values).collect()
}

#[test]
fn the_exit_status_tells_the_verdict() {
    for (log, line, status, verdict) in [
        ("samples/full-month.log", MAY, 0, "full"),
        ("samples/nothing-owed.log", FEBRUARY, 0, "nothing owed"),
        ("samples/station-14.log", APRIL, 3, "short"),
    ] {
        let output = score(log, line);
        assert_eq!(output.status.code(), Some(status), "{log}");
        assert!(told(&output).contains(&format!("\n{verdict}: ")), "{log}");
        assert_eq!(complained(&output), "", "{log}");
        // The other forms end alike.
        for form in ["--json", "--csv"] {
            let output = score(log, &format!("{line} {form}"));
            assert_eq!(output.status.code(), Some(status), "{log} {form}");
        }
        let summary = last_line(&told(&score(log, &format!("{line} --json"))));
        assert_eq!(summary["summary"]["verdict"], verdict);
    }
    let damaged = score("samples/damaged.log", APRIL);
    assert_eq!(damaged.status.code(), Some(1));
    assert_eq!(told(&damaged), "");
    let due = "day 116: refused 19, midnight of day 118 stands where day 117 is due\n";
    assert!(
        complained(&damaged).ends_with(due),
        "{}",
        complained(&damaged)
    );
}

#[test]
fn station_14_is_dark_from_the_ninth_to_the_twelfth() {
    let rows = rows(&score("samples/station-14.log", &format!("{APRIL} --csv")));
    assert_eq!(rows.len(), 30);
    for (place, row) in rows.iter().enumerate() {
        let date = place + 1;
        let served = match date {
            9..=12 => "0",
            // One camera of two.
            20 => "7372800",
            _ => "14000000",
        };
        assert_eq!(row[0], (100 + date).to_string());
        assert_eq!(row[1], format!("2026-04-{date:02}"));
        assert_eq!(
            (row[3].as_str(), row[4].as_str()),
            (served, "14000000"),
            "{date}"
        );
        assert_eq!(row[5], (served == "0").to_string(), "{date}");
    }
    // A start that midnight cut counts on the day after.
    for date in [3, 14, 26] {
        assert_eq!(
            (rows[date - 1][2].as_str(), rows[date][2].as_str()),
            ("14131200", "15360000")
        );
    }
}

/// All forms say the same of the same month.
#[test]
fn the_forms_agree() {
    for (log, line) in [
        ("samples/full-month.log", MAY),
        ("samples/nothing-owed.log", FEBRUARY),
        ("samples/station-14.log", APRIL),
        (
            "samples/station-14.log",
            "--first-day 90 --days 31 --owed 614400",
        ),
        (
            "samples/station-14-june.log",
            "--first-day 160 --days 31 --owed 56000000 --edition 2",
        ),
    ] {
        let by_rows = rows(&score(log, &format!("{line} --csv")));
        let json = told(&score(log, &format!("{line} --json")));
        let mut objects: Vec<serde_json::Value> = json
            .lines()
            .map(|line| serde_json::from_str(line).expect("JSON"))
            .collect();
        let summary = objects.pop().expect("a summary")["summary"].clone();
        assert_eq!(objects.len(), by_rows.len());
        let mut served = 0;
        for (object, row) in objects.iter_mut().zip(&by_rows) {
            // One number for all days, which JSON has in the summary alone.
            object["edition"] = summary["edition"].clone();
            let dated = object["date"].is_string();
            let keys: &[&str] = if dated {
                &[
                    "day", "date", "claimed", "served", "owed", "dark", "in_log", "edition",
                ]
            } else {
                &[
                    "day", "claimed", "served", "owed", "dark", "in_log", "edition",
                ]
            };
            let values: Vec<String> = keys
                .iter()
                .map(|key| object[key].to_string().replace('"', ""))
                .collect();
            assert_eq!(&values, row);
            served += object["served"].as_u64().expect("a number");
        }
        assert_eq!(summary["served"], served);
        let card = told(&score(log, &format!("{line} --plain")));
        let edition = format!("\nedition {} of the lease rule: ", summary["edition"]);
        assert!(card.contains(&edition), "{card}");
        for row in &by_rows {
            let shown = card
                .lines()
                .find(|line| line.trim_start().starts_with(&row[0]));
            let shown = shown.expect("a row for each day");
            let values: Vec<&str> = shown.split_whitespace().take(row.len() - 3).collect();
            assert_eq!(values, row[..row.len() - 3]);
            let [dark, in_log] = [row.len() - 3, row.len() - 2].map(|place| row[place] == "true");
            assert_eq!(shown.contains("  dark"), dark);
            assert_eq!(shown.contains("  no midnight in the log"), !in_log);
        }
    }
}

#[test]
fn the_lease_line_is_judged_before_any_log_is_opened() {
    for (line, cause) in [
        ("--first-day 1 --days 0 --owed 1", "0 days are below 1"),
        ("--first-day 1 --days 32 --owed 1", "32 days are over 31"),
        (
            "--first-day 1 --days 1 --owed 100000001",
            "100000001 elements owed a day are over 100000000",
        ),
        (
            "--first-day 4294967295 --days 2 --owed 1",
            "2 days from day 4294967295 on end at day 4294967296, which is over 4294967295",
        ),
    ] {
        let output = score("samples/no-such.log", line);
        assert_eq!(output.status.code(), Some(1), "{line}");
        assert_eq!(told(&output), "");
        let due = format!("egretfold: lease line: refused 21, {cause}\n");
        assert_eq!(complained(&output), due);
        let output = score("samples/no-such.log", &format!("{line} --json"));
        assert_eq!(output.status.code(), Some(1), "{line}");
        let refusal = &last_line(&told(&output))["summary"]["refusal"];
        assert_eq!(
            (&refusal["refused"], &refusal["cause"]),
            (&21.into(), &cause.into())
        );
    }
    // The bounds themselves are good, and then the log is missed.
    for line in [
        "--first-day 0 --days 1 --owed 0",
        "--first-day 4294967265 --days 31 --owed 100000000",
        "--first-day 4294967295 --days 1 --owed 1",
    ] {
        let output = score("samples/no-such.log", line);
        assert_eq!(output.status.code(), Some(2), "{line}");
        assert!(complained(&output).contains("samples/no-such.log: "));
    }
}

#[test]
fn a_wrong_date_is_told() {
    let line = "--first-day 101 --days 30 --owed 1 --from";
    for (date, due) in [
        ("2026-02-29", "February 2026 has the days 1 to 28, not 29"),
        ("2026-13-01", "there is no month 13"),
        ("April", "\"April\" is no date YYYY-MM-DD"),
        (
            "9999-12-03",
            "--from 9999-12-03: 30 days from there go past 9999-12-31, the last date",
        ),
    ] {
        let output = score("samples/station-14.log", &format!("{line} {date}"));
        assert_eq!(output.status.code(), Some(2), "{date}");
        assert_eq!(told(&output), "");
        assert!(complained(&output).contains(due), "{}", complained(&output));
    }
    let last = score("samples/station-14.log", &format!("{line} 9999-12-02"));
    assert!(told(&last).contains("9999-12-31"), "{}", told(&last));
}

#[test]
fn a_month_is_the_same_however_its_log_is_cut() {
    let folder = Folder::new("score-cut");
    let log = sample("station-14.log");
    let whole = rows(&score("samples/station-14.log", &format!("{APRIL} --csv")));
    for cut in [0, 1, 4, 5, 6_399, 7_001, log.len() - 1, log.len()] {
        let (first, second) = log.split_at(cut);
        let a = folder.write("a", first);
        let b = folder.write("b", second);
        let by_files = score(&format!("{a} {b}"), &format!("{APRIL} --csv"));
        assert_eq!(rows(&by_files), whole, "cut at {cut}");
        let line = format!("score - {b} {APRIL} --csv");
        assert_eq!(rows(&egretfold(&line, first)), whole, "cut at {cut}");
    }
}

/// A file for each day, from its midnight on, and one for what came before.
#[test]
fn day_files_in_their_order_are_one_month() {
    let folder = Folder::new("score-days");
    let mut parts = vec![Vec::new()];
    for record in sample("station-14.log").chunks(5) {
        if record[0] == 2 {
            parts.push(Vec::new());
        }
        parts.last_mut().expect("a part").extend(record);
    }
    let name = |(place, part): (usize, &Vec<u8>)| folder.write(&place.to_string(), part);
    let names: Vec<String> = parts.iter().enumerate().map(name).collect();
    assert_eq!(names.len(), 32);
    let output = score(&names.join(" "), APRIL);
    let card = told(&output);
    let due = format!("score of {} to {}, 32 inputs\n", names[0], names[31]);
    assert!(card.starts_with(&due), "{card}");
    let whole = told(&score("samples/station-14.log", APRIL));
    let below = |text: &str| text.split_once('\n').map(|(_, rest)| rest.to_string());
    assert_eq!(below(&card), below(&whole));
}

#[test]
fn a_refused_word_and_an_unfinished_record_are_told_and_refuse_nothing() {
    let log = &sample("refused.log")[..143];
    let checks = [
        "byte 110, record 22, day 102: word refused 4, output number 4 is over 3; \
         the days go on, 4 words after it without effect",
        "ends inside record 28: 3 of its 5 bytes, counted nowhere",
    ];
    // What was claimed before it fills this lease.
    let output = egretfold("score --first-day 101 --days 2 --owed 1728", log);
    assert_eq!(output.status.code(), Some(0));
    let [word, record] = checks;
    let outside = "the log has 1 day outside the lease: 103";
    let due = format!(
        "\ncheck before sending:\n  {word}\n  {outside}\n  {record}\n\n\
         full: each of the 2 days is served in full\n"
    );
    assert!(told(&output).ends_with(&due), "{}", told(&output));
    assert_eq!(complained(&output), "");
    // And not that one. Rows have no place for it.
    let output = egretfold("score --first-day 101 --days 3 --owed 1728 --csv", log);
    assert_eq!(output.status.code(), Some(3));
    let told: String = checks
        .iter()
        .map(|check| format!("check before sending: {check}\n"))
        .collect();
    assert_eq!(complained(&output), told);
}

/// A log that can't be read to its end has no score.
#[test]
fn an_input_that_fails_has_no_card() {
    let empty = Folder::new("no-log");
    let empty = empty.0.display();
    let output = score(&format!("samples/station-14.log {empty}"), APRIL);
    assert_eq!(output.status.code(), Some(2));
    assert_eq!(told(&output), "");
    assert!(complained(&output).starts_with(&format!("egretfold: {empty}: ")));
}

#[test]
fn a_month_with_no_log_is_dark() {
    let output = egretfold("score --first-day 7 --days 1 --owed 5", b"");
    assert_eq!(output.status.code(), Some(3));
    let due = "7        0       0     5  [....................]  dark  no midnight in the log\n";
    assert!(told(&output).contains(due), "{}", told(&output));
}

/// Where the card can't be written that is told; a reader that goes away early gets
/// the verdict all the same.
#[test]
fn the_verdict_comes_with_its_card() {
    let program = env!("CARGO_BIN_EXE_egretfold");
    for form in ["", "--json", "--csv"] {
        let line = format!("{program} score samples/station-14.log {APRIL} {form}");
        let mut full = Command::new("sh");
        full.args(["-c", &format!("exec {line} >/dev/full")]);
        let output = with_input(full, b"");
        assert_eq!(output.status.code(), Some(2), "{form}");
        let due = "egretfold: standard output: No space left";
        assert!(complained(&output).starts_with(due), "{form}");
        let mut gone = Command::new("sh");
        gone.args(["-c", &format!("({line}; echo $? >&2) | true")]);
        let output = with_input(gone, b"");
        assert_eq!(complained(&output), "3\n", "{form}");
    }
}

/// Memory stays the same for a long log.
#[test]
fn a_long_log_takes_no_more_memory() {
    let piece = words(&[WAIT_FOR_IDLE, 0]).repeat(100_000);
    let days = (0..32).map(|day| [midnights(day..day + 1), piece.clone()].concat());
    let (output, kilobytes) = peak_on("score - --first-day 0 --days 31 --owed 1", days);
    assert!(kilobytes < 16 << 10, "{kilobytes} kB for 32 MB of records");
    let due = "\n  the log has 1 day outside the lease: 31\n\nshort: of 31 days, 0 served in full, 0 in part, 31 dark\n";
    assert!(told(&output).ends_with(due), "{}", told(&output));
}

/// The picture of April into this file.
fn draw(file: &str) -> Output {
    score("samples/station-14.log", &format!("{APRIL} --svg {file}"))
}

#[test]
fn a_picture_replaces_an_earlier_one_and_nothing_else() {
    let folder = Folder::new("score-svg");
    let file = folder.0.join("april.svg").display().to_string();
    let first = draw(&file);
    assert_eq!(first.status.code(), Some(3));
    assert_eq!(told(&first), told(&score("samples/station-14.log", APRIL)));
    let picture = fs::read(&file).expect("the picture is there");
    // Again, over the first one, over an empty file, and through a link.
    let empty = folder.write("empty.svg", b"");
    let link = folder.0.join("link.svg");
    symlink("april.svg", &link).expect("a link");
    for name in [file.clone(), empty, link.display().to_string()] {
        assert_eq!(draw(&name).status.code(), Some(3), "{name}");
        assert_eq!(fs::read(&name).expect("the picture"), picture, "{name}");
    }
    assert!(fs::symlink_metadata(&link)
        .expect("the link")
        .file_type()
        .is_symlink());
    // A log in a picture's place stays a log.
    let log = folder.write("station.log", &sample("station-14.log"));
    let output = draw(&log);
    assert_eq!(output.status.code(), Some(2));
    assert!(complained(&output).contains("stands there and is no SVG picture"));
    assert_eq!(fs::read(&log).expect("the log"), sample("station-14.log"));
    for place in ["/dev/null", "samples"] {
        let output = draw(place);
        assert_eq!(output.status.code(), Some(2), "{place}");
        assert_eq!(
            complained(&output),
            format!("egretfold: {place}: is no file\n")
        );
    }
    // Nothing half written is left.
    let mut names: Vec<String> = fs::read_dir(&folder.0)
        .expect("the folder")
        .map(|entry| {
            entry
                .expect("an entry")
                .file_name()
                .to_string_lossy()
                .into_owned()
        })
        .collect();
    names.sort();
    assert_eq!(names, ["april.svg", "empty.svg", "link.svg", "station.log"]);
}

#[test]
fn a_picture_that_cannot_be_written_leaves_the_earlier_one() {
    let output = draw("samples/no-such-folder/april.svg");
    assert_eq!(output.status.code(), Some(2));
    assert!(complained(&output).starts_with("egretfold: samples/no-such-folder/april.svg: "));
    // The card is there all the same.
    assert_eq!(told(&output), told(&score("samples/station-14.log", APRIL)));
    // With room for 4,096 bytes of it, as on a disk that is full.
    let folder = Folder::new("score-full");
    let earlier = folder.write("kept.svg", b"<svg earlier");
    let mut shell = Command::new("sh");
    let program = env!("CARGO_BIN_EXE_egretfold");
    let line = format!("score samples/station-14.log {APRIL} --svg {earlier}");
    shell.args([
        "-c",
        &format!("trap '' XFSZ; ulimit -f 8; exec {program} {line}"),
    ]);
    let output = with_input(shell, b"");
    assert_eq!(output.status.code(), Some(2));
    assert!(complained(&output).starts_with(&format!("egretfold: {earlier}: ")));
    assert_eq!(fs::read(&earlier).expect("it is there"), b"<svg earlier");
    assert_eq!(fs::read_dir(&folder.0).expect("the folder").count(), 1);
}

/// Reads it as XML. Gives how many elements there are.
pub fn well_formed(text: &str) -> usize {
    let document = roxmltree::Document::parse(text).unwrap_or_else(|why| panic!("{why}: {text}"));
    let elements = document.descendants().filter(|node| node.is_element());
    elements.count()
}

#[test]
fn a_picture_is_well_formed_and_names_what_it_shows() {
    let folder = Folder::new("score-xml");
    let log = folder.write("a<b>&\"c\".log", &sample("station-14.log"));
    let file = folder.0.join("odd.svg").display().to_string();
    score(&log, &format!("{APRIL} --svg {file}"));
    let picture = fs::read_to_string(&file).expect("the picture is there");
    assert!(well_formed(&picture) > 300, "{}", well_formed(&picture));
    assert!(picture.contains("a&lt;b&gt;&amp;&quot;c&quot;.log</text>"));
    // Each dark day is named, and each day has its number.
    assert_eq!(picture.matches(">DARK</text>").count(), 4);
    for day in 101..=130 {
        assert!(picture.contains(&format!(">day {day}</text>")), "{day}");
    }
    for shown in [
        ">SHORT</text>",
        ">April 2026</text>",
        ">357,372,800 of 420,000,000 elements served</text>",
        ">7,372,800</text>",
        ">Mon</text>",
    ] {
        assert!(picture.contains(shown), "{shown}");
    }
    // Nothing is fetched from elsewhere.
    assert!(!picture.contains("href") && !picture.contains("@import"));
}

/// Weeks are rows from Monday to Sunday: a cell's place tells its weekday.
#[test]
fn a_cell_stands_in_its_weekday_column() {
    let folder = Folder::new("score-weeks");
    let file = folder.0.join("weeks.svg").display().to_string();
    let column_of_first = |from: &str| {
        let line = format!("--first-day 1 --days 2 --owed 1 {from} --svg {file}");
        score("samples/station-14.log", &line);
        let picture = fs::read_to_string(&file).expect("the picture is there");
        let cell = picture.split("<title>day 1").nth(1).expect("the first day");
        let x = cell.split("<rect x=\"").nth(1).expect("its frame");
        let x: u32 = x
            .split('"')
            .next()
            .expect("a number")
            .parse()
            .expect("a number");
        (x - 32) / 146
    };
    for (from, column) in [
        ("--from 2026-04-06", 0),
        ("--from 2026-04-01", 2),
        ("--from 2026-04-05", 6),
        ("", 0),
    ] {
        assert_eq!(column_of_first(from), column, "{from}");
    }
}
