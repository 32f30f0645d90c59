//! Cards held against their logs: what is verified, each number of a card changed once, hostile cards, the cards of a fleet,
//! and the recipes of docs/CARD.md.

use crate::common::{
    archive, complained, egretfold, last_line, root, sample, told, with_input, Folder, Unknown,
};
use serde_json::Value;
use std::fs;
use std::process::{Command, Output};

const LOG: &str = "samples/station-14.log";
const APRIL: &str = "--first-day 101 --days 30 --owed 14000000 --from 2026-04-01";
const FORMS: [&str; 3] = ["svg", "html", "json"];

/// The card of a score in this form.
fn card(score: &str, form: &str) -> Vec<u8> {
    let form = match form {
        "json" => "--json".to_string(),
        form => format!("--{form} -"),
    };
    let line = format!("score {score} --issued 2026-05-02 {form}");
    let output = egretfold(&line, b"");
    assert_eq!(
        complained(&output)
            .lines()
            .filter(|line| line.contains("error"))
            .count(),
        0
    );
    output.stdout
}

fn april(form: &str) -> Vec<u8> {
    card(
        &format!("{LOG} {APRIL} --station 14 --lessee Harbour"),
        form,
    )
}

/// Verifies these bytes.
fn verify(card: &[u8], behind: &str) -> Output {
    let folder = Folder::new("verify");
    let file = folder.write("card", card);
    egretfold(&format!("verify {file} {behind}"), b"")
}

fn status(output: &Output) -> i32 {
    let errors = complained(output);
    assert!(!errors.contains("panicked"), "{errors}");
    output.status.code().expect("it ends by itself")
}

#[test]
fn a_card_is_verified_in_each_form() {
    for form in FORMS {
        let output = verify(&april(form), LOG);
        assert_eq!(
            (status(&output), complained(&output).as_str()),
            (0, ""),
            "{form}"
        );
        let text = Unknown::now().taken_from(&told(&output));
        for line in [
            "  Station 14, leased to Harbour\n",
            "  30 days from day 101 (2026-04-01) on, 14,000,000 elements owed a day, edition 1\n",
            "  Log ",
            "station-14.log\n",
            "  Issued 2026-05-02 by egretfold VERSION\n  SHA-256 of the proved archive: ARCHIVE\n",
            "scored anew by egretfold VERSION\n  SHA-256 of the proved archive: ARCHIVE\n  SHA-256 of the log's bytes: ",
            "\nverified: all that the card says of the log, and shows, is what these logs give\n",
        ] {
            assert!(text.contains(line), "{form}: {line} in {text}");
        }
        let value = last_line(&told(&verify(&april(form), &format!("{LOG} --json"))));
        assert_eq!(value["status"], "verified");
        assert_eq!(value["form"], form.to_uppercase());
        assert_eq!(value["lease"]["owed"], 14_000_000);
        assert_eq!(value["archive"], archive().as_str());
        assert_eq!(value["verdict"], "short");
        assert_eq!(value["count"], 0);
    }
}

/// Cards of every kind: full, with nothing owed, without dates, under edition 2, with checks, and refused.
#[test]
fn every_kind_of_card_is_verified() {
    for (log, lease) in [
        (
            "samples/full-month.log",
            "--first-day 131 --days 31 --owed 14000000 --from 2026-05-01",
        ),
        (
            "samples/nothing-owed.log",
            "--first-day 42 --days 28 --owed 0 --from 2026-02-01",
        ),
        (LOG, "--first-day 95 --days 12 --owed 15000000"),
        (
            "samples/station-14-june.log",
            "--first-day 162 --days 30 --owed 56000000 --edition 2",
        ),
        (
            "samples/three-days.log samples/refused.log",
            "--first-day 101 --days 3 --owed 1728",
        ),
        ("samples/damaged.log", APRIL),
        (LOG, "--first-day 101 --days 32 --owed 1"),
        (LOG, "--first-day 101 --days 30 --owed 1 --edition 3"),
        (
            "samples/station-14-april.log --resume samples/station-14-march.state",
            APRIL,
        ),
    ] {
        for form in FORMS {
            let card = card(&format!("{log} {lease} --station <&\">"), form);
            let output = verify(&card, log);
            assert_eq!(
                status(&output),
                0,
                "{log} {lease} {form}: {}",
                told(&output)
            );
        }
    }
}

/// The files may be called otherwise, and be cut otherwise where no check names them.
#[test]
fn the_bytes_count_and_not_the_files_names() {
    let folder = Folder::new("verify-names");
    let log = sample("station-14.log");
    let (first, second) = log.split_at(7_001);
    let whole = folder.write("whole", &log);
    let parts = format!("{} {}", folder.write("a", first), folder.write("b", second));
    for form in FORMS {
        for files in [&whole, &parts] {
            assert_eq!(status(&verify(&april(form), files)), 0, "{form} {files}");
        }
        let other = verify(&april(form), &folder.write("cut", first));
        assert_eq!(status(&other), 1, "{form}");
        let hint = "the card is of other bytes than these: give the log's files that it names, in their order\n";
        assert!(told(&other).contains(hint), "{}", told(&other));
    }
}

#[test]
fn a_state_is_given_where_the_card_names_one() {
    let line = "samples/station-14-april.log --resume samples/station-14-march.state";
    let card = card(&format!("{line} {APRIL}"), "svg");
    let without = verify(&card, "samples/station-14-april.log");
    assert_eq!(status(&without), 2);
    let due =
        "the card's log goes on from the state station-14-march.state: give that with --resume\n";
    assert!(
        complained(&without).ends_with(due),
        "{}",
        complained(&without)
    );
    let more = verify(
        &april("svg"),
        &format!("{LOG} --resume samples/station-14-march.state"),
    );
    assert_eq!(status(&more), 2);
    assert!(complained(&more).ends_with("goes on from no state: leave --resume out\n"));
    let folder = Folder::new("verify-state");
    let state = folder.0.join("other.state").display().to_string();
    egretfold(
        &format!("replay samples/three-days.log --save {state}"),
        b"",
    );
    let other = verify(
        &card,
        &format!("samples/station-14-april.log --resume {state}"),
    );
    assert!([1, 2].contains(&status(&other)), "{}", told(&other));
}

/// Where each number of a text begins and ends.
fn numbers(text: &[u8]) -> Vec<(usize, usize)> {
    let mut numbers: Vec<(usize, usize)> = Vec::new();
    for (at, _) in text
        .iter()
        .enumerate()
        .filter(|(_, byte)| byte.is_ascii_digit())
    {
        match numbers.last_mut() {
            Some((_, end)) if *end == at => *end = at + 1,
            _ => numbers.push((at, at + 1)),
        }
    }
    numbers
}

/// The card with the last digit of a number changed.
fn with_another(card: &[u8], end: usize) -> Vec<u8> {
    let mut card = card.to_vec();
    card[end - 1] = b'0' + (card[end - 1] - b'0' + 1) % 10;
    card
}

/// Every number of a card, whatever it is of: figures, the block's and the shown ones, places, widths of bars, colours, the
/// style and the script. A short lease has all kinds of them.
fn each_number_is_held(form: &str, least: usize) {
    let folder = Folder::new("verify-each");
    let log = "samples/three-days.log";
    let card = card(
        &format!("{log} --first-day 101 --days 2 --owed 6000 --from 2026-04-01"),
        form,
    );
    let file = folder.write("card", &card);
    let line = format!("verify -q {file} {log}");
    assert_eq!(status(&egretfold(&line, b"")), 0);
    let mut held = 0;
    for (begin, end) in numbers(&card) {
        if form == "json" && no_log_tells(&card, begin) {
            continue;
        }
        folder.write("card", &with_another(&card, end));
        let output = egretfold(&line, b"");
        let around = String::from_utf8_lossy(&card[begin.saturating_sub(30)..end]).into_owned();
        assert!(
            [1, 2].contains(&status(&output)),
            "{around}: {}",
            status(&output)
        );
        held += 1;
    }
    assert!(held >= least, "{form}: {held}");
}

/// In JSON these stand once and nowhere else, and are the card's own word: `verify` prints them.
fn no_log_tells(card: &[u8], at: usize) -> bool {
    let text = String::from_utf8_lossy(&card[..at]).into_owned();
    let key = text
        .rsplit("\":")
        .next()
        .map_or(0, |value| text.len() - value.len() - 2);
    let key = text[..key].rsplit('"').next().unwrap_or_default();
    ["issued", "version", "archive", "inputs"].contains(&key)
}

#[test]
fn each_number_of_an_svg_card_is_held() {
    each_number_is_held("svg", 300);
}

#[test]
fn each_number_of_an_html_card_is_held() {
    each_number_is_held("html", 400);
}

#[test]
fn each_number_of_a_json_card_is_held() {
    each_number_is_held("json", 30);
}

/// A month's card: each figure that is shown, and each of the block's, is told by its name where it alone is changed.
#[test]
fn a_changed_figure_is_named() {
    let folder = Folder::new("verify-named");
    let card = april("svg");
    let text = String::from_utf8(card.clone()).expect("text");
    let file = folder.0.join("card").display().to_string();
    let mut shown = 0;
    let mut day = String::new();
    for (at, _) in text.match_indices('<') {
        let mark = &text[at..at + text[at..].find('>').expect("its end") + 1];
        if let Some((_, number)) = mark.split_once("data-day=\"") {
            day = format!("day {}, ", number.trim_end_matches("\">"));
        } else if mark == "</g>" {
            day.clear();
        }
        let figure = match mark.split_once("data-figure=\"") {
            Some((_, figure)) => figure.trim_end_matches("\">"),
            None => continue,
        };
        let begin = at + mark.len();
        let end = begin + text[begin..].find('<').expect("the text's end");
        let was = &text[begin..end];
        let is = match numbers(was.as_bytes()).last() {
            Some((_, digit)) => {
                String::from_utf8(with_another(was.as_bytes(), *digit)).expect("text")
            }
            None => was.replace(|letter: char| letter.is_alphabetic(), "x"),
        };
        folder.write(
            "card",
            [&text[..begin], &is, &text[end..]].concat().as_bytes(),
        );
        let output = egretfold(&format!("verify {file} {LOG}"), b"");
        let due = format!("\n  {day}{figure}, shown: the card has {is}, the logs give {was}\n");
        assert_eq!(status(&output), 1, "{due}");
        assert!(told(&output).contains(&due), "{due} in {}", told(&output));
        assert!(told(&output).contains("differs from what its logs give: 1 difference\n"));
        shown += 1;
    }
    // A date, a number, served and owed for each of thirty days, and what the month comes to.
    assert!(shown > 30 * 4 + 8, "{shown}");
    for (was, is, due) in [
        (
            "\"served\":0,",
            "\"served\":14000000,",
            "day 109, served, in the block: the card has 14000000, the logs give 0",
        ),
        (
            "\"verdict\":\"short\"",
            "\"verdict\":\"full\"",
            "verdict, in the block: the card has full, the logs give short",
        ),
        (
            "\"dark_days\":4",
            "\"dark_days\":0",
            "dark_days, in the block: the card has 0, the logs give 4",
        ),
    ] {
        folder.write("card", text.replacen(was, is, 1).as_bytes());
        let output = egretfold(&format!("verify {file} {LOG}"), b"");
        assert_eq!(status(&output), 1);
        assert!(
            told(&output).contains(&format!("\n  {due}\n")),
            "{due} in {}",
            told(&output)
        );
    }
}

/// A lease line that is changed in the block and nowhere else, or everywhere: another score comes of it.
#[test]
fn another_lease_line_is_another_card() {
    let text = String::from_utf8(april("svg")).expect("text");
    let block = text.replace(
        "\"days\":30,\"owed\":14000000",
        "\"days\":30,\"owed\":13000000",
    );
    assert_eq!(status(&verify(block.as_bytes(), LOG)), 1);
    let all = text
        .replace("14000000", "13000000")
        .replace("14,000,000", "13,000,000");
    assert_eq!(status(&verify(all.as_bytes(), LOG)), 1);
    let edition = text
        .replace("\"edition\":1", "\"edition\":2")
        .replace("edition 1", "edition 2");
    assert_eq!(status(&verify(edition.as_bytes(), LOG)), 1);
}

/// A refused month passed off as scored, and the other way: that alone is told.
#[test]
fn a_score_in_place_of_a_refusal_is_told() {
    let damaged = verify(&april("svg"), "samples/damaged.log");
    assert_eq!(status(&damaged), 1);
    let due = "\n  verdict, in the block: the card has short, the logs give REFUSED\n";
    assert!(told(&damaged).contains(due), "{}", told(&damaged));
    let refused = card(&format!("samples/damaged.log {APRIL}"), "html");
    assert_eq!(status(&verify(&refused, "samples/damaged.log")), 0);
    let scored = verify(&refused, LOG);
    assert_eq!(status(&scored), 1);
    let due = "\n  verdict, in the block: the card has REFUSED, the logs give short\n";
    assert!(told(&scored).contains(due), "{}", told(&scored));
}

#[test]
fn hostile_cards_are_told_and_never_verified() {
    let svg = String::from_utf8(april("svg")).expect("text");
    let html = String::from_utf8(april("html")).expect("text");
    let json = String::from_utf8(april("json")).expect("text");
    let block = svg.split("<metadata").nth(1).expect("a block");
    let block = format!(
        "<metadata{}</metadata>\n",
        block.split("</metadata>").next().unwrap_or("")
    );
    let with = |text: &str, old: &str, new: &str| {
        assert!(text.contains(old), "{old}");
        text.replacen(old, new, 1).into_bytes()
    };
    for (card, due, cause) in [
        (
            with(&svg, "</svg>", &format!("{block}</svg>")),
            2,
            "has 2 blocks of figures, where a card has one",
        ),
        (
            with(&svg, "<metadata data-by=\"egretfold\">", "<metadata>"),
            2,
            "isn't one of ours",
        ),
        (with(&svg, &block, ""), 2, "has no block of figures"),
        (
            with(&svg, "</metadata>", "</metadatum>"),
            2,
            "its block of figures is cut",
        ),
        (
            with(&svg, "\"day\":101,", "\"day\":101,,"),
            2,
            "line 1 of its figures is no JSON: ",
        ),
        (
            with(
                &svg,
                "{\"summary\"",
                &format!("{}\n{{\"summary\"", "[".repeat(100_000)),
            ),
            2,
            "recursion limit",
        ),
        (
            with(&svg, "\"first_day\":101", "\"first_day\":-1"),
            2,
            "first_day is missing, or of another kind",
        ),
        (
            with(&svg, "\"summary\"", "\"sum\""),
            2,
            "its figures have no summary",
        ),
        (
            with(&svg, "\"from\":\"2026-04-01\"", "\"from\":\"9999-12-31\""),
            2,
            "go past 9999-12-31",
        ),
        (format!("{json}{json}").into_bytes(), 2, "has 2 summaries"),
        (
            with(&json, "\"day\":101,", "\"day\":101,\"day\":101,"),
            1,
            "",
        ),
        (with(&svg, ">0</text>", ">&#48;</text>"), 1, ""),
        (with(&svg, ">0</text>", "><!-- 0 -->0</text>"), 1, ""),
        (
            with(&svg, "</svg>", "<script>alert(1)</script></svg>"),
            1,
            "",
        ),
        (
            with(&svg, "</svg>", "<text x=\"9\" y=\"9\">100 %</text>\n</svg>"),
            1,
            "",
        ),
        (
            with(&html, "<script>", "<script>document.title='full';"),
            1,
            "",
        ),
        (with(&html, "default-src 'none'", "default-src *"), 1, ""),
        (
            svg.replace('\n', "\r\n").into_bytes(),
            2,
            "isn't one of ours",
        ),
        (json.replace('\n', "\r\n").into_bytes(), 1, ""),
        (format!("{svg}\n").into_bytes(), 1, ""),
        (format!("\u{feff}{svg}").into_bytes(), 2, "is no card: "),
        (
            with(&svg, "<svg data-by", "<?xml version=\"1.0\"?><svg data-by"),
            2,
            "is no card: ",
        ),
        (with(&svg, "Harbour", "Harbour\u{1b}[2J"), 2, ""),
        (
            [svg.as_bytes(), b"\xff"].concat(),
            2,
            "is no UTF-8, and a card is text",
        ),
        (Vec::new(), 2, "is no card: "),
        (sample("station-14.log"), 2, "is no UTF-8"),
        (
            format!("{svg}{}", " ".repeat(1 << 23)).into_bytes(),
            2,
            "is longer than 4194304 bytes",
        ),
    ] {
        let output = verify(&card, LOG);
        let begin = String::from_utf8_lossy(&card[..card.len().min(60)]).into_owned();
        let is = status(&output);
        // What a terminal would obey stands in no card that is made anew, and isn't obeyed here.
        let due = if cause.is_empty() && due == 2 {
            is.clamp(1, 2)
        } else {
            due
        };
        assert_eq!(is, due, "{begin}: {}{}", told(&output), complained(&output));
        assert!(
            complained(&output).contains(cause),
            "{begin}: {}",
            complained(&output)
        );
        assert!(!told(&output).contains('\u{1b}'));
    }
}

#[test]
fn a_card_that_is_cut_is_never_verified() {
    let folder = Folder::new("verify-cut");
    for form in FORMS {
        let card = april(form);
        for part in 0..40 {
            let file = folder.write("card", &card[..card.len() * part / 40]);
            let output = egretfold(&format!("verify -q {file} {LOG}"), b"");
            assert!([1, 2].contains(&status(&output)), "{form} {part}");
        }
    }
}

/// A small file that unpacks to a huge one, and the most values that a card's bytes can be: within 300 megabytes.
#[test]
fn a_hostile_card_takes_little_memory() {
    let folder = Folder::new("verify-memory");
    let mut gzip = Command::new("gzip");
    gzip.arg("-c");
    let zeros = with_input(gzip, &vec![b'{'; 50_000_000]).stdout;
    assert!(zeros.len() < 100_000);
    let values = format!("[{}0]\n", "0,".repeat((1 << 21) - 100));
    let lines = "{}\n".repeat((1 << 20) - 100);
    let summary = "{\"summary\":0}\n";
    for card in [
        zeros,
        format!("{{}}\n{values}{summary}").into_bytes(),
        format!("{lines}{summary}").into_bytes(),
    ] {
        let file = folder.write("card", &card);
        let program = env!("CARGO_BIN_EXE_egretfold");
        let mut shell = Command::new("sh");
        shell.args([
            "-c",
            &format!("ulimit -v 300000; exec {program} verify {file} {LOG}"),
        ]);
        let output = with_input(shell, b"");
        assert_eq!(output.status.code(), Some(2), "{}", complained(&output));
        assert!(
            !complained(&output).contains("memory allocation"),
            "{}",
            complained(&output)
        );
    }
}

#[test]
fn a_wrong_line_is_told() {
    let folder = Folder::new("verify-line");
    let card = folder.write("card.svg", &april("svg"));
    for (line, cause) in [
        (format!("verify {card}"), "<LOG>"),
        (
            format!("verify {card} no-such.log"),
            "no-such.log: No such file",
        ),
        (
            format!("verify no-such.svg {LOG}"),
            "no-such.svg: No such file",
        ),
        (
            "verify - -".to_string(),
            "standard input can be the card or one file of its log",
        ),
        (
            format!("verify {card} {LOG} --output {card}"),
            "are one file, which is read",
        ),
        (
            format!("verify {card} {LOG} --resume {LOG}"),
            "leave --resume out",
        ),
        (format!("verify samples {LOG}"), "samples: is a folder"),
    ] {
        let output = egretfold(&line, b"");
        assert_eq!(status(&output), 2, "{line}");
        assert!(
            complained(&output).contains(cause),
            "{line}: {}",
            complained(&output)
        );
        assert_eq!(told(&output), "", "{line}");
    }
    assert_eq!(fs::read(&card).expect("the card"), april("svg"));
    let by_input = egretfold(&format!("verify - {LOG}"), &april("html"));
    assert_eq!(status(&by_input), 0);
}

/// The lines of `fleet --verify`, by their cards.
fn looked(leases: &str, folder: &Folder) -> (i32, Vec<Value>, String) {
    let line = format!(
        "fleet {leases} --verify {}",
        folder.0.join("cards").display()
    );
    let text = egretfold(&line, b"");
    let json = egretfold(&format!("{line} --json"), b"");
    assert_eq!(status(&json), status(&text));
    assert_eq!(complained(&json), complained(&text));
    let lines = told(&json);
    let lines = lines
        .lines()
        .map(|line| serde_json::from_str(line).expect("JSON"));
    (status(&text), lines.collect(), told(&text))
}

#[test]
fn a_fleets_cards_are_verified() {
    let folder = Folder::new("verify-fleet");
    folder.write("a.log", &sample("station-14.log"));
    folder.write("b.log", &sample("station-14.log"));
    folder.write("c.log", &sample("damaged.log"));
    let row = |station: &str, log: &str, owed: &str| {
        format!("{station},Harbour,{log},101,30,{owed},2026-04-01\n")
    };
    let header = "station,lessee,log,first day,days,owed,first date\n";
    let rows = [
        row("1", "a.log", "14000000"),
        row("2", "b.log", "14000000"),
        row("3", "c.log", "1"),
        row("4", "a.log", "0"),
    ];
    let leases = folder.write(
        "leases.csv",
        (header.to_string() + &rows.concat()).as_bytes(),
    );
    let cards = folder.0.join("cards");
    egretfold(
        &format!(
            "fleet {leases} --cards {} --issued 2026-05-02",
            cards.display()
        ),
        b"",
    );
    let (all, lines, text) = looked(&leases, &folder);
    assert_eq!(all, 0, "{text}");
    assert_eq!(lines.len(), 5);
    assert!(text.ends_with("\n4 cards: 4 verified\n"), "{text}");
    // By itself too, with what the fleet's report says of two logs that are one.
    let one = egretfold(
        &format!(
            "verify {} {}",
            cards.join("1.svg").display(),
            folder.0.join("a.log").display()
        ),
        b"",
    );
    assert_eq!(status(&one), 0, "{}", told(&one));
    assert!(
        told(&one).contains("  the log is byte for byte that of station 2, 4 too\n"),
        "{}",
        told(&one)
    );
    // One that can't be read, by itself.
    let second = fs::read_to_string(cards.join("2.svg")).expect("a card");
    fs::write(cards.join("2.svg"), &second[..2_000]).expect("it is written");
    let (unread, lines, _) = looked(&leases, &folder);
    assert_eq!(
        (unread, &lines[1]["status"]),
        (2, &Value::from("unreadable"))
    );
    // One that differs, one that is missing, and one of nobody.
    fs::write(
        cards.join("1.svg"),
        second.replace("375,", "376,").replace("357,", "358,"),
    )
    .expect("it is written");
    fs::rename(cards.join("4.svg"), cards.join("9.svg")).expect("it is moved");
    let (differs, lines, text) = looked(&leases, &folder);
    assert_eq!(differs, 1);
    let statuses: Vec<&str> = lines
        .iter()
        .filter_map(|line| line["status"].as_str())
        .collect();
    assert_eq!(
        statuses,
        ["differs", "unreadable", "verified", "missing", "nobody's"]
    );
    let counts = &lines[5]["cards"];
    assert_eq!(
        (&counts["differs"], &counts["nobody's"]),
        (&Value::from(1), &Value::from(1))
    );
    assert!(text.contains("the card has 2, the logs give 1\n"), "{text}");
    assert!(
        text.ends_with("\n5 cards: 1 verified, 1 differs, 1 unreadable, 1 missing, 1 nobody's\n"),
        "{text}"
    );
    // Cards of another lease line than the lease file's.
    let other = folder.write(
        "other.csv",
        (header.to_string() + &row("3", "c.log", "2")).as_bytes(),
    );
    let (status, lines, text) = looked(&other, &folder);
    assert_eq!(
        (status, &lines[0]["status"]),
        (1, &Value::from("differs")),
        "{text}"
    );
    assert!(
        text.contains("lease, owed, in the block: the card has 1, the logs give 2\n"),
        "{text}"
    );
    // A log that isn't there.
    fs::remove_file(folder.0.join("c.log")).expect("it was there");
    let (_, lines, text) = looked(&other, &folder);
    assert_eq!(lines[0]["status"], "unreadable");
    assert!(text.contains("  its log isn't read: "), "{text}");
}

/// The lines of a document that follow a heading and are indented, as a shell takes them.
fn recipe(document: &str, heading: &str) -> String {
    let text = fs::read_to_string(root().join(document)).expect("the document is there");
    let section = text
        .split(&format!("\n## {heading}\n"))
        .nth(1)
        .expect("the heading is there");
    let section = section.split("\n## ").next().unwrap_or_default();
    let lines = section.lines().filter_map(|line| line.strip_prefix("    "));
    lines.map(|line| format!("{line}\n")).collect()
}

/// The lines as they stand, in a folder of their own with a card.
#[test]
fn a_card_is_signed_and_its_signature_holds() {
    if Command::new("ssh-keygen").arg("-?").output().is_err() {
        return eprintln!("PASSED OVER: there is no ssh-keygen here");
    }
    let folder = Folder::new("verify-signed");
    folder.write("april.svg", &april("svg"));
    let run = |lines: &str| {
        let mut shell = Command::new("sh");
        shell.args(["-e", "-c", lines]).env("HOME", &folder.0);
        shell.current_dir(&folder.0).output().expect("a shell")
    };
    let (sign, check) = (
        recipe("docs/CARD.md", "Sign it"),
        recipe("docs/CARD.md", "Check the signature"),
    );
    let signed = run(&sign);
    assert!(signed.status.success(), "{sign}{}", complained(&signed));
    let good = run(&check);
    assert!(good.status.success(), "{check}{}", complained(&good));
    assert!(
        told(&good).starts_with("Good \"egretfold-card\" signature for desk@lessor.example "),
        "{}",
        told(&good)
    );
    let text = fs::read_to_string(folder.0.join("april.svg")).expect("the card");
    folder.write(
        "april.svg",
        text.replacen("14,000,000", "14,000,001", 1).as_bytes(),
    );
    let bad = run(&check);
    assert!(!bad.status.success(), "{}", told(&bad));
}
