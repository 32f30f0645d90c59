//! `fleet`: lease files as spreadsheets write them and as they shouldn't, logs as they are
//! named, stations that have no score, cards, pages, and fleets that were scored elsewhere.

use crate::common::{
    complained, egretfold, last_line, midnights, root, sample, told, with_input, words, Folder,
};
use crate::desk::on_a_terminal;
use crate::score::well_formed;
use egretfold::headers::WAIT_FOR_IDLE;
use serde_json::Value;
use std::fs;
use std::path::Path;
use std::process::{Command, Output, Stdio};
use std::time::Duration;

const HEADER: &str = "station,lessee,log,first day,days,owed,first date\n";

/// Station 14's lease line.
const APRIL: &str = "101,30,\"14,000,000\",2026-04-01";

/// A folder with a lease file of these rows, below the header.
fn leased(name: &str, rows: &str) -> (Folder, String) {
    let folder = Folder::new(name);
    let file = folder.write("leases.csv", format!("{HEADER}{rows}").as_bytes());
    (folder, file)
}

fn fleet(file: &str, more: &str) -> Output {
    egretfold(&format!("fleet {file} {more}"), b"")
}

/// The lines of `--json`: the stations', and the fleet's; the lessees' stand between them.
fn lines(output: &Output) -> (Vec<Value>, Value) {
    let text = told(output);
    let mut lines: Vec<Value> = text
        .lines()
        .map(|line| serde_json::from_str(line).expect("JSON"))
        .collect();
    let last = lines.pop().expect("a line for the fleet");
    lines.retain(|line| line.get("subtotal").is_none());
    (lines, last["fleet"].clone())
}

fn gzip(bytes: &[u8]) -> Vec<u8> {
    let mut gzip = Command::new("gzip");
    gzip.arg("-c");
    with_input(gzip, bytes).stdout
}

#[test]
fn all_faults_are_told_at_once_and_no_log_is_read() {
    let rows = "\
        14,Harbour,no-such.log,101,30,1,2026-04-01\n\
        ,Harbour,a.log,101,30,1,\n\
        15,,a.log,x,30,\"1,5\",2026-02-30\n\
        16,,,101,32,1,\n\
        17,,a.log,101,30\n\
        14,,a.log,4294967295,2,1,\n\
        18,,-,-1,1,100000001,\n\
        19,,a.log,1,31,1,9999-12-02\n";
    let (folder, file) = leased("fleet-faults", rows);
    let cards = folder.0.join("cards");
    let output = fleet(&file, &format!("--cards {}", cards.display()));
    assert_eq!(output.status.code(), Some(2));
    assert_eq!(told(&output), "");
    let due = format!(
        "egretfold: {file}: 11 faults, so no log is read\n\
        \x20 line 3, station: is blank\n\
        \x20 line 4, first day: \"x\" is no decimal number\n\
        \x20 line 4, owed: \"1,5\" has no groups of three digits\n\
        \x20 line 4, first date: February 2026 has the days 1 to 28, not 30\n\
        \x20 line 5, log: is blank\n\
        \x20 line 5, lease line: refused 21, 32 days are over 31\n\
        \x20 line 6: the row has 5 values and the header 7\n\
        \x20 line 7, lease line: refused 21, 2 days from day 4294967295 on end at day 4294967296, which is over 4294967295\n\
        \x20 line 8, log: standard input is no station's log; a file by that name is ./-\n\
        \x20 line 8, first day: -1 is below 0, the least\n\
        \x20 line 9, first date: 9999-12-02: 31 days from there go past 9999-12-31, the last date\n"
    );
    assert_eq!(complained(&output), due);
    assert!(!cards.exists());
}

#[test]
fn stations_and_columns_stand_there_once() {
    let row = |station: &str| format!("{station},,a.log,101,30,1,\n");
    let (_folder, file) = leased("fleet-twice", &(row("14") + &row("15") + &row(" 14 ")));
    let output = fleet(&file, "");
    let due = "1 fault, so no log is read\n  line 4, station: \"14\" stands in line 2 too\n";
    assert!(
        complained(&output).ends_with(due),
        "{}",
        complained(&output)
    );
    let folder = Folder::new("fleet-header");
    for (text, due) in [
        (
            "station,log,first day,days,days,lesee\n",
            "  line 1, days: stands there twice\n  line 1, lessee: there is none; \"lesee\" may be it\n  line 1, owed: there is no such column\n",
        ),
        (
            "\n\n",
            "  line 1: is empty; the first row names the columns station, log, first day, days and owed\n",
        ),
        (HEADER, "  line 1: there is no row below the header\n"),
        (
            "14,Harbour,a.log,101,30,1,\n",
            "  line 1, owed: there is no such column\n",
        ),
    ] {
        let output = fleet(&folder.write("a.csv", text.as_bytes()), "");
        assert_eq!(output.status.code(), Some(2), "{text}");
        assert!(complained(&output).ends_with(due), "{}", complained(&output));
    }
    let wide = folder.write("a.csv", b"\xFF\xFEs\0t\0");
    assert!(
        complained(&fleet(&wide, "")).contains("has two bytes a letter; save it as CSV in UTF-8")
    );
    let latin = [HEADER.as_bytes(), b"14,Caf\xE9,a.log,101,30,1,\n"].concat();
    let latin = complained(&fleet(&folder.write("a.csv", &latin), ""));
    assert!(latin.contains("  line 2, lessee: isn't UTF-8; "), "{latin}");
}

/// What spreadsheets write: a mark in front, line ends of two bytes, other names of the
/// columns, columns of their own, semicolons, blank rows, numbers in groups.
#[test]
fn a_spreadsheet_may_write_it() {
    let folder = Folder::new("fleet-spreadsheet");
    folder.write("a.log", &sample("station-14.log"));
    let due = fleet(
        &folder.write(
            "plain.csv",
            format!("{HEADER}14,Harbour,a.log,{APRIL}\n").as_bytes(),
        ),
        "--json --issued 2026-05-02",
    );
    assert_eq!(due.status.code(), Some(3), "{}", complained(&due));
    for text in [
        "\u{FEFF}Station;Lessee;Log files;First_Day;Days;Owed a day;FROM;remarks\r\n\r\n14;Harbour;a.log;101;30;14.000.000;2026-04-01;\"a;b\"\r\n;;;;;;;\r\n",
        "remarks,OWED,days,first-day,logs,lessee,station,first date\n,14'000'000,30,101,a.log,Harbour,14,2026-04-01\n,,,,,,,\n",
        "station\tlessee\tlog\tfirst day\tdays\towed\tfirst date\n14\tHarbour\t a.log \t101\t30\t14\u{A0}000\u{A0}000\t2026-04-01\n",
        "\u{FEFF}station,lessee,log,first day,days,owed,first date\r14,Harbour,a.log,101,30,14000000,2026-04-01\r",
    ] {
        let output = fleet(&folder.write("a.csv", text.as_bytes()), "--json --issued 2026-05-02");
        assert_eq!(complained(&output), "", "{text}");
        assert_eq!(told(&output), told(&due), "{text}");
    }
    // From standard input, logs are named from here on.
    let rows = format!("{HEADER}14,Harbour,samples/station-14.log,{APRIL}\n");
    let output = egretfold("fleet - --json --issued 2026-05-02", rows.as_bytes());
    assert_eq!(told(&output), told(&due));
    let packed = folder.write(
        "leases.csv.gz",
        &gzip(format!("{HEADER}14,Harbour,a.log,{APRIL}\n").as_bytes()),
    );
    assert_eq!(
        told(&fleet(&packed, "--json --issued 2026-05-02")),
        told(&due)
    );
}

#[test]
fn logs_are_named_in_four_ways() {
    let folder = Folder::new("fleet-logs");
    let log = sample("station-14.log");
    let (first, rest) = log.split_at(5_003);
    let (second, third) = rest.split_at(4_000);
    let days = folder.0.join("days");
    fs::create_dir(&days).expect("a folder");
    // In name order 10 comes behind 9; what is hidden and what is a folder is no log.
    for (name, bytes) in [
        ("day-9.log", first),
        ("day-10.log", second),
        ("day-11.log", third),
        (".hidden", b"x"),
    ] {
        fs::write(days.join(name), bytes).expect("a file");
    }
    fs::create_dir(days.join("older")).expect("a folder");
    folder.write("packed.log", &gzip(&log));
    folder.write("odd; name*.log", &log);
    fs::write(folder.0.join("abs.log"), &log).expect("a file");
    let absolute = folder.0.join("abs.log");
    let due = last_line(&told(&egretfold(
        "score samples/station-14.log --json --first-day 101 --days 30 --owed 14000000 --from 2026-04-01",
        b"",
    )));
    for named in [
        "abs.log",
        absolute.to_str().expect("text"),
        "days",
        "days/",
        "days/*.log",
        "d*s/day-*.log",
        "days/day-9.log; days/day-1?.log",
        "\"days/day-9.log\ndays/day-10.log\n\ndays/day-11.log\"",
        "packed.log",
        "odd; name*.log",
    ] {
        let rows = format!("{HEADER}14,,{named},{APRIL}\n");
        let output = fleet(&folder.write("leases.csv", rows.as_bytes()), "--json");
        let (stations, _) = lines(&output);
        assert_eq!(
            output.status.code(),
            Some(3),
            "{named}: {}",
            complained(&output)
        );
        assert_eq!(stations[0]["sha256"], due["summary"]["sha256"], "{named}");
        assert_eq!(stations[0]["served"], due["summary"]["served"], "{named}");
    }
}

#[test]
fn a_bad_log_is_told_in_its_row_and_the_rest_is_scored() {
    let rows = format!(
        "1,,no-such.log,{APRIL}\n2,,empty,{APRIL}\n3,,*.gone,{APRIL}\n4,,damaged.log,{APRIL}\n5,,good.log,{APRIL}\n6,,cut.gz,{APRIL}\n7,,nothing.log,{APRIL}\n"
    );
    let (folder, file) = leased("fleet-bad", &rows);
    fs::create_dir(folder.0.join("empty")).expect("a folder");
    folder.write("damaged.log", &sample("damaged.log"));
    folder.write("good.log", &sample("station-14.log"));
    folder.write("cut.gz", &gzip(&sample("station-14.log"))[..300]);
    folder.write("nothing.log", b"");
    let output = fleet(&file, "--json --sort lease");
    assert_eq!(output.status.code(), Some(1));
    let due = "egretfold: 5 stations have no score: 1, 2, 3, 4, 6\n";
    assert_eq!(complained(&output), due);
    let (stations, whole) = lines(&output);
    for (place, name, why) in [
        (0, "NOT SCORED", "no-such.log: No such file"),
        (1, "NOT SCORED", "empty: is an empty folder"),
        (2, "NOT SCORED", "*.gone: No such file"),
        (
            3,
            "REFUSED",
            "day 116: refused 19, midnight of day 118 stands where day 117 is due",
        ),
        (5, "NOT SCORED", "of what gzip packed: "),
    ] {
        let told = &stations[place]["unscored"];
        assert_eq!(told["name"], name, "{place}");
        assert!(told["why"].as_str().expect("text").contains(why), "{told}");
        assert!(stations[place].get("served").is_none());
    }
    assert_eq!(stations[3]["refusal"]["refused"], 19);
    assert_eq!(stations[4]["served"], 357_372_800);
    assert_eq!(stations[6]["explained"], "the log is empty");
    // Only what is scored counts.
    assert_eq!(
        (&whole["stations"], &whole["scored"]),
        (&7.into(), &2.into())
    );
    assert_eq!(
        (&whole["served"], &whole["owed"]),
        (&357_372_800.into(), &840_000_000.into())
    );
    assert_eq!(
        (&whole["station"], &whole["place"]),
        (&"7".into(), &6.into())
    );
    assert_eq!(whole["dark_days"], 34);
    let text = told(&fleet(&file, ""));
    assert!(
        text.starts_with("fleet of 7 stations: 2 short, 1 REFUSED, 4 NOT SCORED\n"),
        "{text}"
    );
    assert!(
        text.contains("\n5        357,372,800  420,000,000  85.08 %     4    25  short\n"),
        "{text}"
    );
}

#[test]
fn the_exit_status_tells_of_the_worst() {
    let folder = Folder::new("fleet-status");
    for name in [
        "station-14.log",
        "full-month.log",
        "nothing-owed.log",
        "damaged.log",
    ] {
        folder.write(name, &sample(name));
    }
    let full = "1,,full-month.log,131,31,14000000,\n";
    let nothing = "2,,nothing-owed.log,42,28,0,\n";
    let short = "3,,station-14.log,101,30,14000000,\n";
    let refused = "4,,damaged.log,101,30,14000000,\n";
    let missing = "5,,no-such.log,101,30,14000000,\n";
    for (rows, status) in [
        (vec![full], 0),
        (vec![nothing], 0),
        (vec![nothing, full], 0),
        (vec![full, short], 3),
        (vec![short, refused], 1),
        (vec![missing, full], 1),
        (vec![refused, missing], 1),
    ] {
        let text = format!("{HEADER}{}", rows.concat());
        let file = folder.write("leases.csv", text.as_bytes());
        for form in ["", "--json", "--csv", "--quiet", "--html -"] {
            let output = fleet(&file, form);
            assert_eq!(output.status.code(), Some(status), "{rows:?} {form}");
        }
        // Whoever reads, and into a file too.
        let unread = Command::new(env!("CARGO_BIN_EXE_egretfold"))
            .args(["fleet", &file, "--html", "-"])
            .stdout(Stdio::piped())
            .stderr(Stdio::null())
            .spawn()
            .map(|mut child| {
                drop(child.stdout.take());
                child.wait().expect("it ends").code()
            });
        assert_eq!(unread.expect("it runs"), Some(status));
        let answer = folder.0.join("answer.txt");
        let output = fleet(&file, &format!("--output {}", answer.display()));
        assert_eq!(output.status.code(), Some(status));
        let text = fs::read_to_string(&answer).expect("the answer");
        assert!(text.starts_with("fleet of "), "{text}");
    }
    for line in [
        "",
        "--from-scores",
        "no-such.csv",
        "samples/leases.csv --sort best",
        "--commands",
        "samples",
    ] {
        assert_eq!(fleet("", line).status.code(), Some(2), "{line}");
    }
    let both = fleet("samples/leases.csv", "--html - --json");
    assert!(complained(&both).contains(
        "--html - goes to standard output, and so do --json, --csv, --csv-days and --csv-lessees"
    ));
}

#[test]
fn stations_are_told_in_the_order_that_is_asked_for() {
    let order = |sort: &str| -> Vec<String> {
        let output = fleet("samples/leases.csv", &format!("--json {sort}"));
        let name = |station: &Value| station["station"].as_str().expect("text").to_string();
        lines(&output).0.iter().map(name).collect()
    };
    assert_eq!(order(""), ["16", "18", "17", "14", "15"]);
    assert_eq!(order("--sort worst"), ["16", "18", "17", "14", "15"]);
    assert_eq!(order("--sort lease"), ["14", "15", "16", "17", "18"]);
    assert_eq!(order("--sort station"), ["14", "15", "16", "17", "18"]);
    assert_eq!(order("--sort lessee"), ["14", "16", "15", "18", "17"]);
    assert_eq!(order("--sort dark"), ["16", "18", "17", "14", "15"]);
}

/// The forms of one fleet say the same.
#[test]
fn the_forms_agree() {
    let (stations, whole) = lines(&fleet("samples/leases.csv", "--json"));
    let text = told(&fleet("samples/leases.csv", "--plain"));
    let rows = told(&fleet("samples/leases.csv", "--csv"));
    let page = told(&fleet("samples/leases.csv", "--html -"));
    for station in &stations {
        let name = station["station"].as_str().expect("text");
        let row = rows
            .lines()
            .find(|row| row.starts_with(&format!("{name},")));
        let row = row.expect("a row for each station");
        let line = text
            .lines()
            .find(|line| line.starts_with(&format!("{name} ")));
        let line = line.expect("a line for each station");
        for key in ["served", "owed", "dark_days", "full_days"] {
            if let Some(number) = station[key].as_u64() {
                assert!(row.contains(&format!(",{number},")), "{row} {key}");
                assert!(line.contains(&format!(" {number} ")), "{line} {key}");
                assert!(page.contains(&format!("data-v=\"{number}\"")), "{key}");
            }
        }
        for key in ["verdict", "explained"] {
            if let Some(words) = station[key].as_str() {
                assert!(row.contains(words) && line.contains(words), "{words}");
                assert!(page.contains(words), "{words}");
            }
        }
    }
    let (served, owed) = (&whole["served"], &whole["owed"]);
    let four = format!("served {served} of {owed} elements owed (92.53 %), 31 dark days, smallest part: station 17");
    assert!(text.contains(&four), "{text}");
}

#[test]
fn cards_are_replaced_and_none_is_left_that_is_not_true() {
    let rows =
        format!("14,Harbour,a.log,{APRIL}\n15/b,,damaged.log,{APRIL}\n16,,none.log,{APRIL}\n");
    let (folder, file) = leased("fleet-cards", &rows);
    folder.write("a.log", &sample("station-14.log"));
    folder.write("damaged.log", &sample("damaged.log"));
    let cards = folder.0.join("cards");
    let ask = || fleet(&file, &format!("--cards {}", cards.display()));
    fs::create_dir(&cards).expect("a folder");
    for name in ["14.svg", "15-b.svg", "16.svg"] {
        fs::write(
            cards.join(name),
            "<svg data-by=\"egretfold\" of a full month",
        )
        .expect("a card");
    }
    fs::write(
        cards.join("99.svg"),
        "<svg >Issued 2026-04-02 by egretfold 0.1.0</svg>",
    )
    .expect("a card");
    fs::write(cards.join("logo.svg"), "<svg >a drawing</svg>").expect("a picture");
    let output = ask();
    assert_eq!(output.status.code(), Some(1));
    let told = format!(
        "{}/99.svg is an earlier card, of no station of this fleet\n",
        cards.display()
    );
    assert_eq!(
        complained(&output),
        told + "egretfold: 2 stations have no score: 15/b, 16\n"
    );
    let card = |name: &str| fs::read_to_string(cards.join(name)).expect("a card");
    for (name, shown) in [
        ("14.svg", ">SHORT</text>"),
        ("14.svg", ">Station 14, leased to Harbour</text>"),
        ("15-b.svg", ">REFUSED</text>"),
        (
            "15-b.svg",
            "midnight of day 118 stands where day 117 is due",
        ),
        ("16.svg", ">NOT SCORED</text>"),
        ("16.svg", "none.log: No such file"),
    ] {
        assert!(card(name).contains(shown), "{name}: {shown}");
        assert!(well_formed(&card(name)) > 5);
    }
    assert_eq!(fs::read_dir(&cards).expect("the folder").count(), 5);
    // The same card as `score` draws.
    let alone = folder.0.join("alone.svg");
    let mut line = Command::new(env!("CARGO_BIN_EXE_egretfold"));
    let log = folder.0.join("a.log");
    line.args([
        "score",
        log.to_str().expect("text"),
        "--svg",
        alone.to_str().expect("text"),
    ]);
    line.args(
        "--first-day 101 --days 30 --owed 14000000 --from 2026-04-01 --station 14 --lessee Harbour"
            .split(' '),
    );
    with_input(line, b"");
    assert_eq!(fs::read_to_string(alone).expect("a card"), card("14.svg"));
    // A log in a card's place, and two cards of one name, are faults: no log is read.
    fs::write(cards.join("14.svg"), sample("station-14.log")).expect("a log");
    let output = ask();
    assert_eq!(output.status.code(), Some(2));
    assert!(
        complained(&output).contains("line 2, station: "),
        "{}",
        complained(&output)
    );
    assert!(complained(&output).contains("stands there and is no SVG picture"));
    let rows = format!("{HEADER}a b,,a.log,{APRIL}\nA-B,,a.log,{APRIL}\n");
    let file = folder.write("leases.csv", rows.as_bytes());
    let output = fleet(&file, &format!("--cards {}", cards.display()));
    let due = "line 3, station: its card A-B.svg would be that of line 2 too";
    assert!(complained(&output).contains(due), "{}", complained(&output));
}

/// Two stations with one log: one of them is in the wrong place.
#[test]
fn the_same_log_of_two_stations_is_told() {
    let rows = format!(
        "14,,a.log,{APRIL}\n15,,b.log,{APRIL}\n16,,empty.log,{APRIL}\n17,,empty.log,{APRIL}\n"
    );
    let (folder, file) = leased("fleet-same", &rows);
    for name in ["a.log", "b.log"] {
        folder.write(name, &sample("station-14.log"));
    }
    folder.write("empty.log", b"");
    let text = told(&fleet(&file, ""));
    for (station, other) in [("14", "15"), ("15", "14")] {
        let due = format!("\n  {station}: the log is byte for byte that of station {other} too\n");
        assert!(text.contains(&due), "{text}");
    }
    assert_eq!(text.matches("byte for byte").count(), 2, "{text}");
}

/// A page holds all that it shows, and what is in a name stays a name.
#[test]
fn a_page_is_whole_and_well_formed() {
    let folder = Folder::new("fleet-page");
    let hostile = "<script>alert(1)</script>\"&'";
    folder.write("a.log", &sample("station-14.log"));
    let quoted = hostile.replace('"', "\"\"");
    let rows = format!(
        "{HEADER}\"{quoted}\",\"{quoted}\",a.log,{APRIL}\n15,,\"no {quoted}.log\",{APRIL}\n"
    );
    let file = folder.write("leases.csv", rows.as_bytes());
    let page = folder.0.join("page.html");
    let earlier =
        "<!DOCTYPE html>\n<html lang=\"en\" data-by=\"egretfold\"><p>an earlier month</p>\n";
    folder.write("page.html", earlier.as_bytes());
    let output = fleet(&file, &format!("--html {}", page.display()));
    assert_eq!(output.status.code(), Some(1));
    let text = fs::read_to_string(&page).expect("the page");
    let body = text
        .strip_prefix("<!DOCTYPE html>\n")
        .expect("it says what it is");
    assert!(well_formed(body) > 400, "{}", well_formed(body));
    assert_eq!(text.matches("<script>").count(), 1);
    // Nothing is fetched: the only addresses are the names of SVG.
    assert_eq!(
        text.matches("http").count() - 1,
        text.matches("http://www.w3.org/2000/svg").count()
    );
    for fetched in ["src=", "@import", "<link", "<img", "<iframe"] {
        assert!(!text.contains(fetched), "{fetched}");
    }
    assert!(text.contains("default-src 'none'"));
    assert_eq!(
        text.matches("url(").count(),
        text.matches("url(#dark)").count()
    );
    assert_eq!(text.matches("id=\"dark\"").count(), 1);
    // A day a cell: four dark ones, one in part, 25 in full, and a station without any.
    assert_eq!(text.matches("<td class=\"d\"").count(), 4);
    assert_eq!(text.matches("<td class=\"p\"").count(), 1);
    assert_eq!(text.matches("<td class=\"f\"").count(), 25);
    assert_eq!(text.matches("<td class=\"u\" colspan=\"30\"").count(), 1);
    assert!(text
        .contains("title=\"day 109, 2026-04-09: claimed 0, served 0 of 14000000, dark\">×</td>"));
    assert_eq!(text.matches("<section class=\"card\"").count(), 2);
    // A file that is no page stays what it is.
    let log = folder.write("b.log", &sample("station-14.log"));
    let output = fleet(&file, &format!("--html {log}"));
    assert_eq!(output.status.code(), Some(2));
    assert!(complained(&output).contains("stands there and is no HTML page"));
    assert_eq!(fs::read(&log).expect("the log"), sample("station-14.log"));
}

#[test]
fn a_score_has_a_page_too() {
    let folder = Folder::new("score-page");
    let page = folder.0.join("page.html").display().to_string();
    let lease = "--first-day 101 --days 30 --owed 14000000 --from 2026-04-01 --station 14";
    for (log, status, shown) in [
        (
            "samples/station-14.log",
            3,
            "<p>short: of 30 days, 25 served in full, 1 in part, 4 dark</p>",
        ),
        ("samples/damaged.log", 1, "<p>REFUSED</p>"),
        ("samples/no-such.log", 2, "<p>NOT SCORED</p>"),
    ] {
        let output = egretfold(&format!("score {log} {lease} --html {page}"), b"");
        assert_eq!(output.status.code(), Some(status), "{log}");
        let text = fs::read_to_string(&page).expect("the page");
        assert!(
            text.contains(shown) && text.contains("<h1>Station 14: April 2026</h1>"),
            "{log}"
        );
        well_formed(text.strip_prefix("<!DOCTYPE html>\n").expect("a page"));
        assert!(!text.contains("samples/"), "no path is printed");
    }
    let both = egretfold(
        &format!("score samples/station-14.log {lease} --html - --svg -"),
        b"",
    );
    assert!(complained(&both).contains("--html - goes to standard output, and so do --svg -"));
}

/// All forms of a fleet: what is printed as text, as JSON and as rows, its page, and its
/// cards.
fn all_forms(line: &str, folder: &Path) -> Vec<Vec<u8>> {
    let cards = folder.join("cards");
    let _ = fs::remove_dir_all(&cards);
    let mut forms: Vec<Vec<u8>> = Vec::new();
    for form in ["", "--json", "--csv", "--html -", "--sort lessee"] {
        let output = egretfold(&format!("fleet {line} {form} --issued 2026-05-02"), b"");
        forms.push(
            output
                .status
                .code()
                .map_or(Vec::new(), |status| vec![status as u8]),
        );
        forms.push(output.stdout);
        forms.push(output.stderr);
    }
    let line = format!(
        "fleet {line} --cards {} --issued 2026-05-02",
        cards.display()
    );
    egretfold(&line, b"");
    let entries = fs::read_dir(&cards).expect("the cards").flatten();
    let mut names: Vec<_> = entries.map(|entry| entry.path()).collect();
    names.sort();
    forms.extend(names.iter().map(|name| fs::read(name).expect("a card")));
    forms
}

/// The lines of `--commands`, run by a shell.
fn scores_of(file: &str) -> Vec<u8> {
    let commands = egretfold(&format!("fleet {file} --commands --issued 2026-05-02"), b"");
    assert_eq!(commands.status.code(), Some(0), "{}", complained(&commands));
    let program = env!("CARGO_BIN_EXE_egretfold");
    let mut shell = Command::new("sh");
    shell.args([
        "-c",
        &format!("egretfold() {{ {program} \"$@\"; }}\n{}", told(&commands)),
    ]);
    with_input(shell, b"").stdout
}

/// What was scored elsewhere joins to the same report, byte for byte; so the four numbers
/// of the product's report are those that are joined from the months.
#[test]
fn a_fleet_that_was_scored_elsewhere_is_the_same() {
    let folder = Folder::new("fleet-scores");
    let rows = "it's,\"Pier, north\",a b.log,101,30,1,\nnone,,no-such.log,101,30,5,2026-04-01\n";
    folder.write("a b.log", &sample("refused.log")[..140]);
    let odd = folder.write("leases.csv", format!("{HEADER}{rows}").as_bytes());
    for file in ["samples/leases.csv", &odd] {
        let lines = scores_of(file);
        let scores = folder.write("scores", &lines);
        let due = all_forms(file, &folder.0);
        for line in [
            format!("--from-scores {scores}"),
            format!("{file} --from-scores {scores}"),
        ] {
            assert!(all_forms(&line, &folder.0) == due, "{line}");
        }
        // In files of their own, in another order: the lease file has the order.
        let stations: Vec<String> = stations_of(&lines);
        let names: Vec<String> = stations
            .iter()
            .enumerate()
            .rev()
            .map(|(place, text)| folder.write(&format!("part-{place}"), text.as_bytes()))
            .collect();
        let is = all_forms(
            &format!("{file} --from-scores {}", names.join(" ")),
            &folder.0,
        );
        assert!(is == due, "{file} in parts");
    }
}

/// The lines of each station.
fn stations_of(lines: &[u8]) -> Vec<String> {
    let mut stations = vec![String::new()];
    for line in String::from_utf8_lossy(lines).lines() {
        let last = stations.last_mut().expect("one");
        *last += &format!("{line}\n");
        if line.starts_with("{\"summary\"") {
            stations.push(String::new());
        }
    }
    stations.pop();
    stations
}

/// Runs a line of `--commands`, as it stands or without one of its words.
fn run_line(line: &str, without: &str, behind: &str) -> Output {
    let line = line.replacen(without, "", 1);
    let line = line.replacen("egretfold", env!("CARGO_BIN_EXE_egretfold"), 1);
    let mut shell = Command::new("sh");
    shell.args(["-c", &format!("{line} {behind}")]);
    with_input(shell, b"")
}

/// A line for engines tells the same as any other, and ends with 0 once it has told.
#[test]
fn lines_for_engines_end_with_0_once_they_have_told() {
    let rows = format!(
        "1,,full-month.log,131,31,14000000,\n2,,a.log,{APRIL}\n3,,damaged.log,{APRIL}\n4,,no-such.log,{APRIL}\n"
    );
    let (folder, file) = leased("fleet-engine", &rows);
    folder.write("full-month.log", &sample("full-month.log"));
    folder.write("a.log", &sample("station-14.log"));
    folder.write("damaged.log", &sample("damaged.log"));
    let lines = told(&fleet(&file, "--commands"));
    assert_eq!(lines.lines().count(), 4);
    for (line, status) in lines.lines().zip([0, 3, 1, 2]) {
        let engine = run_line(line, "none of it", "");
        assert_eq!((engine.status.code(), &*complained(&engine)), (Some(0), ""));
        let alone = run_line(line, " --engine", "");
        assert_eq!(alone.status.code(), Some(status), "{line}");
        assert!(told(&engine) == told(&alone) && told(&engine).contains("{\"summary\":"));
        // What wasn't printed wasn't told.
        assert_eq!(
            run_line(line, "none of it", ">/dev/full").status.code(),
            Some(2)
        );
        assert_eq!(run_line(line, " --json", "").status.code(), Some(2));
        assert_eq!(run_line(line, " --days=", "").status.code(), Some(2));
    }
}

/// The lines still to be run: of stations of which no score came, and of those whose log
/// couldn't be read, whose later score then counts.
#[test]
fn the_lines_without_a_score_are_printed_again() {
    let rows = format!(
        "1,,late.log,{APRIL}\n2,,a.log,{APRIL}\n3,,damaged.log,{APRIL}\n4,,b.log,{APRIL}\n"
    );
    let (folder, file) = leased("fleet-missing", &rows);
    for (name, bytes) in [("a.log", "station-14.log"), ("b.log", "refused.log")] {
        folder.write(name, &sample(bytes));
    }
    folder.write("damaged.log", &sample("damaged.log"));
    let all = told(&fleet(&file, "--commands --issued 2026-05-02"));
    let all: Vec<&str> = all.lines().collect();
    let parts = stations_of(&scores_of(&file));
    let scores = folder.write("scores", parts[..3].concat().as_bytes());
    let missing = |files: &str, more: &str| {
        fleet(
            &file,
            &format!("{more} --commands --issued 2026-05-02 --missing {files}"),
        )
    };
    let told_lines = |output: &Output| -> Vec<String> {
        assert_eq!(complained(output), "");
        assert_eq!(output.status.code(), Some(0));
        told(output).lines().map(String::from).collect()
    };
    // Station 1's log couldn't be read; of station 4 no score came; 3 is refused, as it will be again.
    assert_eq!(told_lines(&missing(&scores, "")), [all[0], all[3]]);
    let nothing = folder.write("nothing", b"");
    assert_eq!(told_lines(&missing(&nothing, "")), all);
    let two = format!("{nothing} {}", folder.write("rest", parts[3].as_bytes()));
    assert_eq!(told_lines(&missing(&two, "")), all[..3]);
    // Once the log is there its score counts, in whatever order the two come.
    folder.write("late.log", &sample("full-month.log"));
    let again = run_line(all[0], "none of it", "");
    let due = told(&fleet(&file, "--json --issued 2026-05-02"));
    for scores in [
        [&*parts.concat(), &*told(&again)].concat(),
        [&*told(&again), &*parts.concat()].concat(),
    ] {
        let scores = folder.write("scores", scores.as_bytes());
        let join = fleet(
            &file,
            &format!("--json --issued 2026-05-02 --from-scores {scores}"),
        );
        assert_eq!(told(&join), due);
        assert_eq!(told_lines(&missing(&scores, "")), [""; 0]);
    }
    // What isn't this month's is told, as by the join.
    for (text, more, due) in [
        (
            parts[1].replace("\"days\":30", "\"days\":31"),
            "",
            "line 31: station 2: the lease has 31 days, and 30 lines stand before it",
        ),
        (
            parts[2].replace("\"owed\":14000000", "\"owed\":5"),
            "",
            "station 3 is scored for another lease than that of line 4",
        ),
        (
            parts[2].replace("\"station\":\"3\"", "\"station\":\"9\""),
            "",
            "station 9 is scored and has no row in the lease file",
        ),
        (
            parts[1].clone(),
            "--edition 2",
            "station 2 is scored by edition 1, and edition 2 is asked for",
        ),
        (parts[1].repeat(2), "", "station 2 is scored twice"),
    ] {
        let output = missing(&folder.write("scores", text.as_bytes()), more);
        assert_eq!((output.status.code(), &*told(&output)), (Some(2), ""));
        assert!(complained(&output).contains(due), "{}", complained(&output));
    }
    assert_eq!(
        fleet(&file, &format!("--missing {nothing}")).status.code(),
        Some(2)
    );
}

#[test]
fn scores_that_are_not_whole_are_told() {
    let folder = Folder::new("fleet-not-whole");
    let lines = String::from_utf8(scores_of("samples/leases.csv")).expect("text");
    let parts = stations_of(lines.as_bytes());
    let join = |text: &str, leases: &str| {
        let scores = folder.write("scores", text.as_bytes());
        fleet(leases, &format!("--from-scores {scores}"))
    };
    // A station that is missing is told in its row; without the lease file nobody knows it.
    let output = join(&parts[1..].concat(), "samples/leases.csv");
    assert_eq!(output.status.code(), Some(1));
    assert!(
        told(&output).contains("\n  14: no score of it is among those that are joined\n"),
        "{}",
        told(&output)
    );
    assert!(!told(&join(&parts[1..].concat(), "")).contains("\n14 "));
    for (text, leases, due) in [
        (
            format!("{lines}{}", parts[0]),
            "",
            "station 14 is scored twice",
        ),
        (
            lines.replace("\"station\":\"14\"", "\"station\":\"44\""),
            "samples/leases.csv",
            "station 44 is scored and has no row in the lease file",
        ),
        (
            lines.replace("\"lessee\":\"Mole\"", "\"lessee\":null"),
            "samples/leases.csv",
            "station 18 is scored for another lease than that of line 6",
        ),
        (lines[..2_000].to_string(), "", "station 14: is no JSON: "),
        (
            parts[0]
                .lines()
                .take(9)
                .map(|line| format!("{line}\n"))
                .collect(),
            "",
            "line 9: station 14: the days are not followed by their summary: the lines are cut",
        ),
        (
            parts[0]
                .lines()
                .skip(1)
                .map(|line| format!("{line}\n"))
                .collect(),
            "",
            "line 30: station 14: the lease has 30 days, and 29 lines stand before it",
        ),
        (
            parts[0].replacen(
                "\"claimed\":0,\"served\":0,\"owed\":14000000,\"dark\":true",
                "\"claimed\":1,\"served\":1,\"owed\":14000000,\"dark\":false",
                1,
            ),
            "",
            "line 31: station 14: the month isn't what its days come to",
        ),
        (
            parts[0].replacen("\"served\":14000000", "\"served\":14000001", 1),
            "",
            "line 1: station 14: the line of day 101 isn't this lease's",
        ),
        (
            parts[0].replace("\"verdict\":\"short\"", "\"verdict\":\"full\""),
            "",
            "line 31: station 14: the month isn't what its days come to",
        ),
        (
            parts[0].replace("\"sha256\":\"", "\"sha256\":5,\"x\":\""),
            "",
            "line 31: station 14: is no line of score --json: sha256 is missing, or of another kind",
        ),
        (
            "{\"day\":null,\"runs\":0}\n{\"summary\":{}}\n".to_string(),
            "",
            "line 2: is no line of score --json: first_day is missing, or of another kind",
        ),
    ] {
        let output = join(&text, leases);
        assert_eq!(output.status.code(), Some(2), "{due}");
        assert_eq!(told(&output), "");
        assert!(complained(&output).contains(due), "{}", complained(&output));
    }
}

/// By edition 2 the same logs serve more; editions aren't mixed.
#[test]
fn a_fleet_is_scored_by_one_edition() {
    let folder = Folder::new("fleet-editions");
    let leases = "station,log,first day,days,owed\n14,samples/station-14.log,101,30,100000000\n";
    let scores = |edition: &str, station: &str| {
        let leases = leases.replace("14,s", &format!("{station},s"));
        let line = format!("fleet - --commands --edition {edition} --issued 2026-05-02");
        let line = told(&egretfold(&line, leases.as_bytes()));
        let arguments = line.trim().strip_prefix("egretfold ").expect("a line");
        told(&egretfold(arguments, b""))
    };
    let mut served = Vec::new();
    for edition in ["1", "2"] {
        let line = format!("fleet - --json --edition {edition} --issued 2026-05-02");
        let output = egretfold(&line, leases.as_bytes());
        let file = folder.write("scores", scores(edition, "14").as_bytes());
        let joined = fleet(
            "",
            &format!("--json --issued 2026-05-02 --from-scores {file}"),
        );
        assert_eq!(told(&joined), told(&output), "edition {edition}");
        let (stations, whole) = lines(&output);
        assert_eq!(stations[0]["edition"].to_string(), edition);
        served.push(whole["served"].as_u64().expect("a number"));
    }
    // Each channel of UINT8_4 counts.
    assert_eq!(served[1], 4 * served[0]);
    let both = scores("1", "14") + &scores("2", "15");
    let file = folder.write("scores", both.as_bytes());
    let output = fleet("", &format!("--from-scores {file}"));
    assert_eq!(output.status.code(), Some(2));
    let due = "station 14 is scored by edition 1 and station 15 by edition 2";
    assert!(complained(&output).contains(due), "{}", complained(&output));
    let output = fleet("no-such.csv", "--edition 3");
    assert_eq!(output.status.code(), Some(1));
    assert!(complained(&output).contains("edition: refused 3, edition 3 is neither 1 nor 2"));
    // The scores have their edition.
    let output = fleet("", &format!("--from-scores {file} --edition 1"));
    assert_eq!(output.status.code(), Some(2));
}

/// A start's claim under these settings, 96 x 18.
const CLAIM: u64 = 1_728;

/// More stations than the report of request 14 takes, some of them without a log; what each
/// serves is known from its starts.
#[test]
fn many_stations_are_joined() {
    let folder = Folder::new("fleet-many");
    let settings = &sample("three-days.log")[..65];
    let start = &sample("three-days.log")[65..75];
    let mut rows = String::new();
    let (mut served, mut owed, mut dark) = (0, 0, 0);
    let mut smallest: Option<(u64, u64, usize)> = None;
    for station in 0..150_usize {
        let mut log = settings.to_vec();
        let due = (station as u64 % 5) * CLAIM;
        let (mut own_served, mut days) = (0, 0);
        for day in 0..3_u32 {
            log.extend(midnights(101 + day..102 + day));
            let starts = (station as u64 * 7 + u64::from(day) * 3) % 4;
            (0..starts).for_each(|_| log.extend(start));
            own_served += (starts * CLAIM).min(due);
            days += u64::from(due > 0 && starts == 0);
        }
        rows += &format!("s{station},,{station}.log,101,3,{due},\n");
        if station % 11 == 3 {
            continue;
        }
        folder.write(&format!("{station}.log"), &log);
        served += own_served;
        owed += 3 * due;
        dark += days;
        let is_less = |(least, of, _): (u64, u64, usize)| own_served * of < least * 3 * due;
        if due > 0 && smallest.map_or(true, is_less) {
            smallest = Some((own_served, 3 * due, station));
        }
    }
    let file = folder.write("leases.csv", format!("{HEADER}{rows}").as_bytes());
    let (_, _, station) = smallest.expect("one owes");
    for threads in ["1", "2", "7"] {
        let mut line = Command::new(env!("CARGO_BIN_EXE_egretfold"));
        line.env("RAYON_NUM_THREADS", threads);
        line.args(["fleet", &file, "--json"]);
        let (stations, whole) = lines(&with_input(line, b""));
        assert_eq!(stations.len(), 150);
        assert_eq!(whole["served"], served, "{threads} workers");
        assert_eq!(whole["owed"], owed);
        assert_eq!(whole["dark_days"], dark);
        assert_eq!(whole["station"], format!("s{station}"));
        assert_eq!(whole["place"], station);
    }
}

/// Of logs nothing is kept but where they stand: memory stays the same.
#[test]
fn memory_does_not_grow_with_the_logs() {
    let folder = Folder::new("fleet-memory");
    let day = [
        midnights(101..102),
        words(&[WAIT_FOR_IDLE, 0].repeat(6_000_000)),
    ]
    .concat();
    folder.write("long.gz", &gzip(&day));
    let rows: String = (0..6)
        .map(|station| format!("{station},,long.gz,101,1,1,\n"))
        .collect();
    let file = folder.write("leases.csv", format!("{HEADER}{rows}").as_bytes());
    let program = env!("CARGO_BIN_EXE_egretfold");
    // 60 MB a log, of which 2 workers have 64 KB each at a time.
    let line = format!(
        "ulimit -v {LITTLE}; MALLOC_ARENA_MAX=1 RAYON_NUM_THREADS=2 {program} fleet {file} --json"
    );
    let mut shell = Command::new("sh");
    shell.args(["-c", &line]);
    let output = with_input(shell, b"");
    assert_eq!(output.status.code(), Some(3), "{}", complained(&output));
    let (_, whole) = lines(&output);
    assert_eq!(
        (&whole["dark_days"], &whole["station"]),
        (&6.into(), &"0".into())
    );
}

/// KB of addresses, of which the program's own code and its threads' stacks are the most.
const LITTLE: u32 = 40_000;

/// Of many stations a few bytes are in memory, and the rest is in a file: their number hardly shows.
#[test]
fn memory_hardly_grows_with_the_stations() {
    const STATIONS: u32 = 12_000;
    // KB of addresses; a kilobyte a station would be 12,000 of them.
    const FEW: u32 = 20_000;
    let folder = Folder::new("fleet-memory-many");
    let log = [sample("three-days.log")[..75].to_vec(), midnights(101..132)].concat();
    folder.write("a.log", &log);
    let row = |station: u32| format!("{station},,a.log,101,31,1,2026-04-01\n");
    let rows: String = (0..STATIONS).map(row).collect();
    let file = folder.write("leases.csv", format!("{HEADER}{rows}").as_bytes());
    let program = env!("CARGO_BIN_EXE_egretfold");
    for form in ["", "--json", "--csv"] {
        let line = format!(
            "ulimit -v {FEW}; MALLOC_ARENA_MAX=1 RAYON_NUM_THREADS=2 {program} fleet {file} {form}"
        );
        let mut shell = Command::new("sh");
        shell.args(["-c", &line]);
        let output = with_input(shell, b"");
        assert_eq!(output.status.code(), Some(3), "{}", complained(&output));
        assert!(told(&output).lines().count() > STATIONS as usize, "{form}");
    }
}

/// One bar for all logs, with the stations done.
#[test]
fn a_bar_tells_of_bytes_and_stations() {
    let rows = format!("1,,a.log,{APRIL}\n2,,zeros,{APRIL}\n3,,zeros,{APRIL}\n");
    let (folder, file) = leased("fleet-bar", &rows);
    folder.write("a.log", &sample("station-14.log"));
    let long = fs::File::create(folder.0.join("zeros")).and_then(|file| file.set_len(64 << 30));
    long.expect("a file of holes");
    let program = env!("CARGO_BIN_EXE_egretfold");
    let shown = on_a_terminal(&format!(
        "stty cols 100 rows 30; TERM=xterm timeout --foreground -s INT 3 {program} fleet {file}"
    ));
    assert!(
        shown.contains(" of 128.00 GiB, 1 of 3 stations, "),
        "{shown:?}"
    );
}

/// An interruption ends it and leaves no half file.
#[test]
fn an_interruption_leaves_nothing_half() {
    let (folder, file) = leased(
        "fleet-interrupt",
        &format!("1,,zeros,{APRIL}\n2,,zeros,{APRIL}\n"),
    );
    let long = fs::File::create(folder.0.join("zeros")).and_then(|file| file.set_len(64 << 30));
    long.expect("a file of holes");
    let (page, answer) = (folder.0.join("page.html"), folder.0.join("answer"));
    let mut child = Command::new(env!("CARGO_BIN_EXE_egretfold"))
        .args(["fleet", &file, "--html"])
        .arg(&page)
        .arg("--output")
        .arg(&answer)
        .current_dir(root())
        .stderr(Stdio::null())
        .spawn()
        .expect("it runs");
    std::thread::sleep(Duration::from_millis(700));
    let kill = Command::new("kill")
        .args(["-INT", &child.id().to_string()])
        .status();
    assert!(kill.expect("kill runs").success());
    assert_eq!(child.wait().expect("it ends").code(), Some(130));
    let mut names: Vec<String> = fs::read_dir(&folder.0)
        .expect("the folder")
        .flatten()
        .map(|entry| entry.file_name().to_string_lossy().into_owned())
        .collect();
    names.sort();
    assert_eq!(names, ["leases.csv", "zeros"]);
}
