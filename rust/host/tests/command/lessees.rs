//! A fleet by its lessees, a part of its stations, and the page of a large fleet, whose cards are files.

use crate::common::{complained, egretfold, sample, told, with_input, Folder};
use crate::score::well_formed;
use serde_json::Value;
use std::collections::HashSet;
use std::fs;
use std::process::{Command, Output};

const LEASES: &str = "fleet samples/leases.csv --issued 2026-05-02";

fn fleet(more: &str) -> Output {
    egretfold(&format!("{LEASES} {more}"), b"")
}

/// By arguments that may have blanks.
fn of_lessee(line: &str, lessee: &str) -> Output {
    let mut command = Command::new(env!("CARGO_BIN_EXE_egretfold"));
    command.args(line.split(' ')).args(["--lessee", lessee]);
    with_input(command, b"")
}

fn objects(output: &Output) -> Vec<Value> {
    let text = told(output);
    let lines = text.lines();
    lines
        .map(|line| serde_json::from_str(line).expect("JSON"))
        .collect()
}

#[test]
fn subtotals_come_to_the_total_in_every_form() {
    let lines = objects(&fleet("--json"));
    let subtotals: Vec<&Value> = lines
        .iter()
        .filter_map(|line| line.get("subtotal"))
        .collect();
    assert_eq!(subtotals.len(), 4);
    let total = &lines.last().expect("the fleet")["fleet"];
    for key in ["stations", "scored", "served", "owed", "full_days"] {
        let sum: u64 = subtotals.iter().filter_map(|one| one[key].as_u64()).sum();
        assert_eq!(total[key], sum, "{key}");
    }
    // What stands there is what its own stations come to.
    for subtotal in &subtotals {
        let own = lines
            .iter()
            .filter(|line| line.get("lease").is_some() && line["lessee"] == subtotal["lessee"]);
        let own: Vec<&Value> = own.collect();
        assert_eq!(subtotal["stations"], own.len());
        let served: u64 = own.iter().filter_map(|line| line["served"].as_u64()).sum();
        assert_eq!(subtotal["served"], served);
        let short = own.iter().filter(|line| line["verdict"] == "short").count();
        assert_eq!(subtotal["short"], short);
    }
    let text = told(&fleet("--plain"));
    let page = told(&fleet("--html -"));
    let rows = told(&fleet("--csv-lessees"));
    assert_eq!(rows.lines().count(), 1 + subtotals.len());
    for subtotal in &subtotals {
        let (name, served, owed) = (
            subtotal["lessee"].as_str().expect("a name"),
            &subtotal["served"],
            &subtotal["owed"],
        );
        let in_text = |line: &str| {
            line.starts_with(name)
                && line.contains(&served.to_string())
                && line.contains(&owed.to_string())
        };
        assert!(text.lines().any(in_text), "{name} in {text}");
        assert!(rows.contains(&format!(",{served},{owed},")), "{rows}");
        assert!(
            page.contains(&format!("<tr><td class=\"text\">{name}</td>")),
            "{name}"
        );
    }
    // One lessee has no subtotals beside the total.
    let one = told(&of_lessee(LEASES, "Harbour"));
    assert!(!one.contains("\nlessee "), "{one}");
}

#[test]
fn a_lessees_stations_alone() {
    let output = of_lessee(&format!("{LEASES} --json"), " Harbour ");
    let lines = objects(&output);
    let stations: Vec<&Value> = lines
        .iter()
        .filter_map(|line| line.get("station"))
        .collect();
    assert_eq!(stations, ["16", "14"]);
    assert_eq!(lines[2]["fleet"]["stations"], 2);
    // Station 18's log is missing, and it isn't asked for.
    assert_eq!(complained(&output), "egretfold: station 16 has no score\n");
    let lines = told(&of_lessee(&format!("{LEASES} --commands"), "Pier, north"));
    assert_eq!(lines.lines().count(), 1);
    assert!(lines.contains("--station=17"), "{lines}");
    let wrong = of_lessee(LEASES, "Pier");
    assert_eq!(wrong.status.code(), Some(2));
    let due = "egretfold: --lessee: no station is leased to \"Pier\"; the lessees are [\"Harbour\", \"Lighthouse\", \"Mole\", \"Pier, north\"]\n";
    assert_eq!(complained(&wrong), due);
}

/// The same of scores that came from elsewhere.
#[test]
fn a_lessees_stations_of_joined_scores() {
    let folder = Folder::new("lessees-joined");
    let lines = told(&fleet("--commands")).replace("egretfold score", "$E score");
    let mut shell = Command::new("sh");
    shell
        .args(["-c", &lines])
        .env("E", env!("CARGO_BIN_EXE_egretfold"));
    let scores = folder.write("scores", &with_input(shell, b"").stdout);
    for form in ["--json", "--csv", "--csv-lessees", "--plain --only short"] {
        let due = of_lessee(&format!("{LEASES} {form}"), "Harbour");
        for leases in [LEASES, "fleet --issued 2026-05-02"] {
            let line = format!("{leases} {form} --from-scores {scores}");
            let output = of_lessee(&line, "Harbour");
            assert_eq!(told(&output), told(&due), "{line}");
            assert_eq!(output.status.code(), due.status.code());
        }
    }
    let wrong = of_lessee(&format!("fleet --from-scores {scores}"), "x");
    assert!(complained(&wrong).contains("no station is leased to \"x\""));
}

/// What is told are those alone; the totals and the status are the fleet's.
#[test]
fn a_kind_of_stations_alone() {
    let whole = objects(&fleet("--json"));
    let total = &whole.last().expect("the fleet")["fleet"];
    for (only, stations) in [
        ("short", vec!["17", "14"]),
        ("full", vec!["15"]),
        ("unscored", vec!["16", "18"]),
    ] {
        let output = fleet(&format!("--only {only} --json"));
        let lines = objects(&output);
        let is: Vec<&str> = lines
            .iter()
            .filter_map(|line| line["station"].as_str())
            .collect();
        assert_eq!(is, stations);
        let fleet_line = &lines.last().expect("the fleet")["fleet"];
        assert_eq!(
            (&fleet_line["served"], &fleet_line["stations"]),
            (&total["served"], &total["stations"])
        );
        assert_eq!(fleet_line["told"], stations.len());
        assert_eq!(output.status.code(), Some(1));
        let text = told(&fleet(&format!("--only {only}")));
        assert!(text.contains("; told here: those that "), "{text}");
        assert_eq!(
            told(&fleet(&format!("--only {only} --csv")))
                .lines()
                .count(),
            1 + stations.len()
        );
        let page = told(&fleet(&format!("--only {only} --html -")));
        assert_eq!(
            page.matches("<section class=\"card\"").count(),
            stations.len()
        );
    }
}

/// A fleet of so many stations, of one log, whose names a page or a file could stumble over.
fn large(folder: &Folder, stations: usize) -> String {
    folder.write("a.log", &sample("three-days.log"));
    let mut rows = String::from("station,lessee,log,first day,days,owed\n");
    for number in 0..stations {
        let name = match number {
            0 => "Nord #3 / ü?".to_string(),
            1 => "100%25<b>&".to_string(),
            _ => format!("s{number}"),
        };
        rows += &format!("{name},L{},a.log,101,3,{}\n", number % 3, 2_000 + number);
    }
    folder.write("leases.csv", rows.as_bytes())
}

/// The names that links of a page have, as files.
fn leads(page: &str) -> HashSet<String> {
    let links = page.split("<a href=\"").skip(1);
    let links = links.map(|rest| rest.split('"').next().unwrap_or_default());
    let byte = |rest: &mut std::str::Bytes| {
        let digits = [rest.next(), rest.next()].map(|digit| digit.expect("a digit"));
        let digits = std::str::from_utf8(&digits).expect("digits").to_string();
        u8::from_str_radix(&digits, 16).expect("hex")
    };
    let decoded = |link: &str| {
        let (mut bytes, mut plain) = (link.bytes(), Vec::new());
        while let Some(next) = bytes.next() {
            plain.push(if next == b'%' { byte(&mut bytes) } else { next });
        }
        String::from_utf8(plain).expect("text")
    };
    links.map(decoded).collect()
}

#[test]
fn cards_of_a_large_fleet_are_files_that_its_page_leads_to() {
    let folder = Folder::new("large-page");
    let leases = large(&folder, 101);
    let page = folder.0.join("april.html");
    let line = |more: &str| format!("fleet {leases} --html {} {more}", page.display());
    let output = egretfold(&line("--quiet"), b"");
    assert_eq!(output.status.code(), Some(3), "{}", complained(&output));
    let text = fs::read_to_string(&page).expect("the page");
    assert!(well_formed(text.strip_prefix("<!DOCTYPE html>\n").expect("a page")) > 400);
    assert_eq!(text.matches("<section class=\"card\"").count(), 0);
    assert!(text.contains("in april-cards/: a station's name leads to its card"));
    let names = leads(&text);
    assert_eq!(names.len(), 101);
    for name in &names {
        let card =
            fs::read_to_string(folder.0.join(name)).unwrap_or_else(|_| panic!("no card {name}"));
        assert!(card.starts_with("<svg data-by=\"egretfold\" "), "{name}");
    }
    assert!(names.contains("april-cards/Nord--3---ü-.svg"), "{names:?}");
    // Into another folder, to which the page leads.
    fs::create_dir(folder.0.join("pages")).expect("a folder");
    let other = folder.0.join("pages/april.html");
    let cards = folder.0.join("my cards");
    let mut command = Command::new(env!("CARGO_BIN_EXE_egretfold"));
    command
        .args(["fleet", &leases, "--quiet", "--html"])
        .arg(&other);
    command.arg("--cards").arg(&cards);
    assert_eq!(with_input(command, b"").status.code(), Some(3));
    let text = fs::read_to_string(&other).expect("the page");
    for name in leads(&text) {
        assert!(name.starts_with("../my cards/"), "{name}");
        assert!(folder.0.join("pages").join(&name).exists(), "{name}");
    }
    // All in one file where that is asked, to standard output, and of fewer stations.
    let whole = |text: &str| text.matches("<section class=\"card\"").count();
    assert_eq!(
        egretfold(&line("--quiet --one-file"), b"").status.code(),
        Some(3)
    );
    assert_eq!(whole(&fs::read_to_string(&page).expect("the page")), 101);
    let standard = told(&egretfold(&format!("fleet {leases} --html -"), b""));
    assert_eq!(whole(&standard), 101);
    let folder = Folder::new("small-page");
    let leases = large(&folder, 100);
    let page = folder.0.join("april.html");
    egretfold(
        &format!("fleet {leases} --html {} --quiet", page.display()),
        b"",
    );
    assert_eq!(whole(&fs::read_to_string(&page).expect("the page")), 100);
    assert!(!folder.0.join("april-cards").exists());
}

/// Files beside the page are named before any is opened, as those of --cards are.
#[test]
fn cards_beside_a_page_are_among_the_files_of_the_line() {
    let folder = Folder::new("large-files");
    let leases = large(&folder, 101);
    let page = folder.0.join("april.html");
    let cards = folder.0.join("april-cards");
    fs::create_dir(&cards).expect("a folder");
    fs::write(cards.join("s7.svg"), b"a letter").expect("a file");
    let line = format!("fleet {leases} --html {}", page.display());
    let output = egretfold(&line, b"");
    assert_eq!(output.status.code(), Some(2));
    assert!(
        complained(&output).contains("stands there and is no SVG picture of ours"),
        "{}",
        complained(&output)
    );
    assert!(!page.exists());
    let card = cards.join("s8.svg").display().to_string();
    let output = egretfold(&format!("{line} --output {card} --one-file"), b"");
    assert_eq!(output.status.code(), Some(3), "{}", complained(&output));
    fs::remove_file(cards.join("s7.svg")).expect("it goes");
    let output = egretfold(&format!("{line} --output {card}"), b"");
    assert_eq!(output.status.code(), Some(2));
    assert!(
        complained(&output).contains("s8.svg"),
        "{}",
        complained(&output)
    );
    // A page of one lessee leaves the others' cards where they are, without a word.
    fs::remove_file(&card).expect("it goes");
    let rest = egretfold(
        &format!("{line} --quiet --cards {} --lessee L1", cards.display()),
        b"",
    );
    assert_eq!(
        (rest.status.code(), complained(&rest)),
        (Some(3), String::new())
    );
}

/// A row and a line are found by what the script looks at, and the controls are there where scripts run alone.
#[test]
fn a_page_can_be_searched_and_filtered() {
    let page = told(&fleet("--html -"));
    assert!(page.contains("<div class=\"find\" hidden=\"\"></div>"));
    let row = "<tr data-station=\"17\" data-lessee=\"Pier, north\" data-verdict=\"short\">";
    // At a glance, and in the table of stations.
    assert_eq!(page.matches(row).count(), 2);
    assert_eq!(page.matches("<li data-station=\"17\"").count(), 2);
    assert_eq!(
        page.matches("<section class=\"card\" id=\"station-3\" data-station=\"17\"")
            .count(),
        1
    );
    for part in [
        "position: sticky; left: 0",
        "@media print",
        "break-inside: avoid",
    ] {
        assert!(page.contains(part), "{part}");
    }
}
