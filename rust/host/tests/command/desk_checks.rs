//! What would make a wrong card without a word: pieces that came twice, days that nothing closes, scores of other months, files that
//! aren't what their place wants. Each is told with its place and what to do.

use crate::common::{
    complained, egretfold, last_line, midnights, root, sample, told, with_input, words, Folder,
};
use egretfold::headers::START_PROGRAM;
use serde_json::Value;
use std::fs;
use std::os::unix::fs::symlink;
use std::process::{Command, Output};

const LEASE: &str = "--first-day 101 --days 30 --owed 14000000";

/// The output of another program on this input.
fn by(program: &str, arguments: &[&str], input: &[u8]) -> Vec<u8> {
    let mut command = Command::new(program);
    command.args(arguments);
    with_input(command, input).stdout
}

fn fleet(file: &str, more: &str) -> Output {
    egretfold(&format!("fleet {file} {more}"), b"")
}

fn assert_told(output: &Output, due: &str) {
    let text = complained(output);
    assert!(text.contains(due), "{due}\nis not in\n{text}");
    assert_eq!(output.status.code(), Some(2), "{text}");
    assert_eq!(told(output), "", "no answer beside it");
}

/// Whichever line end a spreadsheet saves, and across blank lines and cells of several lines.
#[test]
fn faults_of_a_lease_file_stand_in_their_lines() {
    let folder = Folder::new("line-ends");
    let text = "station,log,first day,days,owed\n14,a,1,x,1\n\n\"15\nb\",a,1,x,1\n16,a,1,x,1\n";
    for end in ["\n", "\r\n", "\r"] {
        let file = folder.write("leases.csv", text.replace('\n', end).as_bytes());
        let output = fleet(&file, "");
        for line in [2, 4, 6] {
            assert_told(
                &output,
                &format!("\n  line {line}, days: \"x\" is no decimal number"),
            );
        }
    }
}

/// A day's pieces: the set-up and a midnight, then a frame that half of the day owes.
fn day_of_pieces(folder: &Folder) -> [String; 3] {
    let log = sample("three-days.log");
    let set_up = [&log[..13 * 5], &midnights(101..102)[..]].concat();
    let frame = words(&[START_PROGRAM, 0]);
    [
        folder.write("0.log", &set_up),
        folder.write("1.log", &frame),
        folder.write("2.log", &midnights(102..103)),
    ]
}

#[test]
fn a_piece_that_is_given_twice_is_refused() {
    let folder = Folder::new("twice");
    let [set_up, frame, end] = day_of_pieces(&folder);
    let packed = folder.write("1.gz", &by("gzip", &["-c"], &words(&[START_PROGRAM, 0])));
    let copied = folder.write("copy.log", &words(&[START_PROGRAM, 0]));
    let link = folder.0.join("link.log").display().to_string();
    symlink(&frame, &link).expect("a link");
    let lease = "--first-day 101 --days 1 --owed 3456";
    for again in [&frame, &packed, &copied, &link] {
        let files = format!("{set_up} {frame} {again} {end}");
        let due = format!(
            "egretfold: {again}: has the same 10 bytes as {frame}, so that what they claim would count twice\n  \
             give them once; where the station really sent them twice, take --repeated-pieces\n"
        );
        for line in [
            format!("score {files} {lease}"),
            format!("replay {files}"),
            format!("replay --csv {files}"),
        ] {
            assert_told(&egretfold(&line, b""), &due);
        }
        let meant = egretfold(&format!("score {files} {lease} --repeated-pieces"), b"");
        assert_eq!(meant.status.code(), Some(0), "{}", complained(&meant));
        let meant = egretfold(&format!("replay {files} --repeated-pieces"), b"");
        assert_eq!(meant.status.code(), Some(0), "{}", complained(&meant));
        // In a row of a lease file it is told there, and the line for a shell takes the option along.
        let rows = format!(
            "station,log,first day,days,owed\n14,{set_up};{frame};{again};{end},101,1,3456\n"
        );
        let leases = folder.write("leases.csv", rows.as_bytes());
        let output = fleet(&leases, "");
        assert_eq!(output.status.code(), Some(1));
        assert!(told(&output).contains(&format!("14: {again}: has the same 10 bytes as {frame}")));
        assert_eq!(fleet(&leases, "--repeated-pieces").status.code(), Some(0));
        let line = told(&fleet(&leases, "--commands --repeated-pieces"));
        assert!(line.contains(" --repeated-pieces -- "), "{line}");
    }
    // Once, the day is half served; empty pieces add nothing and are told as empty.
    let empty = folder.write("empty.log", b"");
    let line = format!("score {set_up} {frame} {empty} {empty} {end} {lease}");
    let once = egretfold(&line, b"");
    assert_eq!(once.status.code(), Some(3), "{}", complained(&once));
}

/// Also where the piece came before the state was saved.
#[test]
fn a_piece_that_a_state_has_is_refused() {
    let folder = Folder::new("state-twice");
    let [set_up, frame, end] = day_of_pieces(&folder);
    let state = folder.0.join("a.state").display().to_string();
    let saved = egretfold(&format!("replay {set_up} {frame} --save {state}"), b"");
    assert_eq!(saved.status.code(), Some(0), "{}", complained(&saved));
    let output = egretfold(&format!("replay {frame} {end} --resume {state}"), b"");
    let due =
        format!("{frame}: has the same 10 bytes as a file that came before {state} was saved");
    assert_told(&output, &due);
}

fn checks_of(output: &Output) -> Vec<(String, String)> {
    let summary = last_line(&told(output))["summary"].clone();
    let checks = summary["checks"].as_array().expect("a list").clone();
    let text = |value: &Value| value.as_str().expect("text").to_string();
    let checks = checks.iter();
    checks
        .map(|check| (text(&check["check"]), text(&check["text"])))
        .collect()
}

#[test]
fn a_last_day_that_nothing_closes_is_told() {
    let folder = Folder::new("not-closed");
    let month = sample("station-14.log");
    let whole = egretfold(&format!("score - {LEASE} --json"), &month);
    assert_eq!(checks_of(&whole), []);
    // Without its closing midnight, and with half of the last day's words.
    let due = "day 130 isn't closed by a midnight: what came later isn't in this log";
    for cut in [5, 5 + 48 * 5] {
        let log = &month[..month.len() - cut];
        let json = egretfold(&format!("score - {LEASE} --json"), log);
        assert_eq!(
            checks_of(&json),
            [("not_closed".to_string(), due.to_string())]
        );
        let card = folder.0.join("card.svg").display().to_string();
        let text = told(&egretfold(&format!("score - {LEASE} --svg {card}"), log));
        assert!(text.contains(&format!("\ncheck before sending:\n  {due}\n")));
        let because = "; this may be because the log ends inside the last day\n";
        assert_eq!(text.ends_with(because), cut > 5, "{text}");
        let card = fs::read_to_string(card).expect("the card");
        assert!(card.contains(&format!(">{due}</text>")));
    }
    // A lease that ends before the log does, and one that ends after it, have other checks.
    for lease in [
        "--first-day 101 --days 29 --owed 1",
        "--first-day 101 --days 31 --owed 1",
    ] {
        let log = &month[..month.len() - 5];
        let checks = checks_of(&egretfold(&format!("score - {lease} --json"), log));
        assert!(
            checks.iter().all(|(key, _)| key != "not_closed"),
            "{checks:?}"
        );
        assert_eq!(checks.len(), 1);
    }
}

/// The samples that are scored are closed by a midnight.
#[test]
fn samples_are_closed() {
    for line in [
        "samples/station-14.log --first-day 101 --days 30 --owed 1",
        "samples/station-14-april.log --resume samples/station-14-march.state --first-day 101 --days 30 --owed 1",
        "samples/full-month.log --first-day 131 --days 31 --owed 1",
        "samples/station-14-june.log --first-day 162 --days 30 --owed 1",
        "samples/nothing-owed.log --first-day 42 --days 28 --owed 0",
        "samples/station-15 --first-day 101 --days 30 --owed 1",
        "samples/months/21-may.log --resume samples/months/states-april/21.state --first-day 131 --days 31 --owed 1",
    ] {
        let output = egretfold(&format!("score {line} --json"), b"");
        assert_eq!(checks_of(&output), [], "{line}");
    }
}

/// The checks of each station by its name.
fn fleet_checks(output: &Output) -> Vec<String> {
    let text = told(output);
    let part = text.split("check before sending:\n").nth(1).unwrap_or("");
    let lines = part.lines().map_while(|line| line.strip_prefix("  "));
    lines.map(String::from).collect()
}

#[test]
fn rows_whose_days_have_other_dates_are_told() {
    let folder = Folder::new("other-days");
    let log = |station: u32| {
        let frames = words(&[0xC000_0900, 0]).repeat(station as usize);
        folder.write(
            &format!("{station}.log"),
            &[midnights(101..102), frames, midnights(102..103)].concat(),
        )
    };
    let leases = |rows: &[(u32, u32, &str)]| {
        let rows = rows.iter().map(|(station, first, from)| {
            format!("{station},{},{first},1,0,{from}\n", log(*station))
        });
        let text = format!(
            "station,log,first day,days,owed,first date\n{}",
            rows.collect::<String>()
        );
        folder.write("leases.csv", text.as_bytes())
    };
    let most = leases(&[
        (14, 101, "2026-04-01"),
        (15, 101, "2026-04-02"),
        (16, 101, "2026-04-01"),
        (17, 101, ""),
    ]);
    let due = "15: its days have other dates: day 101 of station 15 is 2026-04-02, day 101 of station 14 is 2026-04-01";
    assert_eq!(fleet_checks(&fleet(&most, "")), [due]);
    let page = told(&fleet(&most, "--html -"));
    assert!(
        page.contains("day 101 of station 15 is 2026-04-02, day 101 of station 14 is 2026-04-01")
    );
    // Of two that disagree either may be wrong.
    let two = leases(&[(14, 101, "2026-04-01"), (15, 101, "2026-04-02")]);
    assert_eq!(fleet_checks(&fleet(&two, "")).len(), 2);
    // Where none agree, each station counts days of its own.
    let none = leases(&[
        (14, 101, "2026-04-01"),
        (15, 101, "2026-04-02"),
        (16, 101, "2026-04-03"),
    ]);
    assert_eq!(fleet_checks(&fleet(&none, "")), [""; 0]);
}

/// One log in two rows, also where it is packed and goes by another name.
#[test]
fn one_log_in_two_rows_is_told() {
    let folder = Folder::new("same-log");
    let log = sample("station-14.log");
    let (plain, packed) = (
        folder.write("a.log", &log),
        folder.write("b.gz", &by("gzip", &["-c"], &log)),
    );
    let text =
        format!("station,log,first day,days,owed\n14,{plain},101,30,1\n15,{packed},101,30,1\n");
    let leases = folder.write("leases.csv", text.as_bytes());
    let due = [
        "14: the log is byte for byte that of station 15 too",
        "15: the log is byte for byte that of station 14 too",
    ];
    assert_eq!(fleet_checks(&fleet(&leases, "--sort station")), due);
}

/// The scores of the samples' fleet, a text for each of the two stations that have days' lines of their own.
fn scores(folder: &Folder, issued: &str) -> [String; 2] {
    [
        ("14", "samples/station-14.log"),
        ("15", "samples/station-15"),
    ]
    .map(|(station, log)| {
        let line = format!(
            "score {log} {LEASE} --from 2026-04-01 --station {station} --json --issued {issued}"
        );
        let name = format!("{station}-{issued}");
        folder.write(&name, told(&egretfold(&line, b"")).as_bytes())
    })
}

#[test]
fn scores_of_other_dates_and_versions_are_told() {
    let folder = Folder::new("other-scores");
    let [first, second] = scores(&folder, "2026-05-02");
    let join = |files: &str| fleet("--from-scores", files);
    assert_eq!(
        fleet_checks(&join(&format!("{first} {second} --issued 2026-05-02"))),
        [""; 0]
    );
    let [_, later] = scores(&folder, "2026-06-02");
    let due = format!(
        "15: its score was issued on 2026-06-02, where 2026-05-02 is due: {later}: line 31"
    );
    assert_eq!(fleet_checks(&join(&format!("{first} {later}"))), [due]);
    let text = fs::read_to_string(&second).expect("the scores");
    let version = last_line(&text)["summary"]["version"].clone();
    let version = version.as_str().expect("text");
    let old = folder.write("old", text.replace(version, "0.0.1 (old)").as_bytes());
    let due = format!("15: its score was printed by egretfold 0.0.1 (old), and is joined by {version}: {old}: line 31");
    assert_eq!(fleet_checks(&join(&format!("{first} {old}"))), [due]);
    // Another month's, where no lease file says so.
    let may = "score samples/full-month.log --first-day 131 --days 31 --owed 14000000 --from 2026-05-01 --station 16 --json --issued 2026-05-02";
    let may = folder.write("may", told(&egretfold(may, b"")).as_bytes());
    let due = format!(
        "16: its score is of 31 days from day 131 (2026-05-01) on, and others are of 30 days from day 101 (2026-04-01) on: {may}: line 32"
    );
    assert_eq!(
        fleet_checks(&join(&format!("{first} {second} {may}"))),
        [due]
    );
}

/// Old files in a recipe's folder, and lines that were cut or changed, are named by file, line and station.
#[test]
fn scores_in_the_way_are_named() {
    let folder = Folder::new("in-the-way");
    let [april, _] = scores(&folder, "2026-05-02");
    let march = "score samples/station-14-march.log --first-day 70 --days 31 --owed 14000000 --from 2026-03-01 --station 14 --json --issued 2026-04-02";
    let march = folder.write("march", told(&egretfold(march, b"")).as_bytes());
    let leases = folder.write(
        "leases.csv",
        format!(
            "station,log,first day,days,owed,first date\n14,{},101,30,14000000,2026-04-01\n",
            root().join("samples/station-14.log").display()
        )
        .as_bytes(),
    );
    let output = fleet(&leases, &format!("--from-scores {march}"));
    assert_told(
        &output,
        &format!(
            "{march}: line 32: station 14 is scored for another lease than that of line 2: 31 days from day 70 (2026-03-01) on, 14000000 owed a day, \
             where 30 days from day 101 (2026-04-01) on, 14000000 owed a day are due\n  take its lines away"
        ),
    );
    let output = fleet("--from-scores", &format!("{march} {april}"));
    assert_told(
        &output,
        &format!(
            "station 14 is scored twice: {march}: line 32 (31 days from day 70 (2026-03-01) on) and {april}: line 31 \
             (30 days from day 101 (2026-04-01) on)\n  take one of them away"
        ),
    );
    let text = fs::read_to_string(&april).expect("the scores");
    let lines: Vec<&str> = text.lines().collect();
    for (changed, due) in [
        (
            lines[..9].join("\n"),
            "line 9: station 14: the days are not followed by their summary",
        ),
        (
            text[..text.len() - 200].to_string(),
            "line 31: station 14: is no JSON: ",
        ),
        (
            text.replacen("\"served\":14000000", "\"served\":14000001", 1),
            "line 1: station 14: the line of day 101 isn't this lease's",
        ),
        (
            text.replacen("\"station\":\"14\"", "\"station\":\"15\"", 1),
            "line 1: station 14: the line is station 15's, and its month's line station 14's",
        ),
        (
            text.replace("\"verdict\":\"short\"", "\"verdict\":\"full\""),
            "line 31: station 14: the month isn't what its days come to",
        ),
    ] {
        let file = folder.write("changed", changed.as_bytes());
        let output = fleet("--from-scores", &file);
        assert_told(&output, &format!("{file}: {due}"));
        assert!(
            complained(&output).contains("\n  take the station's lines away, and score it again")
        );
    }
}

#[test]
fn a_picture_is_not_named_for_another_form() {
    let folder = Folder::new("png");
    let window =
        "--memory samples/camera.mem --at 800 --stream samples/camera.ctm --window output-0";
    for name in ["x.png", "x.PNG", "x.jpeg"] {
        let file = folder.0.join(name).display().to_string();
        let output = egretfold(&format!("picture {window} --out {file}"), b"");
        assert_told(
            &output,
            "and pictures here are PGM, PPM or raw\n  name it .pgm or .ppm; netpbm's pnmtopng",
        );
        assert!(!folder.0.join(name).exists());
    }
    let back = format!(
        "picture {window} --in x.png --to {}/painted",
        folder.0.display()
    );
    assert_told(&egretfold(&back, b""), "x.png: is named as PNG is");
}

/// A tar archive of one file, as tar writes it.
fn tar(name: &str, bytes: &[u8]) -> Vec<u8> {
    let mut block = [0; 512];
    block[..name.len()].copy_from_slice(name.as_bytes());
    for (at, text) in [
        (100, "0000644\0"),
        (108, "0000000\0"),
        (116, "0000000\0"),
        (136, "00000000000\0"),
        (148, "        "),
        (156, "0"),
        (257, "ustar\x0000"),
    ] {
        block[at..at + text.len()].copy_from_slice(text.as_bytes());
    }
    let length = format!("{:011o}\0", bytes.len());
    block[124..136].copy_from_slice(length.as_bytes());
    let sum: u32 = block.iter().map(|byte| u32::from(*byte)).sum();
    block[148..156].copy_from_slice(format!("{sum:06o}\0 ").as_bytes());
    [&block[..], bytes].concat()
}

/// How a zip archive begins whose first file has this name.
fn zip(name: &str) -> Vec<u8> {
    let mut begin = b"PK\x03\x04\x14\0\0\0\0\0\0\0\0\0\0\0\0\0".to_vec();
    begin.extend([0; 8]);
    begin.extend((name.len() as u16).to_le_bytes());
    begin.extend([0; 2]);
    [&begin[..], name.as_bytes()].concat()
}

#[test]
fn files_of_other_programs_are_named() {
    let folder = Folder::new("archives");
    let log = sample("station-14.log");
    let gzip = |bytes: &[u8]| by("gzip", &["-c"], bytes);
    let packed = gzip(&log);
    let xz = "is packed by xz\n  unpack it by xz -d, or pack it by gzip\n";
    let again = "\n  take another copy of the file; gzip -t says whether it is whole\n";
    let behind = format!(": it ends there, and bytes stand behind it that gzip didn't pack{again}");
    for (name, bytes, due) in [
        ("a.xz", b"\xFD7zXZ\0\0\x04".to_vec(), xz),
        ("a.bz2", b"BZh91AY&SY".to_vec(), "is packed by bzip2\n"),
        (
            "a.zst",
            b"\x28\xB5\x2F\xFD\x04\0".to_vec(),
            "is packed by zstd\n",
        ),
        (
            "a.zip",
            zip("a.log"),
            "is a zip archive\n  take its files out by unzip, and give those\n",
        ),
        (
            "a.xlsx",
            zip("[Content_Types].xml"),
            "is a spreadsheet's own file (xlsx or ods)\n  save it as CSV in UTF-8",
        ),
        (
            "a.ods",
            zip("mimetypeapplication/vnd.oasis.opendocument.spreadsheet"),
            "is a spreadsheet's own file",
        ),
        (
            "a.tar",
            tar("a.log", &log),
            "is a tar archive\n  take its files out by tar -x, and give those\n",
        ),
        (
            "a.tar.gz",
            gzip(&tar("a.log", &log)),
            "is a tar archive, packed by gzip\n",
        ),
        (
            "cut.gz",
            packed[..packed.len() - 20].to_vec(),
            &format!(" of what gzip packed: the packed file is cut{again}"),
        ),
        ("behind.gz", [&packed[..], b"x"].concat(), &behind),
        (
            "long-behind.gz",
            [&packed[..], &[b'x'; 99]].concat(),
            &behind,
        ),
        (
            "damaged.gz",
            damaged(&packed),
            &format!(": the packed file is damaged{again}"),
        ),
    ] {
        let file = folder.write(name, &bytes);
        for line in [format!("score {file} {LEASE}"), format!("fleet {file}")] {
            assert_told(&egretfold(&line, b""), due);
        }
        let output = egretfold(&format!("replay {file} --quiet"), b"");
        assert_eq!(output.status.code(), Some(2), "{name}");
        assert!(
            complained(&output).contains(due),
            "{name}: {}",
            complained(&output)
        );
    }
    // Also where a state is packed.
    let state = gzip(&sample("station-14-march.state"));
    let state = folder.write("cut.state.gz", &state[..state.len() / 2]);
    let line = format!("replay samples/station-14-april.log --resume {state}");
    let due = format!("{state}: the packed file is cut{again}");
    assert_told(&egretfold(&line, b""), &due);
    // Two that gzip packed, one behind the other, are one log.
    let (one, other) = log.split_at(1_000);
    let both = folder.write("both.gz", &[gzip(one), gzip(other)].concat());
    let whole = told(&egretfold("replay samples/station-14.log", b""));
    assert_eq!(told(&egretfold(&format!("replay {both}"), b"")), whole);
}

/// With another checksum at its end.
fn damaged(packed: &[u8]) -> Vec<u8> {
    let mut bytes = packed.to_vec();
    let at = bytes.len() - 8;
    bytes[at] ^= 1;
    bytes
}

#[test]
fn a_folder_is_a_log_for_score_too() {
    let folder = Folder::new("folder-log");
    let whole = egretfold(&format!("score samples/station-15 {LEASE}"), b"");
    assert_eq!(whole.status.code(), Some(0), "{}", complained(&whole));
    assert!(told(&whole).starts_with(
        "score of samples/station-15/week-1.log to samples/station-15/week-5.log, 5 inputs\n"
    ));
    let files: Vec<String> = (1..6)
        .map(|week| format!("samples/station-15/week-{week}.log"))
        .collect();
    assert_eq!(
        told(&egretfold(
            &format!("score {} {LEASE}", files.join(" ")),
            b""
        )),
        told(&whole)
    );
    let empty = egretfold(&format!("score {} {LEASE}", folder.0.display()), b"");
    assert_told(&empty, "is an empty folder");
    // What a folder has is read, so nothing is written over it.
    let over = egretfold(
        &format!("score samples/station-15 {LEASE} --output samples/station-15/week-2.log"),
        b"",
    );
    assert_eq!(over.status.code(), Some(2));
    assert!(
        complained(&over).contains("week-2.log"),
        "{}",
        complained(&over)
    );
}

#[test]
fn owed_elements_are_read_as_a_lease_file_has_them() {
    let line = "score samples/station-14.log --first-day 101 --days 30 --owed";
    let plain = told(&egretfold(&format!("{line} 14000000"), b""));
    for owed in ["14,000,000", "14'000'000"] {
        assert_eq!(told(&egretfold(&format!("{line} {owed}"), b"")), plain);
    }
    let output = egretfold(&format!("{line} 14,00"), b"");
    assert_told(&output, "\"14,00\" has no groups of three digits");
}

#[test]
fn files_in_another_order_than_their_days_are_told() {
    let weeks =
        "samples/station-15/week-1.log samples/station-15/week-3.log samples/station-15/week-2.log";
    let due = "refused 19, midnight of day 115 stands where day 108 is due\n  \
               samples/station-15/week-1.log ends in day 107: the files aren't in the order of their days, or days between them are missing, \
               or samples/station-15/week-3.log is another log's\n";
    for line in [format!("score {weeks} {LEASE}"), format!("replay {weeks}")] {
        let output = egretfold(&line, b"");
        assert_eq!(output.status.code(), Some(1));
        assert!(complained(&output).contains(due), "{}", complained(&output));
    }
    // A midnight that is lost inside a file says nothing of the files' order.
    let folder = Folder::new("lost");
    let week = sample("station-15/week-2.log");
    let lost = midnights(110..111);
    let kept = week.chunks(5).filter(|record| *record != lost);
    let file = folder.write("week-2.log", &kept.collect::<Vec<_>>().concat());
    let output = egretfold(&format!("replay samples/station-15/week-1.log {file}"), b"");
    assert!(complained(&output).ends_with("midnight of day 111 stands where day 110 is due\n"));
}

/// The texts of a card, without what parts them into lines.
fn joined_texts(card: &str) -> String {
    let texts = card
        .split("</text>")
        .filter_map(|part| part.rsplit_once('>'));
    texts.map(|(_, text)| text.trim_end()).collect()
}

#[test]
fn long_names_stand_whole_on_a_card() {
    let folder = Folder::new("long-names");
    let name = format!("begin-{}-end.log", "x".repeat(200));
    let log = folder.write(&name, &sample("station-14.log"));
    let file = folder.0.join("a.svg").display().to_string();
    let (station, lessee) = ("S".repeat(90), "L".repeat(150));
    let line = format!(
        "score {log} {LEASE} --station {station} --lessee {lessee} --lease {} --svg {file}",
        "N".repeat(70)
    );
    egretfold(&line, b"");
    let card = fs::read_to_string(&file).expect("the card");
    let texts = joined_texts(&card);
    for whole in [&name, &station, &lessee, &"N".repeat(70)] {
        assert!(texts.contains(whole.as_str()), "{whole} is on the card");
    }
    assert!(!card.contains('…'));
    let longest = card
        .split("</text>")
        .filter_map(|part| part.rsplit_once('>'));
    let longest = longest.map(|(_, text)| text.chars().count()).max();
    assert!(longest <= Some(130), "{longest:?}");
    // What stands below the lines is moved down by them.
    let height = |card: &str| -> u32 {
        let view = card.split("viewBox=\"0 0 1080 ").nth(1).expect("a view");
        view.split('"')
            .next()
            .expect("a height")
            .parse()
            .expect("a number")
    };
    let short = folder.0.join("b.svg").display().to_string();
    egretfold(
        &format!("score samples/station-14.log {LEASE} --svg {short}"),
        b"",
    );
    let short = fs::read_to_string(&short).expect("the card");
    assert!(height(&card) > height(&short) + 100);
}

#[test]
fn a_card_says_what_its_words_mean_and_who_signs() {
    let folder = Folder::new("words");
    let file = folder.0.join("a.svg").display().to_string();
    let draw = |more: &str| {
        egretfold(
            &format!("score samples/station-14.log {LEASE} --svg {file} {more}"),
            b"",
        );
        fs::read_to_string(&file).expect("the card")
    };
    let plain = draw("");
    for shown in [
        ">lessor: signature, place and date</text>",
        ">lessee: signature, place and date</text>",
        ">days as the station counts them</text>",
        ">edition 1 of the lease rule: a pair counts 1 for each output that isn't silent</text>",
        ">element: what a run writes to one output at one pair of its domain; a day is served what it claimed, up to what it owes</text>",
    ] {
        assert!(plain.contains(shown), "{shown}");
    }
    assert!(!plain.contains(">Lease "));
    let named = draw("--lease L-17 --time-zone Europe/Zurich");
    for shown in [
        ">Lease L-17</text>",
        ">days in the time zone Europe/Zurich</text>",
    ] {
        assert!(named.contains(shown), "{shown}");
    }
    assert!(!named.contains("as the station counts them"));
    let text = told(&egretfold(
        &format!("score samples/station-14.log {LEASE} --lease L-17 --time-zone Europe/Zurich"),
        b"",
    ));
    assert!(
        text.contains("\nLease L-17\n") && text.contains("\ndays in the time zone Europe/Zurich\n"),
        "{text}"
    );
    let json = told(&egretfold(
        &format!("score samples/station-14.log {LEASE} --lease L-17 --json"),
        b"",
    ));
    let summary = &last_line(&json)["summary"];
    assert_eq!(
        (&summary["lease_number"], &summary["time_zone"]),
        (&Value::from("L-17"), &Value::Null)
    );
}

/// A lease file has columns for both, and what is scored elsewhere must have the same.
#[test]
fn a_lease_file_has_numbers_and_time_zones() {
    let folder = Folder::new("numbers");
    let log = root().join("samples/station-14.log").display().to_string();
    let rows = |number: &str| {
        let text = format!("station,log,first day,days,owed,lease,time zone\n14,{log},101,30,14000000,{number},UTC\n");
        folder.write("leases.csv", text.as_bytes())
    };
    let leases = rows("L-17");
    let line = told(&fleet(&leases, "--commands"));
    assert!(line.contains(" --lease=L-17 --time-zone=UTC "), "{line}");
    let station: Value = serde_json::from_str(
        told(&fleet(&leases, "--json"))
            .lines()
            .next()
            .expect("a line"),
    )
    .expect("JSON");
    assert_eq!(
        (&station["lease_number"], &station["time_zone"]),
        (&Value::from("L-17"), &Value::from("UTC"))
    );
    let scored = told(&egretfold(line.trim_start_matches("egretfold "), b""));
    let scores = folder.write("scores", scored.as_bytes());
    assert_eq!(
        fleet(&leases, &format!("--from-scores {scores}"))
            .status
            .code(),
        Some(3)
    );
    let output = fleet(&rows("L-18"), &format!("--from-scores {scores}"));
    assert_told(
        &output,
        "for another lease than that of line 2: its lease number is L-17, where L-18 is due",
    );
}

#[test]
fn parts_are_numbers_and_rows_have_stations() {
    let (json, rows) = (
        told(&fleet("samples/leases.csv", "--json")),
        told(&fleet("samples/leases.csv", "--csv")),
    );
    assert_eq!(last_line(&json)["fleet"]["percent"], 92.53);
    assert_eq!(last_line(&json)["fleet"]["percent_text"], "92.53 %");
    for line in json.lines() {
        let value: Value = serde_json::from_str(line).expect("JSON");
        assert_eq!(
            value["percent"].is_f64(),
            value["percent_text"].is_string(),
            "{line}"
        );
    }
    let head: Vec<&str> = rows.lines().next().expect("a head").split(',').collect();
    let place = head
        .iter()
        .position(|name| *name == "percent")
        .expect("a column");
    assert_eq!(head[place + 1], "percent_text");
    let row = rows
        .lines()
        .find(|row| row.starts_with("14,"))
        .expect("a row");
    let cells: Vec<&str> = row.split(',').collect();
    assert_eq!(&cells[place..place + 2], ["85.08", "85.08 %"]);
    assert!(
        !format!("{json}{rows}").contains("\"silent"),
        "a day is dark, an output silent"
    );
    let rows = told(&egretfold(
        &format!("score samples/station-14.log {LEASE} --station 14 --csv"),
        b"",
    ));
    assert!(
        rows.starts_with("station,day,claimed,served,owed,dark,in_log,edition\n14,101,"),
        "{rows}"
    );
}

#[test]
fn a_fleets_days_are_rows() {
    let output = fleet("samples/leases.csv", "--csv-days --sort station");
    assert_eq!(output.status.code(), Some(1), "two have no score");
    let text = told(&output);
    let rows: Vec<Vec<&str>> = text.lines().map(|row| row.split(',').collect()).collect();
    let head = [
        "station", "lessee", "day", "date", "claimed", "served", "owed", "dark", "in_log",
        "edition",
    ];
    assert_eq!(rows[0], head);
    assert_eq!(rows.len(), 1 + 3 * 30);
    let dark = rows.iter().filter(|row| row[0] == "14" && row[7] == "true");
    let dark: Vec<&str> = dark.map(|row| row[2]).collect();
    assert_eq!(dark, ["109", "110", "111", "112"]);
    assert_eq!(
        rows[1],
        [
            "14",
            "Harbour",
            "101",
            "2026-04-01",
            "14745600",
            "14000000",
            "14000000",
            "false",
            "true",
            "1"
        ]
    );
    assert_told(
        &fleet("samples/leases.csv", "--csv-days --csv"),
        "cannot be used with",
    );
}

/// A card by itself is as wide as the screen at most, with the verdict, which stands on its right side.
#[test]
fn a_card_fits_a_narrow_screen() {
    let card = told(&egretfold(
        &format!("score samples/station-14.log {LEASE} --svg -"),
        b"",
    ));
    let head = card.lines().next().expect("a line");
    assert!(
        head.contains(" style=\"max-width:100%;height:auto\" "),
        "{head}"
    );
}

/// A page of one station shows its days in a list that a narrow screen breaks, and the verdict above it.
#[test]
fn a_page_of_one_station_fits_a_narrow_screen() {
    let page = told(&egretfold(
        &format!("score samples/station-14.log {LEASE} --from 2026-04-01 --html -"),
        b"",
    ));
    assert_eq!(page.matches("<li><b>").count(), 30);
    assert!(page.contains("<li><b>9</b><i class=\"d\" title=\"day 109, 2026-04-09: claimed 0, served 0 of 14000000, dark\">×</i></li>"));
    assert!(page.find("<p>short: of 30 days") < page.find("<ol class=\"strip\">"));
    assert!(!page.contains("<table"), "nothing that doesn't break");
    let refused = told(&egretfold(
        &format!("score samples/damaged.log {LEASE} --html -"),
        b"",
    ));
    assert!(
        refused.contains("<li>damaged.log: byte 7394, record 1478, day 116: refused 19, "),
        "{refused}"
    );
}

#[test]
fn a_survey_has_a_frame_and_a_caption() {
    let folder = Folder::new("caption");
    let file = folder.0.join("s.svg").display().to_string();
    let line =
        "survey --stream samples/camera.ctm --memory samples/camera.mem --at 800 --value 300";
    egretfold(&format!("{line} --svg {file}"), b"");
    let drawing = fs::read_to_string(&file).expect("the drawing");
    for shown in [
        "<title>475 of 960 pairs pass</title>",
        ">475 of 960 pairs pass</text>",
        ">domain (0, 0) to (47, 19); a dark square is a pair that passes</text>",
        "stroke-width=\"2\"",
    ] {
        assert!(drawing.contains(shown), "{shown}: {drawing}");
    }
}
