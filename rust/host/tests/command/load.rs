//! Names, lists, files and numbers of them that are too long, too many or of the wrong
//! kind: the command takes them in bounded time, memory and open files, or says why not.

use crate::common::{complained, egretfold, midnights, peak_on, sample, told, with_input, Folder};
use std::fs;
use std::process::{Command, Output};

const HEADER: &str = "station,log,first day,days,owed\n";

/// Runs this with sh in the folder, the command being $E.
fn sh(folder: &Folder, script: &str) -> Output {
    let mut command = Command::new("sh");
    command.arg("-c").arg(format!("cd \"$0\" && {script}"));
    command.arg(&folder.0);
    command.env("E", env!("CARGO_BIN_EXE_egretfold"));
    with_input(command, b"")
}

/// Seconds of the processor that a line took, by sh's own account of its children.
fn seconds(folder: &Folder, line: &str) -> f64 {
    let output = sh(folder, &format!("{line} >/dev/null 2>errors; times"));
    let text = told(&output);
    let children = text.lines().nth(1).expect("the children's line");
    let part = |text: &str| -> f64 {
        let (minutes, seconds) = text.trim_end_matches('s').split_once('m').expect("0m0.0s");
        60.0 * minutes.parse::<f64>().expect("a number") + seconds.parse::<f64>().expect("a number")
    };
    children.split_whitespace().map(part).sum()
}

fn panicked(output: &Output) -> bool {
    complained(output).contains("panicked") || output.status.code().map_or(true, |code| code > 3)
}

#[test]
fn a_name_of_any_length_is_told() {
    let folder = Folder::new("load-names");
    let long = "A".repeat(65_536);
    let log = folder.write("a.log", &sample("three-days.log"));
    let rows = format!(
        "{HEADER}{long},{log},101,3,1728\n15,{log},101,3,1728\n{long}B,{long}.log,101,3,1728\n"
    );
    let leases = folder.write("leases.csv", rows.as_bytes());
    let page = folder.0.join("page.html");
    for more in [
        "",
        "--csv",
        "--json",
        "--sort station",
        &format!("--html {}", page.display()),
    ] {
        let output = egretfold(&format!("fleet {leases} {more}"), b"");
        assert!(
            !panicked(&output),
            "{more}: {}",
            &complained(&output)[..200]
        );
        assert_eq!(output.status.code(), Some(1), "{more}");
    }
    // The other rows are no wider by it.
    let text = told(&egretfold(&format!("fleet {leases}"), b""));
    let row = text
        .lines()
        .find(|line| line.starts_with("15 "))
        .expect("station 15");
    assert!(row.len() < 150, "{}", row.len());
    let output = egretfold(
        &format!(
            "fleet {leases} --cards {}",
            folder.0.join("cards").display()
        ),
        b"",
    );
    assert_eq!(output.status.code(), Some(2));
    assert!(
        complained(&output).contains("File name too long"),
        "the cards are told"
    );
    for option in [
        "--station",
        "--lessee",
        "--resume",
        "--save",
        "--svg",
        "--html",
        "--output",
    ] {
        let line = format!("score {log} --first-day 101 --days 3 --owed 1728 {option} {long}");
        assert!(!panicked(&egretfold(&line, b"")), "{option}");
    }
}

/// Release builds take a tenth of it.
#[test]
fn a_hundred_thousand_rows_are_read_in_two_seconds() {
    let folder = Folder::new("load-rows");
    let rows = (0..100_000).map(|number| format!("s{number},a.log,101,3,1728\n"));
    folder.write(
        "leases.csv",
        format!("{HEADER}{}", rows.collect::<String>()).as_bytes(),
    );
    folder.write("a.log", b"");
    let limit = if cfg!(debug_assertions) { 20.0 } else { 2.0 };
    let taken = seconds(&folder, "$E fleet leases.csv --commands");
    assert!(taken < limit, "{taken} s");
    assert_eq!(
        fs::read_to_string(folder.0.join("errors")).expect("errors"),
        ""
    );
}

#[test]
fn a_pattern_takes_no_time_without_end() {
    let folder = Folder::new("load-patterns");
    folder.write(&"a".repeat(200), b"");
    let pattern = "*a".repeat(30) + "*b";
    folder.write(
        "leases.csv",
        format!("{HEADER}1,{pattern},101,3,1728\n").as_bytes(),
    );
    let taken = seconds(&folder, "timeout 20 $E fleet leases.csv");
    assert!(taken < 1.0, "{taken} s");
}

/// Links that lead back make more paths than there are files.
#[test]
fn a_pattern_names_no_more_files_than_a_log_has() {
    let folder = Folder::new("load-links");
    let made = sh(&folder, "ln -s . a; ln -s . b; : >x.log");
    assert_eq!(complained(&made), "");
    let pattern = "*/".repeat(30) + "x.log";
    let leases = folder.write(
        "leases.csv",
        format!("{HEADER}1,{pattern},101,3,1728\n").as_bytes(),
    );
    let output = egretfold(&format!("fleet {leases}"), b"");
    assert_eq!(output.status.code(), Some(2));
    let due = "line 2, log: names over 100000 files, which are the most\n";
    assert!(
        complained(&output).ends_with(due),
        "{}",
        complained(&output)
    );
}

/// A log of 1,100 hourly files, read with 64 files open at most, on any number of threads.
#[test]
fn a_log_has_more_files_than_may_be_open() {
    let folder = Folder::new("load-open");
    let bytes = sample("three-days.log");
    for station in 0..6 {
        fs::create_dir(folder.0.join(station.to_string())).expect("a folder");
        for (hour, piece) in bytes.chunks(bytes.len() / 15).enumerate() {
            folder.write(&format!("{station}/hour-{hour}"), piece);
        }
    }
    for hour in 20..1_120 {
        folder.write(&format!("0/hour-{hour}"), b"");
    }
    let rows = (0..6).map(|station| format!("{station},{station},101,3,1728\n"));
    folder.write(
        "leases.csv",
        format!("{HEADER}{}", rows.collect::<String>()).as_bytes(),
    );
    let due = sh(&folder, "RAYON_NUM_THREADS=1 $E fleet leases.csv");
    assert!(told(&due).contains("6 full"), "{}", told(&due));
    for threads in [1, 2, 7, 32] {
        let line = format!("ulimit -n 64; RAYON_NUM_THREADS={threads} $E fleet leases.csv");
        let output = sh(&folder, &line);
        assert_eq!(told(&output), told(&due), "{}", complained(&output));
        assert_eq!(output.status, due.status);
    }
    let line = "ulimit -n 64; $E score 0/hour-? 0/hour-?? 0/hour-??? 0/hour-???? --first-day 101 --days 3 --owed 1728";
    let output = sh(&folder, line);
    assert_eq!(output.status.code(), Some(0), "{}", complained(&output));
}

/// A file is the one that was named, also where it is opened later.
#[test]
fn a_file_that_is_missing_ends_it_before_any_is_read() {
    let folder = Folder::new("load-missing");
    folder.write("a.log", &midnights(101..104));
    let output = sh(
        &folder,
        "$E score a.log b.log --first-day 101 --days 3 --owed 1 --csv",
    );
    assert_eq!(
        (output.status.code(), told(&output)),
        (Some(2), String::new())
    );
    assert!(complained(&output).contains("b.log: No such file"));
}

#[test]
fn parties_are_read_beside_the_words() {
    let folder = Folder::new("load-parties");
    let empty = folder.write("empty.ctm", b"");
    let mut line = b"0".repeat(65_535);
    line.push(b'\n');
    let pieces = std::iter::repeat(line).take(1_000);
    let arguments = format!("decode --summary --parties - --owners 0:2 {empty}");
    let (output, peak) = peak_on(&arguments, pieces);
    assert_eq!(output.status.code(), Some(2));
    assert!(peak < 24_000, "{peak} KB");
}

#[test]
fn registers_and_memory_have_a_limit_that_is_told() {
    let folder = Folder::new("load-limits");
    let registers = folder.write("registers", "1 1 1 1\n".repeat(65).as_bytes());
    let line = format!("flow --hex samples/kill.hex --processors 8 --masks samples/kill.masks --kill 1:F:{registers}");
    let output = egretfold(&line, b"");
    assert_eq!(output.status.code(), Some(2));
    let due = format!("egretfold: {registers}: line 65: over 64 registers, and a group has 32 processors at most\n");
    assert_eq!(complained(&output), due);
    let dump = folder.0.join("dump");
    let long = fs::File::create(&dump).and_then(|file| file.set_len(3 << 30));
    long.expect("a file of holes");
    let dump = dump.display();
    let line =
        format!("picture --memory {dump} --at 0 --base 0 --pitch 64 --height 32 --size 4 --out -");
    let output = egretfold(&line, b"");
    assert_eq!(output.status.code(), Some(2));
    let due = format!(
        "egretfold: {dump}: is longer than 1073741824 bytes, the most memory that is read\n"
    );
    assert_eq!(complained(&output), due);
}

#[test]
fn pipes_and_devices_in_a_folder_are_told_and_passed_over() {
    let folder = Folder::new("load-pipes");
    fs::create_dir(folder.0.join("logs")).expect("a folder");
    folder.write("logs/day-1.log", &sample("three-days.log"));
    let rows = format!("{HEADER}1,logs,101,3,1728\n2,logs/*,101,3,1728\n");
    folder.write("leases.csv", rows.as_bytes());
    let due = sh(&folder, "$E fleet leases.csv");
    let made = sh(
        &folder,
        "mkfifo logs/day-0.log && ln -s /dev/zero logs/day-2.log",
    );
    assert_eq!(complained(&made), "");
    let output = sh(&folder, "timeout 20 $E fleet leases.csv");
    assert_eq!(told(&output), told(&due));
    assert_eq!(output.status.code(), Some(0));
    let passed = "logs/day-0.log is no file and is passed over\nlogs/day-2.log is no file and is passed over\n";
    assert_eq!(complained(&output), passed.repeat(2));
}

/// A user who may have no process more, so that no thread can be started.
#[test]
fn a_fleet_is_scored_without_a_thread_to_be_had() {
    let folder = Folder::new("load-threads");
    let rows: String = (0..9)
        .map(|station| format!("{station},a.log,101,3,1728\n"))
        .collect();
    folder.write("leases.csv", format!("{HEADER}{rows}").as_bytes());
    folder.write("a.log", &sample("three-days.log"));
    let due = sh(&folder, "RAYON_NUM_THREADS=1 $E fleet leases.csv");
    let is_root = told(&sh(&folder, "id -u")) == "0\n";
    let whose = if is_root {
        "setpriv --reuid=65534 --regid=65534 --clear-groups"
    } else {
        ""
    };
    // A copy, since that user may not come to where it was built.
    let line = format!("cp $E egretfold && RAYON_NUM_THREADS=8 {whose} prlimit --nproc=0 ./egretfold fleet leases.csv");
    let output = sh(&folder, &line);
    assert_eq!(told(&output), told(&due), "{}", complained(&output));
    assert_eq!(complained(&output), "");
    for threads in ["0", "3", "1000000", "-1", "x"] {
        let output = sh(
            &folder,
            &format!("RAYON_NUM_THREADS={threads} $E fleet leases.csv"),
        );
        assert_eq!(
            told(&output),
            told(&due),
            "{threads}: {}",
            complained(&output)
        );
    }
}
