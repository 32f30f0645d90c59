//! `fleet --commands` through what runs its lines: sh, GNU parallel, and an array's
//! `sed -n Np | sh -c`. Whatever a file is called, it is read by each of them as by
//! `fleet` itself, or it is refused by name before a line is printed.

use crate::common::{complained, sample, told, with_input, Folder};
use std::ffi::{OsStr, OsString};
use std::fs;
use std::os::unix::ffi::{OsStrExt, OsStringExt};
use std::path::Path;
use std::process::{Command, Output};

/// Names that a shell, an engine or the command line itself could take for something else.
const NAMES: [&str; 31] = [
    "$(touch out)",
    "`touch out`",
    ";touch out;",
    "&& touch out #",
    "| touch out",
    "> out",
    "'; touch out; '",
    "\"; touch out; \"",
    "'\\''",
    "\\",
    "\\\\",
    "a\\",
    "'",
    "''",
    "{}",
    "{.} {#} {%} {1}",
    "{= $_ = `touch out` =}",
    "::: a",
    "-",
    "--",
    "--json",
    "-o out",
    "~",
    "$HOME $@ $$",
    "!! !x",
    "*",
    "?",
    "[a]",
    " before and behind ",
    "=cmd %1 %s %n",
    "Zürich 東京",
];

/// A folder of stations `logs/N`, each with one log by the name at its place.
struct Stations {
    folder: Folder,
}

impl Stations {
    fn new(folder: &str, names: &[OsString]) -> Stations {
        let folder = Folder::new(folder);
        let log = sample("three-days.log");
        let mut rows = String::from("station,log,first day,days,owed\n");
        for (place, name) in names.iter().enumerate() {
            let inside = folder.0.join(format!("logs/{place}"));
            fs::create_dir_all(&inside).expect("a folder");
            fs::write(inside.join(name), &log).expect("the log is written");
            rows += &format!("{place},logs/{place},101,3,{}\n", 1728 + place);
        }
        folder.write("leases.csv", rows.as_bytes());
        Stations { folder }
    }

    /// Runs this in the folder, where the command is on the path.
    fn run(&self, script: &str) -> Output {
        let built = Path::new(env!("CARGO_BIN_EXE_egretfold"));
        let mut path = OsString::from(built.parent().expect("a folder"));
        path.push(":");
        path.push(std::env::var_os("PATH").unwrap_or_default());
        let mut command = Command::new("sh");
        command.arg("-c").arg(format!("cd \"$0\" && {script}"));
        command.arg(&self.folder.0).env("PATH", path);
        with_input(command, b"")
    }

    /// Through this engine, which leaves its lines in `scores`: the same report.
    fn agree(&self, engine: &str) {
        let due = self.run("egretfold fleet leases.csv --issued 2026-05-02");
        assert_eq!(complained(&due), "");
        let ran = self.run(&format!("{engine}; rm -f lines"));
        assert_eq!(complained(&ran), "", "{engine}");
        let joined =
            self.run("egretfold fleet leases.csv --from-scores scores --issued 2026-05-02");
        assert_eq!(told(&joined), told(&due), "{engine}");
        assert_eq!(joined.status, due.status, "{engine}");
        assert!(!self.folder.0.join("out").exists(), "{engine}");
        let mut left: Vec<OsString> = fs::read_dir(&self.folder.0)
            .expect("the folder")
            .map(|entry| entry.expect("an entry").file_name())
            .collect();
        left.sort();
        assert_eq!(left, ["leases.csv", "logs", "scores"], "{engine}");
    }
}

const SH: &str = "egretfold fleet leases.csv --commands --issued 2026-05-02 | sh >scores";
const PARALLEL: &str =
    "egretfold fleet leases.csv --commands --issued 2026-05-02 | parallel -j 2 >scores";
/// docs/FLEET.md's, by a loop in place of Slurm.
const ARRAY: &str = "egretfold fleet leases.csv --commands --issued 2026-05-02 >lines; : >scores; \
    for SLURM_ARRAY_TASK_ID in 1 2 3 4 5 6 7; do \
    sed -n ${SLURM_ARRAY_TASK_ID}~7p lines | xargs -r -d '\n' -n 1 sh -c >>scores; done";

fn has_parallel() -> bool {
    let version = Command::new("parallel").arg("--version").output();
    version.map_or(false, |output| told(&output).starts_with("GNU parallel"))
}

/// Every byte that may stand in a line stands in a name, and so do the names above.
#[test]
fn a_name_comes_through_every_engine() {
    let bytes = (b' '..=b'~').filter(|byte| *byte != b'/');
    let bytes = bytes.map(|byte| OsString::from_vec(vec![b'x', byte, b'y']));
    let names: Vec<OsString> = NAMES.iter().map(OsString::from).chain(bytes).collect();
    let stations = Stations::new("engines", &names);
    stations.agree(SH);
    stations.agree(ARRAY);
    if has_parallel() {
        stations.agree(PARALLEL);
    } else {
        eprintln!("there is no GNU parallel here, so its part wasn't run");
    }
}

/// All others are refused by name, with the rows' places, before any line is printed.
#[test]
fn a_name_that_cannot_stand_in_a_line_is_refused_before_any_is_printed() {
    let bytes = (1..b' ').chain([0x7F, 0x9B, 0xFF]);
    let mut names: Vec<OsString> = vec!["fine.log".into()];
    names.extend(bytes.map(|byte| OsString::from_vec(vec![b'x', byte, b'y'])));
    names.extend(["a\ntouch out\nb", "\u{202E}gol", "\u{9B}2J"].map(OsString::from));
    names.push(OsStr::from_bytes(b"caf\xE9\n").to_os_string());
    let stations = Stations::new("engines-refused", &names);
    let output = stations.run("egretfold fleet leases.csv --commands");
    assert_eq!(output.status.code(), Some(2));
    assert_eq!(told(&output), "");
    let complaint = complained(&output);
    let count = names.len() - 1;
    let mut lines = complaint.lines();
    let due = format!("egretfold: leases.csv: {count} faults, so no log is read");
    assert_eq!(lines.next(), Some(&*due));
    for (place, name) in names.iter().enumerate().skip(1) {
        let line = lines.next().expect("a line for each");
        let file = Path::new("logs").join(place.to_string()).join(name);
        let begin = format!("  line {}, log: {file:?} ", place + 2);
        assert!(line.starts_with(&begin), "{line}");
        assert!(line.ends_with("; give it another name, or score without --commands"));
    }
    assert_eq!(lines.next(), None);
    // Without engines each of them is read.
    let output = stations.run("egretfold fleet leases.csv --json | tail -n 1");
    assert!(
        told(&output).contains("\"scored\":39,"),
        "{}",
        told(&output)
    );
}

/// A line that is longer than an engine takes is told, not cut.
#[test]
fn a_line_that_no_engine_takes_is_told() {
    let stations = Stations::new("engines-long", &["a.log".into()]);
    let stem = "x".repeat(200);
    for number in 0..300 {
        let name = format!("logs/0/{stem}-{number}");
        stations.folder.write(&name, b"");
    }
    let output = stations.run("egretfold fleet leases.csv --commands");
    assert_eq!(
        (output.status.code(), told(&output)),
        (Some(2), String::new())
    );
    let due = "line 2, log: the line of its 301 files has ";
    assert!(complained(&output).contains(due), "{}", complained(&output));
    assert!(complained(&output).contains(" bytes, and engines take 60000; "));
}

/// Two hundred and fifty files of a log are a line that engines take.
#[test]
fn a_long_line_comes_through_every_engine() {
    let stations = Stations::new("engines-many", &["a.log".into()]);
    let stem = "x".repeat(200);
    for number in 0..280 {
        let name = format!("logs/0/{stem}-{number}");
        stations.folder.write(&name, b"");
    }
    stations.agree(SH);
    stations.agree(ARRAY);
    if has_parallel() {
        stations.agree(PARALLEL);
    }
}
