//! What a lease file's cells may hold and a spreadsheet's cells may not, and how input
//! ends.

use crate::common::{complained, egretfold, sample, told, with_input, Folder};
use crate::desk::on_a_terminal;
use serde_json::Value;
use std::fs;
use std::process::{Command, Output};

const HEADER: &str = "station,log,first day,days,owed\n";

/// Runs `fleet` on these rows in the folder itself.
fn fleet(folder: &Folder, rows: &str, more: &str, input: &[u8]) -> Output {
    folder.write("leases.csv", format!("{HEADER}{rows}").as_bytes());
    let mut command = Command::new("sh");
    let line = format!("cd \"$0\" && \"$E\" fleet leases.csv {more}");
    command.arg("-c").arg(line).arg(&folder.0);
    command.env("E", env!("CARGO_BIN_EXE_egretfold"));
    with_input(command, input)
}

/// The names of the log's files in the scores that `--commands` asks for.
fn files(folder: &Folder, cell: &str) -> Vec<String> {
    let output = fleet(folder, &format!("1,{cell},101,3,1728\n"), "--commands", b"");
    let text = told(&output);
    let names = text.trim_end().split(" -- ").nth(1);
    let names = names.unwrap_or_else(|| panic!("{cell}: {}", complained(&output)));
    names.split(' ').map(String::from).collect()
}

#[test]
fn no_cell_is_standard_input() {
    let folder = Folder::new("entries-input");
    let log = sample("three-days.log");
    folder.write("a.log", &log);
    for (cell, cause) in [
        (";", "\";\" names no file"),
        (" ; ;", "\"; ;\" names no file"),
        (
            "-",
            "standard input is no station's log; a file by that name is ./-",
        ),
        (
            "a.log;-",
            "standard input is no station's log; a file by that name is ./-",
        ),
    ] {
        let output = fleet(&folder, &format!("1,{cell},101,3,1728\n"), "", &log);
        assert_eq!(output.status.code(), Some(2), "{cell}");
        let due =
            format!("egretfold: leases.csv: 1 fault, so no log is read\n  line 2, log: {cause}\n");
        assert_eq!(complained(&output), due);
    }
    // A file that is called so is that file, however it is found.
    folder.write("-", &log);
    fs::remove_file(folder.0.join("a.log")).expect("it goes");
    for cell in ["./-", "?", "[-]*;?"] {
        let output = fleet(&folder, &format!("1,{cell},101,3,1728\n"), "--json", b"");
        assert!(
            told(&output).contains("\"verdict\":\"full\"") || cell == "[-]*;?",
            "{cell}"
        );
    }
    assert_eq!(files(&folder, "?"), ["./-"]);
}

#[test]
fn a_name_is_a_pattern_only_where_no_file_is_called_so() {
    let folder = Folder::new("entries-patterns");
    let inside = Folder(folder.0.join("a*b?[c]"));
    for path in ["a*b?[c]", "axbx[c]", "a*b?[c]/d*"] {
        fs::create_dir_all(folder.0.join(path)).expect("a folder");
    }
    for name in [
        "a*b?[c]/day-1.log",
        "axbx[c]/day-1.log",
        "a*b?[c]/day-*.log",
        "a*b?[c]/d*/1",
        "a*b?[c]/day[1]x",
    ] {
        folder.write(name, &sample("three-days.log"));
    }
    // The lease file's own folder is no pattern.
    assert_eq!(files(&inside, "day-?.log"), ["'day-*.log'", "day-1.log"]);
    assert_eq!(files(&inside, "day-*.log"), ["'day-*.log'"]);
    assert_eq!(files(&inside, "day[1]*"), ["'day[1]x'"]);
    // Nor are folders that are called so.
    assert_eq!(files(&folder, "a*b?[c]/day-1.*"), ["'a*b?[c]/day-1.log'"]);
    assert_eq!(files(&inside, "d*/*"), ["'d*/1'"]);
}

#[test]
fn a_tenth_is_no_hundred() {
    let folder = Folder::new("entries-numbers");
    for (parted, owed) in [
        (';', "0.100"),
        (';', "00.100"),
        (',', "\"0,100\""),
        (',', "\"0 100\""),
    ] {
        let rows = format!("station,log,first day,days,owed\n1,a.log,101,3,{owed}\n");
        let rows = match parted {
            ';' => rows.replace(',', ";"),
            _ => rows,
        };
        let leases = folder.write("numbers.csv", rows.as_bytes());
        let output = egretfold(&format!("fleet {leases}"), b"");
        assert_eq!(output.status.code(), Some(2), "{owed}");
        assert!(
            complained(&output).contains("line 2, owed: "),
            "{}",
            complained(&output)
        );
    }
}

/// Stations and lessees that a spreadsheet would run.
const RUN: [&str; 9] = [
    "=1+1",
    "+1",
    "-2",
    "@SUM(A1)",
    "=cmd|'/c x'!A0",
    "'=1",
    "''@1",
    "'14",
    "14",
];

#[test]
fn a_spreadsheet_runs_no_cell_and_our_reader_reads_it_back() {
    let folder = Folder::new("entries-sheet");
    folder.write("a.log", &sample("three-days.log"));
    let quoted = |name: &str| format!("\"{name}\"");
    // As a sheet has them: where the first apostrophe is the sheet's, one more stands there.
    let cell = |name: &str| {
        if name
            .trim_start_matches('\'')
            .starts_with(['=', '+', '-', '@'])
        {
            quoted(&format!("'{name}"))
        } else {
            quoted(name)
        }
    };
    let rows: String = RUN
        .iter()
        .map(|name| format!("{},a.log,101,3,1728\n", cell(name)))
        .collect();
    let stations = |output: &Output| -> Vec<String> {
        let lines = told(output);
        let lines = lines
            .lines()
            .map(|line| serde_json::from_str::<Value>(line).expect("JSON"));
        lines
            .filter_map(|line| line["station"].as_str().map(String::from))
            .collect()
    };
    assert_eq!(
        stations(&fleet(&folder, &rows, "--sort lease --json", b"")),
        RUN
    );
    let csv = told(&fleet(&folder, &rows, "--sort lease --csv", b""));
    for line in csv.lines().skip(1) {
        let begins = line.trim_start_matches('"').chars().next();
        assert!(
            !begins.map_or(true, |letter| "=+-@\t\r".contains(letter)),
            "{line}"
        );
    }
    // The report itself, with the logs beside it, is a lease file of the same stations.
    let mut lines = csv.lines();
    let head = lines
        .next()
        .expect("a head")
        .replace(",owed,", ",owed in all,");
    let back: String = lines.map(|line| format!("{line},a.log\n")).collect();
    let leases = folder.write("back.csv", format!("{head},log\n{back}").as_bytes());
    assert_eq!(
        stations(&egretfold(
            &format!("fleet {leases} --sort lease --json"),
            b""
        )),
        RUN
    );
}

/// One Ctrl-D ends what is typed.
#[test]
fn ctrl_d_ends_input_once() {
    let program = env!("CARGO_BIN_EXE_egretfold");
    let folder = Folder::new("entries-end");
    let done = folder.0.join("done");
    let done = done.display();
    let line = format!(
        "timeout --foreground 8 {program} decode --hex --summary; echo status-$?; : >{done}"
    );
    let script = folder.write("line.sh", line.as_bytes());
    // The text, then one end of input, and the terminal stays until the command has ended.
    let typed =
        format!("sleep 1; printf 'C0000900 0\\n\\004'; until [ -e {done} ]; do sleep 0.1; done");
    let shown = on_a_terminal(&format!("({typed}) | script -qec 'sh {script}' /dev/null"));
    assert!(shown.contains("status-0"), "{shown:?}");
}

#[test]
fn help_that_cannot_be_written_is_told() {
    for line in ["--help", "score --help", "--version", "help fleet"] {
        let mut command = Command::new("sh");
        let script = format!("\"$0\" {line} >/dev/full");
        command
            .arg("-c")
            .arg(script)
            .arg(env!("CARGO_BIN_EXE_egretfold"));
        let output = with_input(command, b"");
        assert_eq!(output.status.code(), Some(2), "{line}");
        assert!(
            complained(&output).starts_with("egretfold: standard output: "),
            "{line}"
        );
    }
    let mut command = Command::new("sh");
    command
        .arg("-c")
        .arg("{ \"$0\" --help; echo $? >&2; } | :")
        .arg(env!("CARGO_BIN_EXE_egretfold"));
    assert_eq!(complained(&with_input(command, b"")), "0\n");
}

/// A log without a midnight may go on as it began: what to do is told.
#[test]
fn a_log_that_goes_on_as_it_began_is_told_how() {
    let folder = Folder::new("entries-again");
    let log = sample("three-days.log");
    let set_up = folder.write("set-up.log", &log[..65]);
    let state = folder.0.join("state");
    let state = state.display();
    let output = egretfold(&format!("replay {set_up} --save {state}"), b"");
    assert_eq!(output.status.code(), Some(0), "{}", complained(&output));
    let whole = folder.write("whole.log", &log);
    let output = egretfold(&format!("replay {whole} --resume {state}"), b"");
    assert_eq!(output.status.code(), Some(2));
    let due = "give only what came behind them, or all of it without --resume; where the same bytes came a second time, \
        give both logs without --resume\n";
    assert!(
        complained(&output).ends_with(due),
        "{}",
        complained(&output)
    );
    let output = egretfold(&format!("replay {set_up} {whole}"), b"");
    assert_eq!(output.status.code(), Some(0), "{}", complained(&output));
}
