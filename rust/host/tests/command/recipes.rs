//! Recipes of docs/FLEET.md for other programs, run as they stand there, where the program is there.

use crate::common::{complained, root, told, with_input, Folder};
use std::ffi::OsString;
use std::fs;
use std::os::unix::fs::symlink;
use std::path::Path;
use std::process::Command;

/// The lines behind `$` below a heading of docs/FLEET.md, each with what it prints.
fn lines_of(heading: &str) -> Vec<(String, String)> {
    let text = fs::read_to_string(root().join("docs/FLEET.md")).expect("the document");
    let (_, section) = text
        .split_once(&format!("\n{heading}\n"))
        .expect("the section");
    let section = section.split("\n## ").next().unwrap_or_default();
    let mut lines: Vec<(String, String)> = Vec::new();
    for line in section.lines().filter_map(|line| line.strip_prefix("    ")) {
        match (line.strip_prefix("$ "), lines.last_mut()) {
            (Some(command), _) => lines.push((command.to_string(), String::new())),
            (None, Some((_, prints))) => *prints += &format!("{line}\n"),
            (None, None) => panic!("{line} stands behind no line that is run"),
        }
    }
    lines
}

/// A folder with the samples in it, as the desk's own stands.
fn with_samples(name: &str) -> Folder {
    let folder = Folder::new(name);
    for entry in fs::read_dir(root().join("samples")).expect("the samples") {
        let entry = entry.expect("an entry");
        let place = folder.0.join(entry.file_name());
        symlink(fs::canonicalize(entry.path()).expect("it is there"), place).expect("a link");
    }
    folder
}

/// Runs a line there, where the command is on the path.
fn run(line: &str, folder: &Path) -> String {
    let built = Path::new(env!("CARGO_BIN_EXE_egretfold"));
    let mut path = OsString::from(built.parent().expect("a folder"));
    path.push(":");
    path.push(std::env::var_os("PATH").unwrap_or_default());
    let mut shell = Command::new("sh");
    shell
        .args(["-c", &format!("cd \"$0\" && {line}")])
        .arg(folder);
    let output = with_input(
        {
            shell.env("PATH", path);
            shell
        },
        b"",
    );
    told(&output) + &complained(&output)
}

#[test]
fn rows_are_loaded_into_a_database() {
    if Command::new("sqlite3").arg("--version").output().is_err() {
        println!("passed over: there is no sqlite3 here (tools/prepare gate installs it)");
        return;
    }
    let folder = with_samples("recipe-database");
    let lines = lines_of("## Into a database");
    assert_eq!(lines.len(), 5);
    for (line, prints) in &lines {
        assert_eq!(run(line, &folder.0), *prints, "{line}");
    }
    // The table's columns are the rows' own, in their order.
    let rows = fs::read_to_string(folder.0.join("april.csv")).expect("the rows");
    let head = rows.lines().next().unwrap_or_default();
    let (_, columns) = lines[1].0.split_once("days (").expect("the table");
    let columns: Vec<&str> = columns
        .split(',')
        .filter_map(|column| column.split_whitespace().next())
        .collect();
    assert_eq!(head.split(',').collect::<Vec<_>>(), columns);
    // A month more goes into the same table.
    let count = |due: usize| {
        let count = run("sqlite3 fleet.db 'SELECT count(*) FROM days'", &folder.0);
        assert_eq!(count, format!("{due}\n"));
    };
    count(90);
    assert_eq!(run(&lines[2].0, &folder.0), "");
    count(180);
}
