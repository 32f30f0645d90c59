//! Stored outputs, held against what the command prints now. The cases are data:
//!
//! - A file of tests/golden is a case. Its first line, behind `$ `, is a line of the shell,
//!   run from the repository's root with this build as `egretfold`; input comes through a pipe
//!   (`printf '…' | egretfold …`). Below it stands what is printed, standard error last, and
//!   the exit status.
//! - Pictures are stored byte for byte as they are drawn, so their lines stand in a file of
//!   their own, tests/pictures/lines.txt. Each draws one or more of them into the folder
//!   `$PICTURES`.
//!
//! A new case is its line alone. That, and a wanted change, is written down by
//!
//!     RENEW=1 cargo test --release -p host golden

use crate::common::{complained, root, shell, told, Folder, Unknown};
use std::collections::BTreeSet;
use std::fs;
use std::path::{Path, PathBuf};

#[test]
fn the_output_is_as_stored() {
    let (unknown, cases) = (Unknown::now(), files(&folder("golden")));
    assert!(!cases.is_empty(), "there are no cases");
    let mut differing = Vec::new();
    for file in &cases {
        let (name, stored) = (file.display(), fs::read_to_string(file).expect("text"));
        let line = line_of(&stored).unwrap_or_else(|| panic!("{name} begins with no line to run"));
        let is = unknown.taken_from(&seen(line));
        if renew() {
            fs::write(file, &is).expect("the file is written");
        } else if is != stored {
            eprintln!("{name} was\n{stored}\n{name} is\n{is}");
            differing.push(name);
        }
    }
    assert!(differing.is_empty(), "differing: {differing:?}");
}

/// A case's line, which runs the command.
fn line_of(stored: &str) -> Option<&str> {
    let line = stored.lines().next()?.strip_prefix("$ ")?;
    line.contains("egretfold").then_some(line)
}

/// What a user sees: the line, both outputs and the exit status.
fn seen(line: &str) -> String {
    let output = shell(line);
    let status = output.status.code().expect("it ends by itself");
    let (told, complained) = (told(&output), complained(&output));
    format!("$ {line}\n{told}{complained}exit status {status}\n")
}

#[test]
fn the_pictures_are_as_stored() {
    let (unknown, folder, drawn) = (Unknown::now(), folder("pictures"), Folder::new("pictures"));
    let list = folder.join("lines.txt");
    let lines = fs::read_to_string(&list).expect("the lines are there");
    for line in lines.lines().filter_map(|line| line.strip_prefix("$ ")) {
        shell(&line.replace("$PICTURES", &drawn.0.display().to_string()));
    }
    let mut accounted = BTreeSet::from([list]);
    for file in files(&drawn.0) {
        let is = without(&unknown, fs::read(&file).expect("it is drawn"));
        let stored = folder.join(file.file_name().expect("a name"));
        if renew() {
            fs::write(&stored, &is).expect("the file is written");
        }
        // Not shown where they differ: a picture is looked at, not read.
        let same = fs::read(&stored).map_or(false, |stored| stored == is);
        assert!(same, "{} differs", stored.display());
        accounted.insert(stored);
    }
    assert_eq!(files(&folder), accounted, "stored, and drawn by a line");
}

fn renew() -> bool {
    std::env::var_os("RENEW").is_some()
}

fn folder(name: &str) -> PathBuf {
    root().join("rust/host/tests").join(name)
}

fn files(folder: &Path) -> BTreeSet<PathBuf> {
    let entries = fs::read_dir(folder).expect("the folder is there");
    entries
        .map(|entry| entry.expect("an entry").path())
        .collect()
}

/// A picture without what no stored file can know. One that isn't text has none of it.
fn without(unknown: &Unknown, picture: Vec<u8>) -> Vec<u8> {
    match String::from_utf8(picture) {
        Ok(text) => unknown.taken_from(&text).into_bytes(),
        Err(bytes) => bytes.into_bytes(),
    }
}
