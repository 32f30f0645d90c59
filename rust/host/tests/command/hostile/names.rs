//! Logs with hostile names, through the lines of `fleet --commands`: a name is refused before any line is printed, or each
//! line, run by a shell as it stands, scores its station and does nothing else, and the join is the direct report.

use super::{ended, Scene};
use crate::common::{sample, told};
use compare::random::Random;
use std::ffi::{OsStr, OsString};
use std::fs;
use std::os::unix::ffi::{OsStrExt, OsStringExt};
use std::path::{Path, PathBuf};
use std::process::{Command, Output, Stdio};

/// What an injected command would make.
const CANARY: &str = "canary";

/// Parts of names that a shell, an engine or the command line could take for something else.
const FIT: [&[u8]; 32] = [
    b"$(touch canary)",
    b"`touch canary`",
    b";touch canary;",
    b"&& touch canary #",
    b"|touch canary",
    b">canary",
    b"'",
    b"\"",
    b"\\",
    b"'\\''",
    b" ",
    b"  ",
    b"$HOME",
    b"${IFS}",
    b"$'\\n'",
    b"{}",
    b"{a,b}",
    b"%s%n",
    b"-",
    b"--json",
    b"-o",
    b"=",
    b"--",
    b"~",
    b"*",
    b"?",
    b"[a-z]",
    b"!!",
    b"#",
    b"&",
    "Zürich".as_bytes(),
    b"x",
];

/// Parts that no line may have: control characters, what turns a text round, and bytes that aren't UTF-8.
const UNFIT: [&[u8]; 9] = [
    b"\n",
    b"\ntouch canary\n",
    b"\r",
    b"\t",
    b"\x1B[2J",
    b"\x7F",
    "\u{202E}".as_bytes(),
    b"\xFF",
    b"caf\xE9",
];

/// The longest name that the system takes.
const LONGEST: usize = 255;

struct Name {
    bytes: OsString,
    /// Whether a line may have it.
    fit: bool,
}

fn name(random: &mut Random) -> Name {
    let mut bytes = Vec::new();
    for _ in 0..random.between(1, 5) {
        bytes.extend(random.one_of(&FIT));
    }
    let fit = !random.once_in(6);
    if !fit {
        let at = random.one_of(&[0, bytes.len()]);
        bytes.splice(at..at, random.one_of(&UNFIT).iter().copied());
    }
    if random.once_in(5) {
        let behind = LONGEST.saturating_sub(bytes.len());
        bytes.extend(vec![b'l'; behind]);
    }
    Name {
        bytes: OsString::from_vec(bytes),
        fit,
    }
}

/// A lease file of one to three stations, each with a log by a name of its own, found in its folder or named by its cell.
/// Tells whether lines may have each name, where that is known: what a cell's text names is for the lease file to say.
fn leases(scene: &mut Scene) -> Option<bool> {
    let (mut rows, mut fit, mut known) =
        (b"station,log,first day,days,owed\n".to_vec(), true, true);
    let mut names = Vec::new();
    for place in 0..scene.random.between(1, 3) {
        let name = name(&mut scene.random);
        let inside = scene.folder.join(format!("logs/{place}"));
        fs::create_dir_all(&inside).expect("a folder");
        fs::write(inside.join(&name.bytes), sample("three-days.log")).expect("the log is written");
        let mut cell = format!("logs/{place}").into_bytes();
        if scene.random.once_in(4) {
            cell.push(b'/');
            cell.extend(name.bytes.as_bytes());
            known = false;
        }
        rows.extend(format!("{place},\"").bytes());
        for byte in cell {
            rows.extend(std::iter::repeat(byte).take(1 + usize::from(byte == b'"')));
        }
        rows.extend(format!("\",101,{},{}\n", 3 + place, 1_000 + place * 1_000).bytes());
        fit &= name.fit;
        names.push(name.bytes);
    }
    scene.is_about(&names);
    fs::write(scene.folder.join("leases.csv"), rows).expect("the leases");
    known.then_some(fit)
}

/// The files of a folder and of those in it, with their bytes.
fn all(folder: &Path) -> Vec<(PathBuf, Vec<u8>)> {
    let mut files = Vec::new();
    for entry in fs::read_dir(folder).expect("the folder").flatten() {
        match entry.path() {
            path if path.is_dir() => files.extend(all(&path)),
            path => files.push((path.clone(), fs::read(path).expect("it is read"))),
        }
    }
    files.sort();
    files
}

/// A run in the folder, where the program is the first `egretfold` on the path.
fn run(first: &OsStr, arguments: &[&str], program: &OsStr, folder: &Path) -> Output {
    let mut path = Path::new(program)
        .parent()
        .expect("a folder")
        .as_os_str()
        .to_os_string();
    path.push(":");
    path.push(std::env::var_os("PATH").unwrap_or_default());
    let mut command = Command::new(first);
    command
        .args(arguments)
        .env("PATH", path)
        .current_dir(folder);
    command.stdin(Stdio::null());
    ended(command)
}

pub fn drive(scene: &mut Scene) {
    let fit = leases(scene);
    let (program, folder) = (scene.program(), scene.folder);
    let fleet = |more: &[&str]| {
        let line = [&["fleet", "leases.csv", "--issued", "2026-05-02"], more].concat();
        run(&program, &line, &program, folder)
    };
    let before = all(folder);
    let commands = fleet(&["--commands"]);
    let refused = commands.status.code() == Some(2);
    if let Some(fit) = fit {
        assert_eq!(refused, !fit, "{commands:?}");
    }
    if refused {
        assert!(commands.stdout.is_empty(), "{commands:?}");
        let errors = String::from_utf8_lossy(&commands.stderr);
        assert!(errors.starts_with("egretfold: leases.csv: "), "{errors}");
        assert!(errors.contains("line "), "{errors}");
        return;
    }
    let mut scores = Vec::new();
    for line in told(&commands).lines() {
        let output = run(OsStr::new("sh"), &["-c", line], &program, folder);
        scores.extend(output.stdout);
    }
    assert!(!folder.join(CANARY).exists(), "a name was run");
    assert!(all(folder) == before, "a line wrote something");
    fs::write(folder.join("scores"), scores).expect("the scores are written");
    let direct = fleet(&["--json"]);
    let joined = fleet(&["--json", "--from-scores", "scores"]);
    assert_eq!(told(&joined), told(&direct));
    assert_eq!(joined.status, direct.status);
}
