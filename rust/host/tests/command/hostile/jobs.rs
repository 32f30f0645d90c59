//! Lines that write several files over earlier ones, ended by a signal at any moment, or where no more can be written:
//! each file is whole, the old one or the new one; the state is new only where all others are; and nothing half written is
//! left but by a kill that nobody can answer, which doesn't block the next run.

use super::{ended, hold_end, Scene};
use crate::common::sample;
use std::collections::BTreeMap;
use std::ffi::{OsStr, OsString};
use std::fs;
use std::os::unix::process::ExitStatusExt;
use std::path::Path;
use std::process::{Command, Output, Stdio};
use std::thread;
use std::time::Instant;

/// The lines, and what each writes; a state stands last.
const JOBS: [(&str, &[&str]); 5] = [
    (
        "score april.log --resume march.state --first-day 101 --days 30 --owed 14000000 --issued 2026-05-02 \
         --output card.txt --svg card.svg --html card.html --save kept.state",
        &["card.txt", "card.svg", "card.html", "kept.state"],
    ),
    (
        "replay april.log --resume march.state --json --output days.json --save kept.state",
        &["days.json", "kept.state"],
    ),
    (
        "fleet leases.csv --issued 2026-05-02 --output fleet.txt --html fleet.html --cards cards",
        &["fleet.txt", "fleet.html", "cards/14.svg", "cards/15.svg", "cards/16.svg"],
    ),
    (
        "survey --stream s.ctm --memory m.mem --at 800 --value 300 --output s.txt --svg s.svg --pgm s.pgm",
        &["s.txt", "s.svg", "s.pgm"],
    ),
    (
        "picture --stream s.ctm --memory m.mem --at 800 --window output-0 --in p.ppm --to p.mem --replace --output p.txt",
        &["p.txt", "p.mem"],
    ),
];

fn prepare(folder: &Path) {
    for (name, from) in [
        ("april.log", "station-14-april.log"),
        ("march.state", "station-14-march.state"),
        ("a.log", "station-14.log"),
        ("s.ctm", "camera.ctm"),
        ("m.mem", "camera.mem"),
        ("p.ppm", "camera.ppm"),
    ] {
        fs::write(folder.join(name), sample(from)).expect("the file is written");
    }
    let rows = ["14", "15", "16"].map(|station| format!("{station},a.log,101,30,14000000\n"));
    let leases = format!("station,log,first day,days,owed\n{}", rows.concat());
    fs::write(folder.join("leases.csv"), leases).expect("the leases");
    fs::create_dir(folder.join("cards")).expect("a folder");
}

/// Something of each kind that may be replaced, and is not what is written.
fn earlier(folder: &Path, names: &[&str]) {
    for name in names {
        let bytes = match name.rsplit('.').next() {
            Some("svg") => b"<svg data-by=\"egretfold\" ></svg>".to_vec(),
            Some("html") => {
                b"<!DOCTYPE html>\n<html lang=\"en\" data-by=\"egretfold\"></html>".to_vec()
            }
            Some("pgm") => b"P5\n# by egretfold\n1 1\n255\n.".to_vec(),
            Some("state") => sample("station-14-march.state"),
            _ => b"an earlier answer\n".to_vec(),
        };
        fs::write(folder.join(name), bytes).expect("it is written");
    }
}

fn command(program: &OsStr, line: &str, folder: &Path) -> Command {
    let mut command = Command::new(program);
    command.args(line.split_whitespace()).current_dir(folder);
    command.stdin(Stdio::null());
    command
}

/// All files of the folder and of its cards, by name.
fn all(folder: &Path) -> BTreeMap<String, Vec<u8>> {
    let mut files = BTreeMap::new();
    for (folder, before) in [(folder.to_path_buf(), ""), (folder.join("cards"), "cards/")] {
        for entry in fs::read_dir(&folder).expect("the folder").flatten() {
            if entry.path().is_file() {
                let name = format!("{before}{}", entry.file_name().to_string_lossy());
                files.insert(name, fs::read(entry.path()).expect("it is read"));
            }
        }
    }
    files
}

/// A job that was run once: the files before, those after it, and what it writes.
struct Job {
    /// By which it is run, each time: a card names its build.
    program: OsString,
    line: &'static str,
    names: &'static [&'static str],
    old: BTreeMap<String, Vec<u8>>,
    new: BTreeMap<String, Vec<u8>>,
    end: Output,
}

impl Job {
    fn of(scene: &mut Scene) -> Job {
        let (line, names) = scene.random.one_of(&JOBS);
        let (program, folder) = (scene.program(), scene.folder);
        prepare(folder);
        earlier(folder, names);
        let old = all(folder);
        let end = ended(command(&program, line, folder));
        let new = all(folder);
        for name in names {
            assert!(new[*name] != old[*name], "{name} isn't written");
        }
        earlier(folder, names);
        Job {
            program,
            line,
            names,
            old,
            new,
            end,
        }
    }

    /// Each file is whole, and the state is new only with all others. Tells whether all are new.
    fn hold_whole(&self, folder: &Path) -> bool {
        let is = all(folder);
        for (name, old) in &self.old {
            assert!(
                is[name] == *old || is[name] == self.new[name],
                "{name} is half written"
            );
        }
        let is_new = |name: &&&str| is[**name] == self.new[**name];
        let count = self.names.iter().filter(is_new).count();
        let state = self.names.iter().find(|name| name.ends_with(".state"));
        if state.filter(|state| is_new(state)).is_some() {
            assert_eq!(
                count,
                self.names.len(),
                "the state has moved before the rest"
            );
        }
        count == self.names.len()
    }

    fn hold_nothing_left(&self, folder: &Path) {
        let is = all(folder);
        assert!(
            is.keys().eq(self.old.keys()),
            "something is left: {:?}",
            is.keys()
        );
    }
}

/// Signals, and whether the program can answer them.
const SIGNALS: [(&str, i32); 4] = [("TERM", 15), ("HUP", 1), ("INT", 2), ("KILL", 9)];

pub fn killed(scene: &mut Scene) {
    let begun = Instant::now();
    let job = Job::of(scene);
    let once = begun.elapsed();
    let (signal, number) = scene.random.one_of(&SIGNALS);
    scene.is_about(&(job.line, signal));
    let folder = scene.folder;
    let mut child = command(&job.program, job.line, folder)
        .stdout(Stdio::null())
        .stderr(Stdio::null())
        .spawn()
        .expect("the command runs");
    thread::sleep(once * scene.random.below(1_000) / 800);
    let _ = Command::new("kill")
        .args(["-s", signal, &child.id().to_string()])
        .stderr(Stdio::null())
        .status();
    let status = child.wait().expect("it ends");
    let by_itself = status.code() == job.end.status.code();
    // Before it is prepared for it, a signal ends the program as it ends any other.
    let by_signal = status.code() == Some(128 + number) || status.signal() == Some(number);
    assert!(by_itself || by_signal, "{status:?}");
    let all_new = job.hold_whole(folder);
    assert!(all_new || !by_itself, "it ended and hasn't put all");
    if number != 9 {
        job.hold_nothing_left(folder);
    }
    // What is left doesn't block the next.
    let end = ended(command(&job.program, job.line, folder));
    assert_eq!(end.status.code(), job.end.status.code());
    assert!(job.hold_whole(folder), "the next run doesn't put all");
}

pub fn full(scene: &mut Scene) {
    let job = Job::of(scene);
    let folder = scene.folder;
    let blocks = scene.random.one_of(&[0, 0, 1, 2, 4, 8, 16, 24, 32, 64]);
    let line = if scene.random.once_in(3) {
        // The answer can't be written, the rest can.
        let mut words: Vec<&str> = job.line.split_whitespace().collect();
        let at = words
            .iter()
            .position(|word| *word == "--output")
            .expect("it has one");
        words[at + 1] = "/dev/full";
        words.join(" ")
    } else {
        job.line.to_string()
    };
    scene.is_about(&(&line, blocks));
    let mut shell = command(OsStr::new("sh"), "", folder);
    let limited = if line == job.line {
        format!("ulimit -f {blocks}; exec \"$@\"")
    } else {
        "exec \"$@\"".to_string()
    };
    shell
        .args(["-c", &limited, "sh"])
        .arg(&job.program)
        .args(line.split_whitespace());
    let output = shell.output().expect("the shell runs");
    hold_end(&output);
    job.hold_nothing_left(folder);
    let all_new = job.hold_whole(folder);
    match output.status.code() {
        Some(2) => assert!(all(folder) == job.old, "it failed, and something has moved"),
        status => assert!(all_new && status == job.end.status.code(), "{status:?}"),
    }
}
