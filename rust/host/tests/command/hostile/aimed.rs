//! Lines of all options that read or write a file, with outputs aimed at their inputs, at each other and at what else
//! stands there, by any name. Whatever is asked: what is read stays as it is, nothing else changes than what is asked to be
//! written, and where the line fails, neither the answer nor the state has moved.

use super::{ended, shipped, Scene};
use crate::common::{sample, Folder};
use std::collections::BTreeMap;
use std::fs::{self, File, Metadata};
use std::os::unix::fs::{symlink, MetadataExt};
use std::path::Path;
use std::process::{Command, Output, Stdio};

/// The files that stand in the folder, and the samples that they are.
const FILES: [(&str, &str); 15] = [
    ("a.log", "station-14.log"),
    ("b.log", "three-days.log"),
    ("bad.log", "damaged.log"),
    ("april.log", "station-14-april.log"),
    ("march.state", "station-14-march.state"),
    ("s.ctm", "camera.ctm"),
    ("m.mem", "camera.mem"),
    ("p.ppm", "camera.ppm"),
    ("b.hex", "branch.hex"),
    ("b.masks", "branch.masks"),
    ("l.integers", "loops.integers"),
    ("k.registers", "kill.registers"),
    ("i.ctm", "intruder.ctm"),
    ("i.parties", "intruder.parties"),
    ("t.txt", "several.txt"),
];

/// Names of standard input.
const STANDARD: [&str; 4] = ["-", "/dev/stdin", "/dev/fd/0", "/proc/self/fd/0"];

/// Names that may be given to an output beside those of the files.
const OTHERS: [&str; 9] = [
    "new",
    "new",
    "new2",
    "old.svg",
    "old.html",
    "old.state",
    "cards/14.svg",
    "cards",
    "/dev/null",
];

/// Writes the files, with links and other names for them, and earlier answers.
fn prepare(folder: &Path) {
    for (name, from) in FILES {
        fs::write(folder.join(name), sample(from)).expect("the file is written");
        symlink(name, folder.join(format!("link-{name}"))).expect("a link");
    }
    for (name, _) in &FILES[..5] {
        let hard = folder.join(format!("hard-{name}"));
        fs::hard_link(folder.join(name), hard).expect("a link");
    }
    fs::create_dir(folder.join("cards")).expect("a folder");
    for (name, text) in [
        ("old.svg", "<svg data-by=\"egretfold\" ></svg>"),
        (
            "old.html",
            "<!DOCTYPE html>\n<html lang=\"en\" data-by=\"egretfold\"></html>",
        ),
        ("cards/14.svg", "<svg data-by=\"egretfold\" ></svg>"),
        (
            "leases.csv",
            "station,log,first day,days,owed\n14,a.log,101,30,14000000\n15,b.log;link-april.log,101,3,5\n",
        ),
    ] {
        fs::write(folder.join(name), text).expect("the file is written");
    }
    fs::write(folder.join("old.state"), sample("station-14-march.state")).expect("a state");
}

/// A line being made.
struct Line<'a, 'b> {
    scene: &'a mut Scene<'b>,
    words: Vec<String>,
    /// What is read, by the names of the files, and what is written, by option and name as given.
    read: Vec<String>,
    written: Vec<(&'static str, String)>,
    /// The file on standard input.
    standard: Option<String>,
}

impl Line<'_, '_> {
    fn put(&mut self, words: &str) {
        self.words.extend(words.split(' ').map(String::from));
    }

    /// One of the file's names.
    fn alias(&mut self, name: &str) -> String {
        let hard = self.scene.folder.join(format!("hard-{name}")).exists();
        match self.scene.random.below(8) {
            0 => format!("./{name}"),
            1 => format!("cards/../{name}"),
            2 => self.scene.folder.join(name).display().to_string(),
            3 if FILES.iter().any(|(file, _)| *file == name) => format!("link-{name}"),
            4 if hard => format!("hard-{name}"),
            _ => name.to_string(),
        }
    }

    /// A file that is read, behind this option.
    fn reads(&mut self, option: &str, name: &str) {
        if !option.is_empty() {
            self.put(option);
        }
        let free = self.standard.is_none() && self.scene.random.once_in(6);
        let alias = if free {
            self.standard = Some(name.to_string());
            self.scene.random.one_of(&STANDARD).to_string()
        } else {
            self.alias(name)
        };
        self.words.push(alias);
        self.read.push(name.to_string());
    }

    /// A file that is written, now and then.
    fn writes(&mut self, times: u32, option: &'static str) {
        if !self.scene.random.once_in(times) {
            return;
        }
        let name = match self.scene.random.below(10) {
            0..=3 if !self.read.is_empty() => {
                let at = self.scene.random.below(self.read.len() as u32) as usize;
                let name = self.read[at].clone();
                self.alias(&name)
            }
            4 | 5 if !self.written.is_empty() => {
                let at = self.scene.random.below(self.written.len() as u32) as usize;
                self.written[at].1.clone()
            }
            6 => {
                let name = self.scene.random.one_of(&FILES).0;
                self.alias(name)
            }
            _ => self.scene.random.one_of(&OTHERS).to_string(),
        };
        self.words.extend([option.to_string(), name.clone()]);
        self.written.push((option, name));
    }

    fn flag(&mut self, times: u32, words: &str) {
        if self.scene.random.once_in(times) {
            self.put(words);
        }
    }

    fn log(&mut self) -> &'static str {
        self.scene
            .random
            .one_of(&["a.log", "a.log", "b.log", "bad.log", "april.log"])
    }

    fn made(&mut self) {
        match self.scene.random.below(13) {
            12 => self.verify(),
            0..=2 => self.score(),
            3 | 4 => self.replay(),
            5 | 6 => self.fleet(),
            7 => self.survey(),
            8 => self.picture(),
            9 => self.flow(),
            _ => self.stream(),
        }
        self.writes(2, "--output");
    }

    fn score(&mut self) {
        self.put("score --first-day 101 --owed 14000000");
        let days = self.scene.random.one_of(&["30", "30", "30", "0", "32"]);
        self.put(&format!("--days {days}"));
        let log = self.log();
        self.reads("", log);
        self.flag(3, "--json");
        self.early();
        self.state();
        self.writes(2, "--svg");
        self.writes(3, "--html");
    }

    fn replay(&mut self) {
        self.put("replay");
        let log = self.log();
        self.reads("", log);
        self.early();
        self.flag(3, "--json");
        self.state();
    }

    /// What is refused before any log is opened, now and then.
    fn early(&mut self) {
        self.flag(5, "--edition 9");
        self.flag(12, "no-such");
    }

    fn state(&mut self) {
        if self.scene.random.once_in(3) {
            self.reads("--resume", "march.state");
        }
        self.writes(2, "--save");
    }

    fn fleet(&mut self) {
        self.put("fleet");
        self.reads("", "leases.csv");
        // Which the lease file names.
        for log in ["a.log", "b.log", "april.log"] {
            self.read.push(log.to_string());
        }
        if self.scene.random.once_in(4) {
            return self.put("--commands");
        }
        self.flag(5, "--edition 9");
        self.flag(3, "--csv");
        self.writes(2, "--html");
        if self.scene.random.coin() {
            self.put("--cards cards");
            for card in ["cards/14.svg", "cards/15.svg"] {
                self.written.push(("--cards", card.to_string()));
            }
        }
    }

    fn verify(&mut self) {
        self.put("verify");
        self.reads("", "old.svg");
        let log = self.log();
        self.reads("", log);
        self.flag(3, "--json");
    }

    fn survey(&mut self) {
        self.put("survey --at 800 --value 300");
        self.reads("--stream", "s.ctm");
        self.reads("--memory", "m.mem");
        self.writes(2, "--svg");
        self.writes(2, "--pgm");
    }

    fn picture(&mut self) {
        self.put("picture --at 800 --window output-0");
        self.reads("--stream", "s.ctm");
        self.reads("--memory", "m.mem");
        self.flag(2, "--replace");
        if self.scene.random.coin() {
            self.writes(1, "--out");
        } else {
            self.reads("--in", "p.ppm");
            self.writes(1, "--to");
        }
    }

    fn flow(&mut self) {
        self.put("flow --hex");
        self.reads("", "b.hex");
        self.reads("--masks", "b.masks");
        if self.scene.random.coin() {
            self.reads("--integers", "l.integers");
        }
        if self.scene.random.coin() {
            let alias = self.alias("k.registers");
            self.put(&format!("--kill 0:F:{alias}"));
            self.read.push("k.registers".to_string());
        }
    }

    fn stream(&mut self) {
        match self.scene.random.below(4) {
            0 => {
                self.put("decode --owners 0:2");
                self.reads("", "i.ctm");
                self.reads("--parties", "i.parties");
            }
            1 => {
                self.put("encode");
                self.reads("", "t.txt");
            }
            2 => {
                self.put("locate 800");
                self.reads("--stream", "s.ctm");
            }
            _ => {
                self.put("address --size 4 --pitch 100 --height 3");
                self.standard = Some("t.txt".to_string());
                self.read.push("t.txt".to_string());
            }
        }
    }
}

/// A file, by whatever name: its device and number.
type Id = (u64, u64);

fn id(about: &Metadata) -> Id {
    (about.dev(), about.ino())
}

/// What stands in a folder and those in it: each file and its bytes.
fn all(folder: &Path) -> BTreeMap<String, (Id, Vec<u8>)> {
    let mut files = BTreeMap::new();
    for (folder, before) in [(folder.to_path_buf(), ""), (folder.join("cards"), "cards/")] {
        for entry in fs::read_dir(&folder).expect("the folder").flatten() {
            let about = entry.metadata().expect("it stands");
            if about.is_file() {
                let bytes = fs::read(entry.path()).expect("it is read");
                let name = format!("{before}{}", entry.file_name().to_string_lossy());
                files.insert(name, (id(&about), bytes));
            }
        }
    }
    files
}

/// The file in the folder that the name leads to.
fn behind(folder: &Path, name: &str) -> Option<String> {
    let path = folder.join(name);
    let path = fs::canonicalize(&path).unwrap_or(path);
    let folder = fs::canonicalize(folder).expect("the folder");
    let name = path.strip_prefix(&folder).ok()?;
    Some(name.display().to_string())
}

/// The very file that --resume names; the command takes no state from -.
fn resumed(folder: &Path, words: &[String], standard: Option<&str>) -> Option<Id> {
    let place = words.iter().position(|word| word == "--resume")?;
    let name = match words.get(place + 1)?.as_str() {
        "-" => return None,
        name if STANDARD.contains(&name) => standard?,
        name => name,
    };
    fs::metadata(folder.join(name)).ok().map(|about| id(&about))
}

pub fn drive(scene: &mut Scene) {
    let folder = scene.folder;
    prepare(folder);
    let program = scene.program();
    let mut line = Line {
        scene,
        words: Vec::new(),
        read: Vec::new(),
        written: Vec::new(),
        standard: None,
    };
    line.made();
    let Line {
        words,
        read,
        written,
        standard,
        ..
    } = line;
    scene.is_about(&(&words, &standard));
    let mut command = Command::new(program);
    command.args(&words);
    command.stdin(match &standard {
        Some(name) => File::open(folder.join(name)).expect("it stands").into(),
        None => Stdio::null(),
    });
    let state = resumed(folder, &words, standard.as_deref());
    hold(folder, command, &read, &written, state);
}

/// Runs the line in its folder and holds what must hold of all that it reads and writes; answers how it ended.
fn hold(
    folder: &Path,
    mut command: Command,
    read: &[String],
    written: &[(&'static str, String)],
    state: Option<Id>,
) -> Output {
    let before = all(folder);
    let targets: Vec<(&str, String)> = written
        .iter()
        .filter_map(|(option, name)| Some((*option, behind(folder, name)?)))
        .collect();
    command.current_dir(folder);
    let output = ended(command);
    let after = all(folder);
    let is_target = |name: &str, of: &[&str]| {
        let mut targets = targets.iter();
        targets.any(|(option, target)| target == name && (of.is_empty() || of.contains(option)))
    };
    let read: Vec<Id> = read.iter().map(|name| before[name].0).collect();
    for (name, (file, bytes)) in &before {
        let stays = after.get(name).map_or(false, |(_, is)| is == bytes);
        // A state may be replaced by the one that follows it, which --save alone writes over the very file that is resumed.
        let mut writers = targets.iter().filter(|(_, target)| target == name);
        let follows = state == Some(*file) && writers.all(|(option, _)| *option == "--save");
        assert!(
            stays || follows || !read.contains(file),
            "{name} is read, and was changed"
        );
        assert!(stays || is_target(name, &[]), "{name} was changed");
        let failed = output.status.code() == Some(2);
        assert!(
            stays || !failed || !is_target(name, &["--output", "--save"]),
            "{name} was changed by a line that failed"
        );
    }
    for name in after.keys().filter(|name| !before.contains_key(*name)) {
        assert!(is_target(name, &[]), "{name} is left");
    }
    output
}

/// By whichever of its names: the state that follows stands in the place of the one that was resumed.
#[test]
fn a_state_is_replaced_by_the_one_that_follows_it() {
    for (resume, save) in [
        ("hard-march.state", "hard-march.state"),
        ("march.state", "hard-march.state"),
        ("link-march.state", "march.state"),
        ("hard-march.state", "cards/../link-march.state"),
    ] {
        let folder = Folder::new("aimed-state");
        prepare(&folder.0);
        let words = ["replay", "april.log", "--resume", resume, "--save", save];
        let words = words.map(String::from);
        let mut command = Command::new(shipped());
        command.args(&words).stdin(Stdio::null());
        let read = ["april.log", "march.state"].map(String::from);
        let written = [("--save", save.to_string())];
        let state = resumed(&folder.0, &words, None);
        let output = hold(&folder.0, command, &read, &written, state);
        assert_eq!(output.status.code(), Some(0), "{words:?}");
        let saved = fs::read(folder.0.join(save)).expect("a state");
        assert_ne!(saved, sample("station-14-march.state"), "{words:?}");
    }
}
