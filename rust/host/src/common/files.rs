//! The files of a line. All that it reads and all that it writes are named here before the first is opened or made, and known
//! by what they are, whatever name or link they go by: nothing is written over what is read, and no two outputs go into one
//! file. What is written is kept here beside its place until the line has ended, and is put there together, the state last.

use crate::common::failure::{Failure, Outcome};
use crate::common::file::{behind_links, folder_of, Place, Ready};
use crate::common::visible;
use std::collections::{BTreeSet, HashMap};
use std::ffi::OsString;
use std::fs::{self, File, Metadata};
use std::io;
use std::os::unix::fs::MetadataExt;
use std::os::unix::io::AsFd;
use std::path::{Path, PathBuf};

/// A file, by whatever name. Devices and pipes have none: nothing of theirs is lost.
#[derive(Clone, PartialEq, Eq, Hash)]
enum Id {
    /// By its device and number.
    There(u64, u64),
    /// One that isn't there yet: the device and number of its folder, and its name in it.
    New(u64, u64, OsString),
}

impl Id {
    fn of(name: &Path) -> Option<Id> {
        match fs::metadata(name) {
            Ok(about) => Id::there(&about),
            Err(_) => {
                let path = behind_links(name).ok()?;
                let folder = fs::metadata(folder_of(&path)).ok()?;
                let name = path.file_name()?.to_os_string();
                Some(Id::New(folder.dev(), folder.ino(), name))
            }
        }
    }

    fn there(about: &Metadata) -> Option<Id> {
        about.is_file().then(|| Id::There(about.dev(), about.ino()))
    }

    /// What stands on standard input, or on standard output.
    fn standard(stream: impl AsFd) -> Option<Id> {
        let file = File::from(stream.as_fd().try_clone_to_owned().ok()?);
        Id::there(&file.metadata().ok()?)
    }
}

/// Whether the two names are of one file.
pub fn is_same(one: &Path, other: &Path) -> bool {
    let id = Id::of(one);
    id.is_some() && id == Id::of(other)
}

/// How a line uses a file.
struct Use {
    /// The option and the name, as the user gave them.
    told: String,
    written: bool,
}

#[derive(Default)]
pub struct Files {
    uses: HashMap<Id, Use>,
    /// The first two uses that are at odds.
    at_odds: Option<String>,
    ready: Vec<Ready>,
    /// The states, which are put last.
    states: Vec<Ready>,
    /// What couldn't be written.
    failed: Vec<String>,
}

impl Files {
    /// A file that is read, where one is named: what it is for the user, and its name; - is standard input.
    pub fn reads(&mut self, what: &str, name: Option<&Path>) {
        match name {
            None => {}
            Some(name) if name == Path::new("-") => self.reads_standard(),
            Some(name) => self.uses(Id::of(name), told(what, name), false),
        }
    }

    /// A file that is read, where all that is written has been named: it is compared, and not remembered, since a fleet has
    /// many.
    pub fn reads_last(&mut self, what: impl Fn() -> String, name: &Path) {
        let other = Id::of(name).and_then(|id| self.uses.get(&id));
        if let Some(other) = other.filter(|other| other.written) {
            let told = told(&what(), name);
            let read = Use {
                told,
                written: false,
            };
            let odds = at_odds(&read, other);
            self.at_odds.get_or_insert(odds);
        }
    }

    pub fn reads_standard(&mut self) {
        let id = Id::standard(io::stdin());
        self.uses(id, "standard input".to_string(), false);
    }

    /// All of these files; standard input where none is named.
    pub fn reads_all<'a>(&mut self, what: &str, names: impl IntoIterator<Item = &'a PathBuf>) {
        let mut names = names.into_iter().peekable();
        if names.peek().is_none() {
            self.reads_standard();
        }
        names.for_each(|name| self.reads(what, Some(name)));
    }

    /// A file that is written, by this option; - is standard output, which `writes_standard` tells of.
    pub fn writes(&mut self, option: &str, name: Option<&Path>) {
        if let Some(name) = name.filter(|name| *name != Path::new("-")) {
            self.uses(Id::of(name), told(option, name), true);
        }
    }

    /// The answer goes to standard output.
    pub fn writes_standard(&mut self) {
        let id = Id::standard(io::stdout());
        self.uses(id, "standard output".to_string(), true);
    }

    fn uses(&mut self, id: Option<Id>, told: String, written: bool) {
        let id = match id {
            Some(id) => id,
            None => return,
        };
        match self.uses.get(&id) {
            Some(other) if written || other.written => {
                let odds = at_odds(&Use { told, written }, other);
                self.at_odds.get_or_insert(odds);
            }
            Some(_) => {}
            None => drop(self.uses.insert(id, Use { told, written })),
        }
    }

    /// Asked before the first file is opened, and where more become known, before the first of those is.
    pub fn are_apart(&mut self) -> Outcome {
        self.at_odds
            .take()
            .map_or(Ok(()), |odds| Err(Failure::Wrong(odds)))
    }

    /// Writes a file beside its place, to be put there when the line has ended, and answers whether it is written.
    pub fn write(&mut self, place: Outcome<Place>, content: &[u8]) -> bool {
        let ready = self.written(place, content);
        let is_written = ready.is_some();
        self.ready.extend(ready);
        is_written
    }

    /// The same for the line's state.
    pub fn write_state(&mut self, place: Outcome<Place>, content: &[u8]) {
        let ready = self.written(place, content);
        self.states.extend(ready);
    }

    /// States that were written beside their places.
    pub fn states(&mut self, states: Vec<Outcome<Ready>>) {
        for state in states {
            match state {
                Ok(ready) => self.states.push(ready),
                Err(failure) => self.failed.extend(failure.text()),
            }
        }
    }

    fn written(&mut self, place: Outcome<Place>, content: &[u8]) -> Option<Ready> {
        match Ready::written(place, content) {
            Ok(ready) => Some(ready),
            Err(failure) => {
                self.failed.extend(failure.text());
                None
            }
        }
    }

    /// Puts nothing of it anywhere.
    pub fn drop_all(&mut self) {
        self.ready.clear();
        self.states.clear();
    }

    /// Puts all that was written in its place, with the answer, where it is in a file; nothing where something couldn't be
    /// written.
    pub fn put(mut self, answer: Outcome<Option<Ready>>) -> Outcome {
        match answer {
            Ok(answer) => self.ready.extend(answer),
            Err(failure) => self.failed.extend(failure.text()),
        }
        if !self.failed.is_empty() {
            return Err(Failure::Wrong(self.failed.join("\n  ")));
        }
        put(self.ready)?;
        put(self.states)
    }
}

/// Puts them in their places, and makes that safe on the disk.
fn put(ready: impl IntoIterator<Item = Ready>) -> Outcome {
    let mut folders = BTreeSet::new();
    for ready in ready {
        folders.extend(ready.folder());
        ready.put()?;
    }
    for folder in folders {
        // Not every folder can be opened, and not every disk can be asked.
        let _ = File::open(folder).and_then(|folder| folder.sync_all());
    }
    Ok(())
}

fn told(what: &str, name: &Path) -> String {
    format!("{what} {}", visible::line(&name.display().to_string()))
}

fn at_odds(one: &Use, other: &Use) -> String {
    let (written, other) = if one.written {
        (one, other)
    } else {
        (other, one)
    };
    let (one, two) = (&written.told, &other.told);
    if other.written {
        format!("{one} and {two} are one file: name another for one of them")
    } else {
        format!("{one} and {two} are one file, which is read: it is left as it is")
    }
}
