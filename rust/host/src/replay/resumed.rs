//! A log that goes on from a state that was saved: the options, the file, and what is
//! told of both.

use crate::common::digest::{self, Digest, LENGTH};
use crate::common::failure::{Failure, Outcome};
use crate::common::file::Ready;
use crate::common::files::{self, Files};
use crate::common::replaced::{Kind, Replaced};
use crate::common::text;
use crate::common::visible;
use crate::input::packed;
use crate::input::source;
use crate::replay::about;
use crate::replay::kept::{self, shortened, Kept, Piece, RECORD};
use crate::replay::log::Log;
use crate::score::civil::Date;
use clap::Args;
use egretfold::{Edition, Lease};
use std::fmt;
use std::fs::File;
use std::io::{self, Read};
use std::path::{Path, PathBuf};

// Named otherwise than the subcommand's own options: clap takes the name for a group
// of arguments, and each must be unique in a line.
#[derive(Args)]
pub struct StateOptions {
    /// Go on from the state in this file, which --save wrote: the inputs are what came behind it
    #[arg(long, value_name = "FILE")]
    pub resume: Option<PathBuf>,
    /// Save the state at the log's end in this file, for --resume; an earlier state there is replaced, nothing else. Of
    /// the days it keeps the last one alone, so that states don't grow
    #[arg(long, value_name = "FILE")]
    pub save: Option<PathBuf>,
    /// The same with all days so far, for a replay that lists them
    #[arg(long, value_name = "FILE", conflicts_with = "save")]
    pub save_all: Option<PathBuf>,
}

impl StateOptions {
    /// Names both files. A state may be replaced by the one that follows it.
    pub fn name(&self, files: &mut Files) {
        let (option, save) = match &self.save_all {
            Some(save) => ("--save-all", Some(save.as_path())),
            None => ("--save", self.save.as_deref()),
        };
        let resume = self.resume.as_deref();
        files.writes(option, save);
        let follows = |resume: &&Path| save.map_or(false, |save| files::is_same(resume, save));
        match resume {
            Some(resume) if !follows(&resume) => files.reads("--resume", Some(resume)),
            _ => {}
        }
    }

    /// Where the state is to be saved, asked before anything is read.
    pub fn place(&self) -> Outcome<Option<Saved>> {
        match (&self.save, &self.save_all) {
            (Some(name), _) => Saved::at(name, "--save", false).map(Some),
            (None, Some(name)) => Saved::at(name, "--save-all", true).map(Some),
            (None, None) => Ok(None),
        }
    }

    pub fn saves(&self) -> bool {
        self.save.is_some() || self.save_all.is_some()
    }

    /// The log that is asked for, with its digest only where a state has it.
    pub fn begin(&self, edition: Edition) -> Outcome<Log> {
        match (&self.resume, self.saves()) {
            (None, false) => Ok(Log::new(edition)),
            (resume, false) => begin(resume.as_deref(), edition, &Whose::default()),
            (resume, true) => {
                let log = begin(resume.as_deref(), edition, &Whose::default())?;
                Ok(log.for_a_state())
            }
        }
    }
}

/// What a line says of whose log it is, which a state tells besides.
#[derive(Clone, Default)]
pub struct Whose {
    pub station: Option<String>,
    /// A day's number, and its date.
    pub dated: Option<(u32, Date)>,
}

impl Whose {
    /// The date of a day, that one or a later one.
    pub fn date(&self, day: u32) -> Option<Date> {
        let (known, date) = self.dated?;
        date.after(day.checked_sub(known)?)
    }
}

/// Where a state is saved.
pub struct Saved {
    name: String,
    file: Replaced,
    /// Whether all days are kept.
    all_days: bool,
}

impl Saved {
    pub fn at(name: &Path, option: &str, all_days: bool) -> Outcome<Saved> {
        if source::is_standard(Some(name)) {
            let text = format!("{option} -: a state is saved in a file, not on standard output");
            return Err(Failure::Wrong(text));
        }
        Ok(Saved {
            name: visible::line(&name.display().to_string()),
            file: Replaced::new(name, Kind::State)?,
            all_days,
        })
    }

    /// The state's file, or why there is none: a replay that is stopped isn't saved, and what stands there stays.
    fn content(&self, log: &Log, whose: &Whose) -> Result<Vec<u8>, String> {
        let (files, most) = (log.inputs.len(), about::MOST_FILES);
        let why = match log.kept(whose, self.all_days) {
            Some(kept) if files <= most => return Ok(kept.to_bytes()),
            Some(_) => format!("since a state tells of at most {most} files, and these are {files}: save more often, or join some"),
            None => "since no byte is taken after that".to_string(),
        };
        Err(format!("{}: nothing is saved, {why}", self.name))
    }

    /// Saves the log's state, and tells how the subcommand ends with it.
    pub fn save(&self, log: &Log, whose: &Whose, outcome: Outcome, files: &mut Files) -> Outcome {
        match self.content(log, whose) {
            Ok(content) => {
                self.file.write(content, files);
                outcome
            }
            Err(told) => match outcome {
                Ok(()) | Err(Failure::Short) => Err(Failure::Wrong(told)),
                Err(failure) => Err(failure.hinted(Some(told))),
            },
        }
    }

    /// The same beside its place, to be put there by who has it.
    pub fn beside(&self, log: &Log, whose: &Whose) -> Outcome<Ready> {
        let content = self.content(log, whose).map_err(Failure::Wrong)?;
        self.file.beside(&content)
    }
}

/// A new log under the edition, or the one that goes on from the state in this file, which must
/// be this station's.
pub fn begin(resume: Option<&Path>, edition: Edition, whose: &Whose) -> Outcome<Log> {
    let path = match resume {
        Some(path) => path,
        None => return Ok(Log::with_digest(edition)),
    };
    let (kept, resumed) = load(path)?;
    let name = &resumed.name;
    let saved = kept.edition();
    if saved != edition {
        let (saved, asked) = (saved.number(), edition.number());
        return Err(Failure::Wrong(format!(
            "{name}: was saved under edition {saved} of the lease rule, and this is edition {asked}\n  \
             --edition {saved} goes on from it"
        )));
    }
    match (&kept.station, whose.station.as_deref().map(shortened)) {
        (Some(saved), Some(asked)) if saved != asked => Err(Failure::Wrong(format!(
            "{name}: is the state of station {saved}, and this is station {asked}\n  \
             give the state that was saved for station {asked}"
        ))),
        _ => Ok(Log::resumed(kept, resumed)),
    }
}

/// The station of the state in this file, where it is one and tells of one.
pub fn station_of(path: &Path) -> Option<String> {
    let bytes = read(path).ok()?;
    Kept::from_bytes(&bytes).ok()?.station
}

fn load(path: &Path) -> Outcome<(Kept, Resumed)> {
    if source::is_standard(Some(path)) {
        let text = "--resume -: a state is read from a file; standard input is for the log";
        return Err(Failure::Wrong(text.to_string()));
    }
    let name = visible::line(&path.display().to_string());
    let wrong = |what: &dyn fmt::Display| Failure::Wrong(format!("{name}: {what}"));
    if path.is_dir() {
        return Err(wrong(&"is a folder"));
    }
    let bytes = read(path).map_err(|error| wrong(&packed::failed(&error)))?;
    let kept = Kept::from_bytes(&bytes).map_err(|error| wrong(&error))?;
    let resumed = Resumed::new(name, &kept, kept::of_all(&bytes));
    Ok((kept, resumed))
}

/// The file's bytes, unpacked where gzip packed them, and one more than any state file has where
/// it is longer.
fn read(path: &Path) -> io::Result<Vec<u8>> {
    let mut bytes = Vec::new();
    let most = kept::MOST as u64 + 1;
    let (_, reader) = packed::unpacked(Box::new(File::open(path)?));
    reader.take(most).read_to_end(&mut bytes)?;
    Ok(bytes)
}

/// What a log goes on from.
pub struct Resumed {
    /// The state's file, and the SHA-256 of its bytes.
    pub name: String,
    pub digest: [u8; LENGTH],
    pub station: Option<String>,
    /// The last day's date then.
    date: Option<Date>,
    /// How many bytes of the log came before.
    pub bytes: u64,
    /// What came behind the save before: all of it, and file by file.
    month: Piece,
    pub files: Vec<Piece>,
    /// The days that it knows, and whether earlier ones are forgotten.
    days: Option<(u32, u32)>,
    forgets: bool,
    /// How many bytes of a record stood open.
    unfinished: u32,
    /// As many of the bytes that come now, to know those again that came before.
    met: Digest,
    again: bool,
}

impl Resumed {
    pub fn new(name: String, kept: &Kept, digest: [u8; LENGTH]) -> Resumed {
        let status = kept.replay.status();
        Resumed {
            name,
            digest,
            station: kept.station.clone(),
            date: kept.date,
            bytes: kept.consumed,
            month: kept.month.clone(),
            files: kept.files.clone(),
            days: status.days,
            forgets: kept.forgotten > 0,
            unfinished: status.unfinished,
            met: Digest::new(),
            again: false,
        }
    }

    /// The last day that came before.
    pub fn last_day(&self) -> Option<u32> {
        self.days.map(|(_, last)| last)
    }

    /// The SHA-256 of the state's file, in hex.
    pub fn sha256(&self) -> String {
        digest::hex(self.digest)
    }

    /// The date of a day, the last one then or a later one.
    pub fn date(&self, day: u32) -> Option<Date> {
        let dated = self.last_day().zip(self.date);
        Whose {
            station: None,
            dated,
        }
        .date(day)
    }

    /// A lease line that begins before the kept day would find forgotten days dark, so it isn't
    /// scored.
    pub fn keeps(&self, lease: &Lease) -> Outcome {
        let kept = match self.days {
            Some((first, _)) if self.forgets && lease.first_day() < first => first,
            _ => return Ok(()),
        };
        let (name, day) = (&self.name, lease.first_day());
        Err(Failure::Wrong(format!(
            "lease line: begins on day {day}, and {name} has no day before {kept}: it has forgotten them\n  \
             give a state that was saved before day {day}, or the log's files from there on"
        )))
    }

    /// Where the state and the lease line give a day other dates: what is told of it.
    pub fn other_date(&self, whose: &Whose) -> Option<String> {
        let (day, date) = whose.dated?;
        let saved = self.date(day).filter(|saved| *saved != date)?;
        let name = &self.name;
        Some(format!(
            "by {name} day {day} is {saved}, and by the lease line it is {date}"
        ))
    }

    /// Takes in a piece that comes now.
    pub fn meet(&mut self, piece: &[u8]) {
        let left = self.month.bytes - self.met.length();
        let count = left.min(piece.len() as u64);
        self.met.update(&piece[..count as usize]);
        if left > 0 && count == left {
            self.again = self.met.finished() == self.month.digest;
        }
    }

    pub fn is_again(&self) -> bool {
        self.again
    }

    /// What is said where what came last comes again.
    pub fn complaint(&self, input: &str) -> String {
        let (name, bytes) = (&self.name, text::count(self.month.bytes, "byte"));
        // Behind a midnight no log goes on with the same bytes.
        let twice = match self.days {
            None => "; where the same bytes came a second time, give both logs without --resume",
            Some(_) => "",
        };
        format!(
            "{input}: begins with the {bytes} that were taken before {name} was saved\n  \
             give only what came behind them, or all of it without --resume{twice}"
        )
    }

    /// What to try where what comes now is refused with this number.
    pub fn hint(&self, number: u32) -> Option<String> {
        let (name, open) = (&self.name, self.unfinished);
        match (number, self.last_day()) {
            (18, _) if open > 0 => Some(format!(
                "{name} ends inside a record, with {open} of its {RECORD} bytes: what is given must go on there"
            )),
            (19, Some(day)) => Some(format!(
                "{name} ends in day {day}: this is another log, or days between them are missing, or these came before"
            )),
            _ => None,
        }
    }
}

impl fmt::Display for Resumed {
    fn fmt(&self, f: &mut fmt::Formatter) -> fmt::Result {
        write!(f, "resumed from {} at byte {}", self.name, self.bytes)?;
        match self.days {
            Some((first, _)) if self.forgets => {
                write!(f, "; what ended before day {first} stands in one row")
            }
            _ => Ok(()),
        }
    }
}
