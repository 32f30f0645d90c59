//! Where input comes from: a file, or standard input for "-" or no name. It is
//! read in pieces of fixed size, so that memory stays the same for any length; a
//! mapped file would do no better here and could be cut short under our eyes. What
//! begins as gzip's files do is unpacked on the way.

use crate::common::failure::{Failure, Outcome};
use crate::common::visible;
use crate::input::archive;
use crate::input::later::Later;
use crate::input::packed::{self, Counted};
use crate::input::progress::Bar;
use nix::unistd::isatty;
use std::fs::{self, File};
use std::io::{self, Read, Write};
use std::os::unix::io::AsRawFd;
use std::path::{Path, PathBuf};

/// Bytes that are read at once: a whole number of words.
pub const PIECE: usize = 1 << 16;

/// Bytes of memory that are read: twice the largest window.
const MOST_MEMORY: u64 = 1 << 30;

/// So many bytes of an input's begin are kept, to tell what it looks like.
const BEGIN: usize = 512;

pub struct Source {
    /// The file's name, for messages, with nothing that a terminal would obey.
    pub name: String,
    reader: Box<dyn Read>,
    /// Whether nothing is read yet.
    fresh: bool,
    /// Whether what is packed is unpacked, and whether it is.
    unpacks: bool,
    packed: bool,
    /// Bytes read so far, and those of the file that they came from.
    at: u64,
    raw: Counted,
    /// The first bytes read.
    begin: Vec<u8>,
    /// What the input failed with.
    error: Option<io::Error>,
    bar: Bar,
}

/// What standard input is called.
pub const STANDARD: &str = "standard input";

/// Whether the name says standard input.
pub fn is_standard(file: Option<&Path>) -> bool {
    file.map_or(true, |path| path.as_os_str() == "-")
}

/// For readers of a library; a failure keeps its words.
impl Read for Source {
    fn read(&mut self, room: &mut [u8]) -> io::Result<usize> {
        let failed = |failure: Failure| failure.text().unwrap_or_default();
        let filled = self.fill(room);
        filled.map_err(|failure| io::Error::new(io::ErrorKind::Other, failed(failure)))
    }
}

impl Source {
    pub fn open(file: Option<&Path>) -> Outcome<Source> {
        let path = match file {
            Some(path) if !is_standard(file) => path,
            _ => return Ok(Source::standard()),
        };
        let name = visible::line(&path.display().to_string());
        let wrong = |error| Failure::Wrong(format!("{name}: {error}"));
        let file = File::open(path).map_err(wrong)?;
        let about = file.metadata().map_err(wrong)?;
        if about.is_dir() {
            // As reading it would fail, but before anything is answered.
            let empty = fs::read_dir(path).map_or(false, |mut entries| entries.next().is_none());
            let what = if empty { "an empty folder" } else { "a folder" };
            return Err(Failure::Wrong(format!("{name}: is {what}")));
        }
        let length = Some(about.len());
        Ok(if about.is_file() {
            Source::new(name, Box::new(Later::new(path, &about)), length)
        } else {
            // A pipe can't be opened twice.
            Source::new(name, Box::new(file), length)
        })
    }

    fn standard() -> Source {
        if isatty(io::stdin().as_raw_fd()).unwrap_or(false) {
            // Where standard error is closed, nobody wonders.
            let _ = writeln!(
                io::stderr(),
                "egretfold: reading standard input; Ctrl-D ends it"
            );
        }
        Source::new(STANDARD.into(), Box::new(io::stdin()), None)
    }

    /// The input's bytes as they stand: memory may begin as gzip's files do.
    pub fn without_unpacking(self) -> Source {
        Source {
            fresh: false,
            unpacks: false,
            ..self
        }
    }

    /// All of these files; standard input where none is named. All are asked for first,
    /// so that none is read where one is missing.
    pub fn open_all(files: &[PathBuf]) -> Outcome<Vec<Source>> {
        match files {
            [] => Ok(vec![Source::open(None)?]),
            files => files.iter().map(|file| Source::open(Some(file))).collect(),
        }
    }

    /// Bytes that stand in the program itself.
    pub fn of_bytes(name: &str, bytes: &'static [u8]) -> Source {
        Source::new(name.into(), Box::new(bytes), None)
    }

    fn new(name: String, reader: Box<dyn Read>, length: Option<u64>) -> Source {
        let raw = Counted::default();
        Source {
            name,
            reader: Box::new(raw.counting(reader)),
            fresh: true,
            unpacks: true,
            packed: false,
            at: 0,
            raw,
            begin: Vec::new(),
            error: None,
            bar: Bar::new(length),
        }
    }

    /// Fills the room as far as the input goes and answers how far that was. Where
    /// the input fails, the bytes before that come first, and the failure with the
    /// next call.
    pub fn fill(&mut self, room: &mut [u8]) -> Outcome<usize> {
        if self.fresh {
            self.fresh = false;
            let reader = std::mem::replace(&mut self.reader, Box::new(io::empty()));
            (self.packed, self.reader) = packed::unpacked(reader);
        }
        let is_begin = self.at == 0 && self.unpacks;
        let mut filled = 0;
        while filled < room.len() && self.error.is_none() {
            match self.reader.read(&mut room[filled..]) {
                Ok(0) => break,
                Ok(count) => filled += count,
                Err(error) if error.kind() == io::ErrorKind::Interrupted => {}
                Err(error) => self.error = Some(error),
            }
        }
        let missing = BEGIN.saturating_sub(self.begin.len()).min(filled);
        self.begin.extend(&room[..missing]);
        self.at += filled as u64;
        self.bar.at(self.raw.bytes());
        let archive = is_begin.then(|| archive::named(&self.begin)).flatten();
        if let Some(archive) = archive {
            return Err(self.wrong(archive.told(self.packed)));
        }
        match &self.error {
            Some(error) if filled == 0 => Err(self.wrong(self.failed(error))),
            _ => Ok(filled),
        }
    }

    /// All bytes, up to so many and a piece more.
    pub fn up_to(&mut self, most: u64) -> Outcome<Vec<u8>> {
        let mut all = Vec::new();
        loop {
            let begin = all.len();
            all.resize(begin + PIECE, 0);
            let count = self.fill(&mut all[begin..])?;
            all.truncate(begin + count);
            if count == 0 || all.len() as u64 > most {
                return Ok(all);
            }
        }
    }

    /// The whole input, of which that much is taken.
    pub fn all(&mut self, most: usize) -> Outcome<Vec<u8>> {
        let all = self.up_to(most as u64)?;
        if all.len() > most {
            Err(self.wrong(format!("is longer than {most} bytes")))
        } else {
            Ok(all)
        }
    }

    /// A dump of memory from this address on. Memory that ends above 2^32 isn't read to its
    /// end.
    pub fn memory(&mut self, at: u32) -> Outcome<Vec<u8>> {
        let most = MOST_MEMORY.min((1 << 32) - u64::from(at));
        let longer = format!("is longer than {MOST_MEMORY} bytes, the most memory that is read");
        if most == MOST_MEMORY && self.bar.length().map_or(false, |length| length > most) {
            return Err(self.wrong(longer));
        }
        let dump = self.up_to(most)?;
        if dump.len() as u64 > MOST_MEMORY {
            Err(self.wrong(longer))
        } else {
            Ok(dump)
        }
    }

    fn failed(&self, error: &io::Error) -> String {
        if self.packed {
            let cause = packed::failed(error);
            format!("byte {} of what gzip packed: {cause}", self.at)
        } else {
            format!("byte {}: {error}", self.at)
        }
    }

    /// Bytes read so far.
    pub fn at(&self) -> u64 {
        self.at
    }

    /// The input's first bytes, as far as they are read.
    pub fn begin(&self) -> &[u8] {
        &self.begin
    }

    /// A failure that names this input.
    pub fn wrong(&self, text: String) -> Failure {
        Failure::Wrong(format!("{}: {text}", self.name))
    }
}
