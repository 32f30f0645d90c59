//! Where a subcommand's answer goes: standard output, a file, or nowhere; and how it ends together with the other files of
//! the line.

use crate::common::failure::{Failure, Outcome};
use crate::common::file::{Ready, Stands, UntilGone, Whole};
use crate::common::files::Files;
use crate::common::replaced;
use crate::common::visible::Visible;
use crate::input::progress;
use clap::Args;
use std::io::{self, BufWriter, Stdout, Write};
use std::path::{Path, PathBuf};

/// The options that every subcommand has.
#[derive(Args)]
pub struct Options {
    /// Prints no answer: the exit status tells, and standard error what is wrong
    #[arg(long, short, global = true, conflicts_with = "output")]
    quiet: bool,
    /// Writes the answer into this file, whole or not at all, and never over what is read; - for standard output
    #[arg(long, short, value_name = "FILE", global = true)]
    output: Option<PathBuf>,
}

impl Options {
    /// Names what is written.
    pub fn name(&self, files: &mut Files) {
        match self.output.as_deref() {
            _ if self.quiet => {}
            Some(file) if file != Path::new("-") => files.writes("--output", Some(file)),
            _ => files.writes_standard(),
        }
    }
}

pub struct Output {
    to: To,
    /// Whether any of the answer is written, and whether that failed.
    begun: bool,
    failed: bool,
}

enum To {
    Standard(BufWriter<Standard>),
    File(Whole),
    Nowhere,
}

impl Output {
    pub fn open(options: &Options) -> Outcome<Output> {
        let place = match &options.output {
            Some(file) if file != Path::new("-") => Some(replaced::by_answer(file)?),
            _ => None,
        };
        let to = match place {
            _ if options.quiet => To::Nowhere,
            Some(place) if place.stands != Stands::Descriptor(STANDARD) => To::File(place.begin()?),
            _ => To::Standard(BufWriter::new(Standard {
                stdout: UntilGone::new(io::stdout()),
                terminal: console::user_attended(),
            })),
        };
        Ok(Output {
            to,
            begun: false,
            failed: false,
        })
    }

    /// A writer for text.
    pub fn text(&mut self) -> Visible<&mut Output> {
        Visible(self)
    }

    /// Whether the answer is shown on a terminal.
    pub fn is_terminal(&self) -> bool {
        matches!(&self.to, To::Standard(out) if out.get_ref().terminal)
    }

    /// Ends the line: the answer, and then all files of the line are put in their places, unless one of them couldn't be
    /// written. Where something was refused, what there is of an answer is one only where the subcommand `reports` so.
    pub fn end(self, outcome: Outcome, reports: bool, mut files: Files) -> Outcome {
        let failed = self.failed;
        let is_answer = match &outcome {
            Ok(()) | Err(Failure::Short) => true,
            Err(Failure::Refused(_)) => reports && self.begun,
            // The command line or an input was wrong.
            Err(Failure::Wrong(_)) => false,
        };
        if failed {
            // Which the outcome tells.
            files.drop_all();
            return Failure::both(outcome, files.put(Ok(None)));
        }
        let answer = self.finished(is_answer);
        Failure::both(outcome, files.put(answer))
    }

    fn finished(self, is_answer: bool) -> Outcome<Option<Ready>> {
        match self.to {
            To::Standard(mut out) => out.flush().map(|()| None).map_err(Failure::from),
            To::File(file) if is_answer => file.end().map(Some),
            To::File(_) | To::Nowhere => Ok(None),
        }
    }
}

impl Write for Output {
    fn write(&mut self, bytes: &[u8]) -> io::Result<usize> {
        self.begun = true;
        let written = match &mut self.to {
            To::Standard(out) => out.write(bytes),
            To::File(file) => file.write(bytes).map_err(|error| named(file, error)),
            To::Nowhere => Ok(bytes.len()),
        };
        self.failed |= written.is_err();
        written
    }

    fn flush(&mut self) -> io::Result<()> {
        match &mut self.to {
            To::Standard(out) => {
                let flushed = out.flush();
                self.failed |= flushed.is_err();
                flushed
            }
            To::File(_) | To::Nowhere => Ok(()),
        }
    }
}

/// An error of a file with its name, which `Failure` takes as it is.
fn named(file: &Whole, error: io::Error) -> io::Error {
    match file.failed(error) {
        Failure::Wrong(text) => io::Error::new(io::ErrorKind::Other, text),
        _ => io::ErrorKind::Other.into(),
    }
}

/// The descriptor of standard output.
const STANDARD: i32 = 1;

/// Standard output.
struct Standard {
    stdout: UntilGone<Stdout>,
    terminal: bool,
}

impl Write for Standard {
    fn write(&mut self, bytes: &[u8]) -> io::Result<usize> {
        if self.terminal {
            progress::make_way();
        }
        self.stdout.write(bytes)
    }

    fn flush(&mut self) -> io::Result<()> {
        self.stdout.flush()
    }
}
