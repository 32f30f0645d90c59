//! How a subcommand ends other than well, and the exit status that says so.

use crate::common::visible;
use std::fmt::Display;
use std::io::{self, Write};

pub enum Failure {
    /// The product refused something. Exit status 1.
    Refused(String),
    /// A wrong command line, or a file that can't be read or written. Exit status
    /// 2.
    Wrong(String),
    /// A month that is short, which the card has told. Exit status 3.
    Short,
}

pub type Outcome<T = ()> = Result<T, Failure>;

/// Errors of our own output. Those of files are named with their file where they
/// arise.
impl From<io::Error> for Failure {
    fn from(error: io::Error) -> Failure {
        match error.get_ref() {
            Some(named) => Failure::wrong(named),
            None => Failure::Wrong(format!("standard output: {error}")),
        }
    }
}

impl Failure {
    pub fn wrong(text: impl Display) -> Failure {
        Failure::Wrong(text.to_string())
    }

    /// The same failure with something to try, on a line of its own.
    pub fn hinted(self, hint: Option<String>) -> Failure {
        let behind = |text| match &hint {
            Some(hint) => format!("{text}\n  {hint}"),
            None => text,
        };
        match self {
            Failure::Refused(text) => Failure::Refused(behind(text)),
            Failure::Wrong(text) => Failure::Wrong(behind(text)),
            Failure::Short => Failure::Short,
        }
    }

    /// How a line ends of which something couldn't be written: that is told besides, and the status is its.
    pub fn both(outcome: Outcome, written: Outcome) -> Outcome {
        match (outcome, written) {
            (outcome, Ok(())) => outcome,
            (Ok(()) | Err(Failure::Short), written) => written,
            (Err(failure), Err(more)) => {
                let texts = failure.text().into_iter().chain(more.text());
                let texts: Vec<String> = texts.collect();
                Err(Failure::Wrong(texts.join("\negretfold: ")))
            }
        }
    }

    /// What it says.
    pub fn text(self) -> Option<String> {
        match self {
            Failure::Refused(text) | Failure::Wrong(text) => Some(text),
            Failure::Short => None,
        }
    }

    /// Says what is wrong on standard error and gives the exit status.
    pub fn tell(self) -> u8 {
        let (text, status) = match self {
            Failure::Refused(text) => (text, 1),
            Failure::Wrong(text) => (text, 2),
            Failure::Short => return 3,
        };
        let text = visible::lines(&text);
        // Where standard error is closed too, the status alone must do.
        let _ = writeln!(io::stderr(), "egretfold: {text}");
        status
    }
}
