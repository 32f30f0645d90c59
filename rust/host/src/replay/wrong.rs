//! How a state's file is wrong, and what to do about it.

use std::fmt;

#[derive(Clone, Debug, PartialEq, Eq)]
pub enum Wrong {
    NoState,
    /// The line end behind its name isn't there.
    LineEnd,
    Version(u32),
    /// The length that is due isn't known where the file ends before it.
    Cut {
        bytes: usize,
        due: Option<u64>,
    },
    TooLong {
        due: u64,
    },
    Damaged,
    Kind(u32),
    /// Judged by the product: no state of its own.
    Judged,
    /// A state, but not that of the bytes that the file tells of.
    Contradicted,
    /// One after which no byte is taken.
    Stopped(u32),
}

impl fmt::Display for Wrong {
    /// The cause, and on a line of its own what to do.
    fn fmt(&self, f: &mut fmt::Formatter) -> fmt::Result {
        let anew = "save it again from the log's files, or take another copy of it";
        match self {
            Wrong::NoState => write!(
                f,
                "is no state file\n  --resume takes what --save wrote; a log is given without it"
            ),
            Wrong::LineEnd => write!(
                f,
                "is damaged: its line ends were changed on its way, as a copy in text mode does\n  {anew}"
            ),
            Wrong::Version(version) => write!(
                f,
                "is a state file of version {version}, and this egretfold reads versions 1 and 2\n  \
                 a later egretfold wrote it: go on with that one, or save it again from the log's files with this one"
            ),
            Wrong::Cut {
                bytes,
                due: Some(due),
            } => {
                write!(f, "is cut: it has {bytes} of its {due} bytes\n  {anew}")
            }
            Wrong::Cut { bytes, due: None } => {
                write!(f, "is cut: it has only {bytes} bytes\n  {anew}")
            }
            Wrong::TooLong { due } => write!(
                f,
                "is damaged: more stands there than its {due} bytes\n  {anew}"
            ),
            Wrong::Damaged => write!(
                f,
                "is damaged: its bytes don't have the SHA-256 that it ends with\n  {anew}"
            ),
            Wrong::Kind(kind) => write!(
                f,
                "holds {}, not a replay's\n  --resume takes what replay or score saved",
                kind_name(*kind)
            ),
            Wrong::Judged => write!(
                f,
                "is whole, but its numbers are no replay's: they were judged and refused\n  \
                 it isn't as --save wrote it; save it again from the log's files"
            ),
            Wrong::Contradicted => write!(
                f,
                "is whole, but its state isn't that of the bytes it tells of\n  \
                 it isn't as --save wrote it; save it again from the log's files"
            ),
            Wrong::Stopped(number) => write!(
                f,
                "holds a replay that refusal {number} has stopped, after which no byte is taken\n  \
                 give the log's files again, mended"
            ),
        }
    }
}

fn kind_name(kind: u32) -> String {
    match kind {
        1 => "a session's state".to_string(),
        2 => "the state of a session of two parties".to_string(),
        4 => "a group's state".to_string(),
        _ => format!("a state of kind {kind}, which isn't known here"),
    }
}
