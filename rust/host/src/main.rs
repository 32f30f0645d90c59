//! The command `egretfold`: scores a station's month, reads command streams, works
//! addresses and steps flow programs for people. Every answer is the product's,
//! through the crate `egretfold`; here it is only named, laid out and parsed.
//!
//! A folder a subcommand, whose first page is the subcommand itself:
//!
//! * `score`: a lease line and a log; its forms are the `card`, the `rows` for
//!   programs, the `picture`, and the fleet's page; `checks` say what to look at before it is sent, and
//!   `issue` by whom and when it is; `sample` is for no arguments, which scores
//!   `station` 14's month;
//! * `fleet`: a lease file and many logs, read side by side; its forms are the `text`, the
//!   `rows` for programs, the `page` for browsers and the folder of `cards`;
//! * `verify`: a card held against its logs, which are scored anew;
//! * `history`: months' scores side by side, as `text`, as `rows` and as a `page`;
//! * `decode`: words given to a session by a `walk`; its forms are the `listing` and
//!   `json`. `encode` is the way back, on one page;
//! * `replay`: the `log` given to a replay; its forms are in `days`;
//! * `address`, with `locate` and `tile`: the `work`ing of an address by hand,
//!   and document 01's `tiles`;
//! * `picture`: whole windows out of memory and back into it; `survey`: the conditional
//!   test at all pairs of a domain;
//! * `flow`: a program's `slots`, and the `steps` of a group;
//! * `explain`: the table of `refusals`, and the `cause` of one that came;
//! * `completions` and `manual`: the command line itself, for shells and for man.
//!
//! `input` reads what a user gives, and `common` has what several share.

#![forbid(unsafe_code)]

mod address;
mod common;
mod completions;
mod decode;
mod encode;
mod explain;
mod fleet;
mod flow;
mod history;
mod input;
mod manual;
mod picture;
mod replay;
mod score;
mod survey;
mod verify;

use clap::{CommandFactory, Parser, Subcommand};
use common::failure::{Failure, Outcome};
use common::files::Files;
use common::interrupt;
use common::output::{self, Output};
use common::visible;
use std::io::{self, Write};
use std::process::ExitCode;

/// What `--version` tells; `-V` and the card have the first line alone.
const LONG_VERSION: &str = concat!(
    env!("EGRETFOLD_VERSION"),
    "\nproved with ",
    env!("EGRETFOLD_PROVED_WITH"),
    "\nSHA-256 of the proved archive: ",
    env!("EGRETFOLD_ARCHIVE_SHA256")
);

const AFTER: &str = "\
Words and addresses are hex, with or without 0x; counts are decimal, or hex with 0x.
With no command, a sample month is scored.
Exit status: 0 fine, 1 something was refused, 2 a wrong command line or file, 3 a short month.";

/// Months scored, logs replayed, command streams decoded, tile addresses worked both ways, pictures moved, flow programs stepped
#[derive(Parser)]
#[command(name = "egretfold", version = env!("EGRETFOLD_VERSION"), long_version = LONG_VERSION, after_help = AFTER)]
struct Line {
    #[command(subcommand)]
    what: Option<What>,
    #[command(flatten)]
    output: output::Options,
}

#[derive(Subcommand)]
enum What {
    /// A month of a station's log, scored against its lease line
    #[command(after_help = score::EXAMPLES)]
    Score(score::Options),
    /// A month of many stations, scored against their lease lines
    #[command(after_help = fleet::EXAMPLES)]
    Fleet(fleet::Options),
    /// A card held against its logs, which are scored anew
    #[command(after_help = verify::EXAMPLES)]
    Verify(verify::Options),
    /// Months' scores side by side: what each station was served month by month, and what got worse
    #[command(after_help = history::EXAMPLES)]
    History(history::Options),
    /// A stream of command words as a listing
    #[command(after_help = decode::EXAMPLES)]
    Decode(decode::Options),
    /// A listing, or its terse form, back to words
    #[command(after_help = encode::EXAMPLES)]
    Encode(encode::Options),
    /// A station's log over midnight: runs and claimed elements, day by day
    #[command(after_help = replay::EXAMPLES)]
    Replay(replay::Options),
    /// A pair of a window to the address of its element
    #[command(after_help = address::EXAMPLES)]
    Address(address::Options),
    /// A byte address back to its pair and its place in the element
    #[command(after_help = address::locate::EXAMPLES)]
    Locate(address::locate::Options),
    /// A tile drawn, with the place of each block
    #[command(after_help = address::tile::EXAMPLES)]
    Tile(address::tile::Options),
    /// A window of memory out to a picture, or a picture into it
    #[command(after_help = picture::EXAMPLES)]
    Picture(picture::Options),
    /// The conditional test of a stream's settings at all pairs of a domain
    #[command(after_help = survey::EXAMPLES)]
    Survey(survey::Options),
    /// A flow program listed, or stepped with given masks
    #[command(after_help = flow::EXAMPLES)]
    Flow(flow::Options),
    /// What a refusal means, in the documents' words
    Explain(explain::Options),
    /// What a shell completes, in the shell's language
    #[command(after_help = completions::EXAMPLES)]
    Completions(completions::Options),
    /// The manual page, for man
    #[command(after_help = manual::EXAMPLES)]
    Manual(manual::Options),
}

fn main() -> ExitCode {
    interrupt::prepare();
    let line = match Line::try_parse() {
        Ok(line) => line,
        Err(told) => return ExitCode::from(tell(&told)),
    };
    match answer(&line) {
        Ok(()) => ExitCode::SUCCESS,
        Err(failure) => ExitCode::from(failure.tell()),
    }
}

/// A wrong line, or help that was asked for: its text, which may hold what the user
/// wrote, and its exit status.
fn tell(told: &clap::Error) -> u8 {
    let text = visible::lines(&told.to_string());
    if told.use_stderr() {
        // Where it can't be written, the status alone must do.
        let _ = write!(io::stderr(), "{text}");
        return WRONG;
    }
    let mut out = io::stdout();
    match write!(out, "{text}").and_then(|()| out.flush()) {
        Err(error) if error.kind() != io::ErrorKind::BrokenPipe => Failure::from(error).tell(),
        _ => 0,
    }
}

/// The exit status of a wrong line.
const WRONG: u8 = 2;

fn answer(line: &Line) -> Outcome {
    let mut files = Files::default();
    line.output.name(&mut files);
    name(line, &mut files);
    files.are_apart()?;
    let mut output = Output::open(&line.output)?;
    // Words up to a refused line are no answer; all others tell what was refused.
    let reports = !matches!(&line.what, Some(What::Encode(_)));
    let outcome = match &line.what {
        // Words in binary go through as they are.
        Some(What::Encode(options)) if !options.is_text() => {
            encode::ask_terminal(output.is_terminal())?;
            encode::run(options, &mut output)
        }
        Some(What::Picture(options)) if options.is_binary() => {
            picture::ask_terminal(output.is_terminal())?;
            picture::run(options, &mut files, &mut output)
        }
        _ => run(line, &mut files, &mut output.text()),
    };
    output.end(outcome, reports, files)
}

/// Names the files of the line that its subcommand reads and writes.
fn name(line: &Line, files: &mut Files) {
    match &line.what {
        Some(What::Score(options)) => options.name(files),
        Some(What::Fleet(options)) => options.name(files),
        Some(What::Verify(options)) => options.name(files),
        Some(What::History(options)) => options.name(files),
        Some(What::Decode(options)) => options.name(files),
        Some(What::Encode(options)) => options.name(files),
        Some(What::Replay(options)) => options.name(files),
        Some(What::Address(options)) => options.name(files),
        Some(What::Locate(options)) => options.name(files),
        Some(What::Picture(options)) => options.name(files),
        Some(What::Survey(options)) => options.name(files),
        Some(What::Flow(options)) => options.name(files),
        Some(What::Tile(_) | What::Explain(_) | What::Completions(_) | What::Manual(_)) | None => {}
    }
}

fn run(line: &Line, files: &mut Files, out: &mut dyn Write) -> Outcome {
    match &line.what {
        None => score::sample::run(out),
        Some(What::Score(options)) => score::run(options, files, out),
        Some(What::Fleet(options)) => fleet::run(options, files, out),
        Some(What::Verify(options)) => verify::run(options, out),
        Some(What::History(options)) => history::run(options, files, out),
        Some(What::Decode(options)) => decode::run(options, out),
        Some(What::Encode(options)) => encode::run(options, out),
        Some(What::Replay(options)) => replay::run(options, files, out),
        Some(What::Address(options)) => address::run(options, out),
        Some(What::Locate(options)) => address::locate::run(options, out),
        Some(What::Tile(options)) => address::tile::run(options, out),
        Some(What::Picture(options)) => picture::run(options, files, out),
        Some(What::Survey(options)) => survey::run(options, files, out),
        Some(What::Flow(options)) => flow::run(options, out),
        Some(What::Explain(options)) => explain::run(options, out),
        Some(What::Completions(options)) => completions::run(options, Line::command(), out),
        Some(What::Manual(_)) => manual::run(Line::command(), out),
    }
}
