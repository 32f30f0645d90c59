//! `egretfold decode`: a stream of command words as a listing.

mod json;
mod listing;
mod parties;
pub mod settled;
pub mod walk;

use crate::common::digits::Digits;
use crate::common::edition::{self, EditionOption};
use crate::common::failure::{Failure, Outcome};
use crate::common::files::Files;
use crate::decode::json::Json;
use crate::decode::listing::{Listing, Summary, Terse};
use crate::decode::parties::{Parties, PartiesOptions};
use crate::decode::walk::{Form, Totals};
use crate::input::source::Source;
use crate::input::words::Words;
use clap::Args;
use egretfold::{Edition, Pair};
use std::io::Write;
use std::path::PathBuf;

/// Printed behind the help text.
pub const EXAMPLES: &str = "\
Examples, from the repository's root:
  egretfold decode samples/several.ctm
  egretfold decode --hex samples/refused.hex
  egretfold decode --ready --terse samples/several.ctm
  egretfold decode --summary --json samples/whole.ctm
  egretfold decode --edition 2 --terse samples/channels.ctm
  egretfold decode --parties samples/intruder.parties --owners 0:2 samples/intruder.ctm";

#[derive(Args)]
pub struct Options {
    /// The stream: little-endian words; standard input for - or where none is given
    file: Option<PathBuf>,
    /// The stream is hex text
    #[arg(long)]
    hex: bool,
    /// Only the counts and the settings at the end
    #[arg(long, conflicts_with = "terse")]
    summary: bool,
    /// A line a command, by name, as `encode` reads it too
    #[arg(long)]
    terse: bool,
    /// One JSON object a word, a start and for the whole, a line each
    #[arg(long, conflicts_with = "terse")]
    json: bool,
    /// What a start would get of the settings, at each command that changes it
    #[arg(long)]
    ready: bool,
    /// With --summary: large numbers without commas between their digits
    #[arg(long, requires = "summary", conflicts_with = "json")]
    plain: bool,
    #[command(flatten)]
    edition: EditionOption,
    #[command(flatten)]
    parties: PartiesOptions,
}

impl Options {
    /// Names the files of the line.
    pub fn name(&self, files: &mut Files) {
        files.reads_all("FILE", &self.file);
        self.parties.name(files);
    }
}

pub fn run(options: &Options, out: &mut dyn Write) -> Outcome {
    let edition = options.edition.accepted().map_err(edition::refused)?;
    let lessees = options.parties.read(edition)?;
    let words = Words::new(Source::open(options.file.as_deref())?, options.hex);
    let summary = options.summary;
    let stream = Stream {
        edition,
        lessees,
        changes: options.ready,
        words,
    };
    if options.json {
        stream.show(&mut Json { out, summary })
    } else if summary {
        let digits = Digits::plain(options.plain);
        stream.show(&mut Summary { out, digits })
    } else if options.terse {
        let open = Vec::new();
        stream.show(&mut Terse { out, open })
    } else {
        let mut listing = Listing { out };
        if stream.lessees.is_some() {
            listing.two_parties()?;
        }
        stream.show(&mut listing)
    }
}

/// A stream as it is asked for.
struct Stream {
    edition: Edition,
    /// Two parties, and whose each word is; none where there is one.
    lessees: Option<(Pair, Parties)>,
    /// Whether each change of what a start would get is told.
    changes: bool,
    words: Words,
}

impl Stream {
    /// Walks the words and ends with the stream's refusal, if there is one, of each party.
    fn show(self, form: &mut dyn Form) -> Outcome {
        let Stream {
            edition,
            changes,
            words,
            ..
        } = self;
        let totals = match self.lessees {
            None => vec![walk::one(edition, changes, words, form)?],
            Some((pair, parties)) => walk::two(pair, parties, changes, words, form)?.into(),
        };
        let refused = |totals: &Totals| {
            let (position, refused) = totals.refused.as_ref()?;
            let whose = listing::whose(totals.party);
            Some(format!(
                "{}: {whose}word {position}: {refused}",
                totals.name
            ))
        };
        let told: Vec<String> = totals.iter().filter_map(refused).collect();
        if told.is_empty() {
            Ok(())
        } else {
            Err(Failure::Refused(told.join("\n")).hinted(totals[0].hint.clone()))
        }
    }
}
