//! Two parties' words in one stream: who owns what, and whose each word is.

use crate::common::failure::{Failure, Outcome};
use crate::common::files::Files;
use crate::explain::cause;
use crate::input::lines::Lines;
use crate::input::numbers;
use crate::input::source::Source;
use clap::Args;
use egretfold::{Edition, Owners, Pair, Party};
use std::path::PathBuf;

#[derive(Args)]
pub struct PartiesOptions {
    /// The stream has two parties' words: a text of the digits 0 and 1, the party of each word in its order; blanks
    /// and remarks from # on are passed over
    #[arg(
        long,
        value_name = "FILE",
        requires = "owners",
        conflicts_with = "terse"
    )]
    parties: Option<PathBuf>,
    /// With --parties: what party 1 owns, as two hex numbers; bit n is input n, and output n
    #[arg(long, value_name = "INPUTS:OUTPUTS", requires = "parties", value_parser = owners)]
    owners: Option<Owners>,
}

fn owners(text: &str) -> Result<Owners, String> {
    let (inputs, outputs) = text
        .split_once(':')
        .ok_or_else(|| format!("{text:?} isn't two numbers, INPUTS:OUTPUTS"))?;
    Ok(Owners {
        inputs: numbers::word(inputs)?,
        outputs: numbers::word(outputs)?,
    })
}

impl PartiesOptions {
    /// Names the file.
    pub fn name(&self, files: &mut Files) {
        files.reads("--parties", self.parties.as_deref());
    }

    /// A session of the two parties, and whose each word is; none where there is one party.
    pub fn read(&self, edition: Edition) -> Outcome<Option<(Pair, Parties)>> {
        let (file, owners) = match (&self.parties, self.owners) {
            (Some(file), Some(owners)) => (file, owners),
            _ => return Ok(None),
        };
        let pair = Pair::new(edition, owners).map_err(|number| {
            let refused = cause::refused(number, cause::of_owners(&owners));
            Failure::Refused(format!("owners: {refused}"))
        })?;
        Ok(Some((pair, Parties::new(Source::open(Some(file))?))))
    }
}

/// Whose each word is, read beside the words.
pub struct Parties {
    lines: Lines,
    /// The present line, of which so many bytes are handed out.
    line: String,
    at: usize,
    /// Parties handed out so far.
    given: u64,
}

impl Parties {
    fn new(source: Source) -> Parties {
        Parties {
            lines: Lines::new(source),
            line: String::new(),
            at: 0,
            given: 0,
        }
    }

    /// The next word's, none where no more are named.
    pub fn next(&mut self) -> Outcome<Option<Party>> {
        loop {
            let digit = match self.line[self.at..].chars().next() {
                Some(digit) => digit,
                None => match self.lines.next()? {
                    Some(line) => {
                        (self.line, self.at) = (line, 0);
                        continue;
                    }
                    None => return Ok(None),
                },
            };
            self.at += digit.len_utf8();
            let party = match digit {
                '0' => Party::Zero,
                '1' => Party::One,
                _ if digit.is_whitespace() => continue,
                _ => {
                    let told = format!("{digit:?} is neither party 0 nor party 1");
                    return Err(self.lines.wrong(&told));
                }
            };
            self.given += 1;
            return Ok(Some(party));
        }
    }

    /// How many are named, handed out or not.
    pub fn count(&mut self) -> Outcome<u64> {
        while self.next()?.is_some() {}
        Ok(self.given)
    }
}
