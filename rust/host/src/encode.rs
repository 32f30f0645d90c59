//! `egretfold encode`: a listing, or its terse form, back to words. A line is one
//! of
//!
//! * a word of the listing, `POSITION: WORD …`, of which the word counts and the
//!   position must be the next one;
//! * a command by its name and its parameters in hex, which the product's writer
//!   makes into words; a reserved parameter may be left out;
//! * any number of words in hex;
//! * nothing, or a remark from # on.

use crate::common::failure::{Failure, Outcome};
use crate::common::files::Files;
use crate::common::names::{self, Kind, Line};
use crate::explain::cause::{self, Refused};
use crate::input::lines::Lines;
use crate::input::numbers;
use crate::input::source::Source;
use clap::Args;
use egretfold::Command;
use std::io::Write;
use std::path::PathBuf;

/// Printed behind the help text.
pub const EXAMPLES: &str = "\
A line is a line of a listing, a command by its name and its parameters in hex, or
words in hex; from # on it is a remark.

Examples, from the repository's root:
  egretfold encode samples/several.txt >several.ctm
  egretfold decode several.ctm | egretfold encode | cmp - several.ctm
  echo 'set_domain 0 0 5F 11' | egretfold encode --hex";

#[derive(Args)]
pub struct Options {
    /// The listing; standard input for - or where none is given
    file: Option<PathBuf>,
    /// Writes the words as hex text, one a line, not as little-endian binary
    #[arg(long)]
    hex: bool,
}

impl Options {
    /// Names the file of the line.
    pub fn name(&self, files: &mut Files) {
        files.reads_all("FILE", &self.file);
    }

    /// Whether text is written.
    pub fn is_text(&self) -> bool {
        self.hex
    }
}

/// Binary words would be obeyed by a terminal, not shown.
pub fn ask_terminal(is_terminal: bool) -> Outcome {
    if is_terminal {
        Err(Failure::wrong(
            "words in binary are nothing for a terminal: take --hex, or --output FILE",
        ))
    } else {
        Ok(())
    }
}

pub fn run(options: &Options, out: &mut dyn Write) -> Outcome {
    let mut lines = Lines::new(Source::open(options.file.as_deref())?);
    let mut position = 0;
    while let Some(line) = lines.next()? {
        let words =
            words_of(&line, position).map_err(|fault| fault.at(&lines).hinted(lines.hint()))?;
        for word in &words {
            if options.hex {
                writeln!(out, "{word:08X}")?
            } else {
                out.write_all(&word.to_le_bytes())?
            }
        }
        position += words.len() as u64;
    }
    Ok(())
}

/// What is wrong with a line.
enum Fault {
    Text(String),
    Refused(Refused),
}

impl Fault {
    fn at(self, lines: &Lines) -> Failure {
        match self {
            Fault::Text(text) => lines.wrong(&text),
            Fault::Refused(refused) => Failure::Refused(lines.place(&refused.to_string())),
        }
    }
}

impl From<String> for Fault {
    fn from(text: String) -> Fault {
        Fault::Text(text)
    }
}

/// The words of a line, the first of which would stand at this position.
fn words_of(line: &str, position: u64) -> Result<Vec<u32>, Fault> {
    let gap = |c: char| c == ',' || c.is_whitespace();
    let tokens: Vec<&str> = line.split(gap).filter(|token| !token.is_empty()).collect();
    match tokens.first() {
        Some(first) if first.ends_with(':') => Ok(vec![listed(&tokens, position)?]),
        // Every name has this, and no hex number.
        Some(first) if first.contains('_') => named(first, &tokens[1..]),
        _ => Ok(hex(&tokens)?),
    }
}

fn hex(tokens: &[&str]) -> Result<Vec<u32>, String> {
    tokens.iter().map(|token| numbers::word(token)).collect()
}

fn listed(tokens: &[&str], position: u64) -> Result<u32, String> {
    let stated = tokens[0].strip_suffix(':').unwrap_or(tokens[0]);
    let digits = stated.bytes().all(|byte| byte.is_ascii_digit());
    if !digits || stated.parse() != Ok(position) {
        return Err(format!("position {stated} stands where {position} is due"));
    }
    let word = tokens.get(1).ok_or("no word behind the position")?;
    numbers::word(word)
}

/// A name that no command has, with the one that it may be meant for.
fn no_command(name: &str) -> String {
    let near = |line: &Line| strsim::damerau_levenshtein(name, line.name);
    match names::COMMANDS.iter().min_by_key(|line| near(line)) {
        Some(line) if near(line) <= LIKE => {
            format!("{name:?} is no command; {} is one", line.name)
        }
        _ => format!("{name:?} is no command"),
    }
}

/// So many letters wrong, missing or exchanged are taken for a slip.
const LIKE: usize = 3;

/// A command by its name: its words by the product's writer.
fn named(name: &str, rest: &[&str]) -> Result<Vec<u32>, Fault> {
    let line = names::command_named(name).ok_or_else(|| no_command(name))?;
    let fields = fields(line, hex(rest)?)?;
    let mut command = Command {
        header: line.header,
        fields: [0; 4],
    };
    command.fields[..fields.len()].copy_from_slice(&fields);
    let mut room = [0; 5];
    match egretfold::write_command(&command, &mut room) {
        Ok(count) => Ok(room[..count].to_vec()),
        Err(refusal) => {
            let cause = cause::of_command(refusal, line, &fields);
            Err(Fault::Refused(cause::refused(refusal, cause)))
        }
    }
}

/// The command's fields. The writer writes 0 for a reserved parameter whatever it
/// is given, so another one is asked about here.
fn fields(line: &Line, mut fields: Vec<u32>) -> Result<Vec<u32>, Fault> {
    let reserved = line.parameters == [Kind::Reserved];
    if reserved && fields.is_empty() {
        fields.push(0);
    }
    let (due, given) = (line.parameters.len(), fields.len());
    if due != given {
        let name = line.name;
        return Err(Fault::Text(format!(
            "{name} has {due} parameters, here are {given}"
        )));
    }
    if reserved && fields[0] != 0 {
        let cause = cause::reserved(Kind::Reserved, fields[0]);
        return Err(Fault::Refused(cause::refused(3_u32, Some(cause))));
    }
    Ok(fields)
}
