//! The forms of `decode` for people: the listing, its terse form and the summary.
//! Lines of the listing that are no words begin with #, so that `encode` passes
//! over them.

use crate::common::digits::Digits;
use crate::common::failure::Outcome;
use crate::common::kinds::{Address, Position, Word};
use crate::common::names::Kind;
use crate::common::settings::{self, Setting};
use crate::common::text;
use crate::decode::walk::{Came, Form, Output, Ready, Seen, Start, Totals};
use crate::explain::cause::Refused;
use egretfold::{Edition, Party};
use std::io::Write;

/// Where party 1's column begins, behind party 0's.
const COLUMN: usize = 44;

/// A line a word, the settings at each start. Of two parties each has a column.
pub struct Listing<'a> {
    pub out: &'a mut dyn Write,
}

impl Listing<'_> {
    /// The columns' heads.
    pub fn two_parties(&mut self) -> Outcome {
        writeln!(self.out, "#{:20}{:COLUMN$}party 1", "", "party 0")?;
        Ok(())
    }
}

/// "party 1, " before what is told of one of two parties.
pub fn whose(party: Option<Party>) -> String {
    party.map_or(String::new(), |party| format!("party {}, ", party.number()))
}

impl Form for Listing<'_> {
    fn wants_settings(&self) -> bool {
        true
    }

    fn word(&mut self, seen: &Seen) -> Outcome {
        let (at, word) = (seen.position, Word(seen.word));
        let text = match seen.came {
            Came::After => "not taken".to_string(),
            _ => meaning(seen),
        };
        let column = match seen.party {
            Some(Party::One) => COLUMN,
            _ => 0,
        };
        writeln!(self.out, "{at:>8}:  {word}  {:column$}{text}", "")?;
        if let Came::Refused(refused) = &seen.came {
            writeln!(self.out, "# {}word {at}: {refused}", whose(seen.party))?;
        }
        Ok(())
    }

    fn start(&mut self, start: &Start) -> Outcome {
        writeln!(self.out, "#")?;
        let since = if start.runs == 1 {
            "stream's begin"
        } else {
            "last start"
        };
        writeln!(self.out, "# {}; * is new since the {since}", claim(start))?;
        for (setting, changed) in start.settings {
            show_setting(self.out, setting, if *changed { '*' } else { ' ' })?;
        }
        writeln!(self.out, "#")?;
        Ok(())
    }

    fn end(&mut self, totals: &Totals) -> Outcome {
        for line in closing(totals) {
            writeln!(self.out, "# {line}")?;
        }
        Ok(())
    }

    fn ready(&mut self, party: Option<Party>, _: Position, ready: &Ready) -> Outcome {
        writeln!(self.out, "# {}{ready}", whose(party))?;
        Ok(())
    }
}

/// "start 2: claims 1728 in 1 of 2 outputs (1 silent), 5184 so far"; by channels under edition 2.
fn claim(start: &Start) -> String {
    let outputs = start.outputs();
    let counted = match start.edition() {
        Edition::First => by_outputs(&outputs),
        Edition::Second => by_channels(&outputs),
    };
    let Start {
        runs,
        claimed,
        claims,
        ..
    } = start;
    let whose = whose(start.party);
    format!("{whose}start {runs}: claims {claimed} in {counted}, {claims} so far")
}

fn by_outputs(outputs: &[Output]) -> String {
    let set = outputs.len() as u64;
    let silent = outputs.iter().filter(|output| output.is_silent()).count() as u64;
    match silent {
        0 => text::count(set, "output"),
        _ => format!(
            "{} of {} ({silent} silent)",
            set - silent,
            text::count(set, "output")
        ),
    }
}

/// "1 of 1 channel of output 0 and 2 of 4 channels of output 1".
fn by_channels(outputs: &[Output]) -> String {
    let one = |output: &Output| {
        let channels = text::count(output.channels, "channel");
        format!(
            "{} of {channels} of output {}",
            output.unmasked, output.number
        )
    };
    let each: Vec<String> = outputs.iter().map(one).collect();
    each.join(" and ")
}

fn show_setting(out: &mut dyn Write, setting: &Setting, mark: char) -> Outcome {
    writeln!(out, "# {mark} {:<18}  {}", setting.name, setting.words())?;
    Ok(())
}

/// The counts, how the stream ends, its first refusal, and what a start would get.
fn closing(totals: &Totals) -> Vec<String> {
    let under = match totals.edition {
        Edition::First => "",
        Edition::Second => " under edition 2",
    };
    let mut lines = vec![format!(
        "{}, {}, {}, {} claimed{under}",
        text::count(totals.words, "word"),
        text::count(totals.completed(), "command"),
        text::count(totals.runs, "run"),
        text::count(totals.claims, "element"),
    )];
    if let Some((name, taken, due)) = totals.open {
        lines.push(format!(
            "ends inside {name}: {taken} of its {due} parameters taken"
        ));
    }
    if let Some((position, Refused { number, .. })) = &totals.refused {
        let (taken, after) = (
            text::count(totals.taken, "word"),
            text::count(totals.after(), "word"),
        );
        lines.push(format!("refused {number} at word {position}: {taken} taken before it, {after} after it not taken"));
    }
    lines.push(totals.ready.to_string());
    let whose = whose(totals.party);
    lines.iter().map(|line| format!("{whose}{line}")).collect()
}

/// What a word that the session looked at says.
fn meaning(seen: &Seen) -> String {
    match (seen.line(), seen.kind()) {
        (Some(_), Some(kind)) => format!("  {}", parameter(seen, kind)),
        (Some(line), None) => line.name.to_string(),
        (None, _) => "no command".to_string(),
    }
}

/// A parameter in words. The one that completes a format or a domain tells the
/// window or the pairs too.
fn parameter(seen: &Seen, kind: Kind) -> String {
    let name = kind.name();
    let value = match kind {
        Kind::Base => Address(seen.word).to_string(),
        Kind::Format => text::format_word(seen.word),
        Kind::OutputMask => text::output_mask(seen.word),
        _ => seen.word.to_string(),
    };
    format!("{name} {value}{}", completed(seen))
}

fn completed(seen: &Seen) -> String {
    let command = match &seen.came {
        Came::Done(command) => command,
        _ => return String::new(),
    };
    let line = match seen.line() {
        Some(line) => line,
        None => return String::new(),
    };
    if line.parameters.contains(&Kind::J1) {
        return format!(", domain {}", settings::domain_words(&command.fields));
    }
    match settings::layout_of(line, &command.fields) {
        Some(layout) => settings::window(&layout),
        None => String::new(),
    }
}

/// A line a command, by its name and its parameters in hex; words that complete
/// no command stand as they are.
pub struct Terse<'a> {
    pub out: &'a mut dyn Write,
    /// The words of the open command, in case the stream ends inside it.
    pub open: Vec<u32>,
}

impl Form for Terse<'_> {
    fn word(&mut self, seen: &Seen) -> Outcome {
        self.open.clear();
        match (&seen.came, seen.line()) {
            (Came::Open, _) => self.open.extend(seen.open),
            (Came::Done(_), Some(line)) => {
                let fields = seen.open[1..].iter().map(|field| format!(" {field:X}"));
                writeln!(self.out, "{}{}", line.name, fields.collect::<String>())?;
            }
            (Came::Refused(refused), _) => {
                writeln!(
                    self.out,
                    "{}  # word {}: {refused}",
                    raw(seen.open),
                    seen.position
                )?;
            }
            _ => writeln!(self.out, "{}  # not taken", Word(seen.word))?,
        }
        Ok(())
    }

    fn start(&mut self, start: &Start) -> Outcome {
        writeln!(self.out, "# {}", claim(start))?;
        Ok(())
    }

    fn end(&mut self, totals: &Totals) -> Outcome {
        if !self.open.is_empty() {
            writeln!(self.out, "{}", raw(&self.open))?;
        }
        for line in closing(totals) {
            writeln!(self.out, "# {line}")?;
        }
        Ok(())
    }

    fn ready(&mut self, party: Option<Party>, _: Position, ready: &Ready) -> Outcome {
        writeln!(self.out, "# {}{ready}", whose(party))?;
        Ok(())
    }
}

fn raw(words: &[u32]) -> String {
    let words: Vec<String> = words.iter().map(|word| Word(*word).to_string()).collect();
    words.join(" ")
}

/// The totals alone.
pub struct Summary<'a> {
    pub out: &'a mut dyn Write,
    pub digits: Digits,
}

impl Form for Summary<'_> {
    fn word(&mut self, _: &Seen) -> Outcome {
        Ok(())
    }

    fn start(&mut self, _: &Start) -> Outcome {
        Ok(())
    }

    fn end(&mut self, totals: &Totals) -> Outcome {
        let out = &mut self.out;
        writeln!(out, "{}{}", whose(totals.party), totals.name)?;
        for line in closing(totals) {
            writeln!(out, "  {line}")?;
        }
        if let Some((position, refused)) = &totals.refused {
            writeln!(out, "  word {position}: {refused}")?;
        }
        writeln!(out, "commands")?;
        for (line, count) in &totals.commands {
            writeln!(out, "  {:<20}  {}", line.name, self.digits.of(*count))?;
        }
        writeln!(out, "settings at the end")?;
        for setting in &totals.settings {
            writeln!(out, "  {:<20}  {}", setting.name, setting.words())?;
        }
        Ok(())
    }
}
