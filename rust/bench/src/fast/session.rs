//! Sessions: words taken one by one or in pieces, the settings that they leave, and the tallies.
//!
//! A piece is taken by whole commands wherever it holds them: all parameters are judged at once, with one dispatch a
//! command. What is cut by a piece's end, and a command that is refused, goes word by word, which finds the word at fault.
//!
//! What the settings alone give a start is kept: a command that sets one of them renews it, and a start reads it.

use super::command::{line_of, Command, Domain, Format, Kind, Line, EVERYTHING, FIRST_OUTPUT};
use super::layout::Window;
use super::refusal::{
    Answer, DOMAIN_OUTSIDE, FULL, MALFORMED, NOT_OWNED, NOT_READY, SPANS_SHARED, STOPPED,
    UNKNOWN_HEADER,
};

/// How many words a session takes.
const MOST_WORDS: usize = 1_000_000_000;
/// The most columns and rows of a window: what no domain goes past.
const WINDOW_MOST: u32 = 4096;
/// The words of the longest command.
const LONGEST: usize = 5;

/// A set output, with its row step and its span's last byte, which were found when its format was judged.
#[derive(Clone, Copy, Debug)]
struct Output {
    format: Format,
    step: u32,
    last: u32,
    /// The mask's bits for the channels that the format has; the output is silent where none is set.
    channels: u32,
}

/// What the outputs ask of a domain, and what a pair is credited for them. Silent ones count for `any` alone.
#[derive(Clone, Copy, Debug)]
struct Gauge {
    any: bool,
    columns: u32,
    rows: u32,
    apart: bool,
    credit: u64,
}

/// The edition of the lease rule: a pair is credited one for each output that isn't silent, or its unmasked channels.
#[derive(Clone, Copy, Debug, PartialEq, Eq)]
pub enum Edition {
    First,
    Second,
}

/// What an accepted word answers.
#[derive(Clone, Copy, Debug, PartialEq, Eq)]
pub enum Reply {
    Open,
    Done(Command),
}

/// What a piece of words answers.
#[derive(Clone, Copy, Debug, PartialEq, Eq)]
pub struct Fed {
    pub taken: u64,
    pub commands: u64,
    pub refusal: Option<u32>,
}

#[derive(Clone)]
pub struct Session {
    /// The numbers that the party owns, and what is party 0's alone: a bit each.
    mine: u32,
    edition: Edition,
    taken: usize,
    stopped: bool,
    /// The open command's line, and its parameters so far.
    open: Option<&'static Line>,
    index: usize,
    fields: [u32; 4],
    runs: u64,
    claims: u64,
    domain: Option<Domain>,
    instructions: Option<Format>,
    floats: Option<Format>,
    integers: Option<Format>,
    booleans: Option<Format>,
    conditional: Option<Format>,
    inputs: [Option<Format>; 16],
    outputs: [Option<Output>; 4],
    output_mask: u32,
    conditional_mask: Option<u32>,
    test: Option<u32>,
    gauge: Gauge,
    /// 0, 7, 8 or 9: what the settings alone give a start.
    readiness: u32,
}

impl Default for Session {
    fn default() -> Session {
        Session::new()
    }
}

impl Session {
    /// A new session under edition 1: nothing set, mask 65535.
    pub fn new() -> Session {
        Session::new_in(Edition::First)
    }

    /// The same under an edition.
    #[inline(never)]
    pub fn new_in(edition: Edition) -> Session {
        Session::new_of(edition, EVERYTHING)
    }

    /// A party that owns so much.
    pub(super) fn new_of(edition: Edition, mine: u32) -> Session {
        Session {
            mine,
            edition,
            taken: 0,
            stopped: false,
            open: None,
            index: 0,
            fields: [0; 4],
            runs: 0,
            claims: 0,
            domain: None,
            instructions: None,
            floats: None,
            integers: None,
            booleans: None,
            conditional: None,
            inputs: [None; 16],
            outputs: [None; 4],
            output_mask: 0xFFFF,
            conditional_mask: None,
            test: None,
            gauge: Gauge {
                any: false,
                columns: WINDOW_MOST,
                rows: WINDOW_MOST,
                apart: true,
                credit: 0,
            },
            readiness: NOT_READY,
        }
    }

    /// A new session that counts this many words as taken, so that a test can come to the last ones.
    #[cfg(test)]
    pub(super) fn new_after(taken: usize) -> Session {
        Session {
            taken,
            ..Session::new()
        }
    }

    /// Takes one word. 1 to 9 or 17; all but 1 stop the session and drop the open command.
    #[inline(never)]
    pub fn word(&mut self, word: u32) -> Answer<Reply> {
        self.take(word)
    }

    /// Takes a piece of words, one after another up to the first refused one.
    #[inline(never)]
    pub fn feed(&mut self, words: &[u32]) -> Fed {
        self.take_piece(words)
    }

    /// A piece, where the caller's loop is ours too.
    #[inline(always)]
    pub(super) fn take_piece(&mut self, words: &[u32]) -> Fed {
        let mut rest = words;
        let mut commands = 0;
        let mut refusal = None;
        loop {
            if rest.len() >= LONGEST && self.open.is_none() && !self.stopped {
                let (after, whole) = self.take_whole_commands(rest);
                rest = after;
                commands += whole;
            }
            let (&word, after) = match rest.split_first() {
                Some(split) => split,
                None => break,
            };
            match self.take(word) {
                Ok(Reply::Open) => {}
                Ok(Reply::Done(_)) => commands += 1,
                Err(number) => {
                    refusal = Some(number);
                    break;
                }
            }
            rest = after;
        }
        Fed {
            taken: (words.len() - rest.len()) as u64,
            commands,
            refusal,
        }
    }

    /// Takes accepted commands off the front while as many words are there to look at as the longest has. Gives what is left
    /// and how many commands there were.
    fn take_whole_commands<'a>(&mut self, words: &'a [u32]) -> (&'a [u32], u64) {
        // no whole command may go past the session's last word
        let (mut rest, beyond) = words.split_at(words.len().min(MOST_WORDS - self.taken));
        let mut commands = 0;
        while let [header, p0, p1, p2, p3, ..] = *rest {
            let line = match line_of(header) {
                Some(line) => line,
                None => break,
            };
            let [r0, r1, r2, r3] = line.refused;
            if p0 & r0 | p1 & r1 | p2 & r2 | p3 & r3 | line.asks & !self.mine != 0 {
                break;
            }
            let command = match self.complete(line, [p0, p1, p2, p3]) {
                Ok(command) => command,
                Err(_) => break,
            };
            commands += 1;
            // by the command and not by the table: a guessed branch is sooner there than a loaded number
            rest = &rest[1 + command.parameters()..];
        }
        let left = rest.len() + beyond.len();
        self.taken += words.len() - left;
        (&words[words.len() - left..], commands)
    }

    /// A word, where the caller's loop is ours too.
    #[inline(always)]
    pub(super) fn take(&mut self, word: u32) -> Answer<Reply> {
        if self.stopped {
            return Err(STOPPED);
        }
        let answer = self.judge(word);
        if answer.is_ok() {
            self.taken += 1;
        } else {
            self.stopped = true;
            self.open = None;
        }
        answer
    }

    #[inline(always)]
    fn judge(&mut self, word: u32) -> Answer<Reply> {
        if self.taken == MOST_WORDS {
            return Err(FULL);
        }
        let line = match self.open {
            Some(line) => line,
            None => {
                let line = line_of(word).ok_or(UNKNOWN_HEADER)?;
                if line.asks & !self.mine != 0 {
                    return Err(NOT_OWNED);
                }
                self.open = Some(line);
                self.index = 0;
                return Ok(Reply::Open);
            }
        };
        line.judge(self.index, word)?;
        if self.index == 0 {
            self.owns(line.kind, word)?;
        }
        self.fields[self.index] = word;
        self.index += 1;
        if self.index < usize::from(line.parameters) {
            return Ok(Reply::Open);
        }
        let command = self.complete(line, self.fields)?;
        self.open = None;
        Ok(Reply::Done(command))
    }

    /// Settles a command whose parameters' reserved bits were judged: its format's code, refusals 5 to 9, and its effect.
    #[inline(always)]
    fn complete(&mut self, line: &Line, fields: [u32; 4]) -> Answer<Command> {
        let [p0, p1, p2, p3] = fields;
        let short_format = format_of(p0, p1, 1);
        Ok(match line.kind {
            Kind::SetInstructions => {
                let set = set(&mut self.instructions, short_format)?;
                self.settle();
                Command::SetInstructions(set)
            }
            Kind::SetFloats => Command::SetFloats(set(&mut self.floats, short_format)?),
            Kind::SetIntegers => Command::SetIntegers(set(&mut self.integers, short_format)?),
            Kind::SetBooleans => Command::SetBooleans(set(&mut self.booleans, short_format)?),
            Kind::SetInput => self.set_input(line, p0, format_of(p1, p2, p3))?,
            Kind::SetOutput => self.set_output(p0, format_of(p1, p2, p3))?,
            Kind::SetConditional => {
                Command::SetConditional(set(&mut self.conditional, format_of(p0, p1, p2))?)
            }
            Kind::SetOutputMask => {
                self.output_mask = p0;
                self.regauge();
                Command::SetOutputMask(p0)
            }
            Kind::SetConditionalMask => {
                self.conditional_mask = Some(p0);
                Command::SetConditionalMask(p0)
            }
            Kind::SetTest => {
                self.test = Some(p0);
                Command::SetTest(p0)
            }
            Kind::SetDomain => self.set_domain(fields)?,
            Kind::Start => self.start()?,
            Kind::WaitForIdle => Command::WaitForIdle,
            Kind::InvalidateInstructions => Command::InvalidateInstructions,
            Kind::InvalidateFloats => Command::InvalidateFloats,
            Kind::InvalidateIntegers => Command::InvalidateIntegers,
            Kind::InvalidateBooleans => Command::InvalidateBooleans,
            Kind::InvalidateConditional => Command::InvalidateConditional,
            Kind::InvalidateInputs => Command::InvalidateInputs,
            Kind::FlushOutputs => Command::FlushOutputs,
            Kind::FlushConditional => Command::FlushConditional,
        })
    }

    /// 20 for a number that the party doesn't own; numbers over the range were judged before.
    #[inline(always)]
    fn owns(&self, kind: Kind, number: u32) -> Answer<()> {
        let bit = match kind {
            Kind::SetInput => number & 15,
            Kind::SetOutput => FIRST_OUTPUT + (number & 3),
            _ => return Ok(()),
        };
        match self.mine >> bit & 1 {
            1 => Ok(()),
            _ => Err(NOT_OWNED),
        }
    }

    #[inline(always)]
    fn set_input(&mut self, line: &Line, number: u32, format: Format) -> Answer<Command> {
        self.owns(Kind::SetInput, number)?;
        if !line.allows_format(format.word) {
            return Err(MALFORMED);
        }
        set(&mut self.inputs[(number & 15) as usize], format)?;
        Ok(Command::SetInput(number, format))
    }

    #[inline(always)]
    fn set_output(&mut self, number: u32, format: Format) -> Answer<Command> {
        self.owns(Kind::SetOutput, number)?;
        let Window { step, span } = format.window()?;
        // a window ends at 2^32 at the latest, so its last byte's address fits
        let last = format.base + (span - 1);
        let place = number & 3;
        self.outputs[place as usize] = Some(Output {
            format,
            step,
            last,
            channels: format.channels() << (4 * place),
        });
        self.regauge();
        Ok(Command::SetOutput(number, format))
    }

    #[inline(always)]
    fn set_domain(&mut self, [i0, j0, i1, j1]: [u32; 4]) -> Answer<Command> {
        let domain = Domain { i0, j0, i1, j1 };
        domain.in_order()?;
        self.domain = Some(domain);
        self.settle();
        Ok(Command::SetDomain(domain))
    }

    /// The gauge after an output or the mask was set, and what it gives a start.
    #[inline(always)]
    fn regauge(&mut self) {
        let mask = self.output_mask;
        // gathered once, so that the loops below have no mask in them
        let counted = [0, 1, 2, 3].map(|n| self.outputs[n].as_ref().filter(|o| !o.is_silent(mask)));
        let outputs = counted.iter().flatten();
        let gauge = Gauge {
            any: self.outputs.iter().any(Option::is_some),
            columns: outputs.clone().fold(WINDOW_MOST, |n, o| n.min(o.step)),
            rows: outputs
                .clone()
                .fold(WINDOW_MOST, |n, o| n.min(o.format.height)),
            apart: !share_a_byte(&counted),
            credit: match self.edition {
                Edition::First => outputs.count() as u64,
                Edition::Second => outputs.map(|o| o.unmasked(mask)).sum(),
            },
        };
        self.gauge = gauge;
        self.settle();
    }

    /// What the settings alone give a start, by the gauge.
    #[inline(always)]
    fn settle(&mut self) {
        let Gauge { columns, rows, .. } = self.gauge;
        self.readiness = match (self.domain, self.instructions) {
            (Some(_), Some(_)) if !self.gauge.any => NOT_READY,
            (Some(domain), Some(_)) if domain.i1 >= columns || domain.j1 >= rows => DOMAIN_OUTSIDE,
            (Some(_), Some(_)) if !self.gauge.apart => SPANS_SHARED,
            (Some(_), Some(_)) => 0,
            _ => NOT_READY,
        };
    }

    /// 7, 8, 9, or one more run and its claim.
    #[inline(always)]
    fn start(&mut self) -> Answer<Command> {
        match self.domain {
            Some(domain) if self.readiness == 0 => {
                self.runs += 1;
                self.claims += domain.pairs() * self.gauge.credit;
                Ok(Command::Start)
            }
            _ => Err(self.readiness),
        }
    }

    /// 0, 7, 8 or 9.
    pub fn readiness(&self) -> u32 {
        self.readiness
    }

    pub fn taken(&self) -> usize {
        self.taken
    }

    pub fn stopped(&self) -> bool {
        self.stopped
    }

    /// The open command's header, and how many of its parameters were taken.
    pub fn open(&self) -> Option<(u32, u32)> {
        self.open.map(|line| (line.header, self.index as u32))
    }

    pub fn runs(&self) -> u64 {
        self.runs
    }

    pub fn claims(&self) -> u64 {
        self.claims
    }

    pub fn edition(&self) -> Edition {
        self.edition
    }

    pub fn domain(&self) -> Option<Domain> {
        self.domain
    }

    /// The format that the command with this header set, for inputs and outputs the one with this number.
    pub fn format(&self, header: u32, number: usize) -> Option<Format> {
        match line_of(header)?.kind {
            Kind::SetInstructions => self.instructions,
            Kind::SetFloats => self.floats,
            Kind::SetIntegers => self.integers,
            Kind::SetBooleans => self.booleans,
            Kind::SetConditional => self.conditional,
            Kind::SetInput => *self.inputs.get(number)?,
            Kind::SetOutput => self.outputs.get(number)?.map(|output| output.format),
            _ => None,
        }
    }

    pub fn output_mask(&self) -> u32 {
        self.output_mask
    }

    pub fn conditional_mask(&self) -> Option<u32> {
        self.conditional_mask
    }

    #[inline(always)]
    pub(super) fn conditional(&self) -> Option<Format> {
        self.conditional
    }

    pub fn test(&self) -> Option<u32> {
        self.test
    }
}

impl Output {
    #[inline(always)]
    fn is_silent(&self, mask: u32) -> bool {
        self.channels & mask == 0
    }

    #[inline(always)]
    fn unmasked(&self, mask: u32) -> u64 {
        u64::from((self.channels & mask).count_ones())
    }

    #[inline(always)]
    fn shares_with(&self, other: &Output) -> bool {
        self.format.base <= other.last && other.format.base <= self.last
    }
}

#[inline(always)]
fn share_a_byte(outputs: &[Option<&Output>; 4]) -> bool {
    outputs.iter().enumerate().any(|(place, output)| {
        let mut later = outputs[place + 1..].iter().flatten();
        output.map_or(false, |output| later.any(|other| output.shares_with(other)))
    })
}

#[inline(always)]
fn format_of(base: u32, word: u32, height: u32) -> Format {
    Format { base, word, height }
}

/// Keeps a format that passes the window rule.
#[inline(always)]
fn set(setting: &mut Option<Format>, format: Format) -> Answer<Format> {
    format.window()?;
    *setting = Some(format);
    Ok(format)
}
