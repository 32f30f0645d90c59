//! A stream of command words given to a session one by one, with what each word
//! came to: the session of one party, or of two, whose words are mixed. The forms in
//! which `decode` prints are told of every word.

use crate::common::failure::{Failure, Outcome};
use crate::common::kinds::Position;
use crate::common::names::{self, Kind, Line};
use crate::common::settings::{self, Setting};
use crate::decode::parties::Parties;
use crate::explain::cause::{self, Refused};
use crate::input::words::Words;
use egretfold::{headers, Answer, Command, Edition, Pair, Party, Reply, Session, View};
use std::fmt;

/// What a word came to.
pub enum Came {
    /// The command is still open.
    Open,
    Done(Command),
    Refused(Refused),
    /// Its party was stopped before this word.
    After,
}

/// A word of the stream.
pub struct Seen<'a> {
    /// Whose it is, where there are two.
    pub party: Option<Party>,
    pub position: Position,
    pub word: u32,
    /// The command's words up to this one, its header first; empty for a word
    /// after the refused one.
    pub open: &'a [u32],
    pub came: Came,
}

/// An output that is set at a start: how many of its channels the mask leaves.
pub struct Output {
    pub number: u32,
    pub unmasked: u64,
    pub channels: u64,
}

/// A start that passed.
pub struct Start<'a> {
    pub party: Option<Party>,
    pub position: Position,
    pub runs: u64,
    pub claims: u64,
    /// What this start claimed.
    pub claimed: u64,
    /// The settings in force, each with whether it changed since the last start;
    /// none for a form that doesn't want them.
    pub settings: &'a [(Setting, bool)],
    view: View<'a>,
}

/// What a start would get now.
#[derive(Clone)]
pub struct Ready {
    pub stopped: bool,
    /// 0, 7, 8 or 9: what the settings alone give it.
    pub number: u32,
    /// Why, where that isn't 0.
    pub cause: Option<String>,
}

/// The stream as a whole, or a party's part of it.
pub struct Totals {
    pub party: Option<Party>,
    /// The input's name.
    pub name: String,
    pub words: u64,
    pub taken: u64,
    /// Completed commands, by their lines of the table.
    pub commands: Vec<(&'static Line, u64)>,
    pub edition: Edition,
    pub runs: u64,
    pub claims: u64,
    /// The open command at the end: its name, parameters taken, parameters due.
    pub open: Option<(&'static str, u32, u32)>,
    /// The refused word.
    pub refused: Option<(Position, Refused)>,
    pub settings: Vec<Setting>,
    /// What to try where these were no command words.
    pub hint: Option<String>,
    pub ready: Ready,
}

/// A form of output.
pub trait Form {
    /// Whether a start's settings are wanted: to gather them takes its time.
    fn wants_settings(&self) -> bool {
        false
    }

    fn word(&mut self, seen: &Seen) -> Outcome;
    fn start(&mut self, start: &Start) -> Outcome;
    fn end(&mut self, totals: &Totals) -> Outcome;

    /// A command has changed what a start would get of the settings. Told where it is asked for.
    fn ready(&mut self, _: Option<Party>, _: Position, _: &Ready) -> Outcome {
        Ok(())
    }
}

/// A form that prints nothing, for those who want the totals.
pub struct Quiet;

impl Form for Quiet {
    fn word(&mut self, _: &Seen) -> Outcome {
        Ok(())
    }

    fn start(&mut self, _: &Start) -> Outcome {
        Ok(())
    }

    fn end(&mut self, _: &Totals) -> Outcome {
        Ok(())
    }
}

impl Seen<'_> {
    /// The command's line of the table, where its header has one.
    pub fn line(&self) -> Option<&'static Line> {
        names::command(*self.open.first()?)
    }

    /// What kind of parameter this word is, if it is one.
    pub fn kind(&self) -> Option<Kind> {
        let place = self.open.len().checked_sub(2)?;
        self.line()?.parameters.get(place).copied()
    }
}

impl Start<'_> {
    pub fn edition(&self) -> Edition {
        self.view.status().edition
    }

    /// The outputs that are set. Asked of the product at each call, since not all forms tell of them.
    pub fn outputs(&self) -> Vec<Output> {
        let mask = self.view.output_mask();
        let output = |(number, format)| Output {
            number,
            unmasked: settings::unmasked(mask, number, &format),
            channels: settings::channels(&format),
        };
        let set = settings::outputs(self.view);
        set.into_iter().map(output).collect()
    }
}

impl Output {
    pub fn is_silent(&self) -> bool {
        self.unmasked == 0
    }
}

impl Ready {
    fn of(party: View) -> Ready {
        let status = party.status();
        Ready {
            stopped: status.stopped,
            number: status.readiness,
            cause: cause::of_start(status.readiness, party),
        }
    }
}

/// "a start now would get 7: no domain is set".
impl fmt::Display for Ready {
    fn fmt(&self, f: &mut fmt::Formatter) -> fmt::Result {
        let cause = match self.number {
            0 => "it would pass",
            _ => self.cause.as_deref().unwrap_or("the settings refuse it"),
        };
        if self.stopped {
            write!(
                f,
                "a start now would get 1: the session is stopped; by the settings alone "
            )?;
        } else {
            write!(f, "a start now would get ")?;
        }
        write!(f, "{}: {cause}", self.number)
    }
}

impl Totals {
    pub fn completed(&self) -> u64 {
        self.commands.iter().map(|(_, count)| count).sum()
    }

    /// Words after the refused one.
    pub fn after(&self) -> u64 {
        match self.refused {
            Some(_) => self.words - self.taken - 1,
            None => 0,
        }
    }
}

/// Who takes the words: the session, or a party of two.
trait Taker {
    fn word(&mut self, word: u32) -> Answer<Reply>;
    fn view(&self) -> View<'_>;
}

impl Taker for Session {
    fn word(&mut self, word: u32) -> Answer<Reply> {
        Session::word(self, word)
    }

    fn view(&self) -> View<'_> {
        Session::view(self)
    }
}

struct Lessee<'a> {
    pair: &'a mut Pair,
    party: Party,
}

impl Taker for Lessee<'_> {
    fn word(&mut self, word: u32) -> Answer<Reply> {
        self.pair.word(self.party, word)
    }

    fn view(&self) -> View<'_> {
        self.pair.view(self.party)
    }
}

/// Walks all words under an edition, telling each change of what a start would get, or none.
pub fn one(edition: Edition, changes: bool, words: Words, form: &mut dyn Form) -> Outcome<Totals> {
    through(&mut Session::new(edition), changes, words, form)
}

/// The same through a session at hand, for those who ask it afterwards.
pub fn through(
    session: &mut Session,
    changes: bool,
    words: Words,
    form: &mut dyn Form,
) -> Outcome<Totals> {
    let mut walk = Walk::new(None, session.view(), changes);
    let take = |at, word, form: &mut dyn Form| walk.word(at, word, session, form);
    let (words, ended) = each(words, form, take)?;
    let totals = walk.totals(session.view(), &words);
    form.end(&totals)?;
    ended.map_err(|failure| failure.hinted(totals.hint.clone()))?;
    Ok(totals)
}

/// The same for two parties' words, where this names the party of each.
pub fn two(
    mut pair: Pair,
    mut parties: Parties,
    changes: bool,
    words: Words,
    form: &mut dyn Form,
) -> Outcome<[Totals; 2]> {
    let mut walks = Party::BOTH.map(|party| Walk::new(Some(party), pair.view(party), changes));
    let mut count = 0;
    let take = |at: Position, word, form: &mut dyn Form| {
        count = at.0 + 1;
        // Words without a party are only counted.
        let party = match parties.next()? {
            Some(party) => party,
            None => return Ok(()),
        };
        let pair = &mut pair;
        let walk = &mut walks[party.number() as usize];
        walk.word(at, word, &mut Lessee { pair, party }, form)
    };
    let (words, ended) = each(words, form, take)?;
    let totals = Party::BOTH.map(|party| {
        let walk = &walks[party.number() as usize];
        walk.totals(pair.view(party), &words)
    });
    for each in &totals {
        form.end(each)?;
    }
    ended.map_err(|failure| failure.hinted(words.hint()))?;
    let named = parties.count()?;
    if count == named {
        Ok(totals)
    } else {
        Err(Failure::wrong(format!(
            "{}: {count} words, and the parties of {named} are named",
            words.name()
        )))
    }
}

/// Gives every word to this, with its position. Where the input fails on the way, the words before that are given all the
/// same: the failure comes beside what is left of the input.
fn each(
    mut words: Words,
    form: &mut dyn Form,
    mut take: impl FnMut(Position, u32, &mut dyn Form) -> Outcome,
) -> Outcome<(Words, Outcome)> {
    let mut position = 0;
    let ended = loop {
        match words.piece() {
            Ok([]) => break Ok(()),
            Ok(piece) => {
                for word in piece {
                    take(Position(position), *word, form)?;
                    position += 1;
                }
            }
            Err(failure) => break Err(failure),
        }
    };
    Ok((words, ended))
}

/// Where a party's words stand.
struct Walk {
    party: Option<Party>,
    words: u64,
    open: Vec<u32>,
    commands: [u64; names::COMMANDS.len()],
    refused: Option<(Position, Refused)>,
    /// The settings at the last start.
    last: Vec<Setting>,
    /// What the settings gave a start before this word; nothing where changes aren't asked for.
    ready: Option<u32>,
}

impl Walk {
    fn new(party: Option<Party>, view: View, changes: bool) -> Walk {
        Walk {
            party,
            words: 0,
            open: Vec::new(),
            commands: [0; names::COMMANDS.len()],
            refused: None,
            last: settings::all(view),
            ready: changes.then(|| view.status().readiness),
        }
    }

    fn word(
        &mut self,
        position: Position,
        word: u32,
        taker: &mut dyn Taker,
        form: &mut dyn Form,
    ) -> Outcome {
        self.words += 1;
        let claims = taker.view().claims();
        let came = self.take(position, word, taker);
        let start =
            matches!(&came, Came::Done(command) if command.header == headers::START_PROGRAM);
        let ends = !matches!(came, Came::Open);
        let seen = Seen {
            party: self.party,
            position,
            word,
            open: &self.open,
            came,
        };
        form.word(&seen)?;
        if ends {
            self.open.clear();
        }
        if start {
            self.start(position, claims, taker.view(), form)?;
        }
        self.tell_ready(position, taker.view(), form)
    }

    /// Tells what a start would get where this word has changed it.
    fn tell_ready(&mut self, position: Position, view: View, form: &mut dyn Form) -> Outcome {
        let now = view.status().readiness;
        match self.ready {
            Some(before) if before != now => {
                self.ready = Some(now);
                form.ready(self.party, position, &Ready::of(view))
            }
            _ => Ok(()),
        }
    }

    /// Gives the word to the one who takes it.
    fn take(&mut self, position: Position, word: u32, taker: &mut dyn Taker) -> Came {
        if self.refused.is_some() {
            return Came::After;
        }
        self.open.push(word);
        match taker.word(word) {
            Ok(Reply::Open) => Came::Open,
            Ok(Reply::Done(command)) => {
                let line = names::COMMANDS
                    .iter()
                    .position(|line| line.header == command.header);
                if let Some(place) = line {
                    self.commands[place] += 1;
                }
                Came::Done(command)
            }
            Err(refusal) => {
                let cause = cause::of_word(refusal, taker.view(), &self.open);
                let refused = cause::refused(refusal, cause);
                self.refused = Some((position, refused.clone()));
                Came::Refused(refused)
            }
        }
    }

    fn start(
        &mut self,
        position: Position,
        claims: u64,
        view: View,
        form: &mut dyn Form,
    ) -> Outcome {
        let now = if form.wants_settings() {
            settings::all(view)
        } else {
            Vec::new()
        };
        let mark = |setting: &Setting| (setting.clone(), !self.last.contains(setting));
        let marked: Vec<(Setting, bool)> = now.iter().map(mark).collect();
        form.start(&Start {
            party: self.party,
            position,
            runs: view.runs(),
            claims: view.claims(),
            claimed: view.claims() - claims,
            settings: &marked,
            view,
        })?;
        self.last = now;
        Ok(())
    }

    fn totals(&self, view: View, words: &Words) -> Totals {
        let status = view.status();
        let counted = names::COMMANDS.iter().zip(self.commands);
        let due = |header| egretfold::parameters(header).unwrap_or(0);
        Totals {
            party: self.party,
            name: words.name().to_string(),
            words: self.words,
            taken: u64::from(status.taken),
            commands: counted.filter(|(_, count)| *count > 0).collect(),
            edition: status.edition,
            runs: view.runs(),
            claims: view.claims(),
            open: status
                .open
                .map(|(header, taken)| (names::command_name(header), taken, due(header))),
            refused: self.refused.clone(),
            settings: settings::all(view),
            hint: words.hint(),
            ready: Ready::of(view),
        }
    }
}
