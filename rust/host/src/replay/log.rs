//! A station's log given to a replay piece by piece, with the place and the cause
//! of what was refused.

use crate::common::digest::{self, Digest};
use crate::common::failure::{Failure, Outcome};
use crate::explain::cause::{self, Refused};
use crate::input::looks::{self, Looks};
use crate::input::source::{Source, PIECE};
use crate::replay::kept::{shortened, Kept, Piece, BACK, MOST_MIDNIGHTS, RECORD};
use crate::replay::pieces::Pieces;
use crate::replay::resumed::{Resumed, Whose};
use egretfold::{Edition, LogStatus, Replay};
use std::fmt;

const WORD: u8 = 1;
const MIDNIGHT: u8 = 2;

/// The refusal of words past the 1,000,000,000th of a session.
const NO_MORE_WORDS: u32 = 17;

/// How the cause of a 401st midnight ends, and what to do about it, and about a word too many.
const ONE_TOO_MANY: &str = "is one more than the 400 that may come";
const SAVE_AND_RESUME: &str =
    "give the files of some months with --save FILE, and the later ones with --resume FILE: a state keeps its last midnight alone, so that 399 more may come";
pub const POWER_UP: &str =
    "the card's power-up begins a new session: give the files from there on by themselves, without --resume";

/// Where a byte of the log stands.
#[derive(Clone, Debug, PartialEq, Eq)]
pub struct Place {
    /// From the log's begin, counted from 0.
    pub byte: u64,
    /// The number of its record, counted from 0.
    pub record: u64,
    /// None before the first midnight.
    pub day: Option<u32>,
    /// The input and the byte's place there, where there are several inputs; none for a byte
    /// that came before the state that the log goes on from.
    pub input: Option<(String, u64)>,
}

/// Something that was refused, and where.
pub type RefusedAt = (Place, Refused);

pub struct Log {
    pub replay: Replay,
    /// Midnights that the state it goes on from has forgotten.
    pub forgotten: u64,
    /// The inputs by their names, with the byte of the log that each begins at; one
    /// that isn't reached yet begins at no byte, `u64::MAX`.
    pub inputs: Vec<(String, u64)>,
    /// Bytes read, and of these the ones that were taken.
    pub bytes: u64,
    pub taken: u64,
    /// The first refused word.
    pub word: Option<RefusedAt>,
    /// The byte that stopped the replay.
    pub stop: Option<RefusedAt>,
    /// Takes in the bytes read, where their digest is wanted.
    digest: Option<Digest>,
    /// The inputs read, each by itself, where a state is to tell of them.
    files: Option<Vec<Piece>>,
    /// Whether inputs with the same bytes are meant, and whether some came that aren't.
    takes_repeats: bool,
    repeats: bool,
    /// What it goes on from.
    pub resumed: Option<Resumed>,
    /// The day in which the input at hand began, or the one that stopped the replay.
    began_in: Option<u32>,
    /// The first bytes of the first input.
    begin: Vec<u8>,
    /// The end of what was read before the piece at hand.
    tail: Vec<u8>,
}

impl Log {
    /// A log whose elements are claimed by this edition.
    pub fn new(edition: Edition) -> Log {
        Log {
            replay: Replay::new(edition),
            forgotten: 0,
            inputs: Vec::new(),
            bytes: 0,
            taken: 0,
            word: None,
            stop: None,
            digest: None,
            files: None,
            takes_repeats: false,
            repeats: false,
            resumed: None,
            began_in: None,
            begin: Vec::new(),
            tail: Vec::new(),
        }
    }

    /// A log whose SHA-256 is wanted.
    pub fn with_digest(edition: Edition) -> Log {
        Log {
            digest: Some(Digest::new()),
            ..Log::new(edition)
        }
    }

    /// A log that goes on from a state.
    pub fn resumed(kept: Kept, resumed: Resumed) -> Log {
        let mut log = Log {
            forgotten: kept.forgotten,
            bytes: kept.consumed,
            taken: kept.consumed,
            resumed: Some(resumed),
            tail: kept.last,
            ..Log::with_digest(kept.replay.session().status().edition)
        };
        log.replay = kept.replay;
        log.word = log
            .replay
            .status()
            .refused
            .zip(kept.refused)
            .map(|(word, (record, cause))| {
                let place = log.place(record * RECORD, log.day_of(record));
                (place, cause::refused(word.refusal, Some(cause)))
            });
        log
    }

    /// The same where a state is to tell of each input.
    pub fn for_a_state(self) -> Log {
        Log {
            files: Some(Vec::new()),
            ..self
        }
    }

    /// The same where inputs with the same bytes may be meant.
    pub fn taking_repeats(self, takes_repeats: bool) -> Log {
        Log {
            takes_repeats,
            ..self
        }
    }

    /// What is kept of it, all days where they are wanted; none where the replay is stopped, after
    /// which no byte can follow, or where a state wasn't wanted.
    pub fn kept(&self, whose: &Whose, all_days: bool) -> Option<Kept> {
        let month = Piece::of(self.digest.as_ref().filter(|_| self.stop.is_none())?);
        let mut replay = self.replay.clone();
        let forgotten = if all_days { 0 } else { replay.trim() };
        let last = self.replay.status().days.map(|(_, last)| last);
        let before = self.resumed.as_ref();
        let station = whose.station.as_deref().map(shortened).map(String::from);
        let refused = |(place, refused): &RefusedAt| {
            let cause = shortened(&refused.cause).to_string();
            (place.record, cause)
        };
        Some(Kept {
            forgotten: self.forgotten + u64::from(forgotten),
            replay,
            consumed: self.bytes,
            began: before.map(|resumed| resumed.digest),
            files: match self.files.as_deref()? {
                // One by itself is all of it.
                [] => vec![month.clone()],
                files => files.to_vec(),
            },
            month,
            version: env!("CARGO_PKG_VERSION").to_string(),
            station: station.or_else(|| before?.station.clone()),
            date: last.and_then(|last| whose.date(last).or_else(|| before?.date(last))),
            last: self.tail.clone(),
            refused: self.word.as_ref().map(refused),
        })
    }

    /// All midnights that came.
    pub fn midnights(&self) -> u64 {
        self.forgotten + u64::from(self.replay.status().midnights)
    }

    /// The day of the first refused word, by its record: what stands before it are the words taken and the
    /// midnights.
    fn day_of(&self, record: u64) -> Option<u32> {
        let (_, last) = self.replay.status().days?;
        let before = record - u64::from(self.replay.session().status().taken);
        let behind = u32::try_from(self.midnights().checked_sub(before)?).ok()?;
        last.checked_sub(behind).filter(|_| before > 0)
    }

    pub fn edition(&self) -> Edition {
        self.replay.session().status().edition
    }

    /// The SHA-256 of all bytes read, in hex; without those that came before the state that it
    /// goes on from.
    pub fn digest(&self) -> Option<String> {
        Some(digest::hex(self.digest.as_ref()?.finished()))
    }

    /// Reads all inputs, one behind the other. Where one fails on the way, what
    /// came before that stands. After a stop the rest is only counted.
    pub fn read(&mut self, sources: Vec<Source>) -> Outcome {
        let named = |source: &Source| (source.name.clone(), u64::MAX);
        self.inputs.extend(sources.iter().map(named));
        let mut room = vec![0; PIECE];
        let mut pieces = Pieces::of(self.resumed.as_ref());
        // One by itself is all of it.
        let each = sources.len() > 1 || !pieces.is_empty();
        for (place, mut source) in sources.into_iter().enumerate() {
            self.inputs[place].1 = self.bytes;
            if self.stop.is_none() {
                self.began_in = self.replay.status().days.map(|(_, last)| last);
            }
            let mut own = each.then(Digest::new);
            loop {
                match source.fill(&mut room)? {
                    0 => break,
                    count => {
                        self.piece(&room[..count]);
                        own.iter_mut().for_each(|own| own.update(&room[..count]));
                        self.ask_again()?;
                    }
                }
            }
            if let Some(own) = &own {
                let told = pieces.meet(Piece::of(own), &source.name);
                self.repeats = told.is_some() && !self.takes_repeats;
                if let Some(told) = told.filter(|_| self.repeats) {
                    return Err(Failure::Wrong(told));
                }
                if let Some(files) = &mut self.files {
                    files.push(Piece::of(own));
                }
            }
            if place == 0 {
                self.begin = source.begin().to_vec();
            }
        }
        Ok(())
    }

    /// Whether the inputs begin with all that came before the state, or one of them came twice: they are refused, and
    /// what was read is no log.
    pub fn is_again(&self) -> bool {
        self.repeats || self.resumed.as_ref().map_or(false, Resumed::is_again)
    }

    fn ask_again(&self) -> Outcome {
        match (&self.resumed, self.inputs.first()) {
            (Some(resumed), Some((input, _))) if resumed.is_again() => {
                Err(Failure::Wrong(resumed.complaint(input)))
            }
            _ => Ok(()),
        }
    }

    /// What to try where this is no log at all, or not the one that goes on, or longer than one may
    /// be.
    pub fn hint(&self) -> Option<String> {
        let stop = self.stop.as_ref().map(|(_, refused)| refused);
        let word = self.word.as_ref().map(|(_, refused)| refused);
        if stop.map_or(false, |refused| refused.cause.ends_with(ONE_TOO_MANY)) {
            return Some(SAVE_AND_RESUME.to_string());
        }
        if stop
            .or(word)
            .map_or(false, |refused| refused.number == NO_MORE_WORDS)
        {
            return Some(POWER_UP.to_string());
        }
        let goes_on = self.resumed.as_ref().zip(stop);
        let goes_on = goes_on.and_then(|(resumed, refused)| resumed.hint(refused.number));
        self.order_hint()
            .or(goes_on)
            .or_else(|| looks::hint(&self.begin, Looks::Log))
    }

    /// What to try where the first midnight of a later input isn't the one that is due.
    fn order_hint(&self) -> Option<String> {
        let (place, refused) = self.stop.as_ref()?;
        let number = self
            .inputs
            .iter()
            .rposition(|(_, begin)| *begin <= place.byte)?;
        let (before, _) = self.inputs.get(number.checked_sub(1)?)?;
        let (input, _) = &self.inputs[number];
        let (_, day) = self.replay.status().days?;
        let is_first = refused.number == 19 && self.began_in == Some(day);
        is_first.then(|| format!(
            "{before} ends in day {day}: the files aren't in the order of their days, or days between them are missing, or {input} is another log's"
        ))
    }

    /// Whether its last record is a midnight, so that the last day has only begun.
    pub fn ends_with_midnight(&self) -> bool {
        let kind = self.tail.len().checked_sub(RECORD as usize);
        let kind = kind.and_then(|at| self.tail.get(at));
        self.replay.status().unfinished == 0 && kind == Some(&MIDNIGHT)
    }

    fn piece(&mut self, piece: &[u8]) {
        if let Some(resumed) = &mut self.resumed {
            resumed.meet(piece);
        }
        if self.stop.is_none() {
            self.feed(piece);
        }
        if let Some(digest) = &mut self.digest {
            digest.update(piece);
        }
        self.bytes += piece.len() as u64;
    }

    fn feed(&mut self, piece: &[u8]) {
        // Small beside a piece, and the only way to see later what a word met.
        let before = self.replay.clone();
        let fed = self.replay.feed(piece);
        self.taken += fed.taken;
        if self.word.is_none() {
            self.word = self.refused_word(before, piece);
        }
        self.stop = fed
            .refusal
            .map(|refusal| self.refused_byte(refusal.number(), piece));
        let end = &piece[piece.len().saturating_sub(BACK)..];
        self.tail.extend(end);
        self.tail.drain(..self.tail.len().saturating_sub(BACK));
    }

    /// The first refused word, if it is in this piece. Its cause is found from the
    /// settings that it met and the words of its command.
    fn refused_word(&self, mut before: Replay, piece: &[u8]) -> Option<RefusedAt> {
        let status = self.replay.status();
        let word = status.refused?;
        // Its day is there, since it came now.
        let record = word.record_after(self.forgotten)?;
        let byte = record * RECORD;
        // Where its record began in an earlier piece, nothing of this one is before it.
        before.feed(&piece[..byte.saturating_sub(self.bytes) as usize]);
        let session = before.session();
        let earlier = session
            .status()
            .open
            .map_or(0, |(_, taken)| 1 + taken as usize);
        let words = self.near(piece).words(record, earlier + 1);
        // More midnights than are kept may stand before the command's other words.
        let whole = words.len() > earlier;
        let cause = whole.then(|| cause::of_word(word.refusal, session.view(), &words));
        let cause = cause.flatten();
        let place = self.place(byte, day_after(&status, word.midnights));
        Some((place, cause::refused(word.refusal, cause)))
    }

    /// The byte that stopped the replay: the first one that wasn't taken.
    fn refused_byte(&self, number: u32, piece: &[u8]) -> RefusedAt {
        let status = self.replay.status();
        let place = self.place(self.taken, day_after(&status, status.midnights));
        let record = self.near(piece).record(place.record);
        (
            place,
            cause::refused(number, cause_of_byte(number, &status, record)),
        )
    }

    fn near(&self, piece: &[u8]) -> Near {
        Near {
            begin: self.bytes - self.tail.len() as u64,
            bytes: [self.tail.as_slice(), piece].concat(),
        }
    }

    fn place(&self, byte: u64, day: Option<u32>) -> Place {
        let holds = |(_, begin): &&(String, u64)| *begin <= byte;
        let input = self.inputs.iter().rev().find(holds);
        Place {
            byte,
            record: byte / RECORD,
            day,
            input: match &self.resumed {
                Some(resumed) if byte < resumed.bytes => None,
                None if self.inputs.len() == 1 => None,
                _ => input.map(|(name, begin)| (name.clone(), byte - begin)),
            },
        }
    }

    /// Records that were taken whole.
    pub fn records(&self) -> u64 {
        self.taken / RECORD
    }

    /// Words among them, refused ones too.
    pub fn words(&self) -> u64 {
        self.records() - self.midnights()
    }

    /// Words after the refused one.
    pub fn words_after(&self) -> u64 {
        let taken = u64::from(self.replay.session().status().taken);
        self.words() - taken - u64::from(self.word.is_some())
    }

    /// Bytes after the one that stopped the replay.
    pub fn bytes_after(&self) -> u64 {
        self.bytes - self.taken - u64::from(self.stop.is_some())
    }

    /// What to say of a refusal on standard error, with the input's name.
    pub fn complaint(&self, (place, refused): &RefusedAt) -> String {
        let input = self.inputs.first().map(|(name, _)| name);
        let from = self.resumed.as_ref().map(|resumed| &resumed.name);
        match (&place.input, from.or(input)) {
            (None, Some(name)) => format!("{name}: {place}: {refused}"),
            _ => format!("{place}: {refused}"),
        }
    }
}

impl fmt::Display for Place {
    fn fmt(&self, f: &mut fmt::Formatter) -> fmt::Result {
        let byte = self.byte;
        match &self.input {
            Some((name, at)) => write!(f, "{name} byte {at}, byte {byte} of the log")?,
            None => write!(f, "byte {byte}")?,
        }
        write!(f, ", record {}, ", self.record)?;
        match self.day {
            Some(day) => write!(f, "day {day}"),
            None => write!(f, "before the first midnight"),
        }
    }
}

/// The day that so many midnights lead to.
fn day_after(status: &LogStatus, midnights: u32) -> Option<u32> {
    let (first, _) = status.days?;
    Some(first + midnights.checked_sub(1)?)
}

/// The cause of 18 or 19, from the record that it came with.
fn cause_of_byte(number: u32, status: &LogStatus, record: Option<(u8, u32)>) -> Option<String> {
    let (kind, day) = record?;
    match (number, status.days) {
        (18, _) => Some(format!("kind byte {kind:02X} is neither 01 nor 02")),
        (19, Some((_, last)))
            if status.midnights == MOST_MIDNIGHTS && last.checked_add(1) == Some(day) =>
        {
            Some(format!("midnight of day {day} {ONE_TOO_MANY}"))
        }
        (19, Some((_, u32::MAX))) => Some(format!("no day follows {}, not {day}", u32::MAX)),
        (19, Some((_, last))) => Some(format!(
            "midnight of day {day} stands where day {} is due",
            last + 1
        )),
        _ => None,
    }
}

/// The piece at hand and the bytes before it.
struct Near {
    /// The byte of the log that they begin at.
    begin: u64,
    bytes: Vec<u8>,
}

impl Near {
    /// A record's kind and its number, as far as it stands here; bytes that have
    /// not come are 0.
    fn record(&self, number: u64) -> Option<(u8, u32)> {
        let at = (number * RECORD).checked_sub(self.begin)?;
        let bytes = self.bytes.get(usize::try_from(at).ok()?..)?;
        let byte = |place| bytes.get(place).copied().unwrap_or(0);
        let number = u32::from_le_bytes([byte(1), byte(2), byte(3), byte(4)]);
        Some((*bytes.first()?, number))
    }

    /// So many words up to the one in this record, in their order.
    fn words(&self, record: u64, count: usize) -> Vec<u32> {
        let back = (0..=record).rev().map_while(|number| self.record(number));
        let words = back.filter(|(kind, _)| *kind == WORD).map(|(_, word)| word);
        let mut words: Vec<u32> = words.take(count).collect();
        words.reverse();
        words
    }
}
