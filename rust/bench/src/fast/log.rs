//! A station's log over midnight: bytes taken in pieces, the words given to one session, and what each day came to.
//!
//! Records that lie whole in a piece are read at once, and words that stand side by side are fed to the session together. Only
//! what a piece's end cuts is kept, byte by byte.

use super::refusal::{DAY, KIND};
use super::session::{Edition, Session};

const RECORD: usize = 5;
const WORD: u8 = 1;
const MIDNIGHT: u8 = 2;
const MOST_MIDNIGHTS: usize = 400;
/// Words that are fed to the session in one piece, at most: the fastest of 64, 128, 256 and 1,024.
const BATCH: usize = 1024;
/// Records that are gathered before their kinds are looked at.
const GROUP: usize = 8;

/// What a piece of bytes answers.
#[derive(Clone, Copy, Debug, PartialEq, Eq)]
pub struct Fed {
    pub taken: u64,
    pub refusal: Option<u32>,
}

#[derive(Clone, Default)]
pub struct Replay {
    session: Session,
    stopped: Option<u32>,
    /// The open record's bytes, and how many there are.
    open: [u8; RECORD],
    filled: usize,
    /// The first refused word's refusal, and the midnights before it.
    refused: Option<(u32, usize)>,
    first_day: u32,
    /// The session's runs and claims at each midnight.
    marks: Vec<(u64, u64)>,
}

/// The words of the records off the front that are words, as many as there is room for; gives how many they are.
#[inline(always)]
fn gather(bytes: &[u8], words: &mut [u32; BATCH]) -> usize {
    let mut count = 0;
    let groups = bytes.chunks_exact(GROUP * RECORD);
    for (records, room) in groups.zip(words.chunks_exact_mut(GROUP)) {
        let mut others = 0;
        for (record, word) in records.chunks_exact(RECORD).zip(room) {
            others |= record[0] ^ WORD;
            *word = number_of(record);
        }
        if others != 0 {
            break;
        }
        count += GROUP;
    }
    let records = bytes[RECORD * count..].chunks_exact(RECORD);
    for (record, word) in records.zip(&mut words[count..]) {
        if record[0] != WORD {
            break;
        }
        *word = number_of(record);
        count += 1;
    }
    count
}

/// A whole record's number, low byte first.
#[inline(always)]
fn number_of(record: &[u8]) -> u32 {
    u32::from_le_bytes([record[1], record[2], record[3], record[4]])
}

impl Replay {
    #[inline(never)]
    pub fn new() -> Replay {
        Replay::default()
    }

    /// A replay whose elements are claimed by this edition.
    pub(super) fn new_in(edition: Edition) -> Replay {
        Replay {
            session: Session::new_in(edition),
            ..Replay::default()
        }
    }

    /// Takes a piece of bytes, one after another up to the first refused one. 18 or 19; both stop the replay.
    #[inline(never)]
    pub fn feed(&mut self, bytes: &[u8]) -> Fed {
        match *bytes {
            [byte] if self.grows(byte) => Fed {
                taken: 1,
                refusal: None,
            },
            _ => self.piece(bytes),
        }
    }

    /// Whether a byte only adds to a record, as its kind or inside its number; then it is added. Four bytes of five do, so that a
    /// log that comes byte by byte is soon read.
    #[inline(always)]
    fn grows(&mut self, byte: u8) -> bool {
        let adds = match self.filled {
            0 => byte == WORD || byte == MIDNIGHT,
            filled => filled < RECORD - 1,
        };
        if !adds || self.stopped.is_some() {
            return false;
        }
        self.open[self.filled] = byte;
        self.filled += 1;
        true
    }

    #[inline(never)]
    fn piece(&mut self, bytes: &[u8]) -> Fed {
        let mut rest = bytes;
        let mut refusal = None;
        while !rest.is_empty() && refusal.is_none() {
            refusal = match self.stopped {
                Some(number) => Some(number),
                None if self.filled == 0 && rest.len() >= RECORD => self.records(&mut rest),
                None => self.byte(&mut rest),
            };
        }
        Fed {
            taken: (bytes.len() - rest.len()) as u64,
            refusal,
        }
    }

    /// Takes whole records off the front, up to one that is refused; gives its refusal. Words that stand side by side are fed to the
    /// session in one piece, so that it sees whole commands. A call of its own: bytes one by one need no room for words.
    #[inline(never)]
    fn records(&mut self, rest: &mut &[u8]) -> Option<u32> {
        let mut words = [0; BATCH];
        while rest.len() >= RECORD {
            let (record, after) = rest.split_at(RECORD);
            if record[0] == WORD {
                let count = gather(rest, &mut words);
                self.words(&words[..count]);
                *rest = &rest[RECORD * count..];
                continue;
            }
            match self.other_record(record[0], number_of(record)) {
                Ok(()) => *rest = after,
                Err(refusal) => {
                    // a midnight is refused at its last byte, any other kind at once
                    let before = if refusal == DAY { RECORD - 1 } else { 0 };
                    *rest = &rest[before..];
                    return Some(self.stop(refusal));
                }
            }
        }
        None
    }

    /// Takes one byte of a record that a piece's end cuts.
    #[inline(always)]
    fn byte(&mut self, rest: &mut &[u8]) -> Option<u32> {
        let (&byte, after) = rest.split_first()?;
        if self.filled == 0 && byte != WORD && byte != MIDNIGHT {
            return Some(self.stop(KIND));
        }
        self.open[self.filled] = byte;
        self.filled += 1;
        if self.filled == RECORD {
            self.filled = 0;
            let (kind, number) = (self.open[0], number_of(&self.open));
            if kind == WORD {
                self.word(number);
            } else if let Err(refusal) = self.other_record(kind, number) {
                return Some(self.stop(refusal));
            }
        }
        *rest = after;
        None
    }

    fn stop(&mut self, refusal: u32) -> u32 {
        self.filled = 0;
        self.stopped = Some(refusal);
        refusal
    }

    /// A record that isn't a word. 18 or 19.
    fn other_record(&mut self, kind: u8, number: u32) -> Result<(), u32> {
        match kind {
            MIDNIGHT => self.midnight(number),
            _ => Err(KIND),
        }
    }

    #[inline(always)]
    fn word(&mut self, word: u32) {
        if let Err(number) = self.session.take(word) {
            self.note(number);
        }
    }

    /// Words in one piece. A refused one stops the session, so that later ones add nothing.
    #[inline(always)]
    fn words(&mut self, words: &[u32]) {
        if let Some(number) = self.session.feed(words).refusal {
            self.note(number);
        }
    }

    fn note(&mut self, number: u32) {
        let midnights = self.marks.len();
        self.refused.get_or_insert((number, midnights));
    }

    fn midnight(&mut self, day: u32) -> Result<(), u32> {
        let midnights = self.marks.len();
        if midnights == 0 {
            self.first_day = day;
        } else if midnights == MOST_MIDNIGHTS
            || self.first_day.checked_add(midnights as u32) != Some(day)
        {
            return Err(DAY);
        }
        self.marks
            .push((self.session.runs(), self.session.claims()));
        Ok(())
    }

    /// Forgets all midnights but the last one. The place of a refused word counts from that one on.
    #[inline(never)]
    pub fn trim(&mut self) {
        let cut = self.marks.len().saturating_sub(1);
        self.marks.drain(..cut);
        self.first_day += cut as u32;
        if let Some((_, midnights)) = &mut self.refused {
            *midnights = midnights.saturating_sub(cut);
        }
    }

    pub fn stopped(&self) -> Option<u32> {
        self.stopped
    }

    /// The first refused word's refusal, and the midnights before it.
    pub fn refused(&self) -> Option<(u32, usize)> {
        self.refused
    }

    /// Bytes of an unfinished record.
    pub fn unfinished(&self) -> usize {
        self.filled
    }

    pub fn midnights(&self) -> usize {
        self.marks.len()
    }

    pub fn first_day(&self) -> u32 {
        self.first_day
    }

    /// Runs and claimed elements of a part: 0 is what ended before the first midnight, k the k-th day.
    pub fn part(&self, number: usize) -> (u64, u64) {
        let now = (self.session.runs(), self.session.claims());
        let mark = |place: usize| self.marks.get(place).copied().unwrap_or(now);
        let (runs, claims) = match number.checked_sub(1) {
            Some(place) => mark(place),
            None => (0, 0),
        };
        let end = mark(number);
        (end.0 - runs, end.1 - claims)
    }

    /// The elements claimed on the day of this number, 0 where no midnight has it.
    pub(super) fn claimed_on(&self, day: u32) -> u64 {
        match day.checked_sub(self.first_day) {
            Some(place) if (place as usize) < self.marks.len() => self.part(place as usize + 1).1,
            _ => 0,
        }
    }

    pub fn session(&self) -> &Session {
        &self.session
    }
}
