//! A replay's state as the bytes of a file, and back. All numbers are low byte first:
//!
//!      0   16  "egretfold state" and a line end
//!     16    4  the version, 2
//!     20    4  the kind of state: 1 a session, 2 one of two parties, 3 a replay, 4 a group
//!     24    8  the file's length
//!     32    8  the length of what is told of the log
//!     40    8  the state's length
//!     48    8  how many of the last bytes consumed stand here, 2,025 or all
//!     56       what is told of the log, a line of JSON (`about`); the state, these last bytes
//!    last 32  the SHA-256 of all before it
//!
//! Files of version 1 are read too, by `first`. What is read is asked for in this order, so
//! that each way to be wrong has its own name. What the file's own digest lets through, the
//! product judges.

use crate::common::digest::{Digest, LENGTH};
use crate::replay::about::{self, About};
use crate::replay::first;
use crate::replay::wrong::Wrong;
use crate::score::civil::Date;
use egretfold::{Edition, LogStatus, Replay};

pub const MAGIC: &str = "egretfold state\n";
const VERSION: u32 = 2;
const FIRST_VERSION: u32 = 1;
const REPLAY: u32 = 3;

/// Where what both versions begin with ends, and where the parts of varying length begin.
pub const BEGIN: usize = 32;
const HEAD: usize = 56;

/// No cause is longer, and no station's name.
const MOST_TEXT: usize = 1024;

/// No log is longer, and so its bytes can be counted on.
const MOST_CONSUMED: u64 = 1 << 60;

/// No state file is longer.
pub const MOST: usize = HEAD + about::MOST + Replay::BYTES + BACK + LENGTH;

/// The bytes of a record.
pub const RECORD: u64 = 5;

/// "at most 400 come in all"
pub const MOST_MIDNIGHTS: u32 = 400;

/// So many of the last bytes are kept, to find the cause of what is refused later: that
/// far back a command's header can lie, which has five words, and every midnight may come between
/// them.
pub const BACK: usize = (RECORD as usize) * (5 + MOST_MIDNIGHTS as usize);

/// Bytes that went in, by their number and their SHA-256.
#[derive(Clone, Debug, PartialEq, Eq)]
pub struct Piece {
    pub bytes: u64,
    pub digest: [u8; LENGTH],
}

impl Piece {
    pub fn of(digest: &Digest) -> Piece {
        Piece {
            bytes: digest.length(),
            digest: digest.finished(),
        }
    }
}

/// A replay with what its host knows of the log besides.
#[derive(Clone, Debug, PartialEq, Eq)]
pub struct Kept {
    pub replay: Replay,
    /// Midnights that came and that the replay has forgotten.
    pub forgotten: u64,
    /// Bytes of the log so far.
    pub consumed: u64,
    /// The SHA-256 of the state that it began from, by which a chain of states is known.
    pub began: Option<[u8; LENGTH]>,
    /// What came behind that state: all of it, and file by file.
    pub month: Piece,
    pub files: Vec<Piece>,
    /// Of the command that saved it; without its commit, so that the same log leaves the same
    /// bytes wherever it is replayed.
    pub version: String,
    pub station: Option<String>,
    /// The last day's.
    pub date: Option<Date>,
    /// The last bytes consumed.
    pub last: Vec<u8>,
    /// The first refused word: its record's number in the log, and why.
    pub refused: Option<(u64, String)>,
}

impl Kept {
    /// The file's bytes.
    pub fn to_bytes(&self) -> Vec<u8> {
        let parts = [
            about::line(self).into_bytes(),
            self.replay.to_bytes(),
            self.last.clone(),
        ];
        let length = HEAD + parts.iter().map(Vec::len).sum::<usize>() + LENGTH;
        let mut bytes = Vec::with_capacity(length);
        bytes.extend(MAGIC.as_bytes());
        bytes.extend(VERSION.to_le_bytes());
        bytes.extend(REPLAY.to_le_bytes());
        bytes.extend((length as u64).to_le_bytes());
        for part in &parts {
            bytes.extend((part.len() as u64).to_le_bytes());
        }
        bytes.extend(parts.concat());
        bytes.extend(of_all(&bytes));
        bytes
    }

    /// What a file of these bytes holds.
    pub fn from_bytes(bytes: &[u8]) -> Result<Kept, Wrong> {
        let (version, kind) = whole(bytes)?;
        if kind != REPLAY {
            return Err(Wrong::Kind(kind));
        }
        let kept = match version {
            FIRST_VERSION => first::read(bytes)?,
            _ => second(bytes)?,
        };
        if kept.agrees() {
            Ok(kept)
        } else {
            Err(Wrong::Contradicted)
        }
    }

    pub fn edition(&self) -> Edition {
        self.replay.session().status().edition
    }

    /// All that came.
    pub fn midnights(&self) -> u64 {
        self.forgotten + u64::from(self.replay.status().midnights)
    }

    /// Whether the state can be that of so many bytes: each of them was taken, so that
    /// those of whole records are the words and the midnights, and the rest stand open.
    fn agrees(&self) -> bool {
        let bytes = self.consumed;
        let LogStatus {
            refused,
            unfinished,
            ..
        } = self.replay.status();
        let session = self.replay.session().status();
        let taken = u64::from(session.taken);
        let words = (bytes / RECORD).checked_sub(self.midnights());
        // From the first refused word on, which stops the session, words aren't counted.
        let counted = words.map_or(false, |words| match refused {
            Some(_) => taken < words,
            None => taken == words,
        });
        counted
            && bytes <= MOST_CONSUMED
            && bytes % RECORD == u64::from(unfinished)
            && session.stopped == refused.is_some()
            && self.last.len() as u64 == bytes.min(BACK as u64)
            && self.has_its_refused_word()
            && self.has_its_month()
    }

    /// The refused word's record lies behind the words taken and as many midnights as came
    /// before it, which the replay knows as far as it has not forgotten them.
    fn has_its_refused_word(&self) -> bool {
        let status = self.replay.status();
        let taken = u64::from(self.replay.session().status().taken);
        match (status.refused, &self.refused) {
            (None, None) => true,
            (Some(word), Some((record, _))) => match word.record_after(self.forgotten) {
                Some(known) => *record == known,
                None => (taken..=taken + self.forgotten).contains(record),
            },
            _ => false,
        }
    }

    /// The files are what came since the last save, and that is all where there was none. Where it is
    /// no more than the last bytes, its digest is known.
    fn has_its_month(&self) -> bool {
        let sum = self
            .files
            .iter()
            .try_fold(0_u64, |sum, file| sum.checked_add(file.bytes));
        let whole = self.began.is_some() || self.month.bytes == self.consumed;
        let known = match usize::try_from(self.month.bytes) {
            Ok(count) if count <= self.last.len() => {
                of_all(&self.last[self.last.len() - count..]) == self.month.digest
            }
            _ => true,
        };
        let one = match &self.files[..] {
            [file] => *file == self.month,
            files => files.len() <= about::MOST_FILES,
        };
        sum == Some(self.month.bytes) && self.month.bytes <= self.consumed && whole && known && one
    }
}

/// What a file of this version holds.
fn second(bytes: &[u8]) -> Result<Kept, Wrong> {
    let mut head = Reader {
        left: &bytes[BEGIN..],
    };
    let lengths = [(); 3].map(|()| head.long());
    let [line, state, last] = parts(&bytes[HEAD..bytes.len() - LENGTH], lengths)?;
    let replay = going_on(state)?;
    let About {
        version,
        station,
        date,
        midnights,
        consumed,
        began,
        month,
        files,
        refused,
    } = about::read(line).ok_or(Wrong::Contradicted)?;
    let there = u64::from(replay.status().midnights);
    let kept = Kept {
        forgotten: midnights.checked_sub(there).ok_or(Wrong::Contradicted)?,
        replay,
        consumed,
        began,
        month,
        files,
        version,
        station,
        date,
        last: last.to_vec(),
        refused,
    };
    // What the state has too is the state's, and nothing else stands there.
    if about::line(&kept).as_bytes() == line {
        Ok(kept)
    } else {
        Err(Wrong::Contradicted)
    }
}

/// The replay of these bytes, which takes more.
pub fn going_on(bytes: &[u8]) -> Result<Replay, Wrong> {
    let replay = Replay::from_bytes(bytes).ok_or(Wrong::Judged)?;
    match replay.status().stopped {
        Some(refusal) => Err(Wrong::Stopped(refusal.number())),
        None => Ok(replay),
    }
}

/// The version of a state file, and the kind of state in it, where it is as long as it says
/// and undamaged.
fn whole(bytes: &[u8]) -> Result<(u32, u32), Wrong> {
    let begun = bytes.len().min(MAGIC.len());
    let name = MAGIC.trim_end().as_bytes();
    if begun == 0 || !bytes.iter().zip(name).all(|(byte, due)| byte == due) {
        return Err(Wrong::NoState);
    }
    if bytes[..begun] != MAGIC.as_bytes()[..begun] {
        return Err(Wrong::LineEnd);
    }
    let length = bytes.len() as u64;
    if bytes.len() < BEGIN {
        let bytes = bytes.len();
        return Err(Wrong::Cut { bytes, due: None });
    }
    let mut head = Reader {
        left: &bytes[MAGIC.len()..],
    };
    let (version, kind, due) = (head.short(), head.short(), head.long());
    if version != VERSION && version != FIRST_VERSION {
        return Err(Wrong::Version(version));
    }
    if length < due {
        let bytes = bytes.len();
        let due = Some(due);
        return Err(Wrong::Cut { bytes, due });
    }
    if length > due {
        return Err(Wrong::TooLong { due });
    }
    if bytes.len() < HEAD + LENGTH {
        return Err(Wrong::Damaged);
    }
    let (all, digest) = bytes.split_at(bytes.len() - LENGTH);
    if of_all(all)[..] == *digest {
        Ok((version, kind))
    } else {
        Err(Wrong::Damaged)
    }
}

/// The parts of these lengths, which are all that is there.
pub fn parts(all: &[u8], lengths: [u64; 3]) -> Result<[&[u8]; 3], Wrong> {
    let mut left = all;
    let mut parts = [&all[..0]; 3];
    for (part, length) in parts.iter_mut().zip(lengths) {
        let length = usize::try_from(length)
            .ok()
            .filter(|length| *length <= left.len());
        let (taken, rest) = left.split_at(length.ok_or(Wrong::Contradicted)?);
        *part = taken;
        left = rest;
    }
    match left {
        [] => Ok(parts),
        _ => Err(Wrong::Contradicted),
    }
}

pub fn of_all(bytes: &[u8]) -> [u8; LENGTH] {
    let mut digest = Digest::new();
    digest.update(bytes);
    digest.finished()
}

/// A cause or a name, as much of it as is kept.
pub fn shortened(text: &str) -> &str {
    let ends = (0..=text.len().min(MOST_TEXT)).rev();
    let end = ends.into_iter().find(|end| text.is_char_boundary(*end));
    &text[..end.unwrap_or(0)]
}

/// What is left of a head that is long enough.
pub struct Reader<'a> {
    pub left: &'a [u8],
}

impl<'a> Reader<'a> {
    fn take(&mut self, count: usize) -> &'a [u8] {
        let (taken, left) = self.left.split_at(count);
        self.left = left;
        taken
    }

    pub fn short(&mut self) -> u32 {
        self.number(4) as u32
    }

    pub fn long(&mut self) -> u64 {
        self.number(8)
    }

    pub fn digest(&mut self) -> [u8; LENGTH] {
        let mut digest = [0; LENGTH];
        digest.copy_from_slice(self.take(LENGTH));
        digest
    }

    fn number(&mut self, count: usize) -> u64 {
        let bytes = self.take(count).iter().rev();
        bytes.fold(0, |number, byte| number << 8 | u64::from(*byte))
    }
}

#[cfg(test)]
mod tests {
    use super::*;
    use crate::input::source::Source;
    use crate::replay::log::Log;
    use crate::replay::resumed::Whose;

    const LOG: &[u8] = include_bytes!("../../../../samples/refused.log");

    /// The state after so many bytes of a log, which may be given in two pieces with a state in between.
    fn kept(edition: Edition, bytes: usize, all_days: bool) -> Kept {
        let mut log = Log::with_digest(edition).for_a_state();
        let read = log.read(vec![Source::of_bytes("a log", &LOG[..bytes])]);
        assert!(read.is_ok());
        let whose = Whose {
            station: Some("14".to_string()),
            dated: Date::parse("2026-04-01").ok().map(|date| (101, date)),
        };
        log.kept(&whose, all_days).expect("it isn't stopped")
    }

    /// Fresh, inside a record, inside a command, between days, and behind a refused word.
    fn all() -> Vec<Vec<u8>> {
        let lengths = [0, 3, 40, 77, 120, 140];
        let states = lengths.map(|length| kept(Edition::Second, length, length % 2 > 0).to_bytes());
        states.to_vec()
    }

    #[test]
    fn a_state_comes_back_as_it_was() {
        for length in 0..=140 {
            for all_days in [false, true] {
                let kept = kept(Edition::First, length, all_days);
                let bytes = kept.to_bytes();
                assert!(bytes.len() <= MOST);
                assert_eq!(Kept::from_bytes(&bytes), Ok(kept), "{length} bytes");
            }
        }
    }

    #[test]
    fn every_flipped_bit_is_refused() {
        // Inside a command, and behind a refused word.
        for mut bytes in [40, 140].map(|length| kept(Edition::First, length, false).to_bytes()) {
            for place in 0..8 * bytes.len() {
                bytes[place / 8] ^= 1 << (place % 8);
                assert!(Kept::from_bytes(&bytes).is_err(), "bit {place}");
                bytes[place / 8] ^= 1 << (place % 8);
            }
            assert!(Kept::from_bytes(&bytes).is_ok());
        }
    }

    #[test]
    fn every_cut_is_refused_as_one() {
        for bytes in all() {
            assert_eq!(Kept::from_bytes(&[]), Err(Wrong::NoState));
            for length in 1..bytes.len() {
                let cut = Kept::from_bytes(&bytes[..length]);
                assert!(matches!(cut, Err(Wrong::Cut { .. })), "{length} bytes");
            }
            let longer = [&bytes[..], &[0]].concat();
            let due = bytes.len() as u64;
            assert_eq!(Kept::from_bytes(&longer), Err(Wrong::TooLong { due }));
        }
    }

    /// Behind a refused word the state doesn't tell how many words came, but no log has so many.
    #[test]
    fn a_log_longer_than_any_is_refused() {
        let mut kept = kept(Edition::First, 140, false);
        kept.last = vec![0; BACK];
        for (consumed, taken) in [
            (5 << 40, true),
            (MOST_CONSUMED + 4, false),
            (u64::MAX, false),
        ] {
            kept.consumed = consumed;
            kept.month.bytes = consumed;
            kept.files = vec![kept.month.clone()];
            assert_eq!(
                Kept::from_bytes(&kept.to_bytes()).is_ok(),
                taken,
                "{consumed} bytes"
            );
        }
    }

    /// Whoever makes the file's digest anew isn't let through either: the lengths, and what is told
    /// of the log, are held against the state.
    #[test]
    fn a_head_that_contradicts_its_state_is_refused() {
        for bytes in all() {
            for place in (BEGIN..HEAD).flat_map(|byte| [8 * byte, 8 * byte + 7]) {
                let mut bytes = bytes[..bytes.len() - LENGTH].to_vec();
                bytes[place / 8] ^= 1 << (place % 8);
                bytes.extend(of_all(&bytes));
                assert!(Kept::from_bytes(&bytes).is_err(), "bit {place}");
            }
        }
    }

    #[test]
    fn what_contradicts_its_state_is_refused() {
        let good = kept(Edition::First, 140, false);
        assert_eq!(good.forgotten, 2);
        let with = |change: &dyn Fn(&mut Kept)| {
            let mut kept = good.clone();
            change(&mut kept);
            Kept::from_bytes(&kept.to_bytes())
        };
        assert_eq!(with(&|_| {}), Ok(good.clone()));
        let digest = [7; LENGTH];
        let wrong: [&dyn Fn(&mut Kept); 12] = [
            &|kept| kept.consumed += 5,
            &|kept| kept.consumed -= 5,
            &|kept| kept.forgotten += 30,
            &|kept| kept.month.bytes -= 1,
            &|kept| kept.month.digest = digest,
            &|kept| kept.files.clear(),
            &|kept| kept.files[0].digest = digest,
            &|kept| kept.files.push(kept.month.clone()),
            &|kept| kept.refused = None,
            &|kept| kept.refused = Some((23, "another".to_string())),
            &|kept| kept.last.truncate(139),
            &|kept| kept.last[0] ^= 1,
        ];
        for (place, change) in wrong.iter().enumerate() {
            assert_eq!(with(change), Err(Wrong::Contradicted), "{place}");
        }
    }

    /// The line is written in one way alone.
    #[test]
    fn a_line_that_is_written_otherwise_is_refused() {
        let good = kept(Edition::First, 77, false);
        let line = about::line(&good);
        let with = |other: String| {
            let (mut bytes, long) = (good.to_bytes(), other.len() as u64);
            bytes.splice(HEAD..HEAD + line.len(), other.into_bytes());
            let length = bytes.len() as u64;
            bytes[24..32].copy_from_slice(&length.to_le_bytes());
            bytes[32..40].copy_from_slice(&long.to_le_bytes());
            bytes.truncate(bytes.len() - LENGTH);
            bytes.extend(of_all(&bytes));
            Kept::from_bytes(&bytes)
        };
        assert_eq!(with(line.clone()), Ok(good.clone()));
        for (from, to) in [
            ("\"edition\":1", "\"edition\":2"),
            ("\"last_day\":101", "\"last_day\":102"),
            ("\"kept_day\":101", "\"kept_day\":100"),
            ("\"midnights\":1", "\"midnights\":0"),
            ("\"midnights\":1", "\"midnights\": 1"),
            ("\"station\":\"14\"", "\"station\":14"),
            (
                "\"last_date\":\"2026-04-01\"",
                "\"last_date\":\"2026-04-31\"",
            ),
            ("}\n", ",\"more\":1}\n"),
            ("\n", "\n\n"),
        ] {
            assert!(line.contains(from), "{from} in {line}");
            let wrong = with(line.replacen(from, to, 1));
            assert_eq!(wrong, Err(Wrong::Contradicted), "{to}");
        }
    }

    /// A file of the version before is read: it has all its days, and what came is one file.
    #[test]
    fn a_file_of_the_first_version_is_read() {
        let bytes = include_bytes!("../../tests/states/version-1.state");
        let kept = Kept::from_bytes(bytes).expect("it is read");
        let march = include_bytes!("../../../../samples/station-14-march.log");
        assert_eq!((kept.forgotten, kept.midnights()), (0, 31));
        assert_eq!(kept.month.digest, of_all(march));
        assert_eq!(kept.files, std::slice::from_ref(&kept.month));
        assert_eq!(
            (kept.began, kept.station.clone(), kept.date),
            (None, None, None)
        );
        for place in 0..8 * bytes.len() {
            let mut bytes = bytes.to_vec();
            bytes[place / 8] ^= 1 << (place % 8);
            // Every bit of its head, and some of the others.
            if place < 8 * 200 || place % 61 == 0 {
                assert!(Kept::from_bytes(&bytes).is_err(), "bit {place}");
            }
        }
    }
}
