//! A station's log over midnight: bytes taken in pieces, cut anywhere, one session
//! across all days, and what each day came to.

use crate::lengths::{LOG, MARKS};
use crate::{answer, lent, Answer, Edition, Refusal, Session};

/// A replay's state. Its arrays are private, so that it is always one that the
/// library gave out. It may be cloned and both copies used.
#[derive(Clone, Debug, PartialEq, Eq)]
pub struct Replay {
    pub(crate) log: [u32; LOG],
    // Boxed, so that a replay is cheap to move.
    pub(crate) marks: Box<[u64; MARKS]>,
    pub(crate) session: Session,
}

/// What a piece of bytes answers.
#[derive(Clone, Copy, Debug, PartialEq, Eq)]
pub struct BytesFed {
    /// Bytes taken. Where a byte was refused, its place in the piece.
    pub taken: u64,
    /// The refusal of the first refused byte, or none.
    pub refusal: Option<Refusal>,
}

/// The first word of a log that its session refused.
#[derive(Clone, Copy, Debug, PartialEq, Eq)]
pub struct RefusedWord {
    pub refusal: Refusal,
    /// How many midnights came before it; of a trimmed replay, from the kept day on.
    pub midnights: u32,
    /// The number of its record, from 0 on, without the forgotten midnights. Told by
    /// [`RefusedWord::record_after`] alone, since by itself it is wrong after a trim.
    record: u64,
}

impl RefusedWord {
    /// The number of its record, from 0 on, where [`Replay::trim`] has forgotten so many
    /// midnights in all, 0 where it was never called; none where the word came before the kept day, so that nothing
    /// tells any more how many of them came before it.
    pub fn record_after(&self, forgotten: u64) -> Option<u64> {
        let known = forgotten == 0 || self.midnights > 0;
        known.then_some(self.record + forgotten)
    }
}

/// Where a replay stands.
#[derive(Clone, Copy, Debug, PartialEq, Eq)]
pub struct LogStatus {
    /// 18 or 19, where one of them has stopped the replay.
    pub stopped: Option<Refusal>,
    pub refused: Option<RefusedWord>,
    pub midnights: u32,
    /// The first day and the last one, none before the first midnight.
    pub days: Option<(u32, u32)>,
    /// Bytes of an unfinished record that stand, 0 to 4.
    pub unfinished: u32,
}

/// Starts that passed in a part of the log, and the elements that they claimed.
#[derive(Clone, Copy, Debug, PartialEq, Eq)]
pub struct Part {
    pub runs: u64,
    pub claims: u64,
}

/// A day that a midnight began.
#[derive(Clone, Copy, Debug, PartialEq, Eq)]
pub struct Day {
    pub number: u32,
    pub part: Part,
}

impl Replay {
    /// A new replay, with a new session under an edition.
    #[inline]
    pub fn new(edition: Edition) -> Replay {
        let begun = lent::log_begin(edition.number());
        begun.expect("both editions are accepted")
    }

    /// Takes a piece of bytes, one after another up to the first refused one. 18 or
    /// 19, which stop the replay: every later byte gets the same number.
    #[inline]
    pub fn feed(&mut self, bytes: &[u8]) -> BytesFed {
        // A byte by itself goes in registers and needs no room for the answer.
        if let [byte] = *bytes {
            let refusal = self.byte(byte).err();
            let taken = u64::from(refusal.is_none());
            return BytesFed { taken, refusal };
        }
        let mut taken = [0];
        let number = lent::log_feed(self, bytes, &mut taken);
        BytesFed {
            taken: taken[0],
            refusal: answer(number).err(),
        }
    }

    /// Takes one byte. 18 or 19, as [`Replay::feed`].
    #[inline]
    pub fn byte(&mut self, byte: u8) -> Answer<()> {
        answer(lent::log_byte(self, byte))
    }

    pub fn status(&self) -> LogStatus {
        let mut status = [0; 7];
        lent::log_status(self, &mut status);
        let [stopped, number, before, midnights, first, last, unfinished] = status;
        LogStatus {
            stopped: answer(stopped).err(),
            refused: answer(number).err().map(|refusal| RefusedWord {
                refusal,
                midnights: before,
                record: self.words_taken() + u64::from(before),
            }),
            midnights,
            days: (midnights > 0).then_some((first, last)),
            unfinished,
        }
    }

    /// A refused word isn't counted as taken and stops the session, so that from
    /// then on these are the words before it.
    fn words_taken(&self) -> u64 {
        u64::from(self.session.status().taken)
    }

    /// A part of the log: 0 is what ended before the first midnight, k the k-th
    /// day; nothing past the last day.
    pub fn part(&self, number: u32) -> Part {
        let mut counts = [0; 2];
        lent::log_part(self, number, &mut counts);
        let [runs, claims] = counts;
        Part { runs, claims }
    }

    /// What ended before the first midnight.
    pub fn before(&self) -> Part {
        self.part(0)
    }

    /// The days so far, in their order.
    pub fn days(&self) -> impl Iterator<Item = Day> + '_ {
        let status = self.status();
        let first = status.days.map_or(0, |(first, _)| first);
        (0..status.midnights).map(move |place| Day {
            number: first + place,
            part: self.part(place + 1),
        })
    }

    /// Forgets all midnights but the last one, the kept day's, so that 399 more may
    /// come: a replay that is trimmed each month goes on for years. Returns how many
    /// midnights it forgot.
    ///
    /// Kept are that day's number and the tallies when it began, the session, an
    /// unfinished record, what stopped the replay, and the first refused word. All from
    /// the kept day on is answered as if nothing were forgotten, but that the 401st
    /// midnight is counted anew. [`Replay::before`] is now what ended before the kept
    /// day. Without a midnight nothing changes.
    ///
    /// What a caller owes:
    ///
    /// * Ask for the status, and for the days that are still wanted, before.
    /// * A lease line that begins before the kept day, the first of
    ///   [`LogStatus::days`], isn't refused but finds its forgotten days at 0. Don't
    ///   score it.
    /// * The first refused word's midnights count from the kept day on. Add up what
    ///   this function returns and ask [`RefusedWord::record_after`] for the record.
    ///
    /// ```
    /// use egretfold::{Edition, Replay};
    ///
    /// // Midnights of the days 100 and 101, and a word that is no header.
    /// let mut replay = Replay::new(Edition::First);
    /// replay.feed(&[2, 100, 0, 0, 0, 2, 101, 0, 0, 0, 1, 0, 0, 0, 0]);
    /// let forgotten = u64::from(replay.trim());
    /// assert_eq!(forgotten, 1);
    /// let status = replay.status();
    /// assert_eq!((status.midnights, status.days), (1, Some((101, 101))));
    /// let word = status.refused.expect("a refused word");
    /// assert_eq!(word.record_after(forgotten), Some(2));
    /// ```
    #[must_use = "a refused word's record number needs the forgotten midnights"]
    pub fn trim(&mut self) -> u32 {
        let came = self.status().midnights;
        lent::log_trim(self);
        came.saturating_sub(1)
    }

    /// The session that gets the words, to be asked about its settings and tallies.
    #[inline]
    pub fn session(&self) -> &Session {
        &self.session
    }
}
