//! Document 02, request 1, "One log over midnight": the reader of a station's
//! log. A log is records of five bytes; their words go to one session across all
//! midnights, and what its starts come to is counted day by day.

use crate::session::Session;
use crate::Answer;

/// The kind byte of a record with a command word.
const WORD: u8 = 1;

/// The kind byte of a record with the number of the day that begins.
const MIDNIGHT: u8 = 2;

/// "one byte of kind, then 4 bytes"
const RECORD: usize = 5;

/// "at most 400 come in all"
const MOST_MIDNIGHTS: usize = 400;

/// What a piece of bytes answers: how many of its bytes were taken, and the
/// refusal of the first one that wasn't.
#[derive(Clone, Copy, Debug, PartialEq, Eq)]
pub struct Fed {
    pub taken: u64,
    pub refusal: Option<u32>,
}

/// The starts that passed in a part of the log, and the elements that they
/// claimed.
#[derive(Clone, Copy, Debug, Default, PartialEq, Eq)]
pub struct Part {
    pub runs: u64,
    pub claims: u64,
}

/// A day that a midnight began.
#[derive(Clone, Copy, Debug, PartialEq, Eq)]
pub struct Day {
    pub number: u32,
    pub part: Part,
}

/// The first word that the session refused.
#[derive(Clone, Copy, Debug, PartialEq, Eq)]
pub struct RefusedWord {
    /// The refusal.
    pub number: u32,
    /// Its record's place in the log, from 0 on.
    pub record: u64,
    /// How many midnights came before it.
    pub midnights: usize,
}

/// A reader of a log: its session, and what came of it so far.
#[derive(Clone, Debug, PartialEq, Eq)]
pub struct Replay {
    session: Session,
    /// 18 or 19, once one of them has stopped the replay.
    stopped: Option<u32>,
    /// The bytes of the record that isn't finished.
    open: Vec<u8>,
    /// The records that were finished.
    records: u64,
    refused: Option<RefusedWord>,
    before: Part,
    days: Vec<Day>,
    /// How many midnights may come.
    most: usize,
}

/// The four bytes behind the kind byte, low byte first.
fn number_of(record: &[u8]) -> u32 {
    let place = |place: usize| u32::from(record[place]);
    place(1) + place(2) * 256 + place(3) * 65_536 + place(4) * 16_777_216
}

impl Replay {
    /// A replay that has taken no byte yet, with a new session.
    pub fn new() -> Replay {
        Replay::new_with(Session::new())
    }

    /// The same under this edition of the lease rule, 1 or 2; 3 for any other.
    pub fn new_in(edition: u32) -> Answer<Replay> {
        Ok(Replay::new_with(Session::new_in(edition)?))
    }

    /// The same with this session, so that refusal 17 can be tried.
    pub fn new_with(session: Session) -> Replay {
        Replay {
            session,
            stopped: None,
            open: Vec::new(),
            records: 0,
            refused: None,
            before: Part::default(),
            days: Vec::new(),
            most: MOST_MIDNIGHTS,
        }
    }

    /// One that takes as many midnights as there are numbers of days: what replays that
    /// are trimmed on the way are held against, over years.
    pub fn without_end(edition: u32) -> Answer<Replay> {
        Ok(Replay {
            most: usize::MAX,
            ..Replay::new_in(edition)?
        })
    }

    /// Keeps, of the midnights, the last one alone: its number, and the tallies there, so
    /// that all that ended before it is given apart. The session, the open record, the
    /// stop and the first refused word stay; of the midnights before that word as many
    /// are left as the replay still has there.
    pub fn trim(&mut self) {
        let last = match self.days.pop() {
            Some(last) => last,
            None => return,
        };
        let forgotten = std::mem::replace(&mut self.days, vec![last]);
        for day in &forgotten {
            self.before.runs += day.part.runs;
            self.before.claims += day.part.claims;
        }
        self.records -= forgotten.len() as u64;
        if let Some(word) = &mut self.refused {
            let gone = word.midnights.min(forgotten.len());
            word.midnights -= gone;
            word.record -= gone as u64;
        }
    }

    /// Takes one byte, or refuses it with 18 or 19. Both stop the replay and drop
    /// the open record; later bytes get the same number again.
    pub fn byte(&mut self, byte: u8) -> Answer<()> {
        if let Some(number) = self.stopped {
            return Err(number);
        }
        let mut record = std::mem::take(&mut self.open);
        record.push(byte);
        if let Err(number) = self.judge(&record) {
            self.stopped = Some(number);
            return Err(number);
        }
        if record.len() == RECORD {
            self.finish(&record);
        } else {
            self.open = record;
        }
        Ok(())
    }

    /// 18 for a kind byte other than the two, 19 for a midnight's last byte where
    /// its day may not begin.
    fn judge(&self, record: &[u8]) -> Answer<()> {
        let kind = record[0];
        if kind != WORD && kind != MIDNIGHT {
            return Err(18);
        }
        if kind == MIDNIGHT && record.len() == RECORD && !self.may_begin(number_of(record)) {
            return Err(19);
        }
        Ok(())
    }

    /// "The first midnight may name any day; each later one is one more than the
    /// last". No day follows 4,294,967,295.
    fn may_begin(&self, day: u32) -> bool {
        match self.days.last() {
            None => true,
            Some(last) => {
                u64::from(day) == u64::from(last.number) + 1 && self.days.len() < self.most
            }
        }
    }

    /// A record is whole.
    fn finish(&mut self, record: &[u8]) {
        let number = number_of(record);
        if record[0] == WORD {
            self.word(number);
        } else {
            let part = Part::default();
            self.days.push(Day { number, part });
        }
        self.records += 1;
    }

    /// Gives a word to the session. What it adds to the session's tallies belongs
    /// to the day that this word came on.
    fn word(&mut self, word: u32) {
        let (runs, claims) = (self.session.runs(), self.session.claims());
        if let Err(number) = self.session.word(word) {
            self.note(number);
        }
        let (runs_now, claims_now) = (self.session.runs(), self.session.claims());
        let part = match self.days.last_mut() {
            None => &mut self.before,
            Some(day) => &mut day.part,
        };
        part.runs += runs_now - runs;
        part.claims += claims_now - claims;
    }

    /// A word was refused. The first one is reported; its bytes are taken all the
    /// same, and the days go on.
    fn note(&mut self, number: u32) {
        let found = RefusedWord {
            number,
            record: self.records,
            midnights: self.days.len(),
        };
        self.refused.get_or_insert(found);
    }

    /// Takes the bytes of a piece one after another, up to the first refused one.
    pub fn feed(&mut self, bytes: &[u8]) -> Fed {
        let mut taken = 0;
        for byte in bytes {
            if let Err(number) = self.byte(*byte) {
                let refusal = Some(number);
                return Fed { taken, refusal };
            }
            taken += 1;
        }
        let refusal = None;
        Fed { taken, refusal }
    }

    /// 18 or 19, where one of them has stopped the replay.
    pub fn stopped(&self) -> Option<u32> {
        self.stopped
    }

    /// The first word that was refused.
    pub fn refused(&self) -> Option<RefusedWord> {
        self.refused
    }

    /// How many bytes of an unfinished record stand.
    pub fn unfinished(&self) -> usize {
        self.open.len()
    }

    /// What ended before the first midnight.
    pub fn before(&self) -> Part {
        self.before
    }

    /// The days, in their order.
    pub fn days(&self) -> &[Day] {
        &self.days
    }

    /// The session that gets the words.
    pub fn session(&self) -> &Session {
        &self.session
    }
}

impl Default for Replay {
    fn default() -> Replay {
        Replay::new()
    }
}

#[cfg(test)]
mod tests {
    use super::*;
    use crate::command::{SET_COND_TEST, SET_DOMAIN, SET_OUT_FMT, START_PROGRAM};

    /// Document 01's whole stream up to its start: one start claims 1,728.
    const SETTINGS: [u32; 13] = [
        0xC001_0A00,
        0x1000,
        0x0400_0010,
        0xC003_0C00,
        0,
        0x800,
        0x0201_0064,
        0x12,
        0xC003_0700,
        0,
        0,
        0x5F,
        0x11,
    ];

    const CLAIM: u64 = 1_728;

    fn record(kind: u8, number: u32) -> Vec<u8> {
        let mut bytes = vec![kind];
        bytes.extend(number.to_le_bytes());
        bytes
    }

    fn words(words: &[u32]) -> Vec<u8> {
        words.iter().flat_map(|word| record(WORD, *word)).collect()
    }

    fn midnight(day: u32) -> Vec<u8> {
        record(MIDNIGHT, day)
    }

    fn midnights(days: std::ops::Range<u32>) -> Vec<u8> {
        days.flat_map(midnight).collect()
    }

    fn start() -> Vec<u8> {
        words(&[START_PROGRAM, 0])
    }

    fn settings() -> Vec<u8> {
        words(&SETTINGS)
    }

    fn fed(taken: usize, refusal: Option<u32>) -> Fed {
        let taken = taken as u64;
        Fed { taken, refusal }
    }

    fn part(runs: u64) -> Part {
        let claims = runs * CLAIM;
        Part { runs, claims }
    }

    fn day(number: u32, runs: u64) -> Day {
        let part = part(runs);
        Day { number, part }
    }

    /// A replay that has taken all of these bytes.
    fn after(bytes: &[u8]) -> Replay {
        let mut replay = Replay::new();
        assert_eq!(replay.feed(bytes), fed(bytes.len(), None), "{bytes:?}");
        replay
    }

    /// All bytes are taken but the last, which gets this number. What came before
    /// its record stands, no record is open, and later bytes get the number again.
    fn assert_last_refused(bytes: &[u8], number: u32) {
        let mut replay = Replay::new();
        let last = bytes.len() - 1;
        assert_eq!(replay.feed(bytes), fed(last, Some(number)), "{bytes:?}");
        let before = after(&bytes[..last - last % RECORD]);
        let stopped = Replay {
            stopped: Some(number),
            ..before
        };
        assert_eq!(replay, stopped);
        assert_eq!(replay.unfinished(), 0);
        for later in [&[WORD][..], &[MIDNIGHT, 0, 0, 0, 0], &start(), &[0], &[255]] {
            assert_eq!(replay.feed(later), fed(0, Some(number)));
            assert_eq!(replay, stopped);
        }
        assert_eq!(replay.feed(&[]), fed(0, None));
        assert_eq!(replay, stopped);
    }

    #[test]
    fn numbers_come_low_byte_first() {
        assert_eq!(number_of(&[1, 0x78, 0x56, 0x34, 0x12]), 0x1234_5678);
        assert_eq!(number_of(&[2, 255, 255, 255, 255]), u32::MAX);
        assert_eq!(number_of(&[0, 1, 0, 0, 0]), 1);
    }

    #[test]
    fn nothing_came_yet() {
        let replay = Replay::new();
        assert_eq!((replay.stopped(), replay.refused()), (None, None));
        assert_eq!((replay.before(), replay.days()), (part(0), &[][..]));
        assert_eq!(replay.unfinished(), 0);
        assert_eq!(replay.session(), &Session::new());
        assert_eq!(Replay::default(), replay);
    }

    #[test]
    fn r96_another_kind_byte_is_18_and_not_taken() {
        for kind in (0..=255).filter(|kind| *kind != 1 && *kind != 2) {
            assert_last_refused(&[kind], 18);
            let mut bytes = [settings(), midnight(7), start()].concat();
            bytes.push(kind);
            assert_last_refused(&bytes, 18);
        }
        // Behind the kind byte any byte is good.
        let bytes = [[1, 0, 0, 0, 0], [2, 3, 4, 5, 255]].concat();
        assert_eq!(after(&bytes).days(), [day(0xFF05_0403, 0)]);
    }

    #[test]
    fn r96_r97_19_comes_at_the_fifth_byte() {
        let mut bytes = [settings(), midnight(7), start(), midnight(9)].concat();
        assert_last_refused(&bytes, 19);
        // Before that byte the record is unfinished, and might still be good.
        bytes.pop();
        assert_eq!(after(&bytes).unfinished(), 4);
        assert_eq!(after(&bytes).stopped(), None);
    }

    #[test]
    fn r97_the_first_midnight_may_name_any_day() {
        for first in [0, 1, 400, 0x8000_0000, u32::MAX - 1, u32::MAX] {
            assert_eq!(after(&midnight(first)).days(), [day(first, 0)]);
        }
    }

    #[test]
    fn r97_each_later_midnight_is_one_more() {
        for first in [0, 7, 0x00FF_FFFF, u32::MAX - 1] {
            let next = first + 1;
            let good = [midnight(first), midnight(next)].concat();
            assert_eq!(after(&good).days(), [day(first, 0), day(next, 0)]);
            for wrong in [
                first,
                first.wrapping_sub(1),
                next.wrapping_add(1),
                next ^ 256,
            ] {
                assert_last_refused(&[midnight(first), midnight(wrong)].concat(), 19);
            }
        }
    }

    #[test]
    fn r97_no_day_follows_the_last_number() {
        for next in [0, 1, u32::MAX - 1, u32::MAX] {
            assert_last_refused(&[midnight(u32::MAX), midnight(next)].concat(), 19);
        }
    }

    #[test]
    fn r97_at_most_400_midnights_come() {
        for first in [0, 5, u32::MAX - 400] {
            let mut bytes = midnights(first..first + 400);
            let replay = after(&bytes);
            assert_eq!(replay.days().len(), 400);
            assert_eq!(replay.days()[399], day(first + 399, 0));
            bytes.extend(midnight(first + 400));
            assert_last_refused(&bytes, 19);
        }
        // Words may come after the 400th.
        let bytes = [settings(), midnights(0..400), start()].concat();
        assert_eq!(after(&bytes).days()[399], day(399, 1));
    }

    #[test]
    fn r98_later_bytes_in_the_same_piece_get_the_number_too() {
        let mut replay = Replay::new();
        let bytes = [settings(), vec![3], start()].concat();
        assert_eq!(replay.feed(&bytes), fed(65, Some(18)));
        for byte in start() {
            assert_eq!(replay.byte(byte), Err(18));
        }
        assert_eq!(replay.session().runs(), 0);
        assert_eq!(replay.session().taken(), 13);
    }

    #[test]
    fn r98_an_empty_piece_has_no_refusal() {
        assert_eq!(Replay::new().feed(&[]), fed(0, None));
        let mut replay = Replay::new();
        assert_eq!(replay.feed(&[9]), fed(0, Some(18)));
        assert_eq!(replay.feed(&[]), fed(0, None));
        assert_eq!(replay.stopped(), Some(18));
    }

    #[test]
    fn r99_the_days_go_on_after_a_refused_word() {
        let refused = words(&[SET_OUT_FMT, 4]);
        let bytes = [
            settings(),
            midnight(10),
            start(),
            refused,
            midnight(11),
            settings(),
            start(),
            midnight(12),
        ];
        let replay = after(&bytes.concat());
        let days = [day(10, 1), day(11, 0), day(12, 0)];
        assert_eq!(replay.days(), days);
        assert_eq!(replay.stopped(), None);
        let found = RefusedWord {
            number: 4,
            record: 13 + 1 + 2 + 1,
            midnights: 1,
        };
        assert_eq!(replay.refused(), Some(found));
        // Its place is the words taken and the midnights before it.
        assert_eq!(replay.session().taken() + 1, found.record);
        assert!(replay.session().stopped());
    }

    #[test]
    fn r99_every_refusal_of_a_word_is_reported_and_never_1() {
        let refused: [(&[u32], u32); 8] = [
            (&[7], 2),
            (&[SET_COND_TEST, 8], 3),
            (&[SET_OUT_FMT, 4], 4),
            (&[SET_DOMAIN, 1, 0, 0, 0], 5),
            (&[SET_OUT_FMT, 0, 0, 0, 1], 6),
            (&[START_PROGRAM, 0], 7),
            (&[SET_DOMAIN, 0, 0, 4095, 0, START_PROGRAM, 0], 8),
            (
                &[SET_OUT_FMT, 1, 0x800, 0x0201_0064, 18, START_PROGRAM, 0],
                9,
            ),
        ];
        for (piece, number) in refused {
            // 7 is what a start without settings gets.
            let first = if number == 7 { Vec::new() } else { settings() };
            let bytes = [first, midnight(1), words(piece), words(&[0, 7]), start()];
            let replay = after(&bytes.concat());
            assert_eq!(replay.refused().map(|found| found.number), Some(number));
            assert_eq!(replay.refused().map(|found| found.midnights), Some(1));
            assert_eq!(replay.days(), [day(1, 0)]);
        }
    }

    #[test]
    fn r99_17_is_a_refused_word_too() {
        let mut replay = Replay::new_with(Session::new_after(999_999_999));
        let bytes = [words(&[SET_COND_TEST, 1, 1]), midnight(3)].concat();
        assert_eq!(replay.feed(&bytes), fed(20, None));
        let found = RefusedWord {
            number: 17,
            record: 1,
            midnights: 0,
        };
        assert_eq!(replay.refused(), Some(found));
        assert_eq!(replay.days(), [day(3, 0)]);
    }

    #[test]
    fn r100_what_ends_before_the_first_midnight_is_apart() {
        let bytes = [settings(), start(), start()].concat();
        assert_eq!(after(&bytes).before(), part(2));
        assert_eq!(after(&bytes).days(), []);
        let bytes = [bytes, midnight(0), start(), midnight(1)].concat();
        assert_eq!(after(&bytes).before(), part(2));
        assert_eq!(after(&bytes).days(), [day(0, 1), day(1, 0)]);
    }

    #[test]
    fn r101_an_open_command_belongs_to_the_day_of_its_last_word() {
        // Cut by the first midnight, by one and by two later ones.
        let header = words(&[START_PROGRAM]);
        let last = words(&[0]);
        let bytes = [
            settings(),
            header.clone(),
            midnight(5),
            last.clone(),
            header.clone(),
            midnight(6),
            last.clone(),
            start(),
            header,
            midnight(7),
            midnight(8),
            last,
        ];
        let replay = after(&bytes.concat());
        assert_eq!(replay.before(), part(0));
        let days = [day(5, 1), day(6, 2), day(7, 0), day(8, 1)];
        assert_eq!(replay.days(), days);
        // A command open at the end is still open, and counts nowhere.
        let open = after(&words(&[SET_DOMAIN, 1]));
        assert_eq!(open.session().open(), Some((SET_DOMAIN, 1)));
    }

    #[test]
    fn r101_a_midnight_touches_no_setting() {
        let mut bytes = Vec::new();
        for (place, word) in SETTINGS.iter().enumerate() {
            bytes.extend(midnight(place as u32));
            bytes.extend(record(WORD, *word));
        }
        let mut session = Session::new();
        session.feed(&SETTINGS);
        assert_eq!(after(&bytes).session(), &session);
    }

    #[test]
    fn r102_an_unfinished_record_is_counted_nowhere() {
        let whole = [settings(), midnight(2), words(&[START_PROGRAM])].concat();
        let before = after(&whole);
        for next in [record(WORD, 0), midnight(3), midnight(9), record(WORD, 1)] {
            for count in 1..RECORD {
                let replay = after(&[&whole[..], &next[..count]].concat());
                assert_eq!(replay.unfinished(), count);
                let open = next[..count].to_vec();
                assert_eq!(
                    replay,
                    Replay {
                        open,
                        ..before.clone()
                    }
                );
            }
        }
    }

    #[test]
    fn r103_after_a_stop_the_tallies_stand() {
        let bytes = [
            settings(),
            start(),
            midnight(1),
            start(),
            words(&[START_PROGRAM]),
        ]
        .concat();
        let before = after(&bytes);
        for wrong in [vec![0], midnight(3)] {
            let mut replay = before.clone();
            let number = if wrong.len() == 1 { 18 } else { 19 };
            assert_eq!(replay.feed(&wrong), fed(wrong.len() - 1, Some(number)));
            assert_eq!(replay.before(), part(1));
            assert_eq!(replay.days(), [day(1, 1)]);
            // The session isn't stopped and its command is still open.
            assert_eq!(replay.session(), before.session());
            assert_eq!(replay.session().open(), Some((START_PROGRAM, 0)));
            assert!(!replay.session().stopped());
        }
    }

    /// What a trimmed replay has of this one: of its midnights the last alone.
    #[test]
    fn a_trimmed_replay_keeps_its_last_midnight() {
        let bytes = [settings(), start(), midnights(5..8), start(), start()].concat();
        let whole = after(&bytes);
        let mut trimmed = whole.clone();
        trimmed.trim();
        assert_eq!(
            (trimmed.before(), trimmed.days()),
            (part(1), &[day(7, 2)][..])
        );
        assert_eq!(trimmed.session(), whole.session());
        let again = trimmed.clone();
        trimmed.trim();
        assert_eq!(trimmed, again);
        // 8 is still the one day that may begin.
        for wrong in [5, 6, 7, 9] {
            let mut replay = trimmed.clone();
            assert_eq!(replay.feed(&midnight(wrong)), fed(4, Some(19)));
        }
        assert_eq!(trimmed.feed(&[midnight(8), start()].concat()).refusal, None);
        assert_eq!(trimmed.days(), [day(7, 2), day(8, 1)]);
        trimmed.trim();
        assert_eq!(
            (trimmed.before(), trimmed.days()),
            (part(3), &[day(8, 1)][..])
        );
    }

    #[test]
    fn without_a_midnight_a_trim_changes_nothing() {
        for length in 0..=settings().len() {
            let mut replay = after(&settings()[..length]);
            replay.trim();
            assert_eq!(replay, after(&settings()[..length]));
        }
    }

    /// Trimmed behind each midnight it takes as many as come, and each later day is that
    /// of the one without an end.
    #[test]
    fn years_of_midnights_come_where_it_is_trimmed() {
        let (mut trimmed, mut whole) = (after(&settings()), Replay::without_end(1).unwrap());
        whole.feed(&settings());
        for number in 0..1_000 {
            let piece = [midnight(number), start().repeat(number as usize % 3)].concat();
            assert_eq!(trimmed.feed(&piece), whole.feed(&piece));
            assert_eq!(trimmed.days().last(), whole.days().last());
            trimmed.trim();
        }
        assert_eq!(whole.days().len(), 1_000);
        assert_eq!(trimmed.before().runs, 999);
        assert_eq!(whole.feed(&midnight(7)), fed(4, Some(19)));
        assert_eq!(trimmed.feed(&midnight(7)), fed(4, Some(19)));
    }

    /// "midnights - (m - 1), floored at 0": m the midnights of which one is kept.
    #[test]
    fn the_first_refused_word_keeps_its_place_among_what_is_left() {
        let refused = words(&[SET_OUT_FMT, 4]);
        for (before, behind, left) in [(0, 3, 0), (2, 1, 0), (2, 0, 1), (3, 0, 1), (1, 0, 1)] {
            let bytes = [
                settings(),
                midnights(0..before),
                refused.clone(),
                midnights(before..before + behind),
            ];
            let mut replay = after(&bytes.concat());
            replay.trim();
            let found = replay.refused().expect("a word was refused");
            assert_eq!(found.midnights, left, "{before} and {behind}");
            assert_eq!(found.record, replay.session().taken() + left as u64);
        }
    }

    /// A log with everything in it: a part before the first midnight, commands
    /// cut by midnight, a refused word, and at its end a refused or an unfinished
    /// record.
    fn everything(end: &[u8]) -> Vec<u8> {
        [
            settings(),
            start(),
            words(&[START_PROGRAM]),
            midnight(20),
            words(&[0]),
            start(),
            midnight(21),
            words(&[SET_OUT_FMT, 9]),
            midnight(22),
            start(),
            end.to_vec(),
        ]
        .concat()
    }

    #[test]
    fn a_log_may_be_cut_anywhere() {
        for end in [&[][..], &[1, 2], &[2, 24, 0, 0, 0, 1], &[7, 1, 0, 0, 0, 0]] {
            let bytes = everything(end);
            let mut whole = Replay::new();
            let answer = whole.feed(&bytes);
            assert_eq!(answer.refusal, whole.stopped());
            for first in 0..=bytes.len() {
                for second in [first, (first + 3).min(bytes.len()), bytes.len()] {
                    let mut replay = Replay::new();
                    let pieces = [&bytes[..first], &bytes[first..second], &bytes[second..]];
                    let answers = pieces.map(|piece| replay.feed(piece));
                    let taken: u64 = answers.iter().map(|fed| fed.taken).sum();
                    let refusal = answers.iter().find_map(|fed| fed.refusal);
                    assert_eq!(Fed { taken, refusal }, answer);
                    assert_eq!(replay, whole, "cut at {first} and {second}");
                }
            }
            assert_eq!(whole.before(), part(1));
            assert_eq!(whole.days(), [day(20, 2), day(21, 0), day(22, 0)]);
        }
    }
}
