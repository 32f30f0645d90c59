//! Document 02, request 5, "Monthly score": a station's log and its lease line
//! give what each day of the lease was served, and what the month is called.

use crate::log::Replay;
use crate::Answer;

/// "days from 1 to 31"
const MOST_DAYS: u32 = 31;

/// "elements owed a day ... from 0 to 100,000,000"
const MOST_OWED: u32 = 100_000_000;

/// "last day below 2^32"
const DAY_NUMBERS: u64 = 1 << 32;

/// "lease line (first day, days ..., elements owed a day, one number for all its
/// days ...)"
#[derive(Clone, Copy, Debug, PartialEq, Eq)]
pub struct Lease {
    pub first_day: u32,
    pub days: u32,
    pub owed: u32,
}

/// What a month is called.
#[derive(Clone, Copy, Debug, PartialEq, Eq)]
pub enum Verdict {
    Full,
    Short,
    NothingOwed,
}

/// One day of the lease.
#[derive(Clone, Copy, Debug, PartialEq, Eq)]
pub struct ScoredDay {
    pub number: u32,
    pub claimed: u64,
    pub served: u64,
}

#[derive(Clone, Debug, PartialEq, Eq)]
pub struct Month {
    pub days: Vec<ScoredDay>,
    pub served: u64,
    pub owed: u64,
    pub verdict: Verdict,
}

/// The score of a log under edition 1: 21 for the lease line, before a byte of the
/// log is read; then 18 or 19 from the log.
pub fn score(lease: &Lease, log: &[u8]) -> Answer<Month> {
    score_in(1, lease, log)
}

/// The score under an edition of the lease rule, 1 or 2: 3 for any other before
/// all else.
pub fn score_in(edition: u32, lease: &Lease, log: &[u8]) -> Answer<Month> {
    let mut replay = Replay::new_in(edition)?;
    lease.judge()?;
    replay.feed(log);
    lease.month(&replay)
}

impl Lease {
    /// 21 where a number is out of its bounds.
    pub fn judge(&self) -> Answer<()> {
        if self.days < 1 || self.days > MOST_DAYS || self.owed > MOST_OWED {
            return Err(21);
        }
        if self.numbers().any(|number| number >= DAY_NUMBERS) {
            return Err(21);
        }
        Ok(())
    }

    /// The numbers of the lease's days, so wide that they can't wrap.
    fn numbers(&self) -> impl Iterator<Item = u64> {
        let first = u64::from(self.first_day);
        (0..u64::from(self.days)).map(move |place| first + place)
    }

    /// The month of a log that was replayed. Refused words and unfinished records
    /// refuse nothing: the score is of what was claimed.
    pub fn month(&self, replay: &Replay) -> Answer<Month> {
        self.judge()?;
        if let Some(number) = replay.stopped() {
            return Err(number);
        }
        let days: Vec<ScoredDay> = self
            .numbers()
            .map(|number| self.day(number as u32, replay))
            .collect();
        Ok(Month {
            served: days.iter().map(|day| day.served).sum(),
            owed: u64::from(self.owed) * u64::from(self.days),
            verdict: self.verdict(&days),
            days,
        })
    }

    /// "gives for each day the claimed number, capped at the owed number"; "A day
    /// without a midnight record in the log is served 0."
    fn day(&self, number: u32, replay: &Replay) -> ScoredDay {
        let of_the_log = replay.days().iter().find(|day| day.number == number);
        let claimed = of_the_log.map_or(0, |day| day.part.claims);
        ScoredDay {
            number,
            claimed,
            served: claimed.min(u64::from(self.owed)),
        }
    }

    /// "A station is called full exactly when every day owes more than 0 and is
    /// served in full; owing nothing is called "nothing owed", any other "short"."
    fn verdict(&self, days: &[ScoredDay]) -> Verdict {
        if self.owed == 0 {
            return Verdict::NothingOwed;
        }
        let in_full = |day: &ScoredDay| day.served == u64::from(self.owed);
        if days.iter().all(in_full) {
            Verdict::Full
        } else {
            Verdict::Short
        }
    }
}

#[cfg(test)]
mod tests {
    use super::*;

    /// Document 01's whole stream up to its start.
    #[rustfmt::skip]
    const SETTINGS: [u32; 13] = [
        0xC001_0A00, 0x1000, 0x0400_0010,
        0xC003_0C00, 0, 0x800, 0x0201_0064, 0x12,
        0xC003_0700, 0, 0, 0x5F, 0x11,
    ];

    const START: [u32; 2] = [0xC000_0800, 0];

    /// What a start claims under these settings.
    const CLAIM: u32 = 1_728;

    fn words(words: &[u32]) -> Vec<u8> {
        let record = |word: &u32| [&[1][..], &word.to_le_bytes()].concat();
        words.iter().flat_map(record).collect()
    }

    fn midnight(day: u32) -> Vec<u8> {
        [&[2][..], &day.to_le_bytes()].concat()
    }

    fn starts(count: usize) -> Vec<u8> {
        words(&START.repeat(count))
    }

    /// The settings before the first midnight, then days from this number on with so
    /// many starts each.
    fn log(first: u32, days: &[usize]) -> Vec<u8> {
        let mut log = words(&SETTINGS);
        for (place, count) in days.iter().enumerate() {
            log.extend(midnight(first + place as u32));
            log.extend(starts(*count));
        }
        log
    }

    fn lease(first_day: u32, days: u32, owed: u32) -> Lease {
        Lease {
            first_day,
            days,
            owed,
        }
    }

    /// The month of a log that isn't refused.
    fn month(lease: Lease, log: &[u8]) -> Month {
        score(&lease, log).expect("nothing is refused")
    }

    fn served(month: &Month) -> Vec<u64> {
        month.days.iter().map(|day| day.served).collect()
    }

    #[test]
    fn r116_a_lease_has_1_to_31_days() {
        for (days, answer) in [(0, Err(21)), (1, Ok(())), (31, Ok(())), (32, Err(21))] {
            assert_eq!(lease(7, days, 1).judge(), answer, "{days}");
        }
        assert_eq!(lease(0, u32::MAX, 1).judge(), Err(21));
    }

    #[test]
    fn r116_a_day_owes_at_most_100_000_000() {
        for (owed, answer) in [
            (0, Ok(())),
            (100_000_000, Ok(())),
            (100_000_001, Err(21)),
            (u32::MAX, Err(21)),
        ] {
            assert_eq!(lease(7, 30, owed).judge(), answer, "{owed}");
        }
    }

    #[test]
    fn r116_the_last_day_is_below_2_to_the_32() {
        for days in 1..=31 {
            let last_first = u32::MAX - (days - 1);
            assert_eq!(lease(last_first, days, 1).judge(), Ok(()), "{days}");
            if days > 1 {
                assert_eq!(lease(last_first + 1, days, 1).judge(), Err(21), "{days}");
                assert_eq!(lease(u32::MAX, days, 1).judge(), Err(21), "{days}");
            }
        }
        // A lease of no days has no last day, and is refused for that.
        assert_eq!(lease(u32::MAX, 0, 1).judge(), Err(21));
    }

    #[test]
    fn r116_21_comes_before_18_and_19() {
        let wrong_kind = [log(5, &[1]), vec![3]].concat();
        let wrong_day = [log(5, &[1]), midnight(7)].concat();
        for (log, number) in [(wrong_kind, 18), (wrong_day, 19)] {
            assert_eq!(score(&lease(5, 1, CLAIM), &log), Err(number));
            for bad in [
                lease(5, 0, CLAIM),
                lease(5, 32, 0),
                lease(5, 1, 100_000_001),
            ] {
                assert_eq!(score(&bad, &log), Err(21));
            }
            assert_eq!(score(&lease(u32::MAX, 2, 0), &log), Err(21));
        }
        // The part of the month before the stop gives no score, nor does a stop
        // behind the lease's last day.
        let behind = [log(5, &[1, 1, 1]), vec![0]].concat();
        assert_eq!(score(&lease(5, 1, CLAIM), &behind), Err(18));
    }

    #[test]
    fn r117_a_day_is_served_its_claims_up_to_what_it_owes() {
        let log = log(5, &[2, 2, 2]);
        let claims = 2 * CLAIM;
        for (owed, each) in [
            (claims - 1, claims - 1),
            (claims, claims),
            (claims + 1, claims),
        ] {
            let month = month(lease(5, 3, owed), &log);
            assert_eq!(served(&month), [u64::from(each); 3]);
            assert!(month.days.iter().all(|day| day.claimed == claims.into()));
            assert_eq!(month.served, 3 * u64::from(each));
            assert_eq!(month.owed, 3 * u64::from(owed));
        }
    }

    #[test]
    fn r117_a_surplus_does_not_carry() {
        for days in [[5, 0, 1], [0, 5, 1], [1, 0, 5]] {
            let month = month(lease(9, 3, CLAIM), &log(9, &days));
            let due: Vec<u64> = days
                .iter()
                .map(|count| *count.min(&1) as u64 * u64::from(CLAIM))
                .collect();
            assert_eq!(served(&month), due);
            assert_eq!(month.served, 2 * u64::from(CLAIM));
            assert_eq!(month.verdict, Verdict::Short);
        }
    }

    #[test]
    fn r117_a_day_without_a_midnight_is_served_0() {
        let log = log(20, &[1, 1]);
        let claim = u64::from(CLAIM);
        for (first, due) in [
            (17, [0, 0, 0]),
            (18, [0, 0, claim]),
            (19, [0, claim, claim]),
            (20, [claim, claim, 0]),
            (21, [claim, 0, 0]),
            (22, [0, 0, 0]),
        ] {
            let month = month(lease(first, 3, CLAIM), &log);
            assert_eq!(served(&month), due, "{first}");
            assert_eq!(month.days[0].number, first);
            assert_eq!(month.days[2].number, first + 2);
            assert_eq!(month.verdict, Verdict::Short);
        }
        // A log without a midnight serves no day, whatever it claims.
        let month = month(lease(0, 31, 1), &[words(&SETTINGS), starts(9)].concat());
        assert_eq!((month.served, month.owed), (0, 31));
    }

    #[test]
    fn r117_what_ended_before_the_first_midnight_serves_no_day() {
        let log = [words(&SETTINGS), starts(3), midnight(20), starts(1)].concat();
        let month = month(lease(19, 2, CLAIM), &log);
        assert_eq!(served(&month), [0, u64::from(CLAIM)]);
    }

    #[test]
    fn r117_the_last_day_counts_although_no_midnight_ends_it() {
        let open = log(u32::MAX - 1, &[1, 1]);
        let month = month(lease(u32::MAX - 1, 2, CLAIM), &open);
        assert_eq!(served(&month), [u64::from(CLAIM); 2]);
        assert_eq!(month.verdict, Verdict::Full);
    }

    #[test]
    fn a_command_cut_by_midnight_serves_the_day_of_its_last_word() {
        let log = [
            log(1, &[0]),
            words(&START[..1]),
            midnight(2),
            words(&START[1..]),
        ];
        let month = month(lease(1, 2, CLAIM), &log.concat());
        assert_eq!(served(&month), [0, u64::from(CLAIM)]);
    }

    #[test]
    fn r118_full_is_every_day_served_in_full() {
        let log = log(1, &[3; 31]);
        let full = month(lease(1, 31, 3 * CLAIM), &log);
        assert_eq!(full.verdict, Verdict::Full);
        assert_eq!(full.served, full.owed);
        let short = month(lease(1, 31, 3 * CLAIM + 1), &log);
        assert_eq!(short.verdict, Verdict::Short);
        assert_eq!(short.owed - short.served, 31);
        // One day outside the log is enough.
        assert_eq!(month(lease(0, 31, 1), &log).verdict, Verdict::Short);
        assert_eq!(month(lease(2, 31, 1), &log).verdict, Verdict::Short);
        assert_eq!(month(lease(1, 31, 1), &log).verdict, Verdict::Full);
    }

    #[test]
    fn r118_owing_nothing_is_not_full() {
        for log in [log(1, &[3, 3]), log(1, &[0, 0]), Vec::new()] {
            let month = month(lease(1, 2, 0), &log);
            assert_eq!(month.verdict, Verdict::NothingOwed);
            assert_eq!((month.served, month.owed), (0, 0));
        }
    }

    #[test]
    fn r119_a_refused_word_and_an_unfinished_record_refuse_nothing() {
        // The second day's starts come behind the refused word and claim nothing.
        let bytes = [
            log(1, &[2]),
            words(&[7]),
            midnight(2),
            starts(2),
            vec![2, 3, 0],
        ]
        .concat();
        let mut replay = Replay::new();
        replay.feed(&bytes);
        assert!(replay.refused().is_some() && replay.unfinished() == 3);
        let short = month(lease(1, 2, CLAIM), &bytes);
        assert_eq!(served(&short), [u64::from(CLAIM), 0]);
        assert_eq!(short.verdict, Verdict::Short);
        // What was claimed before it can fill a lease.
        assert_eq!(month(lease(1, 1, CLAIM), &bytes).verdict, Verdict::Full);
    }
}
