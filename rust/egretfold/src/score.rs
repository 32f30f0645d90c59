//! A month of a station's log, scored against its lease line.

use crate::lengths::DAYS;
use crate::{answer, lent, Answer, Edition, Replay};

/// An accepted lease line. Its numbers are private, so that there is no other.
#[derive(Clone, Copy, Debug, PartialEq, Eq)]
pub struct Lease {
    first_day: u32,
    days: u32,
    owed: u32,
}

/// What a month is called.
#[derive(Clone, Copy, Debug, PartialEq, Eq)]
pub enum Verdict {
    /// Every day owes more than 0 and is served in full.
    Full,
    Short,
    NothingOwed,
}

/// One day of a lease.
#[derive(Clone, Copy, Debug, PartialEq, Eq)]
pub struct ScoredDay {
    pub number: u32,
    /// The elements that the log's day of this number claimed, 0 where the log has
    /// no midnight of that number.
    pub claimed: u64,
    /// The same, capped at what a day owes.
    pub served: u64,
}

#[derive(Clone, Debug, PartialEq, Eq)]
pub struct Month {
    /// The lease's days, in their order.
    pub days: Vec<ScoredDay>,
    pub served: u64,
    pub owed: u64,
    pub verdict: Verdict,
}

impl Lease {
    /// A lease of 1 to [`DAYS`] days that owe at most 100,000,000 elements each, the last
    /// day's number below 2^32. 21.
    pub fn new(first_day: u32, days: u32, owed: u32) -> Answer<Lease> {
        // Both editions have the same bounds; the replay's is the one that is scored by.
        let edition = Edition::First.number();
        answer(lent::score_lease(edition, (first_day, days, owed)))?;
        Ok(Lease {
            first_day,
            days,
            owed,
        })
    }

    pub fn first_day(&self) -> u32 {
        self.first_day
    }

    pub fn last_day(&self) -> u32 {
        self.first_day + (self.days - 1)
    }

    pub fn days(&self) -> u32 {
        self.days
    }

    /// Elements owed a day.
    pub fn owed(&self) -> u32 {
        self.owed
    }
}

impl Replay {
    /// The month of the log so far, under the replay's edition. 18 or 19, where it stopped the replay; refused
    /// words and unfinished records refuse nothing.
    ///
    /// ```
    /// use egretfold::{Edition, Lease, Replay, Verdict};
    ///
    /// // A record is its kind, 2 for a midnight, and a number of four bytes: day 101 begins.
    /// let mut replay = Replay::new(Edition::First);
    /// replay.feed(&[2, 101, 0, 0, 0]);
    /// let month = replay.score(&Lease::new(101, 1, 500)?)?;
    /// assert_eq!((month.served, month.owed, month.verdict), (0, 500, Verdict::Short));
    /// # Ok::<(), egretfold::Refusal>(())
    /// ```
    pub fn score(&self, lease: &Lease) -> Answer<Month> {
        let numbers = (lease.first_day, lease.days, lease.owed);
        let (mut claimed, mut served, mut month) = ([0; DAYS], [0; DAYS], [0; 3]);
        let number = lent::score_month(self, numbers, &mut claimed, &mut served, &mut month);
        answer(number)?;
        let day = |place: u32| ScoredDay {
            number: lease.first_day + place,
            claimed: claimed[place as usize],
            served: served[place as usize],
        };
        Ok(Month {
            days: (0..lease.days).map(day).collect(),
            served: month[0],
            owed: month[1],
            verdict: match month[2] {
                0 => Verdict::Full,
                1 => Verdict::Short,
                2 => Verdict::NothingOwed,
                other => unreachable!("the library has no verdict {other}"),
            },
        })
    }
}
