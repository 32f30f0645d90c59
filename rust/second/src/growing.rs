//! Request 14's report over any number of stations, which are added one by one. Every
//! month is kept, and what they come to is added up anew whenever it is asked for.

use crate::fleet::silent_days;
use crate::score::{score_in, Lease};
use crate::Answer;

/// The most stations that a report takes.
const MOST_STATIONS: u64 = 1 << 32;

/// The most that a month owes: 31 days of 100,000,000 elements.
const MOST_OWED: u64 = 31 * 100_000_000;

/// The most days of a month.
const MOST_DAYS: u64 = 31;

/// What a report keeps of a month.
#[derive(Clone, Copy, Debug, PartialEq, Eq)]
struct Month {
    served: u64,
    owed: u64,
    silent_days: u64,
}

/// So many stations, one behind the other, that have the same month. So a report of many
/// equal ones can be kept whole.
#[derive(Clone, Copy, Debug)]
struct Run {
    month: Month,
    stations: u64,
}

/// A report under way.
#[derive(Clone, Debug)]
pub struct Growing {
    edition: u32,
    runs: Vec<Run>,
}

/// What the stations so far come to.
#[derive(Clone, Copy, Debug, PartialEq, Eq)]
pub struct Told {
    pub stations: u64,
    pub served: u64,
    pub owed: u64,
    pub silent_days: u64,
    /// The station with the smallest served part, none if none owes anything.
    pub station: Option<u64>,
}

impl Growing {
    /// A report without a station; 3 for a number that is no edition's.
    pub fn new(edition: u32) -> Answer<Growing> {
        match edition {
            1 | 2 => Ok(Growing {
                edition,
                runs: Vec::new(),
            }),
            _ => Err(3),
        }
    }

    fn stations(&self) -> u64 {
        self.runs.iter().map(|run| run.stations).sum()
    }

    /// One station more, by its log under an edition and its lease line. 3 for another
    /// edition than the report's, 22 past the most stations, then what refuses its score.
    pub fn add(&mut self, edition: u32, lease: &Lease, log: &[u8]) -> Answer<()> {
        if edition != self.edition {
            return Err(3);
        }
        if self.stations() == MOST_STATIONS {
            return Err(22);
        }
        let month = score_in(edition, lease, log)?;
        self.put(Run {
            month: Month {
                served: month.served,
                owed: month.owed,
                silent_days: silent_days(&month),
            },
            stations: 1,
        });
        Ok(())
    }

    /// One station more, by its month's numbers. 22 past the most stations, then 21 for
    /// numbers that no month has.
    pub fn add_month(&mut self, served: u64, owed: u64, silent_days: u64) -> Answer<()> {
        if self.stations() == MOST_STATIONS {
            return Err(22);
        }
        if owed > MOST_OWED || served > owed || silent_days > MOST_DAYS {
            return Err(21);
        }
        let month = Month {
            served,
            owed,
            silent_days,
        };
        self.put(Run { month, stations: 1 });
        Ok(())
    }

    /// The other's stations behind these. 3 for another edition, 22 where they are more
    /// than the most together.
    pub fn join(&mut self, other: &Growing) -> Answer<()> {
        if other.edition != self.edition {
            return Err(3);
        }
        if self.stations() + other.stations() > MOST_STATIONS {
            return Err(22);
        }
        for run in other.runs.clone() {
            self.put(run);
        }
        Ok(())
    }

    fn put(&mut self, run: Run) {
        match self.runs.last_mut() {
            Some(last) if last.month == run.month => last.stations += run.stations,
            _ => self.runs.push(run),
        }
    }

    pub fn tell(&self) -> Told {
        let sum = |number: fn(&Month) -> u64| {
            let products = self
                .runs
                .iter()
                .map(|run| run.stations * number(&run.month));
            products.sum()
        };
        Told {
            stations: self.stations(),
            served: sum(|month| month.served),
            owed: sum(|month| month.owed),
            silent_days: sum(|month| month.silent_days),
            station: self.smallest(),
        }
    }

    /// The first station of the first run that owes and whose part no other's is below.
    fn smallest(&self) -> Option<u64> {
        let owing = || self.runs.iter().filter(|run| run.month.owed > 0);
        let is_least = |run: &Run| {
            let above = |other: &Run| {
                u128::from(run.month.served) * u128::from(other.month.owed)
                    <= u128::from(other.month.served) * u128::from(run.month.owed)
            };
            run.month.owed > 0 && owing().all(above)
        };
        let mut before = 0;
        for run in &self.runs {
            if is_least(run) {
                return Some(before);
            }
            before += run.stations;
        }
        None
    }
}

#[cfg(test)]
mod tests {
    use super::*;

    fn grown(months: &[(u64, u64, u64)]) -> Growing {
        let mut fleet = Growing::new(1).expect("an edition");
        for (served, owed, silent) in months {
            assert_eq!(fleet.add_month(*served, *owed, *silent), Ok(()));
        }
        fleet
    }

    #[test]
    fn sums_and_the_smallest_part() {
        let told = grown(&[(3, 4, 0), (0, 0, 0), (1, 2, 1), (2, 4, 2), (5, 6, 0)]).tell();
        let due = Told {
            stations: 5,
            served: 11,
            owed: 16,
            silent_days: 3,
            station: Some(2),
        };
        assert_eq!(told, due);
        assert_eq!(grown(&[]).tell().station, None);
        assert_eq!(grown(&[(0, 0, 0); 70]).tell().station, None);
        let mut months = vec![(1, 1, 0); 64];
        months.push((0, 1, 1));
        assert_eq!(grown(&months).tell().station, Some(64));
    }

    #[test]
    fn groups_in_their_order_are_the_whole() {
        let months: Vec<(u64, u64, u64)> =
            (0..90).map(|n| (n % 7 * n % 5, n % 4 * 9, n % 3)).collect();
        let months: Vec<_> = months.iter().map(|(s, o, d)| (*s.min(o), *o, *d)).collect();
        let whole = grown(&months).tell();
        for at in 0..=90 {
            let mut one = grown(&months[..at]);
            assert_eq!(one.join(&grown(&months[at..])), Ok(()));
            assert_eq!(one.tell(), whole, "{at}");
        }
    }

    #[test]
    fn refusals_and_their_order() {
        assert_eq!(Growing::new(0).map(drop), Err(3));
        assert_eq!(Growing::new(3).map(drop), Err(3));
        let mut fleet = grown(&[(1, 2, 0)]);
        for (served, owed, silent) in [(0, MOST_OWED + 1, 0), (3, 2, 0), (0, 1, 32)] {
            assert_eq!(fleet.add_month(served, owed, silent), Err(21));
        }
        assert_eq!(fleet.add_month(MOST_OWED, MOST_OWED, 31), Ok(()));
        assert_eq!(fleet.join(&Growing::new(2).expect("an edition")), Err(3));
        let lease = |days| Lease {
            first_day: 5,
            days,
            owed: 1,
        };
        assert_eq!(fleet.add(2, &lease(0), &[9]), Err(3));
        assert_eq!(fleet.add(1, &lease(0), &[9]), Err(21));
        assert_eq!(fleet.add(1, &lease(1), &[9]), Err(18));
        assert_eq!(fleet.add(1, &lease(3), &[]), Ok(()));
        assert_eq!(fleet.tell().stations, 3);
        assert_eq!(fleet.tell().silent_days, 34);
        // Doubled until it is full.
        let mut full = grown(&[(MOST_OWED, MOST_OWED, 0)]);
        for _ in 0..32 {
            let same = full.clone();
            assert_eq!(full.join(&same), Ok(()));
        }
        assert_eq!(full.tell().owed, MOST_OWED << 32);
        assert_eq!(full.add(2, &lease(0), &[9]), Err(3));
        assert_eq!(full.add(1, &lease(0), &[9]), Err(22));
        assert_eq!(full.add_month(3, 2, 0), Err(22));
        assert_eq!(full.join(&fleet), Err(22));
        assert_eq!(full.join(&grown(&[])), Ok(()));
    }
}
