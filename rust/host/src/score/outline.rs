//! A month in outline: whose it is, its lease, and what it came to, without what each day claimed.

use crate::score::asked::{Card, LeaseLine, Unscored};
use crate::score::civil::Date;
use crate::score::month::{verdict_name, Percent, Score, Served};
use egretfold::Verdict;

pub struct Outline {
    /// A score by itself may have none.
    pub station: String,
    pub lessee: Option<String>,
    /// The number of the edition of the lease rule.
    pub edition: u32,
    pub line: LeaseLine,
    pub from: Option<Date>,
    pub came: Came,
    /// The file and the line that tell it.
    pub place: String,
}

/// What came of a month.
#[derive(PartialEq, Eq)]
pub enum Came {
    Scored(Sums),
    /// Whether it was refused; else its log couldn't be read.
    Unscored {
        refused: bool,
        why: String,
    },
}

#[derive(Clone, PartialEq, Eq)]
pub struct Sums {
    pub served: u64,
    pub owed: u64,
    pub full_days: u64,
    pub part_days: u64,
    /// The numbers of the dark days, rising.
    pub dark: Vec<u32>,
    pub verdict: Verdict,
    /// What may explain a short month.
    pub explained: Option<String>,
}

impl Outline {
    pub fn of(card: &Card) -> Outline {
        let issue = card.issue();
        Outline {
            station: issue.station.clone().unwrap_or_else(|| "-".to_string()),
            lessee: issue.lessee.clone(),
            edition: card.edition(),
            line: card.line(),
            from: card.from(),
            came: match card {
                Card::Scored(score) => Came::Scored(Sums::of(score)),
                Card::Unscored(unscored) => Came::Unscored {
                    refused: unscored.refused,
                    why: unscored.why.clone(),
                },
            },
            place: String::new(),
        }
    }

    /// What it is called: its verdict, or why there is none.
    pub fn name(&self) -> &'static str {
        match &self.came {
            Came::Scored(sums) => verdict_name(sums.verdict),
            Came::Unscored { refused, .. } => Unscored::name_of(*refused),
        }
    }

    pub fn sums(&self) -> Option<&Sums> {
        match &self.came {
            Came::Scored(sums) => Some(sums),
            Came::Unscored { .. } => None,
        }
    }
}

impl Sums {
    fn of(score: &Score) -> Sums {
        let dark = score.days.iter().filter(|day| day.is_dark());
        Sums {
            served: score.month.served,
            owed: score.month.owed,
            full_days: score.count(Served::InFull) as u64,
            part_days: score.count(Served::InPart) as u64,
            dark: dark.map(|day| day.number).collect(),
            verdict: score.month.verdict,
            explained: score.explanation(),
        }
    }

    pub fn percent(&self) -> Option<Percent> {
        Percent::of(self.served, self.owed)
    }

    /// Whether days that are served so can come to these sums under this lease line.
    pub fn are_of(&self, line: &LeaseLine) -> bool {
        let (days, owed) = (u64::from(line.days), u64::from(line.owed));
        let dark = self.dark.len() as u64;
        let days_are = [self.full_days, self.part_days, dark];
        if self.owed != days * owed || days_are.iter().any(|count| *count > days) {
            return false;
        }
        if owed == 0 {
            return (self.served, days_are) == (0, [0, 0, 0]);
        }
        // A day in part is served 1 at least, and less than it owes.
        let full = self.full_days * owed;
        let (least, most) = (self.part_days, self.part_days * (owed - 1));
        let in_lease = |day: &u32| *day >= line.first_day && *day - line.first_day < line.days;
        days_are.iter().sum::<u64>() == days
            && (full + least..=full + most).contains(&self.served)
            && self.dark.iter().all(in_lease)
            && self.dark.windows(2).all(|two| two[0] < two[1])
    }
}

#[cfg(test)]
mod tests {
    use super::*;

    /// Three days, 10 owed a day: one in full, one in part, the second dark.
    fn sums() -> Sums {
        Sums {
            served: 14,
            owed: 30,
            full_days: 1,
            part_days: 1,
            dark: vec![8],
            verdict: Verdict::Short,
            explained: None,
        }
    }

    #[test]
    fn sums_are_those_that_days_can_come_to() {
        let line = LeaseLine {
            first_day: 7,
            days: 3,
            owed: 10,
        };
        assert!(sums().are_of(&line));
        let wrong: [fn(&mut Sums); 11] = [
            |sums| sums.served = 10,
            |sums| sums.served = 20,
            |sums| sums.served = u64::MAX,
            |sums| sums.owed = 31,
            |sums| sums.full_days = 0,
            |sums| sums.full_days = u64::MAX,
            |sums| sums.part_days = 2,
            |sums| sums.part_days = u64::MAX,
            |sums| sums.dark = vec![6],
            |sums| sums.dark = vec![10],
            |sums| {
                sums.dark = vec![9, 8];
                sums.full_days = 0;
                sums.served = 4;
            },
        ];
        for (number, change) in wrong.iter().enumerate() {
            let mut sums = sums();
            change(&mut sums);
            assert!(!sums.are_of(&line), "change {number}");
        }
        let nothing = LeaseLine { owed: 0, ..line };
        assert!(!sums().are_of(&nothing));
    }
}
