//! A card as a fleet keeps it for later, in few bytes: of a day nothing but what it claimed
//! and whether the log has it, since all else of it is the lease's.

use crate::common::digest::{self, Finished};
use crate::fleet::spool::Stored;
use crate::score::asked::{self, Card, LeaseLine, Unscored};
use crate::score::checks::Check;
use crate::score::civil::Date;
use crate::score::issue::Issue;
use crate::score::month::{Began, Day, Score, Served};
use egretfold::{Edition, Lease, Month, Verdict};
use serde_json::Value;
use std::borrow::Cow;

pub enum Kept {
    Scored(Box<Scored>),
    Unscored(Box<Unscored>),
}

/// What a month comes to.
#[derive(Clone, Copy)]
pub struct Total {
    pub served: u64,
    pub owed: u64,
    pub verdict: Verdict,
}

/// A card that has a score.
pub struct Scored {
    edition: Edition,
    lease: Lease,
    from: Option<Date>,
    inputs: Vec<String>,
    /// Smaller than in hex.
    pub digest: Option<Finished>,
    pub began: Option<Began>,
    pub total: Total,
    /// Of each day of the lease.
    claimed: Vec<u64>,
    /// A bit for each day of the lease that the log has.
    in_log: u32,
    pub checks: Vec<Check>,
    issue: Issue,
}

impl Kept {
    pub fn of(card: Card) -> Kept {
        match card {
            Card::Scored(score) => Kept::Scored(Box::new(Scored::of(score))),
            // What is told of its log is for `score` alone.
            Card::Unscored(unscored) => Kept::Unscored(Box::new(Unscored {
                log: Value::Null,
                ..unscored
            })),
        }
    }

    pub fn card(self) -> Card {
        match self {
            Kept::Scored(scored) => Card::Scored(scored.score()),
            Kept::Unscored(unscored) => Card::Unscored(*unscored),
        }
    }

    /// The log's inputs by their names.
    pub fn inputs(&self) -> &[String] {
        match self {
            Kept::Scored(scored) => &scored.inputs,
            Kept::Unscored(unscored) => &unscored.inputs,
        }
    }

    pub fn scored(&self) -> Option<&Scored> {
        match self {
            Kept::Scored(scored) => Some(scored),
            Kept::Unscored(_) => None,
        }
    }

    /// Whether its log couldn't be read, so that another try may score it.
    pub fn is_unread(&self) -> bool {
        matches!(self, Kept::Unscored(unscored) if !unscored.refused)
    }

    pub fn issue(&self) -> &Issue {
        match self {
            Kept::Scored(scored) => &scored.issue,
            Kept::Unscored(unscored) => &unscored.issue,
        }
    }

    /// Puts a check to those of a card that has a score.
    pub fn check(&mut self, check: Check) {
        if let Kept::Scored(scored) = self {
            scored.checks.push(check);
        }
    }

    /// The number of its edition.
    pub fn edition(&self) -> u32 {
        match self {
            Kept::Scored(scored) => scored.edition.number(),
            Kept::Unscored(unscored) => unscored.edition,
        }
    }

    /// The lease line with its first date.
    pub fn lease(&self) -> (LeaseLine, Option<Date>) {
        match self {
            Kept::Scored(scored) => (LeaseLine::of(&scored.lease), scored.from),
            Kept::Unscored(unscored) => (unscored.line, unscored.from),
        }
    }

    /// The station's name; a score by itself may have none.
    pub fn station(&self) -> &str {
        self.issue().station.as_deref().unwrap_or("-")
    }
}

impl Scored {
    fn of(score: Score) -> Scored {
        let in_log = score.days.iter().rev().map(|day| u32::from(day.in_log));
        Scored {
            edition: score.edition,
            lease: score.lease,
            from: score.dates().map(|(first, _)| first),
            claimed: score.days.iter().map(|day| day.claimed).collect(),
            in_log: in_log.fold(0, |bits, bit| bits << 1 | bit),
            inputs: score.inputs,
            digest: score.digest.as_deref().and_then(digest::of_hex),
            began: score.began,
            total: Total {
                served: score.month.served,
                owed: score.month.owed,
                verdict: score.month.verdict,
            },
            checks: score.checks,
            issue: score.issue,
        }
    }

    /// The days, in their order.
    fn days(&self) -> impl Iterator<Item = Day> + '_ {
        let owed = u64::from(self.lease.owed());
        let dates = self.from.and_then(|from| from.run(self.lease.days()));
        let claimed = (0..).zip(self.claimed.iter().copied());
        claimed.map(move |(place, claimed)| Day {
            number: self.lease.first_day() + place,
            date: dates.as_ref().map(|dates| dates[place as usize]),
            claimed,
            // A day is served what it claimed, up to what it owes.
            served: claimed.min(owed),
            owed,
            in_log: self.in_log >> place & 1 == 1,
        })
    }

    /// How many days were served so.
    pub fn count(&self, kind: Served) -> usize {
        self.days().filter(|day| day.kind() == kind).count()
    }

    fn score(self) -> Score {
        let days: Vec<Day> = self.days().collect();
        Score {
            edition: self.edition,
            lease: self.lease,
            inputs: self.inputs,
            digest: self.digest.map(digest::hex),
            began: self.began,
            log: Value::Null,
            month: Month {
                days: days.iter().map(Day::scored).collect(),
                served: self.total.served,
                owed: self.total.owed,
                verdict: self.total.verdict,
            },
            days,
            checks: self.checks,
            issue: self.issue,
        }
    }
}

impl Stored for Kept {
    fn store(&self, to: &mut Vec<u8>) {
        self.scored().is_some().store(to);
        match self {
            Kept::Scored(scored) => scored.store(to),
            Kept::Unscored(unscored) => unscored.store(to),
        }
    }

    fn take(from: &mut &[u8]) -> Option<Kept> {
        if bool::take(from)? {
            Some(Kept::Scored(Box::new(Stored::take(from)?)))
        } else {
            Some(Kept::Unscored(Box::new(Stored::take(from)?)))
        }
    }
}

impl Stored for Scored {
    fn store(&self, to: &mut Vec<u8>) {
        self.edition.number().store(to);
        LeaseLine::of(&self.lease).store(to);
        self.from.store(to);
        self.inputs.store(to);
        self.digest.store(to);
        self.began.store(to);
        self.total.store(to);
        self.claimed.store(to);
        self.in_log.store(to);
        self.checks.store(to);
        self.issue.store(to);
    }

    fn take(from: &mut &[u8]) -> Option<Scored> {
        Some(Scored {
            edition: Edition::of(u32::take(from)?).ok()?,
            lease: asked::accepted(Stored::take(from)?).ok()?,
            from: Stored::take(from)?,
            inputs: Stored::take(from)?,
            digest: Stored::take(from)?,
            began: Stored::take(from)?,
            total: Stored::take(from)?,
            claimed: Stored::take(from)?,
            in_log: Stored::take(from)?,
            checks: Stored::take(from)?,
            issue: Stored::take(from)?,
        })
    }
}

impl Stored for Total {
    fn store(&self, to: &mut Vec<u8>) {
        self.served.store(to);
        self.owed.store(to);
        (self.verdict as u32).store(to);
    }

    fn take(from: &mut &[u8]) -> Option<Total> {
        const VERDICTS: [Verdict; 3] = [Verdict::Full, Verdict::Short, Verdict::NothingOwed];
        let (served, owed, verdict) = (u64::take(from)?, u64::take(from)?, u32::take(from)?);
        let mut verdicts = VERDICTS.into_iter();
        Some(Total {
            served,
            owed,
            verdict: verdicts.find(|each| *each as u32 == verdict)?,
        })
    }
}

impl Stored for Unscored {
    fn store(&self, to: &mut Vec<u8>) {
        self.edition.store(to);
        self.line.store(to);
        self.from.store(to);
        self.inputs.store(to);
        self.issue.store(to);
        self.refused.store(to);
        self.why.store(to);
        self.refusal.to_string().store(to);
    }

    fn take(from: &mut &[u8]) -> Option<Unscored> {
        Some(Unscored {
            edition: Stored::take(from)?,
            line: Stored::take(from)?,
            from: Stored::take(from)?,
            inputs: Stored::take(from)?,
            issue: Stored::take(from)?,
            refused: Stored::take(from)?,
            why: Stored::take(from)?,
            refusal: serde_json::from_str(&String::take(from)?).ok()?,
            log: Value::Null,
        })
    }
}

impl Stored for LeaseLine {
    fn store(&self, to: &mut Vec<u8>) {
        self.first_day.store(to);
        self.days.store(to);
        self.owed.store(to);
    }

    fn take(from: &mut &[u8]) -> Option<LeaseLine> {
        Some(LeaseLine {
            first_day: Stored::take(from)?,
            days: Stored::take(from)?,
            owed: Stored::take(from)?,
        })
    }
}

impl Stored for Date {
    fn store(&self, to: &mut Vec<u8>) {
        self.year.store(to);
        self.month.store(to);
        self.day.store(to);
    }

    fn take(from: &mut &[u8]) -> Option<Date> {
        Some(Date {
            year: Stored::take(from)?,
            month: Stored::take(from)?,
            day: Stored::take(from)?,
        })
    }
}

impl Stored for Issue {
    fn store(&self, to: &mut Vec<u8>) {
        self.station.store(to);
        self.lessee.store(to);
        self.lease.store(to);
        self.zone.store(to);
        self.date.store(to);
        self.version.clone().into_owned().store(to);
        self.archive.clone().map(Cow::into_owned).store(to);
    }

    fn take(from: &mut &[u8]) -> Option<Issue> {
        Some(Issue {
            station: Stored::take(from)?,
            lessee: Stored::take(from)?,
            lease: Stored::take(from)?,
            zone: Stored::take(from)?,
            date: Stored::take(from)?,
            version: String::take(from)?.into(),
            archive: <Option<String> as Stored>::take(from)?.map(Cow::from),
        })
    }
}

impl Stored for Began {
    fn store(&self, to: &mut Vec<u8>) {
        self.state.store(to);
        self.sha256.store(to);
    }

    fn take(from: &mut &[u8]) -> Option<Began> {
        Some(Began {
            state: Stored::take(from)?,
            sha256: Stored::take(from)?,
        })
    }
}

impl Stored for Check {
    fn store(&self, to: &mut Vec<u8>) {
        self.key.store(to);
        self.text.store(to);
        self.explains.store(to);
    }

    fn take(from: &mut &[u8]) -> Option<Check> {
        Some(Check {
            key: Stored::take(from)?,
            text: Stored::take(from)?,
            explains: Stored::take(from)?,
        })
    }
}

#[cfg(test)]
pub mod tests {
    use super::*;
    use crate::input::source::Source;
    use crate::replay::log::Log;
    use crate::score::rows;

    const LOG: &[u8] = include_bytes!("../../../../samples/station-14.log");

    fn told(card: &Card) -> String {
        let mut out = Vec::new();
        assert!(rows::json(card, &mut out).is_ok());
        String::from_utf8_lossy(&out).into_owned()
    }

    /// As it comes back from its bytes.
    fn stored(card: Kept) -> Kept {
        let mut bytes = Vec::new();
        card.store(&mut bytes);
        let mut rest = bytes.as_slice();
        let card = Kept::take(&mut rest).expect("a card");
        assert!(rest.is_empty());
        card
    }

    pub fn score(station: &str, first_day: u32, from: Option<Date>) -> Score {
        let mut log = Log::with_digest(Edition::First);
        assert!(log.read(vec![Source::of_bytes("a log", LOG)]).is_ok());
        let lease = Lease::new(first_day, 30, 14_000_000).expect("a lease");
        let dates = asked::dates(from, &lease).expect("dates");
        let month = log.replay.score(&lease).expect("a month");
        let station = Some(station.to_string());
        let issue = Issue::of([&station, &None, &None, &None], Date::today());
        Score::new(lease, dates, month, &log, issue)
    }

    /// With dates and without, days that the log has and days that it hasn't: a card that
    /// was kept tells what it told before, but for the log.
    #[test]
    fn a_card_comes_back_as_it_was() {
        for (first_day, from) in [(101, "2026-04-01"), (95, ""), (119, "2026-12-19")] {
            let from = Date::parse(from).ok();
            let mut due = score("14", first_day, from);
            due.log = Value::Null;
            let is = stored(Kept::of(Card::Scored(score("14", first_day, from)))).card();
            assert_eq!(is.score().map(|score| &score.month), Some(&due.month));
            assert_eq!(told(&is), told(&Card::Scored(due)));
            assert!(told(&is).contains("\"in_log\":true"));
            assert_eq!(told(&is).contains("\"in_log\":false"), first_day != 101);
        }
    }

    pub fn unscored(station: &str) -> Unscored {
        let names = [station, "Mole", "L-7", "UTC"];
        let [station, lessee, lease, zone] = names.map(|name| Some(name.to_string()));
        Unscored {
            edition: 1,
            line: LeaseLine {
                first_day: 1,
                days: 32,
                owed: 3,
            },
            from: None,
            inputs: vec!["a.log".to_string(), "é".to_string()],
            issue: Issue::of([&station, &lessee, &lease, &zone], Date::today()),
            refused: true,
            why: "two\nlines".to_string(),
            refusal: serde_json::json!({"refused": 21, "cause": ["32 days"]}),
            log: Value::Null,
        }
    }

    #[test]
    fn a_card_without_a_score_comes_back_too() {
        let is = stored(Kept::of(Card::Unscored(unscored("7")))).card();
        assert_eq!(told(&is), told(&Card::Unscored(unscored("7"))));
        assert!(told(&is).contains("REFUSED"));
    }
}
