//! A scored month with all that its forms show of it.

use crate::common::text;
use crate::replay::days;
use crate::replay::log::Log;
use crate::score::asked::LeaseLine;
use crate::score::checks::{self, Check};
use crate::score::civil::Date;
use crate::score::issue::Issue;
use egretfold::{Edition, Lease, Month, ScoredDay, Verdict};
use serde_json::{json, Value};
use std::fmt;

/// A month, its lease and what is told of the log that it is of.
#[derive(Clone)]
pub struct Score {
    /// The edition of the lease rule that it is scored by.
    pub edition: Edition,
    pub lease: Lease,
    /// The log's inputs by their names.
    pub inputs: Vec<String>,
    /// The SHA-256 of the log's bytes, where it was asked for.
    pub digest: Option<String>,
    pub began: Option<Began>,
    /// All of the log but its days, for programs.
    pub log: Value,
    pub month: Month,
    pub days: Vec<Day>,
    /// What to look at before the card is sent.
    pub checks: Vec<Check>,
    pub issue: Issue,
}

/// The state that a log goes on from, by which its card can be had again.
#[derive(Clone)]
pub struct Began {
    /// The file's name.
    pub state: String,
    pub sha256: String,
}

impl Began {
    fn of(log: &Log) -> Option<Began> {
        log.resumed.as_ref().map(|resumed| Began {
            state: resumed.name.clone(),
            sha256: resumed.sha256(),
        })
    }

    pub fn json(&self) -> Value {
        json!({"state": self.state, "sha256": self.sha256})
    }
}

/// A day of the lease.
#[derive(Clone)]
pub struct Day {
    pub number: u32,
    pub date: Option<Date>,
    pub claimed: u64,
    pub served: u64,
    pub owed: u64,
    /// Whether the log has a midnight of this number.
    pub in_log: bool,
}

/// How a day was served.
#[derive(Clone, Copy, PartialEq, Eq)]
pub enum Served {
    InFull,
    InPart,
    /// Nothing of what it owes.
    Dark,
    NothingOwed,
}

impl Day {
    pub fn kind(&self) -> Served {
        match (self.served, self.owed) {
            (_, 0) => Served::NothingOwed,
            (0, _) => Served::Dark,
            (served, owed) if served < owed => Served::InPart,
            _ => Served::InFull,
        }
    }

    /// As the product scored it.
    pub fn scored(&self) -> ScoredDay {
        ScoredDay {
            number: self.number,
            claimed: self.claimed,
            served: self.served,
        }
    }

    pub fn is_dark(&self) -> bool {
        self.kind() == Served::Dark
    }
}

impl Score {
    /// The product's month, with what is known of its days besides: a date for each or
    /// for none, and which of them the log has.
    pub fn new(
        lease: Lease,
        dates: Vec<Option<Date>>,
        month: Month,
        log: &Log,
        issue: Issue,
    ) -> Score {
        let ends = log.replay.status().days;
        let in_log = |number| ends.map_or(false, |(first, last)| first <= number && number <= last);
        let day = |(day, date): (&ScoredDay, Option<Date>)| Day {
            number: day.number,
            date,
            claimed: day.claimed,
            served: day.served,
            owed: u64::from(lease.owed()),
            in_log: in_log(day.number),
        };
        let days: Vec<Day> = month.days.iter().zip(dates).map(day).collect();
        let checks = checks::all(log, &lease, &days);
        Score {
            edition: log.edition(),
            lease,
            inputs: log.inputs.iter().map(|(name, _)| name.clone()).collect(),
            digest: log.digest(),
            began: Began::of(log),
            log: days::summary(log),
            month,
            days,
            checks,
            issue,
        }
    }

    /// The lease line as it was given.
    pub fn line(&self) -> LeaseLine {
        LeaseLine::of(&self.lease)
    }

    /// How many days were served so.
    pub fn count(&self, kind: Served) -> usize {
        self.days.iter().filter(|day| day.kind() == kind).count()
    }

    /// The first and the last date, where dates are known.
    pub fn dates(&self) -> Option<(Date, Date)> {
        let (first, last) = (self.days.first()?, self.days.last()?);
        first.date.zip(last.date)
    }

    /// The log by its inputs' names.
    pub fn log_name(&self) -> String {
        log_name(&self.inputs, |name| name.to_string())
    }

    /// What a card that goes on from a state tells of both, so that it can be repeated.
    pub fn digests(&self) -> Vec<String> {
        match (&self.began, &self.digest) {
            (Some(Began { state, sha256 }), Some(digest)) => vec![
                format!("SHA-256 of the log's bytes: {digest}"),
                format!("SHA-256 of the state that it goes on from, {state}: {sha256}"),
            ],
            _ => Vec::new(),
        }
    }

    /// What the month is called, in the request's words.
    pub fn verdict_name(&self) -> &'static str {
        verdict_name(self.month.verdict)
    }

    /// The verdict with the days that it comes from.
    pub fn verdict(&self) -> String {
        let name = self.verdict_name();
        let days = self.days.len();
        match self.month.verdict {
            Verdict::Full if days == 1 => format!("{name}: the day is served in full"),
            Verdict::Full => format!("{name}: each of the {days} days is served in full"),
            Verdict::NothingOwed => format!("{name}: no day of the lease owes an element"),
            Verdict::Short => format!(
                "{name}: of {}, {} served in full, {} in part, {} dark{}",
                text::count(days as u64, "day"),
                self.count(Served::InFull),
                self.count(Served::InPart),
                self.count(Served::Dark),
                self.explained(),
            ),
        }
    }

    /// Where a check explains a short month, the verdict says so.
    fn explained(&self) -> String {
        match self.explanation() {
            Some(text) => format!("; this may be because {text}"),
            None => String::new(),
        }
    }

    /// What may explain a short month, where a check does.
    pub fn explanation(&self) -> Option<String> {
        let explains = self
            .checks
            .iter()
            .filter_map(|check| check.explains.clone());
        let explains: Vec<String> = explains.collect();
        let short = self.month.verdict == Verdict::Short && !explains.is_empty();
        short.then(|| explains.join(" and "))
    }

    /// The part of what is owed that is served, in percent.
    pub fn percent(&self) -> Option<Percent> {
        Percent::of(self.month.served, self.month.owed)
    }
}

/// A log by its inputs' names, each as this gives it.
pub fn log_name(inputs: &[String], shown: impl Fn(&str) -> String) -> String {
    match inputs {
        [name] => shown(name),
        [first, .., last] => {
            let (first, last) = (shown(first), shown(last));
            format!("{first} to {last}, {} inputs", inputs.len())
        }
        [] => String::new(),
    }
}

/// The verdicts in the request's words.
pub fn verdict_name(verdict: Verdict) -> &'static str {
    match verdict {
        Verdict::Full => "full",
        Verdict::Short => "short",
        Verdict::NothingOwed => "nothing owed",
    }
}

/// A part in percent with two places, cut down, so that only all of it is 100.
#[derive(Clone, Copy)]
pub struct Percent {
    hundredths: u32,
}

impl Percent {
    /// None where nothing is owed.
    pub fn of(served: u64, owed: u64) -> Option<Percent> {
        // So wide that a fleet's sums can't wrap.
        let hundredths = (u128::from(served) * 10_000).checked_div(u128::from(owed))?;
        Some(Percent {
            hundredths: u32::try_from(hundredths).ok()?,
        })
    }

    /// "85.08", and "100" for all of it.
    pub fn digits(self) -> String {
        match self.hundredths {
            10_000 => "100".to_string(),
            part => format!("{}.{:02}", part / 100, part % 100),
        }
    }

    /// For programs: as a number.
    pub fn number(self) -> f64 {
        f64::from(self.hundredths) / 100.0
    }
}

impl fmt::Display for Percent {
    fn fmt(&self, f: &mut fmt::Formatter) -> fmt::Result {
        write!(f, "{} %", self.digits())
    }
}

/// A part as people read it, or this where nothing is owed.
pub fn shown(percent: Option<Percent>, none: &str) -> String {
    percent.map_or_else(|| none.to_string(), |percent| percent.to_string())
}

/// Puts a part into JSON: as a number, and as text.
pub fn put_percent(percent: Option<Percent>, value: &mut Value) {
    value["percent"] = json!(percent.map(Percent::number));
    value["percent_text"] = json!(percent.map(|percent| percent.to_string()));
}

/// How much of a bar's width the served part of what is owed fills: all of it only
/// where all is served, and the least that shows where anything is.
pub fn filled(served: u64, owed: u64, width: u64, least: u64) -> u64 {
    match served {
        0 => 0,
        _ if served == owed => width,
        _ => (width * served / owed).clamp(least, width - least),
    }
}

#[cfg(test)]
mod tests {
    use super::{filled, Percent};

    #[test]
    fn a_percentage_is_cut_down_and_only_all_of_it_is_100() {
        const MOST: u64 = 31 * 100_000_000;
        for (served, owed, text) in [
            (0, 0, None),
            (0, MOST, Some("0.00 %")),
            (1, MOST, Some("0.00 %")),
            (1, 3, Some("33.33 %")),
            (2, 3, Some("66.66 %")),
            (MOST - 1, MOST, Some("99.99 %")),
            (MOST, MOST, Some("100 %")),
        ] {
            let percent = Percent::of(served, owed).map(|percent| percent.to_string());
            assert_eq!(percent.as_deref(), text);
        }
    }

    #[test]
    fn only_all_of_it_fills_a_bar_and_the_least_of_it_shows() {
        const MOST: u64 = 100_000_000;
        for (served, owed, width) in [
            (0, 0, 0),
            (0, MOST, 0),
            (1, MOST, 1),
            (MOST / 20 - 1, MOST, 1),
            (MOST / 2, MOST, 10),
            (MOST - 1, MOST, 19),
            (MOST, MOST, 20),
            (1, 1, 20),
        ] {
            assert_eq!(filled(served, owed, 20, 1), width, "{served} of {owed}");
        }
        assert_eq!(filled(1, MOST, 102, 3), 3);
        assert_eq!(filled(MOST - 1, MOST, 102, 3), 99);
    }
}
