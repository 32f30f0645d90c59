//! What to look at before a card is sent: a log that isn't the lease's, or isn't
//! whole, makes a short month that is nobody's fault but the file's.

use crate::common::text;
use crate::replay::days;
use crate::replay::log::{Log, POWER_UP};
use crate::replay::resumed::{Resumed, Whose};
use crate::score::month::Day;
use egretfold::{headers, Lease};
use serde_json::{json, Value};

#[derive(Clone)]
pub struct Check {
    /// For programs.
    pub key: String,
    pub text: String,
    /// What a short month may come from by it.
    pub explains: Option<String>,
}

/// All that hold, those first that explain most.
pub fn all(log: &Log, lease: &Lease, days: &[Day]) -> Vec<Check> {
    let mut checks = Vec::new();
    empty(log, &mut checks);
    covered(log, days, &mut checks);
    closed(log, days, &mut checks);
    refused(log, days, &mut checks);
    outside(log, lease, &mut checks);
    dated(log, days, &mut checks);
    let mut put = |key, text: Option<String>| {
        checks.extend(text.map(|text| Check::new(key, text, None)));
    };
    put("open_command", days::open_command(log));
    put("unfinished_record", days::unfinished_record(log));
    checks
}

impl Check {
    pub fn new(key: &str, text: String, explains: Option<&str>) -> Check {
        Check {
            key: key.to_string(),
            text,
            explains: explains.map(String::from),
        }
    }

    pub fn json(&self) -> Value {
        json!({"check": self.key, "text": self.text, "explains": self.explains})
    }
}

fn empty(log: &Log, checks: &mut Vec<Check>) {
    let mut put = |text, explains| {
        checks.push(Check::new("empty_input", text, Some(explains)));
    };
    if log.bytes == 0 {
        return put("the log is empty".to_string(), "the log is empty");
    }
    // Inputs that begin where the next one does.
    let ends = log.inputs.iter().skip(1).map(|(_, begin)| *begin);
    for ((name, begin), end) in log.inputs.iter().zip(ends.chain([log.bytes])) {
        if *begin == end {
            put(format!("{name} is empty"), "an input is empty");
        }
    }
}

/// Days of the lease that the log doesn't have.
fn covered(log: &Log, days: &[Day], checks: &mut Vec<Check>) {
    let (first, last) = match log.replay.status().days {
        Some(ends) => ends,
        None => {
            return checks.push(Check::new(
                "no_midnight",
                "the log has no midnight at all, so it covers no day".to_string(),
                // An empty one is explained by that.
                (log.bytes > 0).then_some("the log has no midnight"),
            ));
        }
    };
    let among = days.iter().filter(|day| day.in_log).count();
    if among == days.len() {
        return;
    }
    let covers = if first == last {
        format!("day {first}")
    } else {
        format!("days {first} to {last}")
    };
    let due = days.len();
    let verb = if among == 1 { "is" } else { "are" };
    checks.push(Check::new(
        "not_covered",
        format!("the log covers {covers}, and {among} of the lease's {due} days {verb} among them"),
        Some("the log doesn't cover the lease"),
    ));
}

/// A last day that goes on behind the log's end: its midnight hasn't come. A log that ends inside a record is told as that.
fn closed(log: &Log, days: &[Day], checks: &mut Vec<Check>) {
    let status = log.replay.status();
    let ends_in = status.days.map(|(_, last)| last);
    let day = match days.last() {
        Some(day) if ends_in == Some(day.number) && status.unfinished == 0 => day,
        _ => return,
    };
    let number = day.number;
    checks.push(Check::new(
        "not_closed",
        format!("day {number} isn't closed by a midnight: what came later isn't in this log"),
        (day.served < day.owed).then_some("the log ends inside the last day"),
    ));
}

/// The first refused word, after which nothing counts.
fn refused(log: &Log, days: &[Day], checks: &mut Vec<Check>) {
    let (place, refused) = match &log.word {
        Some(word) => word,
        None => return,
    };
    let from = place.day.unwrap_or(0);
    let short = days
        .iter()
        .any(|day| day.number >= from && day.served < day.owed);
    if refused.number == NOT_SET && nothing_is_set(log) {
        checks.push(Check::new(
            "set_up_missing",
            "the first start was refused 7 before anything was set: files from the set-up on are missing; \
             the state saved at the end of the month before would do (score --resume)"
                .to_string(),
            short.then_some("the set-up is missing"),
        ));
    }
    let after = text::count(log.words_after(), "word");
    let what_to_do = match refused.number {
        NO_MORE_WORDS => format!("; {POWER_UP}"),
        _ => String::new(),
    };
    checks.push(Check::new(
        "refused_word",
        format!(
            "{place}: word {refused}; the days go on, {after} after it without effect{what_to_do}"
        ),
        short.then_some("a word was refused"),
    ));
}

/// The refusal of a start without what it needs, and of words past a session's last.
const NOT_SET: u32 = 7;
const NO_MORE_WORDS: u32 = 17;

/// A state and a lease line by which a day has two dates: one of them is another's.
fn dated(log: &Log, days: &[Day], checks: &mut Vec<Check>) {
    let first = days.first().and_then(|day| Some((day.number, day.date?)));
    let whose = Whose {
        station: None,
        dated: first,
    };
    let other = log
        .resumed
        .as_ref()
        .and_then(|resumed| resumed.other_date(&whose));
    checks.extend(other.map(|text| Check::new("other_date", text, None)));
}

/// The session's settings are those that the refused word met.
fn nothing_is_set(log: &Log) -> bool {
    let session = log.replay.session();
    let is_set = |header, number| matches!(session.format(header, number), Ok(Some(_)));
    let outputs = (0..4).any(|number| is_set(headers::SET_OUT_FMT, number));
    session.runs() == 0
        && session.domain().is_none()
        && !outputs
        && !is_set(headers::SET_INST_FMT, 0)
}

/// Days of the log that aren't the lease's.
fn outside(log: &Log, lease: &Lease, checks: &mut Vec<Check>) {
    let (first, last) = match log.replay.status().days {
        Some(ends) => ends,
        None => return,
    };
    // Those that a state brings were another month's.
    let brought = log.resumed.as_ref().and_then(Resumed::last_day);
    let first = match brought {
        Some(brought) if brought == last => return,
        Some(brought) => brought + 1,
        None => first,
    };
    // The midnight that closes the lease's last day begins another one, of which nothing came yet.
    let closes = last == lease.last_day().saturating_add(1) && log.ends_with_midnight();
    let last = if closes { last - 1 } else { last };
    let before = (lease.first_day() > first).then(|| (first, last.min(lease.first_day() - 1)));
    let after = (lease.last_day() < last).then(|| (first.max(lease.last_day() + 1), last));
    let parts: Vec<(u32, u32)> = before.into_iter().chain(after).collect();
    let count: u64 = parts
        .iter()
        .map(|(from, to)| u64::from(to - from) + 1)
        .sum();
    if count == 0 {
        return;
    }
    let named = |(from, to): &(u32, u32)| {
        if from == to {
            from.to_string()
        } else {
            format!("{from} to {to}")
        }
    };
    let named: Vec<String> = parts.iter().map(named).collect();
    let days = text::count(count, "day");
    let named = named.join(" and ");
    checks.push(Check::new(
        "outside_the_lease",
        format!("the log has {days} outside the lease: {named}"),
        None,
    ));
}
