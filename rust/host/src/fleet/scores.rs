//! The lines of `score --json`, read back: a fleet that was scored elsewhere, joined; and for months
//! side by side a fleet's own lines too.

use crate::common::digest;
use crate::common::failure::{Failure, Outcome};
use crate::common::schema;
use crate::common::visible;
use crate::fleet::held;
use crate::fleet::join::OF_THE_JOIN;
use crate::fleet::kept::Kept;
use crate::fleet::month::{self, OF_THE_FLEET};
use crate::fleet::spool::Stored;
use crate::input::source::{Source, PIECE};
use crate::score::asked::{accepted, dates, Called, Card, LeaseLine, Unscored};
use crate::score::checks::Check;
use crate::score::civil::Date;
use crate::score::issue::Issue;
use crate::score::month::{verdict_name, Began, Day, Score};
use crate::score::outline::{self, Outline, Sums};
use egretfold::{Edition, Month, Verdict};
use serde_json::Value;
use std::borrow::Cow;
use std::fmt;
use std::io::{BufRead, BufReader, Read as _};
use std::path::{Path, PathBuf};
use std::rc::Rc;

/// Lines of a hundred thousand stations.
const LONGEST: u64 = 1 << 29;

/// The most bytes of a line: one that names all files of a log is the longest.
const LONGEST_LINE: u64 = 1 << 24;

/// The most days of a lease.
const MOST_DAYS: usize = 31;

/// A reading's own words for what is wrong.
type Read<T> = Result<T, String>;

/// Where a score stands among those that are read.
#[derive(Clone)]
pub struct Place {
    file: Rc<str>,
    line: usize,
}

impl fmt::Display for Place {
    fn fmt(&self, f: &mut fmt::Formatter) -> fmt::Result {
        write!(f, "{}: line {}", self.file, self.line)
    }
}

/// A card that came, and the place of its month's line.
pub struct Came {
    pub card: Kept,
    pub place: Place,
}

impl Stored for Came {
    fn store(&self, to: &mut Vec<u8>) {
        self.card.store(to);
        self.place.file.to_string().store(to);
        (self.place.line as u64).store(to);
    }

    fn take(from: &mut &[u8]) -> Option<Came> {
        Some(Came {
            card: Stored::take(from)?,
            place: Place {
                file: String::take(from)?.into(),
                line: u64::take(from)? as usize,
            },
        })
    }
}

/// What a score's lines come to.
enum Told {
    /// The days and the summary that `score --json` prints.
    Card(Box<Card>),
    /// A station's line of `fleet --json`, which has no days.
    Outline(Outline),
}

impl Told {
    /// The station's name.
    fn station(&self) -> &str {
        match self {
            Told::Card(card) => month::station(card),
            Told::Outline(outline) => &outline.station,
        }
    }
}

/// A line of a file.
struct Line {
    number: usize,
    value: Value,
}

/// What is wrong, and in which line.
struct Wrong {
    line: usize,
    cause: String,
}

/// The lines before a summary.
#[derive(Default)]
struct Days {
    count: usize,
    /// The number of the last.
    last: usize,
    /// Of those that a lease can have.
    lines: Vec<Line>,
}

impl Days {
    fn put(&mut self, line: Line) {
        self.count += 1;
        self.last = line.number;
        if self.lines.len() < MOST_DAYS {
            self.lines.push(line);
        }
    }
}

/// Hands on the cards that these files tell, in their order.
pub fn read(files: &[PathBuf], mut take: impl FnMut(Came) -> Outcome) -> Outcome {
    each(files, |place, told| match told {
        Told::Card(card) => {
            let card = Kept::of(*card);
            take(Came { card, place }).map(Ok)
        }
        Told::Outline(_) => Ok(Err(
            "is a line of fleet --json, which has no days; join what score --json prints"
                .to_string(),
        )),
    })
}

/// The months that these files tell, in their order, by `score --json` or by `fleet --json`.
pub fn outlines(files: &[PathBuf]) -> Outcome<Vec<Outline>> {
    let mut outlines = Vec::new();
    each(files, |place, told| {
        let outline = match told {
            Told::Card(card) => Outline::of(&card),
            Told::Outline(outline) => outline,
        };
        outlines.push(Outline {
            place: place.to_string(),
            ..outline
        });
        Ok(Ok(()))
    })?;
    Ok(outlines)
}

/// Gives each score to `take`, with its file and line, which answers what is wrong with the line; standard input where no
/// file is named.
fn each(files: &[PathBuf], mut take: impl FnMut(Place, Told) -> Outcome<Read<()>>) -> Outcome {
    let standard = [PathBuf::from("-")];
    let files = match files {
        [] => &standard,
        files => files,
    };
    // One at a time: there may be a file a station.
    files.iter().try_for_each(|file| each_of(file, &mut take))
}

fn each_of(file: &Path, take: &mut impl FnMut(Place, Told) -> Outcome<Read<()>>) -> Outcome {
    let source = Source::open(Some(file))?;
    let file: Rc<str> = source.name.as_str().into();
    let mut lines = BufReader::with_capacity(PIECE, source);
    // The station of the score before.
    let mut before: Option<String> = None;
    let (mut days, mut bytes) = (Days::default(), 0);
    let mut line = Vec::new();
    for number in 1.. {
        line.clear();
        let mut begin = lines.by_ref().take(LONGEST_LINE + 1);
        let count = begin.read_until(b'\n', &mut line)? as u64;
        bytes += count;
        if bytes > LONGEST {
            let cause = format!("{file}: is longer than {LONGEST} bytes");
            return Err(Failure::Wrong(cause));
        }
        if count == 0 {
            break;
        }
        let text = line.strip_suffix(b"\n").unwrap_or(&line);
        if text.iter().all(u8::is_ascii_whitespace) {
            continue;
        }
        let place = |line: usize| Place {
            file: file.clone(),
            line,
        };
        let wrong = |wrong: Wrong, days: &Days| {
            let whose = whose(&String::from_utf8_lossy(text), days, before.as_deref());
            let place = place(wrong.line);
            Failure::Wrong(format!("{place}: {whose}{}\n  {AGAIN}", wrong.cause))
        };
        let here = |cause: String| Wrong {
            line: number,
            cause,
        };
        if count > LONGEST_LINE {
            let cause = format!("is longer than {LONGEST_LINE} bytes");
            return Err(wrong(here(cause), &days));
        }
        let value: Value = serde_json::from_slice(text)
            .map_err(|error| wrong(here(format!("is no JSON: {error}")), &days))?;
        match told(&value, &days, number).map_err(|cause| wrong(cause, &days))? {
            Some(told) => {
                let station = told.station().to_string();
                take(place(number), told)?.map_err(|cause| wrong(here(cause), &days))?;
                days = Days::default();
                before = Some(station);
            }
            None if is_sum(&value) => {}
            None => days.put(Line { number, value }),
        }
    }
    match days.count {
        0 => Ok(()),
        _ => {
            let (line, whose) = (days.last, whose("", &days, before.as_deref()));
            Err(Failure::Wrong(format!(
                "{file}: line {line}: {whose}the days are not followed by their summary: the lines are cut\n  {AGAIN}"
            )))
        }
    }
}

/// What this line ends, with the days before it; nothing where it is a day itself, or a fleet's sum.
fn told(value: &Value, days: &Days, line: usize) -> Result<Option<Told>, Wrong> {
    let wrong = |cause| Wrong { line, cause };
    schema::is_known(value).map_err(wrong)?;
    if let Some(summary) = value.get("summary") {
        return card(summary, days, line).map(|card| Some(Told::Card(Box::new(card))));
    }
    match value.get("lease") {
        Some(_) if days.count == 0 => {
            let outline = outline(value).map_err(wrong)?;
            Ok(Some(Told::Outline(outline)))
        }
        Some(_) => {
            let cause = "a station's line stands where the days' summary is due";
            Err(wrong(cause.to_string()))
        }
        None => Ok(None),
    }
}

/// A fleet's or a lessee's own line, which its stations' come to.
fn is_sum(value: &Value) -> bool {
    value.get("fleet").is_some() || value.get("subtotal").is_some()
}

/// What to do about lines that aren't as they were printed.
const AGAIN: &str =
    "take the station's lines away, and score it again: fleet --commands --missing prints its line";

/// Whose lines these are: by the line itself, also where it is cut, else by its days, else by what stands before them.
fn whose(text: &str, days: &Days, before: Option<&str>) -> String {
    let of_line = text.split_once(r#""station":""#).map(|(_, rest)| rest);
    let of_line = of_line.and_then(|rest| rest.split_once('"'));
    let of_line = of_line.map(|(name, _)| visible::line(name));
    let of_days = || {
        let mut lines = days.lines.iter();
        lines.find_map(|day| optional(&day.value, "station").ok()?)
    };
    match (of_line.or_else(of_days), before) {
        (Some(name), _) => format!("station {name}: "),
        (None, Some(before)) => format!("behind station {before}: "),
        (None, None) => String::new(),
    }
}

/// The card of a month's line and of the days' lines before it, which are held against each other.
fn card(summary: &Value, days: &Days, line: usize) -> Result<Card, Wrong> {
    let of_month = |cause| Wrong { line, cause };
    let (lease, issue) = head(summary).map_err(of_month)?;
    match summary.get("unscored") {
        Some(told) => unscored(summary, told, lease, issue).map_err(of_month),
        None => {
            let read = days_of(days, &lease, &issue).map_err(|wrong| match wrong {
                (Some(line), cause) => Wrong { line, cause },
                (None, cause) => of_month(cause),
            })?;
            scored(summary, read, lease, issue).map_err(of_month)
        }
    }
}

/// A lease line, and its first day's date.
type Dated = (LeaseLine, Option<Date>);

/// The lease, and whose card it is.
fn head(summary: &Value) -> Read<(Dated, Issue)> {
    let (line, from) = lease_line(summary)?;
    let issue = Issue {
        station: optional(summary, "station")?,
        lessee: optional(summary, "lessee")?,
        lease: optional(summary, "lease_number")?,
        zone: optional(summary, "time_zone")?,
        date: Date::parse(&text(summary, "issued")?)?,
        version: text(summary, "version")?.into(),
        archive: optional(summary, "archive")?.map(Cow::from),
    };
    Ok(((line, from), issue))
}

/// What a card says of itself that no log tells, by which it can be made anew.
pub struct Said {
    /// The number of its edition.
    pub edition: u32,
    pub line: LeaseLine,
    pub from: Option<Date>,
    pub issue: Issue,
    pub called: Called,
    /// Whether it says that there is a score.
    pub scored: bool,
    /// What a fleet's card is to be checked for beside other stations.
    pub checks: Vec<Check>,
}

/// The same of its summary, whose figures aren't asked about.
pub fn said(summary: &Value) -> Read<Said> {
    let ((line, from), issue) = head(summary)?;
    let scored = summary.get("unscored").is_none();
    let inputs = if scored {
        texts(&summary["log"], "inputs")?
    } else {
        texts(summary, "inputs")?
    };
    let began = began(&summary["began_from"])?;
    // What is none isn't one that can be told again, and is found where the figures are compared.
    let checks = summary["checks"].as_array().into_iter().flatten();
    let checks = checks.filter_map(|value| check(value).ok());
    let is_said = |key: &str| OF_THE_FLEET.contains(&key) || OF_THE_JOIN.contains(&key);
    let checks = checks.filter(|check| is_said(&check.key));
    // None of them explains a short month.
    let checks = checks.map(|check| Check::new(&check.key, check.text, None));
    Ok(Said {
        edition: short(summary, "edition")?,
        line,
        from,
        issue,
        called: Called {
            inputs,
            state: began.map(|began| began.state),
        },
        scored,
        checks: checks.collect(),
    })
}

fn edition(value: &Value) -> Read<Edition> {
    let number = short(value, "edition")?;
    Edition::of(number).map_err(|_| format!("there is no edition {number}"))
}

/// The lease line with its first date.
fn lease_line(value: &Value) -> Read<Dated> {
    let lease = &value["lease"];
    let line = LeaseLine {
        first_day: short(lease, "first_day")?,
        days: short(lease, "days")?,
        owed: short(lease, "owed")?,
    };
    let from = optional(lease, "from")?;
    let from = from.map(|text| Date::parse(&text)).transpose()?;
    Ok((line, from))
}

/// A station's line of `fleet --json`.
fn outline(value: &Value) -> Read<Outline> {
    let (line, from) = lease_line(value)?;
    let came = match value.get("unscored") {
        Some(told) => {
            let (refused, why) = why(told)?;
            outline::Came::Unscored { refused, why }
        }
        None => {
            let lease = accepted(line).map_err(|refused| refused.to_string())?;
            dates(from, &lease)?;
            edition(value)?;
            outline::Came::Scored(sums(value, &line)?)
        }
    };
    Ok(Outline {
        station: text(value, "station")?,
        lessee: optional(value, "lessee")?,
        edition: short(value, "edition")?,
        line,
        from,
        came,
        place: String::new(),
    })
}

/// Sums that days of this lease can come to.
fn sums(value: &Value, line: &LeaseLine) -> Read<Sums> {
    let (served, owed) = (long(value, "served")?, long(value, "owed")?);
    // Dark days were called silent before.
    let named = |key: &'static str, before: &'static str| match value.get(key) {
        Some(_) => key,
        None => before,
    };
    let dark = list(value, named("dark", "silent"))?.iter();
    let dark = dark.map(|day| day.as_u64().and_then(|day| u32::try_from(day).ok()));
    let dark: Option<Vec<u32>> = dark.collect();
    let sums = Sums {
        served,
        owed,
        full_days: long(value, "full_days")?,
        part_days: long(value, "part_days")?,
        dark: dark.ok_or_else(|| missing("dark"))?,
        verdict: verdict(served, owed),
        explained: optional(value, "explained")?,
    };
    let is_told = text(value, "verdict")? == verdict_name(sums.verdict)
        && long(value, named("dark_days", "silent_days"))? == sums.dark.len() as u64;
    if is_told && sums.are_of(line) {
        Ok(sums)
    } else {
        Err("its numbers are no month's of this lease".to_string())
    }
}

/// Whether a month was refused, and why there is no score.
fn why(told: &Value) -> Read<(bool, String)> {
    let why = told["why"].as_str().ok_or_else(|| missing("why"))?;
    Ok((
        text(told, "name")? == Unscored::name_of(true),
        visible::lines(why),
    ))
}

fn unscored(summary: &Value, told: &Value, (line, from): Dated, issue: Issue) -> Read<Card> {
    let (refused, why) = why(told)?;
    let unscored = Unscored {
        edition: short(summary, "edition")?,
        line,
        from,
        inputs: texts(summary, "inputs")?,
        issue,
        refused,
        why,
        refusal: summary["refusal"].clone(),
        log: summary["log"].clone(),
    };
    Ok(Card::Unscored(unscored))
}

/// The days, or what is wrong and in which of their lines.
fn days_of(
    days: &Days,
    (line, from): &Dated,
    issue: &Issue,
) -> Result<Vec<Day>, (Option<usize>, String)> {
    let of_month = |cause| (None, cause);
    let lease = accepted(*line).map_err(|refused| of_month(refused.to_string()))?;
    let dates = dates(*from, &lease).map_err(of_month)?;
    if days.count != dates.len() {
        let (has, due) = (days.count, dates.len());
        return Err(of_month(format!(
            "the lease has {due} days, and {has} lines stand before it"
        )));
    }
    let mut read = Vec::new();
    for ((place, told), date) in (0..).zip(&days.lines).zip(dates) {
        let day = day(&told.value, line, place, date);
        let day = day.and_then(|day| is_of(&told.value, issue).map(|()| day));
        read.push(day.map_err(|cause| (Some(told.number), cause))?);
    }
    Ok(read)
}

/// Lines that name a station are of this one.
fn is_of(day: &Value, issue: &Issue) -> Read<()> {
    match (optional(day, "station")?, &issue.station) {
        (Some(is), Some(due)) if is != *due => Err(format!(
            "the line is station {is}'s, and its month's line station {due}'s"
        )),
        _ => Ok(()),
    }
}

fn scored(summary: &Value, read: Vec<Day>, (line, _): Dated, issue: Issue) -> Read<Card> {
    let lease = accepted(line).map_err(|refused| refused.to_string())?;
    let checks: Read<Vec<Check>> = list(summary, "checks")?.iter().map(check).collect();
    let checks = checks?;
    held::agree(&read, &checks)?;
    let score = Score {
        edition: edition(summary)?,
        lease,
        inputs: texts(&summary["log"], "inputs")?,
        digest: optional(summary, "sha256")?.map(digested).transpose()?,
        began: began(&summary["began_from"])?,
        log: summary["log"].clone(),
        month: month(summary, &read)?,
        days: read,
        checks,
        issue,
    };
    Ok(Card::Scored(score))
}

/// The state that it began from, if there was one.
fn began(value: &Value) -> Read<Option<Began>> {
    match value {
        Value::Null => Ok(None),
        value => Ok(Some(Began {
            state: text(value, "state")?,
            sha256: text(value, "sha256")?,
        })),
    }
}

/// A day whose numbers are a day's of this lease.
fn day(value: &Value, line: &LeaseLine, place: u32, date: Option<Date>) -> Read<Day> {
    let day = Day {
        number: short(value, "day")?,
        date,
        claimed: long(value, "claimed")?,
        served: long(value, "served")?,
        owed: long(value, "owed")?,
        in_log: value["in_log"].as_bool().ok_or_else(|| missing("in_log"))?,
    };
    let dated = optional(value, "date")? == date.map(|date| date.to_string());
    let number = line.first_day + place;
    let capped =
        day.served == day.claimed.min(day.owed) && value["dark"].as_bool() == Some(day.is_dark());
    if day.number == number && dated && day.owed == u64::from(line.owed) && capped {
        Ok(day)
    } else {
        Err(format!("the line of day {number} isn't this lease's"))
    }
}

/// A month whose numbers are its days'.
fn month(summary: &Value, days: &[Day]) -> Read<Month> {
    let served = days.iter().map(|day| day.served).sum();
    let owed = days.iter().map(|day| day.owed).sum();
    let verdict = verdict(served, owed);
    let told = (long(summary, "served")?, long(summary, "owed")?);
    if told != (served, owed) || text(summary, "verdict")? != verdict_name(verdict) {
        return Err("the month isn't what its days come to".to_string());
    }
    Ok(Month {
        days: days.iter().map(Day::scored).collect(),
        served,
        owed,
        verdict,
    })
}

fn verdict(served: u64, owed: u64) -> Verdict {
    match (served, owed) {
        (_, 0) => Verdict::NothingOwed,
        (served, owed) if served == owed => Verdict::Full,
        _ => Verdict::Short,
    }
}

fn check(value: &Value) -> Read<Check> {
    Ok(Check {
        key: text(value, "check")?,
        text: text(value, "text")?,
        explains: optional(value, "explains")?,
    })
}

/// What is a SHA-256 in hex.
fn digested(text: String) -> Read<String> {
    match digest::of_hex(&text) {
        Some(_) => Ok(text),
        None => Err(missing("sha256")),
    }
}

fn missing(key: &str) -> String {
    format!("is no line of score --json: {key} is missing, or of another kind")
}

fn long(value: &Value, key: &str) -> Read<u64> {
    value[key].as_u64().ok_or_else(|| missing(key))
}

fn short(value: &Value, key: &str) -> Read<u32> {
    let number = long(value, key)?;
    u32::try_from(number).map_err(|_| missing(key))
}

/// Text as every other is: with nothing that a terminal would obey.
fn text(value: &Value, key: &str) -> Read<String> {
    let text = value[key].as_str().map(visible::line);
    text.ok_or_else(|| missing(key))
}

fn optional(value: &Value, key: &str) -> Read<Option<String>> {
    match &value[key] {
        Value::Null => Ok(None),
        Value::String(text) => Ok(Some(visible::line(text))),
        _ => Err(missing(key)),
    }
}

fn list<'a>(value: &'a Value, key: &str) -> Read<&'a Vec<Value>> {
    value[key].as_array().ok_or_else(|| missing(key))
}

fn texts(value: &Value, key: &str) -> Read<Vec<String>> {
    let list = list(value, key)?.iter();
    let text = |value: &Value| value.as_str().map(visible::line);
    list.map(|value| text(value).ok_or_else(|| missing(key)))
        .collect()
}
