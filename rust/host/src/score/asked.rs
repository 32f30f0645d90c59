//! What a score is asked of, and what comes of it: a month, or why there is none.

use crate::common::edition;
use crate::common::failure::{Failure, Outcome};
use crate::common::visible;
use crate::explain::cause::{self, Refused};
use crate::input::source::{self, Source};
use crate::replay::days;
use crate::replay::log::Log;
use crate::replay::resumed::{self, Whose};
use crate::score::civil::Date;
use crate::score::issue::Issue;
use crate::score::month::Score;
use egretfold::{Edition, Lease, Month, Verdict};
use serde_json::{json, Value};
use std::path::{Path, PathBuf};

/// A lease line as it was given.
#[derive(Clone, Copy, Debug, PartialEq, Eq)]
pub struct LeaseLine {
    pub first_day: u32,
    pub days: u32,
    pub owed: u32,
}

impl LeaseLine {
    pub fn of(lease: &Lease) -> LeaseLine {
        LeaseLine {
            first_day: lease.first_day(),
            days: lease.days(),
            owed: lease.owed(),
        }
    }
}

/// A lease line, its first day's date where that is known, and the log's files.
pub struct Asked {
    /// The number of the edition of the lease rule.
    pub edition: u32,
    pub line: LeaseLine,
    pub from: Option<Date>,
    /// The state's file that the log goes on from.
    pub resume: Option<PathBuf>,
    /// Whether a state is saved at its end.
    pub saves: bool,
    /// Whether inputs with the same bytes are meant.
    pub repeats: bool,
    pub files: Vec<PathBuf>,
    /// What the files are called, where a card tells that.
    pub called: Option<Called>,
    pub issue: Issue,
}

/// The names that a card has for its log's files and for the state's: made anew it goes by them too, whatever the files
/// are called now.
#[derive(Clone, Default)]
pub struct Called {
    pub inputs: Vec<String>,
    pub state: Option<String>,
}

impl Called {
    /// Names what is read, where there are as many files as names: else no name is known to be that file's.
    fn name(&self, sources: &mut [Source], log: &mut Log) {
        if sources.len() == self.inputs.len() {
            for (source, name) in sources.iter_mut().zip(&self.inputs) {
                source.name.clone_from(name);
            }
        }
        if let (Some(resumed), Some(state)) = (&mut log.resumed, &self.state) {
            resumed.name.clone_from(state);
        }
    }
}

/// What comes of it.
pub enum Card {
    Scored(Score),
    Unscored(Unscored),
}

/// A month that has no score.
#[derive(Clone)]
pub struct Unscored {
    /// The number of the edition that was asked for.
    pub edition: u32,
    pub line: LeaseLine,
    pub from: Option<Date>,
    /// The files that were asked for, by their names.
    pub inputs: Vec<String>,
    pub issue: Issue,
    /// Whether the product refused it; else its log couldn't be read.
    pub refused: bool,
    pub why: String,
    /// For programs: the refusal and the log, as far as there are any.
    pub refusal: Value,
    pub log: Value,
}

impl Unscored {
    pub fn name(&self) -> &'static str {
        Unscored::name_of(self.refused)
    }

    /// What a month is called that was refused, or whose log couldn't be read.
    pub fn name_of(refused: bool) -> &'static str {
        if refused {
            "REFUSED"
        } else {
            "NOT SCORED"
        }
    }

    fn new(asked: &Asked, failure: Failure) -> Unscored {
        let (refused, why) = match failure {
            Failure::Refused(why) => (true, why),
            Failure::Wrong(why) => (false, why),
            // Of a month that has a score.
            Failure::Short => (false, String::new()),
        };
        Unscored {
            edition: asked.edition,
            line: asked.line,
            from: asked.from,
            inputs: asked.names(),
            issue: asked.issue.clone(),
            refused,
            why,
            refusal: Value::Null,
            log: Value::Null,
        }
    }

    pub fn failure(&self) -> Failure {
        if self.refused {
            Failure::Refused(self.why.clone())
        } else {
            Failure::Wrong(self.why.clone())
        }
    }
}

impl Card {
    pub fn issue(&self) -> &Issue {
        match self {
            Card::Scored(score) => &score.issue,
            Card::Unscored(unscored) => &unscored.issue,
        }
    }

    pub fn issue_mut(&mut self) -> &mut Issue {
        match self {
            Card::Scored(score) => &mut score.issue,
            Card::Unscored(unscored) => &mut unscored.issue,
        }
    }

    /// The number of its edition.
    pub fn edition(&self) -> u32 {
        match self {
            Card::Scored(score) => score.edition.number(),
            Card::Unscored(unscored) => unscored.edition,
        }
    }

    pub fn line(&self) -> LeaseLine {
        match self {
            Card::Scored(score) => score.line(),
            Card::Unscored(unscored) => unscored.line,
        }
    }

    pub fn from(&self) -> Option<Date> {
        match self {
            Card::Scored(score) => score.dates().map(|(first, _)| first),
            Card::Unscored(unscored) => unscored.from,
        }
    }

    pub fn score(&self) -> Option<&Score> {
        match self {
            Card::Scored(score) => Some(score),
            Card::Unscored(_) => None,
        }
    }

    /// How `score` ends with it.
    pub fn outcome(&self) -> Outcome {
        match self {
            Card::Scored(score) => outcome(score.month.verdict),
            Card::Unscored(unscored) => Err(unscored.failure()),
        }
    }
}

impl Asked {
    /// The files by their names, with nothing that a terminal would obey.
    pub fn names(&self) -> Vec<String> {
        let name = |file: &Path| {
            if source::is_standard(Some(file)) {
                source::STANDARD.to_string()
            } else {
                visible::line(&file.display().to_string())
            }
        };
        if let Some(called) = &self.called {
            return called.inputs.clone();
        }
        let standard = [PathBuf::from("-")];
        let files = match self.files.as_slice() {
            [] => &standard,
            files => files,
        };
        files.iter().map(|file| name(file)).collect()
    }

    /// The state's file by its name.
    pub fn state_name(&self) -> Option<String> {
        let name = |file: &PathBuf| visible::line(&file.display().to_string());
        self.resume.as_ref().map(name)
    }

    /// What a state tells of the log besides: the station, and the first day's date.
    pub fn whose(&self) -> Whose {
        Whose {
            station: self.issue.station.clone(),
            dated: self.from.map(|from| (self.line.first_day, from)),
        }
    }

    /// The lease line, or the refusal of it.
    pub fn lease(&self) -> Result<Lease, Refused> {
        accepted(self.line)
    }

    /// A date for each day of the lease, or none for all of them.
    pub fn dates(&self, lease: &Lease) -> Result<Vec<Option<Date>>, String> {
        dates(self.from, lease)
    }

    /// The card of an edition or a lease line that was refused: no log is read.
    pub fn refused(&self, refused: Refused, failure: Failure) -> Card {
        Card::Unscored(Unscored {
            refusal: json!({"refused": refused.number, "cause": refused.cause}),
            ..Unscored::new(self, failure)
        })
    }

    /// The card of a log that wasn't read, for this reason.
    pub fn missing(&self, edition: Edition, why: &str) -> Card {
        let failure = Failure::Wrong(why.to_string());
        Card::Unscored(Unscored {
            edition: edition.number(),
            ..Unscored::new(self, failure)
        })
    }

    /// Reads the log. A score of a part of what was asked for would be no score, nor one of days that a
    /// state has forgotten.
    pub fn log(&self, edition: Edition, lease: &Lease) -> Outcome<Log> {
        let mut log = resumed::begin(self.resume.as_deref(), edition, &self.whose())?;
        if let Some(resumed) = &log.resumed {
            resumed.keeps(lease)?;
        }
        if self.saves {
            log = log.for_a_state();
        }
        log = log.taking_repeats(self.repeats);
        let mut sources = Source::open_all(&self.files)?;
        if let Some(called) = &self.called {
            called.name(&mut sources, &mut log);
        }
        log.read(sources)?;
        Ok(log)
    }

    /// The card of a log that couldn't be read.
    pub fn unread(&self, failure: Failure) -> Card {
        Card::Unscored(Unscored::new(self, failure))
    }

    /// The card, and the log where it was read. Before any log is opened the edition is judged, before all else, then the
    /// lease line.
    pub fn scored(&self) -> Outcome<(Card, Option<Log>)> {
        let edition = match edition::accepted(self.edition) {
            Ok(edition) => edition,
            Err(refused) => {
                let failure = edition::refused(refused.clone());
                return Ok((self.refused(refused, failure), None));
            }
        };
        let lease = match self.lease() {
            Ok(lease) => lease,
            Err(refused) => {
                let failure = Failure::Refused(format!("lease line: {refused}"));
                return Ok((self.refused(refused, failure), None));
            }
        };
        let dates = self.dates(&lease).map_err(wrong_from)?;
        Ok(match self.log(edition, &lease) {
            Ok(log) => (self.card(lease, dates, &log), Some(log)),
            Err(failure) => (self.unread(failure), None),
        })
    }

    /// The card of a log that was read.
    pub fn card(&self, lease: Lease, dates: Vec<Option<Date>>, log: &Log) -> Card {
        match month_of(log, &lease) {
            Ok(month) => {
                let issue = self.issue.clone();
                let mut score = Score::new(lease, dates, month, log, issue);
                if let Some(Called { inputs, .. }) = &self.called {
                    score.log["inputs"] = json!(inputs);
                    score.inputs.clone_from(inputs);
                }
                Card::Scored(score)
            }
            Err(failure) => {
                let mut told = days::summary(log);
                if let Some(Called { inputs, .. }) = &self.called {
                    told["inputs"] = json!(inputs);
                }
                Card::Unscored(Unscored {
                    refusal: told["refusal"].clone(),
                    log: told,
                    ..Unscored::new(self, failure)
                })
            }
        }
    }
}

/// What is wrong with the first day's date.
pub fn wrong_from(text: String) -> Failure {
    Failure::Wrong(format!("--from {text}"))
}

pub fn accepted(line: LeaseLine) -> Result<Lease, Refused> {
    let lease = Lease::new(line.first_day, line.days, line.owed);
    lease.map_err(|number| cause::refused(number, cause::of_lease(&line)))
}

pub fn dates(from: Option<Date>, lease: &Lease) -> Result<Vec<Option<Date>>, String> {
    let from = match from {
        Some(from) => from,
        None => return Ok(vec![None; lease.days() as usize]),
    };
    let dates = from.run(lease.days()).ok_or_else(|| {
        let days = lease.days();
        format!("{from}: {days} days from there go past 9999-12-31, the last date")
    })?;
    Ok(dates.into_iter().map(Some).collect())
}

pub fn month_of(log: &Log, lease: &Lease) -> Outcome<Month> {
    match (log.replay.score(lease), &log.stop) {
        (Ok(month), _) => Ok(month),
        (Err(_), Some(stop)) => Err(Failure::Refused(log.complaint(stop)).hinted(log.hint())),
        (Err(number), None) => Err(Failure::Refused(cause::refused(number, None).to_string())),
    }
}

/// How a score ends.
pub fn outcome(verdict: Verdict) -> Outcome {
    match verdict {
        Verdict::Full | Verdict::NothingOwed => Ok(()),
        Verdict::Short => Err(Failure::Short),
    }
}
