//! `egretfold verify`: a card held against its logs, which are scored anew as `score` scores them.
//!
//! `given` reads the card, `compared` finds where it differs from what is made anew.

pub mod compared;
pub mod given;

use crate::common::digits::grouped;
use crate::common::failure::{Failure, Outcome};
use crate::common::files::Files;
use crate::common::schema;
use crate::common::text;
use crate::common::visible;
use crate::fleet::files::{self, Named};
use crate::fleet::scores::Said;
use crate::input::source;
use crate::score::asked::{Asked, Card};
use crate::score::issue::{ARCHIVE, VERSION};
use crate::score::month::log_name;
use crate::score::rows;
use crate::verify::compared::{differences, Difference};
use crate::verify::given::Given;
use clap::Args;
use serde_json::{json, Value};
use std::io::Write;
use std::path::PathBuf;

/// Printed behind the help text.
pub const EXAMPLES: &str = "\
The card is one that score --svg, --html or --json wrote, or fleet --cards, as it was written. Its lease line, edition,
names and dates are taken from its block of figures, the logs are scored anew, and the card is made anew of that: it is
verified where the two are the same to the byte. Where they aren't, each figure that differs is named, in the block and
as shown. That the lease line is the contract's, and the names and dates are right, no log tells: compare them.
The files may be called otherwise than the card calls them; their bytes must be the same.
Exit status: 0 verified, 1 the card differs, 2 the card or a log can't be read, or the command line is wrong.

Examples, from the repository's root:
  egretfold score samples/station-14.log --first-day 101 --days 30 --owed 14000000 --svg april.svg
  egretfold verify april.svg samples/station-14.log
  egretfold score samples/station-14-april.log --resume samples/station-14-march.state --first-day 101 --days 30 --owed 14000000 --html april.html
  egretfold verify april.html samples/station-14-april.log --resume samples/station-14-march.state";

#[derive(Args)]
pub struct Options {
    /// The card: SVG, HTML or JSON; standard input for -
    #[arg(value_name = "CARD")]
    card: PathBuf,
    /// The log; several files in their order are one log, and so are a folder's, in name order; standard input for -
    #[arg(value_name = "LOG", required = true)]
    files: Vec<PathBuf>,
    /// The state that the log goes on from, where the card names one
    #[arg(long, value_name = "STATE")]
    resume: Option<PathBuf>,
    /// The answer as one JSON object
    #[arg(long)]
    json: bool,
}

impl Options {
    /// Names the files of the line.
    pub fn name(&self, files: &mut Files) {
        files.reads("CARD", Some(&self.card));
        files.reads_all("LOG", &self.logs().files);
        files.reads("--resume", self.resume.as_deref());
    }

    /// The log's files, those of folders among them.
    fn logs(&self) -> Named {
        files::in_folders(&self.files)
    }

    /// What is asked by what the card says of itself. Whether repeated pieces are meant the card's digest tells.
    fn asked(&self, said: &Said) -> Asked {
        let logs = self.logs();
        logs.tell_passed();
        Asked {
            edition: said.edition,
            line: said.line,
            from: said.from,
            resume: self.resume.clone(),
            saves: false,
            repeats: true,
            files: logs.files,
            called: Some(said.called.clone()),
            issue: said.issue.clone(),
        }
    }

    /// A card that goes on from a state is verified with that state, and another without.
    fn state_is_as_named(&self, said: &Said) -> Outcome {
        let told = match (&said.called.state, &self.resume) {
            (Some(state), None) => {
                format!("the card's log goes on from the state {state}: give that with --resume")
            }
            (None, Some(_)) if said.scored => {
                "the card's log goes on from no state: leave --resume out".to_string()
            }
            _ => return Ok(()),
        };
        Err(Failure::Wrong(format!("{}: {told}", self.card_name())))
    }

    fn card_name(&self) -> String {
        if source::is_standard(Some(&self.card)) {
            source::STANDARD.to_string()
        } else {
            visible::line(&self.card.display().to_string())
        }
    }
}

/// A card that was compared.
struct Verified<'a> {
    name: &'a str,
    given: &'a Given,
    /// As it is made anew.
    card: &'a Card,
    differences: &'a [Difference],
}

pub fn run(options: &Options, out: &mut dyn Write) -> Outcome {
    let standard = |file: &PathBuf| source::is_standard(Some(file));
    let inputs = options.files.iter().chain([&options.card]);
    if inputs.filter(|file| standard(file)).count() > 1 {
        let told = "standard input can be the card or one file of its log, not both";
        return Err(Failure::wrong(told));
    }
    let given = Given::read(&options.card).map_err(Failure::Wrong)?;
    options.state_is_as_named(&given.said)?;
    let (mut card, _) = options.asked(&given.said).scored()?;
    match &mut card {
        Card::Unscored(unscored) if !unscored.refused => return Err(unscored.failure()),
        Card::Unscored(_) => {}
        Card::Scored(score) => score.checks.extend(given.said.checks.iter().cloned()),
    }
    let differences = differences(&given, &given.form.made(&card));
    let name = options.card_name();
    let verified = Verified {
        name: &name,
        given: &given,
        card: &card,
        differences: &differences,
    };
    if options.json {
        schema::line(out, verified.json())?;
    } else {
        verified.text(out)?;
    }
    match differences.len() {
        0 => Ok(()),
        count => Err(Failure::Refused(format!("{name}: {}", counted(count)))),
    }
}

/// How many figures aren't what the logs give.
pub fn counted(differences: usize) -> String {
    format!(
        "differs from what its logs give: {}",
        text::count(differences as u64, "difference")
    )
}

/// Differences that are told; the others are counted.
const MOST_TOLD: usize = 100;

/// The differences in lines, up to so many.
pub fn told(differences: &[Difference], most: usize) -> Vec<String> {
    let line = |one: &Difference| {
        let (what, place) = (&one.what, one.place.name());
        let (card, logs) = (&one.card, &one.logs);
        format!("{what}, {place}: the card has {card}, the logs give {logs}")
    };
    let mut lines: Vec<String> = differences.iter().take(most).map(line).collect();
    if differences.len() > most {
        lines.push(format!("and {} more", differences.len() - most));
    }
    lines
}

/// The same for programs.
pub fn as_json(differences: &[Difference]) -> Vec<Value> {
    let value = |one: &Difference| json!({"what": one.what, "place": one.place.key(), "card": one.card, "logs": one.logs});
    differences.iter().take(MOST_TOLD).map(value).collect()
}

impl Verified<'_> {
    fn text(&self, out: &mut dyn Write) -> Outcome {
        let (name, form) = (self.name, self.given.form.name());
        writeln!(out, "{name}: a card in {form}, which says")?;
        for line in self.said() {
            writeln!(out, "  {line}")?;
        }
        writeln!(out, "scored anew by egretfold {VERSION}")?;
        for line in self.scored_anew() {
            writeln!(out, "  {line}")?;
        }
        writeln!(out)?;
        if self.differences.is_empty() {
            let verified =
                "verified: all that the card says of the log, and shows, is what these logs give";
            writeln!(out, "{verified}")?;
            return Ok(());
        }
        writeln!(out, "{}", counted(self.differences.len()))?;
        for line in told(self.differences, MOST_TOLD) {
            writeln!(out, "  {line}")?;
        }
        for hint in self.hints() {
            writeln!(out, "{hint}")?;
        }
        Ok(())
    }

    /// What no log tells: whose card it is, the lease line, when and by what it was issued, what the fleet's report says.
    fn said(&self) -> Vec<String> {
        let said = &self.given.said;
        let line = &said.line;
        let days = text::count(u64::from(line.days), "day");
        let from = said.from.map_or(String::new(), |from| format!(" ({from})"));
        let (first, owed) = (line.first_day, grouped(u64::from(line.owed)));
        let edition = said.edition;
        let lease = format!(
            "{days} from day {first}{from} on, {owed} elements owed a day, edition {edition}"
        );
        let issue = &said.issue;
        let archive = issue.archive.iter().map(|archive| archive_line(archive));
        let mut lines: Vec<String> = issue.whose().into_iter().chain(issue.lease()).collect();
        let log = log_name(&said.called.inputs, |name| name.to_string());
        lines.extend([lease, issue.days(), format!("Log {log}"), issue.told()]);
        lines.extend(archive);
        lines.extend(said.checks.iter().map(|check| check.text.clone()));
        lines
    }

    fn scored_anew(&self) -> Vec<String> {
        let mut lines = vec![archive_line(ARCHIVE)];
        match self.card {
            Card::Scored(score) => {
                let digest = score.digest.as_deref().unwrap_or_default();
                lines.push(format!("SHA-256 of the log's bytes: {digest}"));
                let began = score.began.iter();
                lines.extend(began.map(|began| format!("SHA-256 of the state: {}", began.sha256)));
                lines.push(score.verdict());
            }
            Card::Unscored(unscored) => {
                let why = unscored.why.replace('\n', ";");
                lines.push(format!("{}: {why}", unscored.name()));
            }
        }
        lines
    }

    /// What the differences may come from.
    fn hints(&self) -> Vec<&'static str> {
        let differs = |what: &str| self.differences.iter().any(|one| one.what == what);
        let mut hints = Vec::new();
        if differs("sha256") {
            hints.push("the card is of other bytes than these: give the log's files that it names, in their order");
        }
        if differs("began_from, sha256") {
            hints.push("the card goes on from another state than this: give the one that it names");
        }
        if self.given.said.issue.version != VERSION {
            hints.push("another version made the card: where no figure differs but only what is drawn, verify with that one");
        }
        hints
    }

    fn json(&self) -> Value {
        let said = &self.given.said;
        let status = match self.differences.len() {
            0 => "verified",
            _ => "differs",
        };
        let mut value = json!({
            "card": self.name,
            "form": self.given.form.name(),
            "status": status,
            "edition": said.edition,
            "lease": rows::lease(&said.line, said.from),
        });
        said.issue.put(&mut value);
        value["by"] = json!({"version": VERSION, "archive": ARCHIVE});
        match self.card {
            Card::Scored(score) => {
                value["sha256"] = json!(score.digest);
                value["began_from"] = json!(score.began.as_ref().map(|began| began.json()));
                value["verdict"] = json!(score.verdict_name());
            }
            Card::Unscored(unscored) => {
                value["unscored"] = json!({"name": unscored.name(), "why": unscored.why});
            }
        }
        value["count"] = json!(self.differences.len());
        value["differences"] = json!(as_json(self.differences));
        value
    }
}

fn archive_line(archive: &str) -> String {
    format!("SHA-256 of the proved archive: {archive}")
}
