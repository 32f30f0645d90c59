//! All cards of a month held against their logs: the lease file says which stations and which lease lines, the logs are scored
//! anew, and of each card only when and by what it was issued is taken as it says.

use crate::common::failure::{Failure, Outcome};
use crate::common::files::Files;
use crate::common::schema;
use crate::common::text;
use crate::common::visible;
use crate::fleet::cards;
use crate::fleet::join;
use crate::fleet::leases::Rows;
use crate::fleet::month::{station, Fleet};
use crate::score::asked::Card;
use crate::verify::compared::{differences, Difference};
use crate::verify::given::Given;
use crate::verify::{as_json, told};
use serde_json::{json, Value};
use std::collections::HashSet;
use std::io::{self, Write};
use std::path::{Path, PathBuf};

/// Differences of a card that are told in text.
const FIRST: usize = 5;

/// Names the stations' cards among the files that are read.
pub fn name(folder: &Path, rows: &Rows, files: &mut Files) -> Outcome {
    let stations = rows.iter().map(|row| Ok(row?.station().to_string()));
    let stations = stations.collect::<io::Result<Vec<String>>>()?;
    cards::are_apart(&stations)?;
    for station in &stations {
        files.reads("--verify", Some(&cards::file(folder, station)));
    }
    Ok(())
}

/// What is found of a card.
enum Found {
    Verified,
    Differs(Vec<Difference>),
    /// The card, or its station's log, can't be read.
    Unreadable(String),
    /// A station has none.
    Missing,
    /// No station of the lease file has it.
    Nobodys,
}

impl Found {
    fn name(&self) -> &'static str {
        match self {
            Found::Verified => "verified",
            Found::Differs(_) => "differs",
            Found::Unreadable(_) => "unreadable",
            Found::Missing => "missing",
            Found::Nobodys => "nobody's",
        }
    }

    fn lines(&self) -> Vec<String> {
        match self {
            Found::Differs(differences) => told(differences, FIRST),
            Found::Unreadable(cause) => cause.lines().map(|line| line.trim().to_string()).collect(),
            Found::Nobodys => vec!["no station of the lease file has this card".to_string()],
            Found::Verified | Found::Missing => Vec::new(),
        }
    }
}

/// A card that is looked at.
struct Looked {
    station: Option<String>,
    file: PathBuf,
    found: Found,
}

impl Looked {
    fn file_name(&self) -> String {
        visible::line(&self.file.display().to_string())
    }

    fn json(&self) -> Value {
        let mut value = json!({
            "station": self.station,
            "card": self.file_name(),
            "status": self.found.name(),
        });
        match &self.found {
            Found::Differs(differences) => {
                value["count"] = json!(differences.len());
                value["differences"] = json!(as_json(differences));
            }
            Found::Unreadable(cause) => value["why"] = json!(cause),
            Found::Verified | Found::Missing | Found::Nobodys => {}
        }
        value
    }
}

pub fn run(fleet: &Fleet, folder: &Path, as_json: bool, out: &mut dyn Write) -> Outcome {
    let mut looked = Vec::new();
    let mut names = HashSet::new();
    for card in fleet.cards() {
        let card = card?;
        let file = cards::file(folder, station(&card));
        names.insert(file.clone());
        looked.push(Looked {
            station: Some(station(&card).to_string()),
            found: found(card, &file),
            file,
        });
    }
    looked.extend(
        cards::beside(folder, &names)
            .into_iter()
            .map(|file| Looked {
                station: None,
                file,
                found: Found::Nobodys,
            }),
    );
    let heading = heading(&looked);
    if as_json {
        for one in &looked {
            schema::line(out, one.json())?;
        }
        let count = |name: &str| json!(counted(&looked, name));
        let counts = NAMES.iter().map(|name| (name.to_string(), count(name)));
        let counts: serde_json::Map<String, Value> = counts.collect();
        schema::line(out, json!({ "cards": counts }))?;
    } else {
        for one in &looked {
            let station = one.station.as_deref().unwrap_or("-");
            writeln!(out, "{station}: {}: {}", one.file_name(), one.found.name())?;
            for line in one.found.lines() {
                writeln!(out, "  {line}")?;
            }
        }
        writeln!(out, "\n{heading}")?;
    }
    outcome(&looked, heading)
}

/// What a station's card is, beside what is made anew.
fn found(mut card: Card, file: &Path) -> Found {
    match &card {
        Card::Unscored(unscored) if !unscored.refused => {
            return Found::Unreadable(format!("its log isn't read: {}", unscored.why));
        }
        _ if !file.exists() => return Found::Missing,
        _ => {}
    }
    let given = match Given::read(file) {
        Ok(given) => given,
        Err(cause) => return Found::Unreadable(cause),
    };
    card.issue_mut().is_said_by(&given.said.issue);
    if let Card::Scored(score) = &mut card {
        join::say_again(&mut score.checks, &given.said.checks);
    }
    match differences(&given, &given.form.made(&card)) {
        none if none.is_empty() => Found::Verified,
        differences => Found::Differs(differences),
    }
}

/// In the order in which they are counted.
const NAMES: [&str; 5] = ["verified", "differs", "unreadable", "missing", "nobody's"];

fn counted(looked: &[Looked], name: &str) -> usize {
    looked.iter().filter(|one| one.found.name() == name).count()
}

/// "3 cards: 1 verified, 2 missing".
fn heading(looked: &[Looked]) -> String {
    let counts = NAMES.map(|name| (counted(looked, name), name));
    let counts = counts.iter().filter(|(count, _)| *count > 0);
    let counts: Vec<String> = counts
        .map(|(count, name)| format!("{count} {name}"))
        .collect();
    format!(
        "{}: {}",
        text::count(looked.len() as u64, "card"),
        counts.join(", ")
    )
}

/// A card that is wrong weighs more than one that can't be read.
fn outcome(looked: &[Looked], heading: String) -> Outcome {
    let is_good = |one: &Looked| matches!(one.found, Found::Verified);
    let is_unread = |one: &Looked| matches!(one.found, Found::Unreadable(_));
    if looked.iter().all(is_good) {
        Ok(())
    } else if looked.iter().all(|one| is_good(one) || is_unread(one)) {
        Err(Failure::Wrong(heading))
    } else {
        Err(Failure::Refused(heading))
    }
}
