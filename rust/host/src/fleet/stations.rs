//! A fleet's logs read side by side, and what comes of them: each log is replayed once,
//! and its month is added to the product's report as it stands.

use crate::common::failure::{Failure, Outcome};
use crate::common::file::Ready;
use crate::explain::cause;
use crate::fleet::briefs::Cards;
use crate::fleet::kept::{Kept, Total};
use crate::fleet::leases::{Row, Rows};
use crate::fleet::spool::Spool;
use crate::fleet::states;
use crate::fleet::workers;
use crate::input::progress;
use crate::score::asked::Card;
use crate::score::month::Served;
use egretfold::{Edition, Refusal};
use std::fs;
use std::io;
use std::path::PathBuf;
use std::sync::Mutex;

/// So many parts a worker, so that none waits long for the last.
const PARTS: usize = 16;

/// The most rows of a part, which are in memory together.
const MOST: usize = 128;

/// The stations' cards, and the report of those that have a score.
pub struct Group {
    pub cards: Cards,
    pub report: egretfold::Fleet,
    /// Their states, where those are saved, each beside its place.
    pub states: Vec<Outcome<Ready>>,
}

impl Group {
    pub fn new(edition: Edition, stations: usize) -> Group {
        Group {
            cards: Cards::new(Spool::new(), stations),
            report: egretfold::Fleet::new(edition),
            states: Vec::new(),
        }
    }

    /// Puts a card behind these that was scored elsewhere: its month is added by its numbers.
    pub fn take(&mut self, card: &Kept) -> Outcome {
        if let Kept::Scored(scored) = card {
            let Total { served, owed, .. } = scored.total;
            let dark = scored.count(Served::Dark) as u64;
            let added = self.report.add_month(served, owed, dark);
            added.map_err(refused)?;
        }
        self.cards.put(self.cards.briefs().len(), card)?;
        Ok(())
    }

    /// Puts stations behind these whose cards are there.
    fn join(mut self, part: Part) -> Outcome<Group> {
        self.report.join(&part.report).map_err(refused)?;
        self.states.extend(part.states);
        Ok(self)
    }
}

/// The report of stations that stand one behind the other, and their states.
struct Part {
    report: egretfold::Fleet,
    states: Vec<Outcome<Ready>>,
}

impl Part {
    /// Puts a station behind these, whose log is read for it, and answers its card.
    fn read(&mut self, edition: Edition, row: &Row) -> Outcome<Kept> {
        let read = row
            .dates()
            .and_then(|dates| Ok((dates, row.asked.log(edition, &row.lease)?)));
        let card = match read {
            Ok((dates, log)) => {
                let card = row.asked.card(row.lease, dates, &log);
                if let Card::Scored(_) = card {
                    let added = self.report.add(&log.replay, row.lease);
                    added.map_err(refused)?;
                }
                self.states.extend(states::beside(row, &card, &log));
                card
            }
            Err(failure) => row.asked.unread(failure),
        };
        progress::station_done();
        Ok(Kept::of(card))
    }
}

/// Reads and scores each station, on all cores; parts of the fleet are joined in the rows'
/// order.
pub fn read(edition: Edition, rows: &Rows) -> Outcome<Group> {
    progress::begin_together(bytes(rows)?, rows.len());
    let mut group = Group::new(edition, rows.len());
    let cards = Mutex::new(&mut group.cards);
    let parts = workers::map(parts(rows), |(first, rows)| -> Outcome<Part> {
        let mut part = Part {
            report: egretfold::Fleet::new(edition),
            states: Vec::new(),
        };
        for (place, row) in (first..).zip(rows?) {
            let card = part.read(edition, &row)?;
            workers::locked(&cards).put(place, &card)?;
        }
        Ok(part)
    });
    progress::end_together();
    parts
        .into_iter()
        .try_fold(group, |group, part| group.join(part?))
}

/// The rows in their order, some parts a worker, each with the place of its first.
fn parts(rows: &Rows) -> impl ExactSizeIterator<Item = (usize, io::Result<Vec<Row>>)> + Send + '_ {
    let size = MOST.min(rows.len() / (PARTS * workers::count()) + 1);
    let firsts = (0..rows.len()).step_by(size);
    let mut rows = rows.iter();
    firsts.map(move |first| (first, rows.by_ref().take(size).collect()))
}

/// Of months that have a score, so it would be the product's fault, or of more stations
/// than a report takes.
pub fn refused(refusal: Refusal) -> Failure {
    Failure::Refused(format!("fleet: {}", cause::refused(refusal, None)))
}

/// What all files have, as far as that is known.
fn bytes(rows: &Rows) -> io::Result<u64> {
    let length = |file: &PathBuf| fs::metadata(file).map_or(0, |about| about.len());
    let lengths = |row: Row| row.asked.files.iter().map(length).sum::<u64>();
    rows.iter().map(|row| row.map(lengths)).sum()
}
