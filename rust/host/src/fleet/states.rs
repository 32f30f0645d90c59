//! A folder of states, one a station: where the month's logs end, for the next month to go on from.

use crate::common::failure::{Failure, Outcome};
use crate::common::file::Ready;
use crate::fleet::cards::plain;
use crate::fleet::leases::{fault, Fault, Row, Rows};
use crate::replay::log::Log;
use crate::replay::resumed::{self, Saved};
use crate::score::asked::Card;
use std::collections::HashMap;
use std::io;
use std::path::{Path, PathBuf};

/// The option that asks for them.
pub const OPTION: &str = "--save-states";

/// The file of a station's state in a folder.
pub fn file(folder: &Path, station: &str) -> PathBuf {
    folder.join(format!("{}.state", plain(station)))
}

/// What a row's column `state` names: a file, or a folder of states with the station's in it.
pub fn named(path: PathBuf, station: &str) -> PathBuf {
    if path.is_dir() {
        file(&path, station)
    } else {
        path
    }
}

/// The row's state goes into this folder, where there is one.
pub fn put(folder: Option<&Path>, row: &mut Row) {
    row.save = folder.map(|folder| file(folder, row.station()));
    row.asked.saves = row.save.is_some();
}

/// Two stations whose states would have one name, and states that can't be put there: over another file, or over
/// another station's state. They are told before any log is read.
pub fn faults(rows: &Rows) -> io::Result<Vec<Fault>> {
    let mut names: HashMap<String, u64> = HashMap::new();
    let mut faults = Vec::new();
    for row in rows.iter() {
        let row = row?;
        let path = match &row.save {
            Some(path) => path,
            None => continue,
        };
        let name = path.display().to_string();
        // Where capital letters are small ones too, as some folders have it.
        if let Some(line) = names.insert(name.to_lowercase(), row.line) {
            let cause = format!("its state {name} would be that of line {line} too");
            faults.push(fault(row.line, "station", cause));
        }
        let place = Saved::at(path, OPTION, false).map(drop);
        let place = place.and_then(|()| is_of(path, row.station()));
        if let Err(Failure::Wrong(cause)) = place {
            faults.push(fault(row.line, "station", cause));
        }
    }
    Ok(faults)
}

/// A state that stands there is this station's, or nobody's; one that can't be read is replaced.
fn is_of(path: &Path, station: &str) -> Outcome {
    match resumed::station_of(path) {
        Some(other) if other != station => {
            let name = path.display();
            let cause = format!("{name}: is the state of station {other}; it is left as it is");
            Err(Failure::Wrong(cause))
        }
        _ => Ok(()),
    }
}

/// The state of a log that has a score, beside its place; none of one that has none.
pub fn beside(row: &Row, card: &Card, log: &Log) -> Option<Outcome<Ready>> {
    let path = row.save.as_ref().filter(|_| card.score().is_some())?;
    let saved = Saved::at(path, OPTION, false);
    Some(saved.and_then(|saved| saved.beside(log, &row.asked.whose())))
}
