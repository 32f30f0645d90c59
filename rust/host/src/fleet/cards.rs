//! A folder of cards, one a station.

use crate::common::failure::{Failure, Outcome};
use crate::common::files::Files;
use crate::common::replaced::{Kind, Replaced};
use crate::common::visible;
use crate::fleet::leases::{fault, Fault, Rows};
use crate::fleet::month::{station, Fleet};
use crate::score::picture;
use std::collections::{HashMap, HashSet};
use std::fs;
use std::io::{self, Write};
use std::path::{Path, PathBuf};

/// How a card of ours names itself.
const BY: &str = " by egretfold ";

/// The file of a station's card in a folder.
pub fn file(folder: &Path, station: &str) -> PathBuf {
    folder.join(name_of(station))
}

/// The name of a station's card.
pub fn name_of(station: &str) -> String {
    format!("{}.svg", plain(station))
}

/// A station's name as files have it: letters and digits as they are, anything else that may
/// not stand in every file's name as a line.
pub fn plain(station: &str) -> String {
    let plain = |letter: char| match letter {
        '-' | '_' | '.' => letter,
        _ if letter.is_alphanumeric() => letter,
        _ => '-',
    };
    let name: String = station.chars().map(plain).collect();
    name.trim_start_matches('.').to_string()
}

/// Stations whose cards would have the name of an earlier one's, with that card's name, by their places.
fn twice(stations: &[String]) -> Vec<(usize, usize, String)> {
    let mut names: HashMap<String, usize> = HashMap::new();
    let mut twice = Vec::new();
    for (place, station) in stations.iter().enumerate() {
        let name = name_of(station);
        // Where capital letters are small ones too, as some folders have it.
        if let Some(earlier) = names.insert(name.to_lowercase(), place) {
            twice.push((place, earlier, name));
        }
    }
    twice
}

/// Two stations whose cards would have one name, and cards that can't be put there. They
/// are told before any log is read.
pub fn faults(folder: &Path, rows: &Rows) -> io::Result<Vec<Fault>> {
    let mut faults = Vec::new();
    let (mut lines, mut stations) = (Vec::new(), Vec::new());
    for row in rows.iter() {
        let row = row?;
        lines.push(row.line);
        stations.push(row.station().to_string());
    }
    for (place, earlier, name) in twice(&stations) {
        let line = lines[earlier];
        let cause = format!("its card {name} would be that of line {line} too");
        faults.push(fault(lines[place], "station", cause));
    }
    for (line, station) in lines.iter().zip(&stations) {
        let name = file(folder, station);
        if let Err(Failure::Wrong(cause)) = Replaced::new(&name, Kind::Svg) {
            faults.push(fault(*line, "station", cause));
        }
    }
    Ok(faults)
}

/// The same for stations that have no lease file.
pub fn are_apart(stations: &[String]) -> Outcome {
    match twice(stations).first() {
        None => Ok(()),
        Some((place, earlier, name)) => {
            let (one, other) = (&stations[*earlier], &stations[*place]);
            let told = format!("the cards of stations {one} and {other} would both be {name}");
            Err(Failure::Wrong(told))
        }
    }
}

/// Names the card of this station among the files of the line.
pub fn name(folder: &Path, station: &str, files: &mut Files) {
    files.writes("--cards", Some(&file(folder, station)));
}

/// Makes sure of the folder.
pub fn folder(folder: &Path) -> Outcome {
    let made = if folder.is_dir() {
        Ok(())
    } else {
        fs::create_dir(folder)
    };
    made.map_err(|error| {
        let name = visible::line(&folder.display().to_string());
        Failure::Wrong(format!("{name}: {error}"))
    })
}

/// Writes each station's card, in place of an earlier one, and where that is asked tells of others
/// that stand there.
pub fn write(fleet: &Fleet, folder: &Path, tells_others: bool, files: &mut Files) -> Outcome {
    let mut names = HashSet::new();
    for card in fleet.cards() {
        let card = card?;
        let name = file(folder, station(&card));
        Replaced::at(&name, Kind::Svg).write(picture::svg(&card), files);
        names.insert(name);
    }
    if !tells_others {
        return Ok(());
    }
    let is_ours = |path: &PathBuf| fs::read_to_string(path).map_or(false, |text| text.contains(BY));
    for other in beside(folder, &names).into_iter().filter(is_ours) {
        let other = visible::line(&other.display().to_string());
        // Where standard error is closed, the cards must do.
        let _ = writeln!(
            io::stderr(),
            "{other} is an earlier card, of no station of this fleet"
        );
    }
    Ok(())
}

/// Pictures that stand there and are none of these.
pub fn beside(folder: &Path, names: &HashSet<PathBuf>) -> Vec<PathBuf> {
    let entries = fs::read_dir(folder).into_iter().flatten().flatten();
    let entries = entries.map(|entry| folder.join(entry.file_name()));
    let is_svg = |path: &PathBuf| path.extension().map_or(false, |end| end == "svg");
    let mut others: Vec<PathBuf> = entries
        .filter(|path| is_svg(path) && !names.contains(path))
        .collect();
    others.sort();
    others
}

#[cfg(test)]
mod tests {
    use super::name_of;

    #[test]
    fn a_cards_name_can_stand_in_any_folder() {
        for (station, due) in [
            ("14", "14.svg"),
            ("Nord 3/a", "Nord-3-a.svg"),
            ("../x", "-x.svg"),
            ("..", ".svg"),
            ("Zürich-1", "Zürich-1.svg"),
        ] {
            assert_eq!(name_of(station), due);
        }
    }
}
