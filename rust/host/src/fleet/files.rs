//! The files of a log as a lease file names them: one, a list, a folder of daily files
//! in name order, or a pattern.

use crate::common::visible;
use crate::input::source;
use glob::{MatchOptions, Pattern};
use std::cmp::Ordering;
use std::ffi::OsString;
use std::fs;
use std::io::{self, Write};
use std::path::{Component, Path, PathBuf};

/// What parts the names of a list.
const GAPS: [char; 3] = [';', '\n', '\r'];

/// More files than any log has: its 400 days have 9,600 hours.
const MOST: usize = 100_000;

/// What a cell names.
#[derive(Default)]
pub struct Named {
    pub files: Vec<PathBuf>,
    /// Pipes and devices that stand among a folder's files, which are no part of a log.
    pub passed: Vec<PathBuf>,
}

/// The files that the text names, from this folder on, or what is wrong with it. A name
/// that is a file's is that file, whatever letters it has; where nothing is found the name
/// stays as it is, so that it is missed by that name.
pub fn named(text: &str, folder: &Path) -> Result<Named, String> {
    let mut named = Named::default();
    if !is_dash(text) && folder.join(text).exists() {
        named.take(text, folder)?;
        return Ok(named);
    }
    let names = text.split(GAPS).map(str::trim);
    let names: Vec<&str> = names.filter(|name| !name.is_empty()).collect();
    if names.is_empty() {
        return Err(format!("{text:?} names no file"));
    }
    if names.iter().any(|name| is_dash(name)) {
        return Err("standard input is no station's log; a file by that name is ./-".to_string());
    }
    for name in names {
        named.take(name, folder)?;
    }
    Ok(named)
}

fn is_dash(name: &str) -> bool {
    source::is_standard(Some(Path::new(name)))
}

/// These files, with those of a folder in its place.
pub fn in_folders(paths: &[PathBuf]) -> Named {
    let mut named = Named::default();
    for path in paths {
        if path.is_dir() {
            named.take_found(shown_in(path), path.clone());
        } else {
            named.files.push(path.clone());
        }
    }
    named
}

/// What stands in a folder and isn't hidden.
fn shown_in(folder: &Path) -> Vec<PathBuf> {
    entries(folder, |name| !name.starts_with('.'))
}

impl Named {
    fn take(&mut self, name: &str, folder: &Path) -> Result<(), String> {
        let path = folder.join(name);
        match fs::metadata(&path) {
            Ok(about) if about.is_dir() => self.take_found(shown_in(&path), path),
            // What stands there by just this name is taken, whatever it is.
            Ok(_) => self.files.push(apart_from_input(path)),
            Err(_) => self.take_found(matching(name, folder)?, path),
        }
        few(&self.files)
    }

    /// Tells of what is passed over.
    pub fn tell_passed(&self) {
        for path in &self.passed {
            let path = visible::line(&path.display().to_string());
            // Where standard error is closed, the files must do.
            let _ = writeln!(io::stderr(), "{path} is no file and is passed over");
        }
    }

    /// Takes the files that were found by a name, or the name itself where there is none, so that it is missed.
    fn take_found(&mut self, found: Vec<PathBuf>, path: PathBuf) {
        let before = self.files.len();
        for path in found {
            match fs::metadata(&path) {
                Ok(about) if about.is_dir() => {}
                Ok(about) if !about.is_file() => self.passed.push(path),
                _ => self.files.push(apart_from_input(path)),
            }
        }
        if self.files.len() == before {
            self.files.push(apart_from_input(path));
        }
    }
}

fn few(files: &[PathBuf]) -> Result<(), String> {
    if files.len() > MOST {
        Err(format!("names over {MOST} files, which are the most"))
    } else {
        Ok(())
    }
}

/// A file that is called as standard input is.
fn apart_from_input(path: PathBuf) -> PathBuf {
    if source::is_standard(Some(&path)) {
        Path::new(".").join(path)
    } else {
        path
    }
}

/// What stands in a folder by names that are kept, in name order; nothing where it can't be
/// read.
fn entries(folder: &Path, keeps: impl Fn(&str) -> bool) -> Vec<PathBuf> {
    let read = if folder.as_os_str().is_empty() {
        Path::new(".")
    } else {
        folder
    };
    let entries = fs::read_dir(read).into_iter().flatten().flatten();
    let names = entries.map(|entry| entry.file_name());
    let mut names: Vec<OsString> = names
        .filter(|name| keeps(&name.to_string_lossy()))
        .collect();
    names.sort_by(|one, other| {
        let (one_text, other_text) = (one.to_string_lossy(), other.to_string_lossy());
        name_order(&one_text, &other_text).then_with(|| one.cmp(other))
    });
    names.into_iter().map(|name| folder.join(name)).collect()
}

/// By letters, but numbers in them by their value, so that day 10 comes behind day 9.
pub fn name_order(one: &str, other: &str) -> Ordering {
    let (mut one, mut other) = (one, other);
    loop {
        let (a, b) = (leading_digits(one), leading_digits(other));
        let order = match (a, b) {
            ("", "") => one.chars().next().cmp(&other.chars().next()),
            ("", _) | (_, "") => return one.cmp(other),
            _ => {
                let (a, b) = (a.trim_start_matches('0'), b.trim_start_matches('0'));
                a.len().cmp(&b.len()).then_with(|| a.cmp(b))
            }
        };
        let next = |text: &str, digits: &str| match digits.len() {
            0 => text.chars().next().map_or(0, char::len_utf8),
            length => length,
        };
        match order {
            Ordering::Equal if one.is_empty() => return Ordering::Equal,
            Ordering::Equal => {
                one = &one[next(one, a)..];
                other = &other[next(other, b)..];
            }
            order => return order,
        }
    }
}

fn leading_digits(text: &str) -> &str {
    let end = text.find(|letter: char| !letter.is_ascii_digit());
    &text[..end.unwrap_or(text.len())]
}

/// What a name matches from this folder on: * is any letters of a part of it, ? is one. Names
/// that begin with a dot are matched by a dot alone, and a part that stands there as it is
/// written is that one.
fn matching(name: &str, folder: &Path) -> Result<Vec<PathBuf>, String> {
    let mut found = vec![folder.to_path_buf()];
    for component in Path::new(name).components() {
        let part = component.as_os_str().to_string_lossy();
        let is_pattern = matches!(component, Component::Normal(_)) && part.contains(['*', '?']);
        let pattern = pattern(&part).filter(|_| is_pattern);
        let inside = |path: &PathBuf| {
            let plain = path.join(component);
            match &pattern {
                Some(pattern) if !plain.exists() => {
                    entries(path, |name| pattern.matches_with(name, BY_A_DOT))
                }
                _ => vec![plain],
            }
        };
        found = found.iter().flat_map(inside).take(MOST + 1).collect();
        few(&found)?;
    }
    Ok(found)
}

const BY_A_DOT: MatchOptions = MatchOptions {
    case_sensitive: true,
    require_literal_separator: false,
    require_literal_leading_dot: true,
};

/// The library's pattern, for which [ and ** mean something: here they don't.
fn pattern(text: &str) -> Option<Pattern> {
    let mut text = text.replace('[', "[[]");
    while text.contains("**") {
        text = text.replace("**", "*");
    }
    Pattern::new(&text).ok()
}

#[cfg(test)]
mod tests {
    use super::{name_order, pattern, BY_A_DOT};

    #[test]
    fn patterns_match_names() {
        for (name, text, due) in [
            ("day-01.log", "*.log", true),
            ("day-01.log", "day-??.log", true),
            ("day-1.log", "day-??.log", false),
            ("dé.log", "d?.log", true),
            ("a", "**", true),
            ("a", "*****", true),
            ("", "*", true),
            ("", "?", false),
            ("day.log.gz", "*.log", false),
            ("day[1].log", "day[1]*", true),
            ("day1.log", "day[1]*", false),
            (".day", "*day", false),
            (".day", ".*", true),
        ] {
            let pattern = pattern(text).expect("a pattern");
            assert_eq!(pattern.matches_with(name, BY_A_DOT), due, "{name} {text}");
        }
    }

    #[test]
    fn names_are_ordered_with_their_numbers() {
        let mut names = ["d10", "d9", "d09b", "é", "d", "", "d1.log", "d01.log2", "e"];
        names.sort_by(|one, other| name_order(one, other));
        let due = ["", "d", "d1.log", "d01.log2", "d9", "d09b", "d10", "e", "é"];
        assert_eq!(names, due);
    }
}
