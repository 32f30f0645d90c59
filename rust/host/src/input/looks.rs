//! What an input looks like by its first bytes, so that one given to the wrong
//! subcommand is told what it may be, and no answer replaces a log or a state. Nothing else is decided by it.

use crate::common::names;
use crate::input::numbers;
use crate::replay::kept;

#[derive(Clone, Copy, Debug, PartialEq, Eq)]
pub enum Looks {
    Log,
    /// Command words in binary.
    Words,
    /// Words in hex text.
    Hex,
    /// A listing, or its terse form.
    Listing,
    /// A state that --save wrote.
    State,
}

/// A record of a log: a byte of kind, 1 or 2, and a number.
const RECORD: usize = 5;

/// What these first bytes look like, if anything.
pub fn of(begin: &[u8]) -> Option<Looks> {
    if begin.starts_with(kept::MAGIC.as_bytes()) {
        return Some(Looks::State);
    }
    if let Some(text) = text(begin) {
        return of_text(&text);
    }
    let kinds = begin.iter().step_by(RECORD);
    if begin.len() >= RECORD && kinds.clone().all(|kind| matches!(kind, 1 | 2)) {
        return Some(Looks::Log);
    }
    let header = begin.get(..4)?;
    let header = u32::from_le_bytes([header[0], header[1], header[2], header[3]]);
    names::command(header).map(|_| Looks::Words)
}

/// The bytes as text, where they are nothing else.
fn text(begin: &[u8]) -> Option<String> {
    let is_text = |byte: &u8| matches!(byte, b' '..=b'~' | b'\n' | b'\r' | b'\t');
    let all = !begin.is_empty() && begin.iter().all(is_text);
    all.then(|| String::from_utf8_lossy(begin).into_owned())
}

fn of_text(text: &str) -> Option<Looks> {
    let lines = text
        .lines()
        .map(|line| line.split('#').next().unwrap_or(""));
    let line = lines.map(str::trim).find(|line| !line.is_empty())?;
    let first = line.split([' ', ',', '\t']).next()?;
    if first.ends_with(':') || names::command_named(first).is_some() {
        return Some(Looks::Listing);
    }
    numbers::word(first).ok().map(|_| Looks::Hex)
}

/// What to try with an input that was refused where another kind was wanted.
pub fn hint(begin: &[u8], wanted: Looks) -> Option<String> {
    let looks = of(begin).filter(|looks| *looks != wanted)?;
    let (what, instead) = match (looks, wanted) {
        (Looks::Log, _) => ("a station's log", "egretfold replay, or score"),
        (Looks::Words, Looks::Hex) => ("command words in binary", "it without --hex"),
        (Looks::Words, _) => ("command words in binary", "egretfold decode"),
        (Looks::Hex, Looks::Words) => ("words in hex text", "--hex"),
        // What encode reads is hex text too.
        (Looks::Hex, Looks::Listing) => return None,
        (Looks::Hex, _) => ("words in hex text", "egretfold decode --hex"),
        (Looks::Listing, _) => ("a listing", "egretfold encode, and decode what it writes"),
        (Looks::State, _) => (
            "a state that was saved",
            "egretfold replay --resume with it, or score --resume",
        ),
    };
    Some(format!("this looks like {what}: try {instead}"))
}

#[cfg(test)]
mod tests {
    use super::*;

    #[test]
    fn each_kind_is_known_by_its_begin() {
        for (begin, looks) in [
            (
                &b"\x01\x00\x0A\x01\xC0\x01\x00\x10\x00\x00\x02"[..],
                Some(Looks::Log),
            ),
            (b"\x02\x65\x00\x00\x00", Some(Looks::Log)),
            (b"\x00\x0A\x01\xC0\x00\x10\x00\x00", Some(Looks::Words)),
            (b"# a remark\nC0010A00 1000", Some(Looks::Hex)),
            (b"       0:  C0010A00  set_inst_fmt\n", Some(Looks::Listing)),
            (b"set_domain 0 0 5F 11\n", Some(Looks::Listing)),
            (b"egretfold state\n\x01\x00\x00\x00", Some(Looks::State)),
            (b"no such thing", None),
            (b"\x00\x00\x00\x00\x00", None),
            (b"", None),
        ] {
            assert_eq!(of(begin), looks, "{begin:?}");
        }
    }
}
