//! What a state's file tells of its log, as a line of JSON that people can read too. It is
//! written in one way alone, so that whatever else stands there isn't taken for it.

use crate::common::digest::{self, LENGTH};
use crate::replay::kept::{Kept, Piece};
use crate::score::civil::Date;
use serde_json::{json, Value};

/// So many files may have gone in since the last save.
pub const MOST_FILES: usize = 4096;

/// No line is longer: it has up to 110 bytes a file, a cause and a name.
pub const MOST: usize = 120 * MOST_FILES;

/// The numbers that the state itself has too are there for people and programs that don't
/// read it.
pub fn line(kept: &Kept) -> String {
    let status = kept.replay.status();
    let refused = kept.refused.as_ref();
    let value = json!({
        "egretfold": kept.version,
        "station": kept.station,
        "edition": kept.edition().number(),
        "last_day": status.days.map(|(_, last)| last),
        "last_date": kept.date.map(|date| date.to_string()),
        "kept_day": status.days.map(|(first, _)| first),
        "midnights": kept.midnights(),
        "consumed": kept.consumed,
        "began_from": kept.began.map(digest::hex),
        "bytes": kept.month.bytes,
        "sha256": digest::hex(kept.month.digest),
        "files": kept.files.iter().map(of_file).collect::<Vec<Value>>(),
        "refused": refused.map(|(record, cause)| json!({"record": record, "cause": cause})),
    });
    format!("{value}\n")
}

fn of_file(piece: &Piece) -> Value {
    json!({"bytes": piece.bytes, "sha256": digest::hex(piece.digest)})
}

/// What is told beside the state.
pub struct About {
    pub version: String,
    pub station: Option<String>,
    pub date: Option<Date>,
    pub midnights: u64,
    pub consumed: u64,
    pub began: Option<[u8; LENGTH]>,
    pub month: Piece,
    pub files: Vec<Piece>,
    pub refused: Option<(u64, String)>,
}

/// What a line tells; none where it isn't of that form. Whether it is the state's, and
/// written in the one way, is asked by writing it again.
pub fn read(line: &[u8]) -> Option<About> {
    let value: Value = serde_json::from_slice(line).ok()?;
    let files: Option<Vec<Piece>> = value["files"].as_array()?.iter().map(piece).collect();
    Some(About {
        version: text(&value["egretfold"])?,
        station: optional(&value["station"], text)?,
        date: optional(&value["last_date"], |date| Date::parse(date.as_str()?).ok())?,
        midnights: value["midnights"].as_u64()?,
        consumed: value["consumed"].as_u64()?,
        began: optional(&value["began_from"], of_hex)?,
        month: piece(&value)?,
        files: files?,
        refused: optional(&value["refused"], |word| {
            Some((word["record"].as_u64()?, text(&word["cause"])?))
        })?,
    })
}

fn text(value: &Value) -> Option<String> {
    value.as_str().map(String::from)
}

fn piece(value: &Value) -> Option<Piece> {
    Some(Piece {
        bytes: value["bytes"].as_u64()?,
        digest: of_hex(&value["sha256"])?,
    })
}

/// What may be missing.
fn optional<T>(value: &Value, read: impl Fn(&Value) -> Option<T>) -> Option<Option<T>> {
    match value {
        Value::Null => Some(None),
        value => read(value).map(Some),
    }
}

fn of_hex(value: &Value) -> Option<[u8; LENGTH]> {
    digest::of_hex(value.as_str()?)
}
