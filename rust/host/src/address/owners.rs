//! `egretfold locate --stream`: which windows of a stream's settings own a byte.

use crate::common::failure::{Failure, Outcome};
use crate::common::kinds::Address;
use crate::common::schema;
use crate::common::settings::{self, Setting, Value};
use crate::decode::settled;
use crate::explain::cause;
use egretfold::Layout;
use serde_json::json;
use std::io::Write;
use std::path::Path;

/// The settings after a stream's words.
pub struct Read {
    settings: Vec<Setting>,
    domain: Option<[u32; 4]>,
    /// The stream's refusal, which was told.
    pub refused: Option<Failure>,
}

/// Reads the stream, or its first so many words.
pub fn read(
    file: &Path,
    hex: bool,
    most: Option<u64>,
    as_json: bool,
    out: &mut dyn Write,
) -> Outcome<Read> {
    let settled = settled::read(file, hex, most, as_json, out)?;
    Ok(Read {
        settings: settled.settings,
        domain: settled.session.domain(),
        refused: settled.refused,
    })
}

/// How an owned pair stands to the domain.
#[derive(Clone, Copy, PartialEq, Eq)]
enum Domain {
    Inside,
    Outside,
    NotSet,
    /// The window holds instructions or constants, which no domain is laid over.
    NoMatter,
}

/// A window that owns the byte.
struct Owner<'a> {
    name: &'a str,
    x: u32,
    y: u32,
    place: u32,
    domain: Domain,
}

/// Answers one address, and gives the refusal, where nothing owns it, as told.
pub fn answer(
    read: &Read,
    address: u32,
    as_json: bool,
    out: &mut dyn Write,
) -> Outcome<Option<String>> {
    let owners = owners(read, address);
    let at = Address(address);
    let why = "no window of the stream's settings owns it";
    let refused = cause::refused(12_u32, Some(why.into()));
    if as_json {
        let list: Vec<_> = owners.iter().map(Owner::json).collect();
        let mut value = json!({"address": at.to_string(), "owners": list});
        if owners.is_empty() {
            value["refused"] = json!(refused.number);
            value["cause"] = json!(refused.cause);
        }
        schema::line(out, value)?;
    } else {
        for owner in &owners {
            writeln!(out, "{at}  {}", owner.words())?;
        }
    }
    if !owners.is_empty() {
        return Ok(None);
    }
    if !as_json {
        writeln!(out, "{at}  {refused}")?;
        for (name, cause) in near(read, address) {
            writeln!(out, "          it is in the span of {name}: {cause}")?;
        }
    }
    Ok(Some(format!("address {at}: {refused}")))
}

fn owners(read: &Read, address: u32) -> Vec<Owner<'_>> {
    let owner = |(name, layout, store)| {
        let (x, y, place) = egretfold::locate(&layout, address).ok()?;
        let domain = if store {
            Domain::NoMatter
        } else {
            domain(read, x, y)
        };
        Some(Owner {
            name,
            x,
            y,
            place,
            domain,
        })
    };
    windows(read).filter_map(owner).collect()
}

fn domain(read: &Read, x: u32, y: u32) -> Domain {
    match read.domain {
        None => Domain::NotSet,
        Some([i0, j0, i1, j1]) if (i0..=i1).contains(&x) && (j0..=j1).contains(&y) => {
            Domain::Inside
        }
        Some(_) => Domain::Outside,
    }
}

/// The windows that the settings have: name, layout, and whether it is a store of
/// instructions or constants.
fn windows(read: &Read) -> impl Iterator<Item = (&str, Layout, bool)> {
    read.settings.iter().filter_map(|setting| {
        let name = setting.name.as_str();
        match &setting.value {
            Value::Array(format) | Value::Output { format, .. } => {
                Some((name, settings::layout(format), false))
            }
            Value::Store(format) => Some((name, settings::layout(format), true)),
            _ => None,
        }
    })
}

/// The windows whose span has the byte though no pair owns it, and why.
fn near(read: &Read, address: u32) -> Vec<(&str, String)> {
    let in_span = |layout: &Layout| {
        let span = egretfold::layout(layout).map_or(0, |window| window.span);
        address
            .checked_sub(layout.base)
            .map_or(false, |offset| offset < span)
    };
    windows(read)
        .filter(|(_, layout, _)| in_span(layout))
        .filter_map(|(name, layout, _)| Some((name, cause::unowned(&layout, address)?)))
        .collect()
}

impl Owner<'_> {
    fn words(&self) -> String {
        let domain = match self.domain {
            Domain::Inside => ", inside the domain",
            Domain::Outside => ", outside the domain",
            Domain::NotSet => ", no domain is set",
            Domain::NoMatter => "",
        };
        let Owner {
            name, x, y, place, ..
        } = self;
        format!("{name}, ({x}, {y}) place {place}{domain}")
    }

    fn json(&self) -> serde_json::Value {
        let in_domain = match self.domain {
            Domain::Inside => Some(true),
            Domain::Outside => Some(false),
            Domain::NotSet | Domain::NoMatter => None,
        };
        json!({
            "window": self.name,
            "x": self.x,
            "y": self.y,
            "place": self.place,
            "in_domain": in_domain,
        })
    }
}
