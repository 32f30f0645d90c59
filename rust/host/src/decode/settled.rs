//! The settings that a stream of command words leaves, for those who ask about them.

use crate::common::failure::{Failure, Outcome};
use crate::common::kinds::Position;
use crate::common::schema;
use crate::common::settings::Setting;
use crate::decode::walk::{self, Quiet};
use crate::input::source::Source;
use crate::input::words::Words;
use egretfold::{Edition, Session};
use serde_json::json;
use std::io::Write;
use std::path::Path;

/// What a stream's words left.
pub struct Settled {
    /// The stream's name.
    pub name: String,
    pub session: Session,
    pub settings: Vec<Setting>,
    /// The stream's refusal, which was told.
    pub refused: Option<Failure>,
}

/// Reads the stream, or its first so many words. A refused word ends it and is
/// told; the settings before that word stand.
pub fn read(
    file: &Path,
    hex: bool,
    most: Option<u64>,
    as_json: bool,
    out: &mut dyn Write,
) -> Outcome<Settled> {
    let mut words = Words::new(Source::open(Some(file))?, hex);
    if let Some(most) = most {
        words = words.first(most);
    }
    let mut session = Session::new(Edition::First);
    let totals = walk::through(&mut session, false, words, &mut Quiet)?;
    if let Some((Position(at), refused)) = &totals.refused {
        if as_json {
            let refusal =
                json!({"position": at, "refused": refused.number, "cause": refused.cause});
            schema::line(out, json!({ "stream": refusal }))?;
        } else {
            writeln!(
                out,
                "# word {at}: {refused}; the settings before it are asked"
            )?;
        }
    }
    let name = totals.name;
    let refused = totals.refused.map(|(at, refused)| {
        let told = format!("{name}: word {at}: {refused}");
        Failure::Refused(told).hinted(totals.hint)
    });
    Ok(Settled {
        name,
        session,
        settings: totals.settings,
        refused,
    })
}
