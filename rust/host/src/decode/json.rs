//! The JSON form of `decode`: an object a line, so that a stream of any length can
//! be read as it comes. Words and addresses are strings of 8 hex digits.

use crate::address::tiles;
use crate::common::failure::Outcome;
use crate::common::kinds::{Address, Position, Word};
use crate::common::names::{FormatWord, Kind};
use crate::common::schema;
use crate::common::settings::{self, Setting, Value as SettingValue};
use crate::decode::walk::{Came, Form, Output, Ready, Seen, Start, Totals};
use egretfold::{Format, Layout, Party};
use serde_json::{json, Map, Value};
use std::io::Write;

pub struct Json<'a> {
    pub out: &'a mut dyn Write,
    /// Only the totals.
    pub summary: bool,
}

impl Form for Json<'_> {
    fn wants_settings(&self) -> bool {
        !self.summary
    }

    fn word(&mut self, seen: &Seen) -> Outcome {
        if self.summary {
            return Ok(());
        }
        let mut value = json!({"position": seen.position.0, "word": Word(seen.word).to_string()});
        match (&seen.came, seen.line(), seen.kind()) {
            (Came::After, ..) => value["refused"] = json!(1),
            (_, Some(_), Some(kind)) => value[key(kind)] = parameter(kind, seen.word),
            (_, Some(line), None) => value["command"] = json!(line.name),
            _ => {}
        }
        match (&seen.came, seen.line()) {
            (Came::Done(_), Some(line)) => value["completes"] = json!(line.name),
            (Came::Refused(refused), _) => {
                value["refused"] = json!(refused.number);
                value["cause"] = json!(refused.cause);
            }
            _ => {}
        }
        put_party(&mut value, seen.party);
        schema::line(self.out, value)
    }

    fn start(&mut self, start: &Start) -> Outcome {
        if self.summary {
            return Ok(());
        }
        let with_mark = |(setting, changed): &(Setting, bool)| {
            let mut value = as_json(setting);
            value["changed"] = json!(changed);
            value
        };
        let settings: Vec<Value> = start.settings.iter().map(with_mark).collect();
        let outputs = start.outputs();
        let silent = outputs.iter().filter(|output| output.is_silent());
        let mut value = json!({
            "start": start.runs,
            "position": start.position.0,
            "claimed": start.claimed,
            "claims": start.claims,
            "outputs": outputs.iter().map(|output| output.number).collect::<Vec<_>>(),
            "silent": silent.map(|output| output.number).collect::<Vec<_>>(),
            "channels": outputs.iter().map(channels).collect::<Vec<_>>(),
            "settings": settings,
        });
        put_party(&mut value, start.party);
        schema::line(self.out, value)
    }

    fn end(&mut self, totals: &Totals) -> Outcome {
        let mut commands = Map::new();
        for (line, count) in &totals.commands {
            commands.insert(line.name.into(), json!(count));
        }
        let open = totals
            .open
            .map(|(name, taken, due)| json!({"command": name, "taken": taken, "parameters": due}));
        let refused = totals.refused.as_ref().map(|(position, refused)| {
            json!({
                "position": position.0,
                "refused": refused.number,
                "cause": refused.cause,
                "words_after": totals.after(),
            })
        });
        let settings: Vec<Value> = totals.settings.iter().map(as_json).collect();
        let mut value = json!({"summary": {
            "input": totals.name,
            "words": totals.words,
            "taken": totals.taken,
            "commands": totals.completed(),
            "by_name": commands,
            "edition": totals.edition.number(),
            "runs": totals.runs,
            "claims": totals.claims,
            "open": open,
            "refusal": refused,
            "settings": settings,
            "ready": ready(&totals.ready),
        }});
        put_party(&mut value["summary"], totals.party);
        schema::line(self.out, value)
    }

    fn ready(&mut self, party: Option<Party>, position: Position, change: &Ready) -> Outcome {
        if self.summary {
            return Ok(());
        }
        let mut value = ready(change);
        value["position"] = json!(position.0);
        put_party(&mut value, party);
        schema::line(self.out, value)
    }
}

/// The party, where there are two.
fn put_party(value: &mut Value, party: Option<Party>) {
    if let Some(party) = party {
        value["party"] = json!(party.number());
    }
}

/// How many channels of an output the mask leaves, by which edition 2 claims.
fn channels(output: &Output) -> Value {
    json!({"output": output.number, "unmasked": output.unmasked, "of": output.channels})
}

/// What a start would get of the settings.
fn ready(ready: &Ready) -> Value {
    json!({"readiness": ready.number, "cause": ready.cause})
}

/// A parameter's name as a key.
fn key(kind: Kind) -> String {
    kind.name().replace(' ', "_")
}

fn parameter(kind: Kind, word: u32) -> Value {
    match kind {
        Kind::Base => json!(Address(word).to_string()),
        Kind::Format => format_word(word),
        Kind::OutputMask => json!(Word(word).to_string()),
        _ => json!(word),
    }
}

fn format_word(word: u32) -> Value {
    let format = FormatWord(word);
    let layout = settings::layout(&Format {
        base: 0,
        format: word,
        height: 1,
    });
    json!({
        "name": format.element().map(|element| element.name),
        "code": format.code(),
        "tiled": format.tiled(),
        "superfine": format.superfine(),
        "pitch": format.pitch(),
        "row_step": tiles::row_step(&layout),
    })
}

fn as_json(setting: &Setting) -> Value {
    let mut value = json!({"setting": setting.name});
    match &setting.value {
        SettingValue::Array(format) | SettingValue::Store(format) => put(&mut value, format),
        SettingValue::Output { format, silent } => {
            put(&mut value, format);
            value["silent"] = json!(silent);
        }
        SettingValue::Domain([i0, j0, i1, j1]) => {
            value["domain"] = json!({"i0": i0, "j0": j0, "i1": i1, "j1": j1});
        }
        SettingValue::OutputMask { mask, .. } => value["mask"] = json!(Word(*mask).to_string()),
        SettingValue::ConditionalMask(mask) => value["mask"] = json!(mask),
        SettingValue::Test(test) => value["test"] = json!(test),
    }
    value
}

fn put(value: &mut Value, format: &Format) {
    value["base"] = json!(Address(format.base).to_string());
    value["format"] = format_word(format.format);
    value["height"] = json!(format.height);
    value["window"] = window(&settings::layout(format));
}

/// The window as the product tells it.
fn window(layout: &Layout) -> Value {
    match egretfold::layout(layout) {
        Ok(window) => json!({"width": window.step, "height": layout.height, "span": window.span}),
        Err(_) => Value::Null,
    }
}
