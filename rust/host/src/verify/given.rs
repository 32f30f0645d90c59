//! A card that was given: its form, its block of figures, and what it says of itself.

use crate::common::failure::Failure;
use crate::common::replaced::{HTML_BEGIN, SVG_BEGIN};
use crate::fleet::page;
use crate::fleet::scores::{self, Said};
use crate::input::source::Source;
use crate::score::asked::Card;
use crate::score::{block, picture, rows};
use serde_json::Value;
use std::path::Path;

/// More than any card has: of a hundred thousand files it names each.
const LONGEST: usize = 1 << 22;

/// The forms that a card has.
#[derive(Clone, Copy, PartialEq, Eq)]
pub enum Form {
    Svg,
    Html,
    Json,
}

impl Form {
    fn of(text: &str) -> Option<Form> {
        if text.starts_with(SVG_BEGIN) {
            Some(Form::Svg)
        } else if text.starts_with(HTML_BEGIN) {
            Some(Form::Html)
        } else {
            text.starts_with('{').then_some(Form::Json)
        }
    }

    pub fn name(self) -> &'static str {
        match self {
            Form::Svg => "SVG",
            Form::Html => "HTML",
            Form::Json => "JSON",
        }
    }

    /// The card in this form, by the code that makes every card.
    pub fn made(self, card: &Card) -> String {
        match self {
            Form::Svg => picture::svg(card),
            Form::Html => page::of_one(card),
            Form::Json => {
                let mut lines = Vec::new();
                // Writing to memory can't fail.
                let _ = rows::json(card, &mut lines);
                String::from_utf8_lossy(&lines).into_owned()
            }
        }
    }

    /// A card's figures for programs, a value a line, and what it shows besides.
    pub fn parted(self, text: &str) -> Result<(Vec<Value>, String), String> {
        match self {
            Form::Svg | Form::Html => {
                let (before, block, behind) = block::parted(text)?;
                Ok((lines(block)?, [before, behind].concat()))
            }
            Form::Json => Ok((lines(text)?, String::new())),
        }
    }
}

fn lines(text: &str) -> Result<Vec<Value>, String> {
    let value = |(number, line): (usize, &str)| {
        let value = serde_json::from_str(line);
        value.map_err(|error| format!("line {number} of its figures is no JSON: {error}"))
    };
    (1..).zip(text.lines()).map(value).collect()
}

pub struct Given {
    pub form: Form,
    pub text: String,
    /// Its figures, a line each: the days, and what they come to.
    pub lines: Vec<Value>,
    /// What is shown.
    pub shown: String,
    pub said: Said,
}

impl Given {
    /// The card in this file, or why it can't be read.
    pub fn read(file: &Path) -> Result<Given, String> {
        let told = |failure: Failure| failure.text().unwrap_or_default();
        let mut source = Source::open(Some(file)).map_err(told)?;
        let bytes = source.all(LONGEST).map_err(told)?;
        Given::of(bytes).map_err(|cause| format!("{}: {cause}", source.name))
    }

    fn of(bytes: Vec<u8>) -> Result<Given, String> {
        let text = String::from_utf8(bytes).map_err(|error| {
            let place = error.utf8_error().valid_up_to();
            format!("byte {place} is no UTF-8, and a card is text")
        })?;
        let form = Form::of(&text).ok_or(
            "is no card: those of score --svg, --html and --json begin otherwise; give one as it was written",
        )?;
        let (lines, shown) = form.parted(&text)?;
        let summaries = lines.iter().filter(|line| line.get("summary").is_some());
        let summary = match (lines.last(), summaries.count()) {
            (Some(last), 1) if last.get("summary").is_some() => &last["summary"],
            (_, 0) => {
                return Err("its figures have no summary: they are cut, or no score's".to_string())
            }
            (_, 1) => return Err("more lines of figures stand behind its summary".to_string()),
            (_, count) => return Err(format!("has {count} summaries, where a card has one")),
        };
        let said = scores::said(summary)?;
        Ok(Given {
            form,
            said,
            lines,
            shown,
            text,
        })
    }
}
