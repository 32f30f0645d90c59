//! Why a picture wasn't moved, with the quantities at odds, and what to try.

use crate::address::layouts::LayoutOptions;
use crate::common::failure::{Failure, Outcome};
use crate::common::kinds::Address;
use crate::common::schema;
use crate::common::text;
use crate::explain::cause::{self, Refused};
use crate::picture::Moved;
use egretfold::{Layout, Rectangle, Refusal};
use serde_json::json;
use std::io::Write;

pub enum Trouble {
    /// A wrong line or file.
    Failure(Failure),
    /// What the product refused: at what, why, and something to try.
    Refused(String, Refused, Option<String>),
}

impl From<Failure> for Trouble {
    fn from(failure: Failure) -> Trouble {
        Trouble::Failure(failure)
    }
}

impl Trouble {
    /// Tells a refusal in JSON too, where that is asked for.
    pub fn tell(self, as_json: bool, out: &mut dyn Write) -> Outcome {
        match self {
            Trouble::Failure(failure) => Err(failure),
            Trouble::Refused(at, refused, hint) => {
                if as_json {
                    let Refused { number, cause } = &refused;
                    let value = json!({"at": at, "refused": number, "cause": cause});
                    schema::line(out, json!({ "picture": value }))?;
                }
                Err(Failure::Refused(format!("{at}: {refused}")).hinted(hint))
            }
        }
    }
}

/// 3 or 6 of the window.
pub fn of_layout(refusal: Refusal, layout: &Layout, options: &LayoutOptions) -> Trouble {
    let number = refusal.number();
    let refused = cause::refused(number, cause::of_layout(number, layout));
    let hint = options.hint(layout, None);
    Trouble::Refused(text::layout_words(layout), refused, hint)
}

/// 10 or 11 of a copy or a painting. A picture is given by its name and the bytes of
/// its elements.
pub fn of_call(refusal: Refusal, moved: &Moved, picture: Option<(&str, usize)>) -> Trouble {
    let number = refusal.number();
    let told = |at: &str, cause, hint: String| {
        Trouble::Refused(
            at.to_string(),
            cause::refused(number, Some(cause)),
            Some(hint),
        )
    };
    let dump = &moved.name;
    match number {
        10 => {
            let (step, height) = (moved.window.step, moved.layout.height);
            let hint = format!("the whole window is --rectangle 0,0,{step},{height}");
            told(dump, outside(moved), hint)
        }
        11 => match (memory(moved), picture) {
            (Some((cause, hint)), _) => told(dump, cause, hint),
            (None, Some((name, given))) => {
                let hint = "give another --rectangle, or a picture of that length".to_string();
                told(name, length(moved, given), hint)
            }
            (None, None) => Trouble::Refused(dump.clone(), cause::refused(number, None), None),
        },
        _ => Trouble::Refused(dump.clone(), cause::refused(number, None), None),
    }
}

fn outside(moved: &Moved) -> String {
    let Rectangle {
        x,
        y,
        columns,
        rows,
    } = moved.rectangle;
    let (step, height) = (moved.window.step, moved.layout.height);
    if u64::from(x) + u64::from(columns) > u64::from(step) {
        format!("outside the window: {columns} columns from x {x} on go past row step {step}")
    } else {
        format!("outside the window: {rows} rows from y {y} on go past height {height}")
    }
}

/// A dump that ends too high or doesn't cover the span.
fn memory(moved: &Moved) -> Option<(String, String)> {
    let (at, base) = (u64::from(moved.at), u64::from(moved.layout.base));
    let (end, span) = (at + moved.dump.len() as u64, u64::from(moved.window.span));
    let first = Address(moved.at);
    let hint = "--at is the address of the dump's first byte";
    if end > 1 << 32 {
        let cause = format!("memory from {first} on ends above the last address");
        return Some((cause, hint.to_string()));
    }
    if at <= base && base + span <= end {
        return None;
    }
    let dump = match moved.dump.len() {
        0 => "the dump is empty".to_string(),
        _ => format!("the dump has {first} to {:08X}", end - 1),
    };
    let base = Address(moved.layout.base);
    let last = u64::from(base.0) + span - 1;
    Some((
        format!("memory must cover the window's span, {base} to {last:08X}, and {dump}"),
        format!("give a dump that covers it; {hint}"),
    ))
}

/// A picture of another length than the rectangle's elements have.
fn length(moved: &Moved, given: usize) -> String {
    let Rectangle { columns, rows, .. } = moved.rectangle;
    let size = moved.layout.size;
    let due = u64::from(columns) * u64::from(rows) * u64::from(size);
    let given = text::count(given as u64, "byte");
    format!("it has {given}, and {columns} x {rows} elements of {size} take {due}")
}
