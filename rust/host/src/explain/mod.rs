//! `egretfold explain [N]`: what a refusal means, in the documents' words.

pub mod cause;
mod refusals;

use crate::common::failure::{Failure, Outcome};
use crate::common::schema;
use crate::common::text;
use crate::explain::refusals::Refusal;
use crate::input::numbers;
use clap::Args;
use serde_json::{json, Value};
use std::io::Write;

#[derive(Args)]
pub struct Options {
    /// The refusal's number; all are listed where none is given
    #[arg(value_parser = numbers::count)]
    number: Option<u32>,
    /// One JSON object a refusal, a line each
    #[arg(long)]
    json: bool,
}

pub fn run(options: &Options, out: &mut dyn Write) -> Outcome {
    let number = match options.number {
        Some(number) => number,
        None => return list(options.json, out),
    };
    let refusal = refusals::refusal(number).ok_or_else(|| {
        let numbers = refusals::ALL.iter().map(|refusal| refusal.number);
        let known = text::ranges(&numbers.collect::<Vec<_>>());
        Failure::Wrong(format!(
            "explain {number}: refusals have the numbers {known}"
        ))
    })?;
    if options.json {
        schema::line(out, as_json(refusal))?;
    } else {
        one(refusal, out)?;
    }
    Ok(())
}

fn list(json: bool, out: &mut dyn Write) -> Outcome {
    for refusal in &refusals::ALL {
        if json {
            schema::line(out, as_json(refusal))?;
        } else {
            let head = format!("{:2}  ", refusal.number);
            text::paragraph(out, &head, refusal.cause)?;
        }
    }
    Ok(())
}

fn one(refusal: &Refusal, out: &mut dyn Write) -> Outcome {
    let head = format!("refusal {}: ", refusal.number);
    text::paragraph(out, &head, refusal.cause)?;
    writeln!(out)?;
    text::paragraph(out, "given by     ", refusal.given)?;
    text::paragraph(out, "effect       ", effect(refusal.number))?;
    quote(out, "document 01", refusal.says)?;
    quote(out, "document 02", refusal.requests)
}

fn quote(out: &mut dyn Write, document: &str, sentences: &[&str]) -> Outcome {
    for (place, sentence) in sentences.iter().enumerate() {
        let head = if place == 0 { document } else { "" };
        text::paragraph(out, &format!("{head:13}"), &format!("\"{sentence}\""))?;
    }
    Ok(())
}

fn effect(number: u32) -> &'static str {
    if refusals::is_of_a_party(number) {
        "changes no setting; the word that gets it isn't counted, drops its party's open command and stops that party, \
         and the other goes on"
    } else if refusals::stops(number) {
        "changes no byte of lent memory and no setting; a session's word that gets it isn't counted, drops the open \
         command and stops the session"
    } else if refusals::stops_replay(number) {
        "changes no day, no tally and no setting; drops the open record and stops the replay"
    } else if refusals::is_of_a_lease(number) {
        "no log is read, and nothing is scored"
    } else {
        "changes no byte of lent memory, no setting and no flow state"
    }
}

fn as_json(refusal: &Refusal) -> Value {
    let number = refusal.number;
    let mut value = json!({
        "number": number,
        "cause": refusal.cause,
        "given_by": refusal.given,
        "stops_a_session": refusals::stops(number),
        "stops_a_replay": refusals::stops_replay(number),
    });
    for (document, sentences) in [
        ("document_01", refusal.says),
        ("document_02", refusal.requests),
    ] {
        if !sentences.is_empty() {
            value[document] = json!(sentences);
        }
    }
    value
}
