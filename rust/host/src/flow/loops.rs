//! Loops in words: what an opening's integer word says, a group's open loops, and
//! why a loop refused a step.

use crate::common::kinds::Word;
use crate::common::text;
use crate::flow::slots::Slot;
use egretfold::{Group, Loop};
use serde_json::{json, Value};

pub const LOOP: u32 = 1;
pub const ENDLOOP: u32 = 2;
pub const REP: u32 = 3;
pub const ENDREP: u32 = 4;

/// The most loops that can be open, and the highest aL.
const MOST: usize = 4;
const HIGHEST: i32 = 255;

/// The bits of an integer word that request 4 names.
const NAMED: u32 = 0x00FF_FFFF;

/// No slot can name more integer words.
pub const INTEGERS: u64 = 32;

/// The op's name in request 4, of 1 to 4.
pub fn name(op: u32) -> Option<&'static str> {
    match op {
        LOOP => Some("LOOP"),
        ENDLOOP => Some("ENDLOOP"),
        REP => Some("REP"),
        ENDREP => Some("ENDREP"),
        _ => None,
    }
}

/// An integer word: how many turns, where aL starts, and what it gains a turn.
#[derive(Clone, Copy)]
pub struct Integer(pub u32);

impl Integer {
    fn count(self) -> u32 {
        self.0 & 0xFF
    }

    fn start(self) -> u32 {
        self.0 >> 8 & 0xFF
    }

    fn step(self) -> i32 {
        i32::from((self.0 >> 16) as u8 as i8)
    }

    fn reserved(self) -> u32 {
        self.0 & !NAMED
    }

    /// What it says to a LOOP or a REP, in parentheses.
    fn text(self, op: u32) -> String {
        let turns = text::count(u64::from(self.count()), "turn");
        match op {
            LOOP => format!(" ({turns}, aL {}, step {})", self.start(), self.step()),
            _ => format!(" ({turns})"),
        }
    }

    pub fn json(self) -> Value {
        json!({
            "word": Word(self.0).to_string(),
            "count": self.count(),
            "start": self.start(),
            "step": self.step(),
        })
    }
}

/// The op of a loop's slot, and what its integer word says where there is one.
pub fn op(slot: Slot) -> Option<String> {
    let name = name(slot.op())?;
    if !slot.opens() {
        return Some(name.to_string());
    }
    let number = slot.integer();
    let word = slot.word.map(|word| word.text(slot.op()));
    let word = word.unwrap_or_default();
    Some(format!("{name} by integer word {number}{word}"))
}

/// The open loops in short, the outermost first: L or R and the turns left.
pub fn short(group: &Group) -> String {
    let one = |open: &Loop| match open {
        Loop::Loop { count, .. } => format!("L{count}"),
        Loop::Rep { count } => format!("R{count}"),
    };
    let open: Vec<String> = group.loops().open.iter().map(one).collect();
    if open.is_empty() {
        "-".to_string()
    } else {
        open.join(" ")
    }
}

/// The open loops, the outermost first.
pub fn json(group: &Group) -> Value {
    let one = |open: &Loop| match open {
        Loop::Loop { count, al, step } => {
            json!({"kind": "LOOP", "count": count, "al": al, "step": step})
        }
        Loop::Rep { count } => json!({"kind": "REP", "count": count}),
    };
    group.loops().open.iter().map(one).collect()
}

/// Why an opening's integer word got 13, where it did.
pub fn not_allowed(slot: Slot, given: usize) -> Option<String> {
    let number = slot.integer();
    if !slot.opens() {
        return None;
    }
    match slot.word {
        None => {
            let given = text::count(given as u64, "integer word");
            Some(format!(
                "no integer word {number}, which the slot names: {given} given"
            ))
        }
        Some(word) if word.reserved() != 0 => Some(format!(
            "integer word {number}, {}, has reserved bits {}",
            Word(word.0),
            Word(word.reserved())
        )),
        Some(_) => None,
    }
}

/// Why the loops got 14, where they did.
pub fn at_limit(slot: Slot, group: &Group) -> Option<String> {
    let name = name(slot.op())?;
    let open = group.loops().open;
    if slot.opens() {
        let turns = slot.word?.count();
        let full = turns > 0 && open.len() == MOST;
        return full.then(|| format!("{name} with {MOST} of {MOST} loops open"));
    }
    match (slot.op(), open.last()) {
        (_, None) => Some(format!("{name} with no loop open")),
        (ENDLOOP, Some(Loop::Rep { .. })) => Some(format!("{name} where a REP is innermost")),
        (ENDREP, Some(Loop::Loop { .. })) => Some(format!("{name} where a LOOP is innermost")),
        (_, Some(Loop::Loop { count, al, step })) if *count > 1 => {
            let next = *al as i32 + step;
            let outside = !(0..=HIGHEST).contains(&next);
            outside.then(|| format!("aL {al} and step {step} come to {next}, not 0 to {HIGHEST}"))
        }
        _ => None,
    }
}
