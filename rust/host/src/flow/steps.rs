//! The rows of `flow`: a program's slots, and the steps of a group.

use crate::common::failure::Outcome;
use crate::common::kinds::{SlotNumber, Word};
use crate::common::schema;
use crate::flow::loops;
use crate::flow::slots::{self, Slot};
use egretfold::{Group, Mode, Program, Stepped};
use serde_json::{json, Value};
use std::io::Write;

/// The program's slots, a row each; of each that the mode forbids it is said why.
pub fn list(
    program: &Program,
    integers: &[u32],
    mode: Mode,
    as_json: bool,
    out: &mut dyn Write,
) -> Outcome {
    if !as_json {
        writeln!(out, "slot  first     second    fields")?;
    }
    for number in (0..program.slots()).map(SlotNumber) {
        let slot = Slot::of(program, number, integers);
        let (first, second) = (Word(slot.first), Word(slot.second));
        let forbidden = slots::in_full_mode_only(mode, slot);
        if as_json {
            let mut value = slot_json(number, slot);
            if let Some(cause) = forbidden {
                value["forbidden"] = json!(cause);
            }
            schema::line(out, value)?;
        } else {
            let cause = forbidden.map_or(String::new(), |cause| format!("; {cause}"));
            let fields = slot.words();
            writeln!(out, "{number:>4}  {first}  {second}  {fields}{cause}")?;
        }
    }
    Ok(())
}

/// The width of the column of counters.
fn width(group: &Group) -> usize {
    (group.started() as usize).max("counters".len())
}

/// Whether a program has loops; the rows of one that has none don't tell of them.
pub fn has_loops(program: &Program) -> bool {
    let mut slots = (0..program.slots()).map(SlotNumber);
    slots.any(|number| loops::name(Slot::of(program, number, &[]).op()).is_some())
}

/// What stands above the steps' rows.
pub fn head(group: &Group, looping: bool, killing: bool) -> Vec<String> {
    let counters = format!("{:<w$}", "counters", w = width(group));
    let of_kills = if killing { " x killed," } else { "" };
    let mut lines = vec![format!(
        "counters: a character a processor, from 0 on: . active,{of_kills} else its branch counter, \
         0 to 9, then a to v"
    )];
    if looping {
        let told = "loops: those open, outermost first: L a LOOP, R a REP, and its turns left; \
                    aL is the innermost LOOP's";
        lines.push(told.to_string());
    }
    let of_loops = if looping { LOOPS_HEAD } else { "" };
    lines.push(format!(
        "step  slot  alu       predicate  decision  next  active    {counters}  returns  {of_loops}fields"
    ));
    lines
}

/// The columns of loops and aL, 11 and 3 characters wide.
const LOOPS_HEAD: &str = "loops         aL  ";

/// A step that was made.
pub struct Row<'a> {
    pub step: usize,
    pub number: SlotNumber,
    pub slot: Slot,
    pub alu: u32,
    pub predicate: u32,
    pub stepped: Stepped,
    /// As the step left it.
    pub group: &'a Group,
    /// Whether the row tells of loops.
    pub looping: bool,
}

impl Row<'_> {
    pub fn text(&self) -> String {
        let (alu, predicate) = (Word(self.alu), Word(self.predicate));
        let masks = format!("{alu}  {predicate} ");
        let next = self.stepped.position;
        let decision = format!("{:<8}  {next:>4}", self.decision());
        let active = Word(self.group.active());
        let counters = format!("{:<w$}", self.counters(), w = width(self.group));
        let state = format!("{active}  {counters}  {:<7}", self.returns());
        let (step, number, fields) = (self.step, self.number, self.slot.words());
        let of_loops = self.loops();
        format!("{step:>4}  {number:>4}  {masks}  {decision}  {state}  {of_loops}{fields}")
    }

    /// The open loops and aL, where the row tells of them.
    fn loops(&self) -> String {
        if self.looping {
            format!(
                "{:<11}  {:>3}  ",
                loops::short(self.group),
                self.group.loops().al
            )
        } else {
            String::new()
        }
    }

    fn decision(&self) -> &'static str {
        if self.stepped.jumped {
            "jump"
        } else {
            "stay"
        }
    }

    fn returns(&self) -> String {
        let returns: Vec<String> = self.group.returns().iter().map(u32::to_string).collect();
        if returns.is_empty() {
            "-".to_string()
        } else {
            returns.join(" ")
        }
    }

    /// A character a processor: . for an active one, x for a killed one, else its
    /// counter.
    fn counters(&self) -> String {
        let has = |mask: u32, p: u32| mask >> p & 1 == 1;
        let one = |p| match self.group.counter(p) {
            _ if has(self.group.active(), p) => '.',
            _ if has(self.group.killed(), p) => 'x',
            counter => char::from_digit(counter, 32).unwrap_or('?'),
        };
        (0..self.group.started()).map(one).collect()
    }

    pub fn json(&self) -> Value {
        let idle = |p: &u32| (self.group.mask() & !self.group.active()) >> p & 1 == 1;
        let counter = |p| json!({"processor": p, "counter": self.group.counter(p)});
        let counters: Vec<Value> = (0..32).filter(idle).map(counter).collect();
        let mut value = json!({ "step": self.step });
        value["alu"] = json!(Word(self.alu).to_string());
        value["predicate"] = json!(Word(self.predicate).to_string());
        value["decision"] = json!(self.decision());
        value["next"] = json!(self.stepped.position);
        value["active"] = json!(Word(self.group.active()).to_string());
        value["counters"] = json!(counters);
        value["killed"] = json!(Word(self.group.killed()).to_string());
        value["returns"] = json!(self.group.returns());
        value["loops"] = loops::json(self.group);
        value["al"] = json!(self.group.loops().al);
        value["at"] = slot_json(self.number, self.slot);
        value
    }
}

fn slot_json(number: SlotNumber, slot: Slot) -> Value {
    let mut value = json!({
        "slot": number.0,
        "first": Word(slot.first).to_string(),
        "second": Word(slot.second).to_string(),
        "op": slot.op(),
        "b_else": slot.b_else(),
        "jump_any": slot.jump_any(),
        "a_op": slot.a_op(),
        "jump_func": format!("{:02X}", slot.jump_func()),
        "b_pop_cnt": slot.b_pop_cnt(),
        "b_op0": slot.b_op0(),
        "b_op1": slot.b_op1(),
        "boolean": slot.boolean(),
        "integer": slot.integer(),
        "address": slot.address(),
    });
    if let Some(word) = slot.word {
        value["integer_word"] = word.json();
    }
    value
}
