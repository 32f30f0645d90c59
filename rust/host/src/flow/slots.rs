//! Flow words in words: a slot's fields by document 01's names, and why a step was
//! refused.

use crate::common::kinds::{SlotNumber, Word};
use crate::flow::loops::{self, Integer, ENDREP, LOOP, REP};
use egretfold::{Group, Mode, Program};

/// The bits of the two words that document 01 names, and in the second those that
/// request 4 names for openings.
const NAMED: [u32; 2] = [0x0F1F_FFFF, 0x01FF_001F];
const INTEGER: u32 = 0x1F00;

/// The longest stack of returns, and the highest branch counter of each mode.
const RETURNS: usize = 4;
const COUNTER: u32 = 31;
const PARTIAL_COUNTER: u32 = 5;

#[derive(Clone, Copy)]
pub struct Slot {
    pub first: u32,
    pub second: u32,
    /// The integer word that an opening names, where the list has it.
    pub word: Option<Integer>,
}

const INCREMENT: u32 = 2;
const POP: u32 = 1;
const PUSH: u32 = 2;

/// The fields of a slot, each with its name in the paper and its value.
impl Slot {
    pub fn of(program: &Program, number: SlotNumber, integers: &[u32]) -> Slot {
        let [first, second] = program.slot(number.0 as usize);
        let slot = Slot {
            first,
            second,
            word: None,
        };
        let word = integers.get(slot.integer() as usize).copied();
        Slot {
            word: word.filter(|_| slot.opens()).map(Integer),
            ..slot
        }
    }

    fn bits(word: u32, low: u32, count: u32) -> u32 {
        word >> low & ((1 << count) - 1)
    }

    pub fn op(self) -> u32 {
        Slot::bits(self.first, 0, 4)
    }

    pub fn b_else(self) -> u32 {
        Slot::bits(self.first, 4, 1)
    }

    pub fn jump_any(self) -> u32 {
        Slot::bits(self.first, 5, 1)
    }

    pub fn a_op(self) -> u32 {
        Slot::bits(self.first, 6, 2)
    }

    pub fn jump_func(self) -> u32 {
        Slot::bits(self.first, 8, 8)
    }

    pub fn b_pop_cnt(self) -> u32 {
        Slot::bits(self.first, 16, 5)
    }

    /// On a stay.
    pub fn b_op0(self) -> u32 {
        Slot::bits(self.first, 24, 2)
    }

    /// On a jump.
    pub fn b_op1(self) -> u32 {
        Slot::bits(self.first, 26, 2)
    }

    pub fn boolean(self) -> u32 {
        Slot::bits(self.second, 0, 5)
    }

    pub fn integer(self) -> u32 {
        Slot::bits(self.second, 8, 5)
    }

    pub fn address(self) -> u32 {
        Slot::bits(self.second, 16, 9)
    }

    /// Whether it opens a loop, and so names an integer word.
    pub fn opens(self) -> bool {
        self.op() == LOOP || self.op() == REP
    }

    /// The bits of both words that have no name.
    fn reserved(self) -> [u32; 2] {
        let integer = if self.opens() { INTEGER } else { 0 };
        [self.first & !NAMED[0], self.second & !(NAMED[1] | integer)]
    }

    /// The fields in words; those that are 0 and say nothing then are left out.
    pub fn words(self) -> String {
        let mut parts: Vec<String> = loops::op(self).into_iter().collect();
        parts.extend([
            format!("JUMP_FUNC {:02X}", self.jump_func()),
            format!("JUMP_ANY {}", self.jump_any()),
            format!("address {}", self.address()),
        ]);
        let mut put = |name: &str, value: u32, text: String| {
            if value != 0 {
                parts.push(format!("{name}{text}"));
            }
        };
        let unknown = if self.op() > ENDREP { self.op() } else { 0 };
        put("op ", unknown, unknown.to_string());
        put("B_ELSE", self.b_else(), String::new());
        put(
            "A_OP ",
            self.a_op(),
            code(self.a_op(), ["none", "pop", "push"]),
        );
        put("B_POP_CNT ", self.b_pop_cnt(), self.b_pop_cnt().to_string());
        put(
            "B_OP0 ",
            self.b_op0(),
            code(self.b_op0(), ["none", "decrement", "increment"]),
        );
        put(
            "B_OP1 ",
            self.b_op1(),
            code(self.b_op1(), ["none", "decrement", "increment"]),
        );
        put("boolean ", self.boolean(), self.boolean().to_string());
        for bits in self.reserved() {
            put("reserved bits ", bits, Word(bits).to_string());
        }
        parts.join(", ")
    }
}

fn code(code: u32, names: [&str; 3]) -> String {
    match names.get(code as usize) {
        Some(name) => name.to_string(),
        None => format!("code {code}"),
    }
}

/// Why a program that has ended refuses.
pub fn ended(program: &Program, group: &Group) -> String {
    let (position, slots) = (group.position(), program.slots());
    format!("the program has already ended: position {position} of {slots} slots")
}

/// Why the group's next step was refused.
pub fn cause(
    number: impl Into<u32>,
    program: &Program,
    group: &Group,
    integers: &[u32],
) -> Option<String> {
    let number = number.into();
    let (position, slots) = (group.position(), program.slots());
    if number == 16 {
        return Some(ended(program, group));
    }
    if position >= slots {
        return None;
    }
    let slot = Slot::of(program, SlotNumber(position), integers);
    match number {
        13 => in_full_mode_only(group.mode(), slot)
            .or_else(|| not_allowed(slot))
            .or_else(|| loops::not_allowed(slot, integers.len())),
        14 => loops::at_limit(slot, group).or_else(|| at_limit(slot, group)),
        15 => {
            let to = match slot.a_op() {
                POP => group.returns().last().copied()?,
                _ => slot.address(),
            };
            Some(format!(
                "a jump past the program's end: to slot {to}, the end is {slots}"
            ))
        }
        _ => None,
    }
}

/// What of a slot's first word the mode forbids, if anything.
pub fn in_full_mode_only(mode: Mode, slot: Slot) -> Option<String> {
    match mode {
        Mode::Full => None,
        Mode::Partial if slot.op() != 0 => {
            let name = loops::name(slot.op()).map(|name| format!(" {name}"));
            let name = name.unwrap_or_default();
            Some(format!("partial mode has no op {}{name}", slot.op()))
        }
        Mode::Partial if slot.a_op() != 0 => Some(format!(
            "partial mode has no A_OP {}",
            code(slot.a_op(), ["none", "pop", "push"])
        )),
        Mode::Partial => None,
    }
}

fn not_allowed(slot: Slot) -> Option<String> {
    let [first, second] = slot.reserved();
    let codes = [
        ("A_OP", slot.a_op()),
        ("B_OP0", slot.b_op0()),
        ("B_OP1", slot.b_op1()),
    ];
    let large = codes.iter().find(|(_, code)| *code > 2);
    if slot.op() > ENDREP {
        Some(format!("op {} is over {ENDREP}", slot.op()))
    } else if let Some((name, code)) = large {
        Some(format!("{name} has code {code}, over 2"))
    } else if first != 0 {
        Some(format!(
            "first word {} has reserved bits {}",
            Word(slot.first),
            Word(first)
        ))
    } else if second != 0 {
        Some(format!(
            "second word {} has reserved bits {}",
            Word(slot.second),
            Word(second)
        ))
    } else {
        None
    }
}

/// What stands at its limit. The decision isn't known of a refused step, so both
/// limits are named where both are reached.
fn at_limit(slot: Slot, group: &Group) -> Option<String> {
    let mut causes = Vec::new();
    let (most, in_mode) = match group.mode() {
        Mode::Full => (COUNTER, ""),
        Mode::Partial => (PARTIAL_COUNTER, " in partial mode"),
    };
    let increments = slot.b_op0() == INCREMENT || slot.b_op1() == INCREMENT;
    let idle = |processor: &u32| (group.mask() & !group.active()) >> processor & 1 == 1;
    let full = (0..32)
        .filter(idle)
        .find(|processor| group.counter(*processor) == most);
    if let (true, Some(processor)) = (increments, full) {
        causes.push(format!(
            "processor {processor}'s branch counter {most} can't gain 1{in_mode}"
        ));
    }
    let stored = group.returns().len();
    match slot.a_op() {
        PUSH if stored == RETURNS => {
            causes.push(format!("push with {stored} of {RETURNS} returns stored"))
        }
        POP if stored == 0 => causes.push("pop with no return stored".to_string()),
        _ => {}
    }
    (!causes.is_empty()).then(|| causes.join(", or "))
}
