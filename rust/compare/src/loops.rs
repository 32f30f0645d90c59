//! Programs with loops, and the integer words that are lent with a program: loops
//! in one another around branches, calls and plain slots, left at their close or by
//! a jump; openings in a row; and slots with any allowed fields.

use crate::programs::{self, Slot, DECREMENT, INCREMENT, POP, PUSH};
use crate::random::Random;

pub const LOOP: u32 = 1;
pub const ENDLOOP: u32 = 2;
pub const REP: u32 = 3;
pub const ENDREP: u32 = 4;

/// How many integer numbers a slot can name.
const NUMBERS: u32 = 32;

/// The numbers that most openings name, so that a short list has most of them.
const USUAL_NUMBERS: u32 = 6;

/// Integer words to be lent: mostly those that a compiler would write, of any
/// number from none to more than a slot can name.
pub fn integers(random: &mut Random) -> Vec<u32> {
    let count = match random.below(16) {
        0 => 0,
        1 | 2 => random.between(1, USUAL_NUMBERS),
        3 => random.between(NUMBERS, 2 * NUMBERS),
        _ => NUMBERS,
    };
    let tame = !random.once_in(4);
    (0..count).map(|_| integer(random, tame)).collect()
}

/// An integer word; a tame one is allowed, and its aL mostly stays in range.
fn integer(random: &mut Random, tame: bool) -> u32 {
    if tame {
        let count = random.one_of(&[0, 1, 1, 2, 2, 2, 3, 4, 6]);
        let step = random.one_of(&[0, 1, 2, 0xFF, 0xFE, 20, 0xE0]);
        return count | random.between(60, 190) << 8 | step << 16;
    }
    let count = random.one_of(&[0, 1, 2, 2, 3, 255]);
    let any = random.below(256);
    let start = random.one_of(&[0, 1, 127, 128, 254, 255, any]);
    let any = random.below(256);
    let step = random.one_of(&[0, 1, 0x7F, 0x80, 0xFF, any]);
    let reserved = match random.below(8) {
        0 => 1 << random.between(24, 31),
        _ => 0,
    };
    count | start << 8 | step << 16 | reserved
}

/// The slots of a program with loops.
pub fn any(random: &mut Random) -> Vec<[u32; 2]> {
    let slots = match random.below(16) {
        0 | 1 => random_slots(random),
        2 | 3 => in_a_row(random),
        _ => nested(random),
    };
    slots.iter().map(Slot::words).collect()
}

/// Slots of any ops with any allowed fields, which mostly jump inside the program.
fn random_slots(random: &mut Random) -> Vec<Slot> {
    let count = random.between(1, 24);
    let one = |random: &mut Random| {
        let op = random.one_of(&[0, 0, LOOP, ENDLOOP, REP, ENDREP]);
        Slot {
            op,
            integer: number(random, op),
            ..programs::random_slot(random, count)
        }
    };
    (0..count).map(|_| one(random)).collect()
}

/// Openings one after the other, up to more than can be open, then closes, which
/// fit them or don't.
fn in_a_row(random: &mut Random) -> Vec<Slot> {
    let openings = random.between(3, 6);
    let mut slots: Vec<Slot> = Vec::new();
    for _ in 0..openings {
        let op = random.one_of(&[LOOP, REP]);
        slots.push(opening(random, op, openings));
    }
    for place in (0..openings).rev() {
        let fits = close_of(slots[place as usize].op);
        let op = match random.below(8) {
            0 => random.one_of(&[ENDLOOP, ENDREP]),
            _ => fits,
        };
        let address = random.between(place + 1, slots.len() as u32);
        slots.push(close(random, op, address));
    }
    slots
}

/// Loops in one another, one after another.
fn nested(random: &mut Random) -> Vec<Slot> {
    let mut slots = Vec::new();
    for _ in 0..random.between(1, 3) {
        let depth = random.one_of(&[1, 2, 2, 3, 3, 4, 5]);
        around(random, &mut slots, depth);
    }
    slots
}

/// A loop of so many in one another: its opening jumps behind its close, which jumps
/// back behind the opening. Jumps inside go to the close, or past it and so leave the
/// loop open.
fn around(random: &mut Random, slots: &mut Vec<Slot>, depth: u32) {
    let op = random.one_of(&[LOOP, REP]);
    let first = slots.len();
    slots.push(opening(random, op, 0));
    let mut jumps = Vec::new();
    for _ in 0..random.between(0, 2) {
        inside(random, slots, &mut jumps);
    }
    if depth > 1 {
        around(random, slots, depth - 1);
    }
    if random.coin() {
        inside(random, slots, &mut jumps);
    }
    let last = slots.len() as u32;
    let op = match random.below(24) {
        0 => ENDLOOP + ENDREP - close_of(op),
        _ => close_of(op),
    };
    slots.push(close(random, op, first as u32 + 1));
    slots[first].address = last + 1;
    for jump in jumps {
        slots[jump].address = random.one_of(&[last, last, last + 1]);
    }
}

/// What stands inside a loop: a plain slot, a branch of one side, or a jump out of
/// the loop or to its close, whose address is set later.
fn inside(random: &mut Random, slots: &mut Vec<Slot>, jumps: &mut Vec<usize>) {
    match random.below(4) {
        0 => {
            let behind = slots.len() as u32 + 2;
            slots.push(Slot::branch(random, behind));
            slots.push(Slot::plain());
            slots.push(Slot::endif());
        }
        1 => {
            jumps.push(slots.len());
            let jump_func = random.one_of(&[0xF0, 0xCC, 0x80, 0x00]);
            slots.push(Slot {
                jump_func,
                ..Slot::plain()
            });
        }
        _ => slots.push(Slot::plain()),
    }
}

fn close_of(op: u32) -> u32 {
    op + 1
}

fn opening(random: &mut Random, op: u32, address: u32) -> Slot {
    Slot {
        op,
        integer: number(random, op),
        address,
        ..beside(random)
    }
}

fn close(random: &mut Random, op: u32, address: u32) -> Slot {
    Slot {
        op,
        address,
        ..beside(random)
    }
}

/// The integer number of an opening; of the other ops 0, which they must have.
fn number(random: &mut Random, op: u32) -> u32 {
    match op {
        LOOP | REP if random.once_in(16) => random.below(NUMBERS),
        LOOP | REP => random.below(USUAL_NUMBERS),
        _ => 0,
    }
}

/// The other fields of a loop's slot: mostly nothing but wishes, which the loop
/// overrides; now and then branch or return work of its own.
fn beside(random: &mut Random) -> Slot {
    let wishes = Slot {
        jump_any: random.below(2),
        jump_func: random.one_of(&[0x00, 0xFF, 0xF0]),
        ..Slot::default()
    };
    match random.below(16) {
        0 => Slot {
            b_op0: random.one_of(&[0, DECREMENT, INCREMENT]),
            b_op1: random.one_of(&[0, DECREMENT, INCREMENT]),
            b_pop_cnt: random.one_of(&[0, 1, 1, 31]),
            ..wishes
        },
        1 => Slot {
            b_else: 1,
            ..wishes
        },
        2 => Slot {
            a_op: random.one_of(&[POP, PUSH, PUSH]),
            ..wishes
        },
        _ => wishes,
    }
}
