//! Programs of flow words for the cases: with branches and subroutines in the
//! shapes that a compiler would write, with random fields, or of noise; and some
//! of a length that can't be loaded. More than half have loops.

use crate::loops;
use crate::random::Random;
use egretfold::lengths::SLOTS;

/// The most slots and the most words of a program.
const MOST_SLOTS: u32 = SLOTS as u32;
const MOST_WORDS: u32 = 2 * MOST_SLOTS;

/// The fields of a slot, named as in document 01.
#[derive(Clone, Copy, Default)]
pub struct Slot {
    pub op: u32,
    pub b_else: u32,
    pub jump_any: u32,
    pub a_op: u32,
    pub jump_func: u32,
    pub b_pop_cnt: u32,
    pub b_op0: u32,
    pub b_op1: u32,
    pub boolean: u32,
    /// The number of an opening's integer word.
    pub integer: u32,
    pub address: u32,
}

pub const DECREMENT: u32 = 1;
pub const INCREMENT: u32 = 2;
pub const POP: u32 = 1;
pub const PUSH: u32 = 2;

impl Slot {
    pub fn words(&self) -> [u32; 2] {
        let flags = self.op | self.b_else << 4 | self.jump_any << 5 | self.a_op << 6;
        let branch = self.b_pop_cnt << 16 | self.b_op0 << 24 | self.b_op1 << 26;
        [
            flags | self.jump_func << 8 | branch,
            self.boolean | self.integer << 8 | self.address << 16,
        ]
    }

    /// Does nothing: nobody wishes to jump, and so the group stays.
    pub fn plain() -> Slot {
        Slot {
            jump_any: 1,
            ..Slot::default()
        }
    }

    /// Leaves a branch: those that wait with counter 0 come back.
    pub fn endif() -> Slot {
        Slot {
            jump_any: 1,
            b_pop_cnt: 1,
            b_op0: DECREMENT,
            ..Slot::default()
        }
    }

    /// Enters a branch: on a stay, those that wish to jump wait.
    pub fn branch(random: &mut Random, address: u32) -> Slot {
        Slot {
            jump_func: jump_func(random),
            b_op0: INCREMENT,
            b_op1: random.one_of(&[0, 0, INCREMENT]),
            boolean: random.below(32),
            address,
            ..Slot::default()
        }
    }

    /// The other side of a branch, skipped where nobody is active on it.
    fn otherwise(address: u32) -> Slot {
        Slot {
            b_else: 1,
            address,
            ..Slot::default()
        }
    }

    /// Jumps with all active ones, to a subroutine or back from one.
    fn jump(a_op: u32, address: u32) -> Slot {
        Slot {
            a_op,
            jump_func: 0xFF,
            address,
            ..Slot::default()
        }
    }
}

/// One of the functions that a compiler would use, or any.
fn jump_func(random: &mut Random) -> u32 {
    match random.below(8) {
        0 => 0x00,
        1 => 0xFF,
        2 => 0xAA,
        3 => 0xCC,
        4 | 5 => 0xF0,
        6 => 0x0F,
        _ => random.below(256),
    }
}

/// The words of a program, of any kind.
pub fn any(random: &mut Random) -> Vec<u32> {
    let mut words: Vec<u32> = match random.below(16) {
        0..=8 => loops::any(random).concat(),
        _ => without_loops(random),
    };
    // Among those of a wrong length is one of no words.
    if !words.is_empty() && random.once_in(4) {
        let place = random.below(words.len() as u32) as usize;
        words[place] ^= random.bit();
    }
    words
}

fn without_loops(random: &mut Random) -> Vec<u32> {
    match random.below(16) {
        0 => wrong_length(random),
        1 => (0..2 * random.between(1, 8))
            .map(|_| random.word())
            .collect(),
        2..=6 => random_slots(random).concat(),
        7 => deep(random).concat(),
        8 | 9 => subroutines(random).concat(),
        _ => branches(random).concat(),
    }
}

/// Words that make no program: none, an odd number, or more than there are slots.
fn wrong_length(random: &mut Random) -> Vec<u32> {
    let count = match random.below(6) {
        0 => 0,
        1 => 2 * random.below(16) + 1,
        2 => match random.below(5) {
            0 => MOST_WORDS - 1,
            past => MOST_WORDS + past,
        },
        3 => random.between(MOST_WORDS, 3_000),
        // Beside them the longest that can be loaded.
        4 => MOST_WORDS,
        _ => 2 * random.between(MOST_SLOTS - 12, MOST_SLOTS + 8),
    };
    (0..count).map(|_| random.word()).collect()
}

/// Slots with any allowed fields, which mostly jump to slots of the program.
fn random_slots(random: &mut Random) -> Vec<[u32; 2]> {
    let most = random.one_of(&[2, 8, 8, 24, 24, 64, 64, MOST_SLOTS]);
    let count = if random.once_in(4) {
        most
    } else {
        random.between(1, most)
    };
    (0..count)
        .map(|_| random_slot(random, count).words())
        .collect()
}

pub fn random_slot(random: &mut Random, count: u32) -> Slot {
    Slot {
        op: 0,
        integer: 0,
        b_else: u32::from(random.once_in(4)),
        jump_any: random.below(2),
        a_op: random.one_of(&[0, 0, 0, POP, PUSH, PUSH]),
        jump_func: jump_func(random),
        b_pop_cnt: random.one_of(&[0, 1, 1, 2, 31]),
        b_op0: random.one_of(&[0, DECREMENT, INCREMENT, INCREMENT]),
        b_op1: random.one_of(&[0, 0, DECREMENT, INCREMENT]),
        boolean: random.below(32),
        address: match random.below(24) {
            0 => random.below(MOST_SLOTS),
            1 => (count + 1).min(MOST_SLOTS - 1),
            2 => count - 1,
            _ => random.between(0, count).min(MOST_SLOTS - 1),
        },
    }
}

/// Branches in branches in branches, so deep that the counters reach their limit.
fn deep(random: &mut Random) -> Vec<[u32; 2]> {
    let count = random.between(30, 40);
    let slot = |random: &mut Random| Slot {
        jump_func: random.one_of(&[0x00, 0xF0, 0xF0]),
        jump_any: random.one_of(&[0, 1]),
        b_op0: INCREMENT,
        b_op1: INCREMENT,
        address: random.between(0, 2),
        ..Slot::default()
    };
    (0..count).map(|_| slot(random).words()).collect()
}

/// So many branches in one another, with no loops and no subroutines: in partial
/// mode six may be. Each is entered with those that don't leave, where some stay.
pub fn nest(random: &mut Random, depth: u32) -> Vec<u32> {
    let mut slots = Vec::new();
    let level = |random: &mut Random| Slot {
        jump_func: random.one_of(&[0xF0, 0xF0, 0x0F, 0xCC]),
        b_op0: INCREMENT,
        b_op1: random.one_of(&[0, INCREMENT]),
        boolean: random.below(32),
        ..Slot::default()
    };
    for _ in 0..depth {
        slots.push(level(random));
        if random.once_in(4) {
            slots.push(Slot::plain());
        }
    }
    for _ in 0..depth {
        if random.once_in(4) {
            slots.push(Slot {
                b_else: 1,
                jump_any: 1,
                ..Slot::default()
            });
        }
        slots.push(Slot::endif());
    }
    // Where all wish to jump they go to the next slot, so that the nest goes on.
    for (number, slot) in (1..).zip(&mut slots) {
        slot.address = number;
    }
    slots.iter().flat_map(Slot::words).collect()
}

/// A main part that calls, and subroutines that call one another and return:
/// deeper than the return stack now and then.
fn subroutines(random: &mut Random) -> Vec<[u32; 2]> {
    let routines = random.between(1, 6);
    // The main part is a call, and a jump to the end; every routine is a call or
    // a branch, and a return.
    let end = 2 + 2 * routines;
    let start_of = |routine: u32| 2 + 2 * routine;
    let mut slots = vec![Slot::jump(PUSH, start_of(0)), Slot::jump(0, end)];
    for routine in 0..routines {
        let next = start_of(random.between(routine, routines) % routines);
        let mut call = Slot::jump(PUSH, next);
        if random.coin() {
            call.jump_func = jump_func(random);
        }
        slots.push(call);
        slots.push(Slot::jump(POP, 0));
    }
    slots.iter().map(Slot::words).collect()
}

/// Branches, some with another side, some in one another, one after another.
fn branches(random: &mut Random) -> Vec<[u32; 2]> {
    let mut slots = Vec::new();
    for _ in 0..random.between(1, 4) {
        let depth = random.between(1, 5);
        branch(random, &mut slots, depth);
    }
    slots.iter().map(Slot::words).collect()
}

fn branch(random: &mut Random, slots: &mut Vec<Slot>, depth: u32) {
    let enter = slots.len();
    slots.push(Slot::branch(random, 0));
    body(random, slots, depth);
    // Where all wish to jump, they jump to the other side, or behind the branch.
    slots[enter].address = slots.len() as u32;
    if random.coin() {
        let other_side = slots.len();
        slots.push(Slot::otherwise(0));
        body(random, slots, depth);
        slots[other_side].address = slots.len() as u32;
    }
    slots.push(Slot::endif());
}

/// What stands inside a branch: a plain slot, nothing, or another branch.
fn body(random: &mut Random, slots: &mut Vec<Slot>, depth: u32) {
    if depth > 1 && !random.once_in(3) {
        branch(random, slots, depth - 1);
    } else if random.coin() {
        slots.push(Slot::plain());
    }
}
