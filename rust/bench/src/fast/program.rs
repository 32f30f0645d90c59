//! Programs of flow words, and what both kinds of group share: a slot's fields, the decision, the place in the program.

use super::refusal::{Answer, AT_LIMIT, FLOW_WORD, PAST_END};

/// The most slots that run.
const SLOTS: usize = 512;
/// The plain slot, of which a store is made before a program is loaded.
const PLAIN: Slot = Slot {
    first: 0x20,
    second: 0,
};
/// Named bits of the two words besides the op, and those of an opening's integer number.
const FIRST_BITS: u32 = 0x0F1F_FFF0;
const SECOND_BITS: u32 = 0x01FF_001F;
const INTEGER_BITS: u32 = 0x0000_1F00;
/// The last op.
const LAST_OP: u32 = 4;
/// The lower bits of A_OP, B_OP0 and B_OP1: code 3 has both.
const CODE_BITS: u32 = 0x0500_0040;

/// Codes of B_OP0 and B_OP1, and of A_OP.
pub(super) const DECREMENT: u32 = 1;
pub(super) const INCREMENT: u32 = 2;
const POP: u32 = 1;
const PUSH: u32 = 2;

/// What a step answers besides the group's new state.
#[derive(Clone, Copy, Debug, PartialEq, Eq)]
pub struct Stepped {
    pub jumped: bool,
    pub position: u32,
}

/// What a run answers besides the group's new state.
#[derive(Clone, Copy, Debug, PartialEq, Eq)]
pub struct Report {
    pub steps: u64,
    pub first: u32,
    pub active: u32,
}

impl Report {
    #[inline(always)]
    pub(super) fn new(steps: u64, active: u32) -> Report {
        Report {
            steps,
            first: active.trailing_zeros(),
            active: active.count_ones(),
        }
    }
}

#[derive(Clone, Copy)]
pub(super) struct Slot {
    first: u32,
    second: u32,
}

#[derive(Clone)]
pub struct Program {
    slots: [Slot; SLOTS],
    running: u32,
}

impl Program {
    /// Loads a program, two words a slot. 15.
    pub fn load(words: &[u32]) -> Answer<Program> {
        let running = words.len() / 2;
        if running == 0 || running > SLOTS || words.len() % 2 != 0 {
            return Err(PAST_END);
        }
        let mut slots = [PLAIN; SLOTS];
        for (slot, pair) in slots.iter_mut().zip(words.chunks_exact(2)) {
            *slot = Slot {
                first: pair[0],
                second: pair[1],
            };
        }
        Ok(Program {
            slots,
            running: running as u32,
        })
    }

    #[inline(always)]
    pub(super) fn has_ended(&self, position: u32) -> bool {
        position >= self.running
    }

    /// The slot at a position before the end.
    #[inline(always)]
    pub(super) fn slot(&self, position: u32) -> Slot {
        // a program runs at most 512 slots, so the cut changes no position before its end
        self.slots[position as usize % SLOTS]
    }
}

impl Slot {
    #[inline(always)]
    pub fn op(&self) -> u32 {
        self.first & 15
    }

    /// Of ops 1 to 4 the odd ones, LOOP and REP.
    #[inline(always)]
    pub fn opens(&self) -> bool {
        self.first & 1 == 1
    }

    /// The number of an opening's integer word.
    #[inline(always)]
    pub fn integer(&self) -> usize {
        (self.second >> 8 & 31) as usize
    }

    /// Judges what partial mode forbids, an op and an A_OP other than 0. 13.
    #[inline(always)]
    pub fn judge_partial(&self) -> Answer<()> {
        if self.first & 0xCF != 0 {
            return Err(FLOW_WORD);
        }
        Ok(())
    }

    /// Judges a slot of op 0. 13.
    #[inline(always)]
    pub fn judge(&self) -> Answer<()> {
        self.judge_bits(FIRST_BITS, SECOND_BITS)
    }

    /// Judges a slot of another op. 13.
    #[inline(always)]
    pub fn judge_loop(&self) -> Answer<()> {
        if self.op() > LAST_OP {
            return Err(FLOW_WORD);
        }
        let integer = if self.opens() { INTEGER_BITS } else { 0 };
        self.judge_bits(FIRST_BITS | 15, SECOND_BITS | integer)
    }

    /// Judges the codes, and the bits besides the named ones.
    #[inline(always)]
    fn judge_bits(&self, first: u32, second: u32) -> Answer<()> {
        let double = self.first & self.first >> 1 & CODE_BITS;
        if self.first & !first | self.second & !second | double != 0 {
            return Err(FLOW_WORD);
        }
        Ok(())
    }

    #[inline(always)]
    pub fn inverts(&self) -> bool {
        self.first & 0x10 != 0
    }

    /// Which processors want to jump, one bit each.
    #[inline(always)]
    pub fn wishes(&self, alu: u32, predicate: u32, booleans: u32) -> u32 {
        let boolean = booleans >> (self.second & 31) & 1;
        let function = self.first >> 8 >> boolean;
        let spread = |bit: u32| 0u32.wrapping_sub(function >> bit & 1);
        let without = spread(0) & !predicate | spread(2) & predicate;
        let with = spread(4) & !predicate | spread(6) & predicate;
        without & !alu | with & alu
    }

    /// Whether a group with these active processors and wishes jumps.
    #[inline(always)]
    pub fn jumps(&self, active: u32, wishes: u32) -> bool {
        let any = active & wishes != 0;
        let all = active & !wishes == 0;
        if self.first & 0x20 != 0 {
            any
        } else {
            all
        }
    }

    /// B_OP1 on a jump, B_OP0 on a stay.
    #[inline(always)]
    pub fn counter_code(&self, jumps: bool) -> u32 {
        self.first >> (if jumps { 26 } else { 24 }) & 3
    }

    #[inline(always)]
    pub fn pop_count(&self) -> u32 {
        self.first >> 16 & 31
    }
}

/// Where a group stands: its position and its stored returns.
#[derive(Clone, Copy, Debug, Default, PartialEq, Eq)]
pub(super) struct Place {
    pub position: u32,
    returns: [u32; 4],
    depth: usize,
}

impl Place {
    /// Goes on from a slot. 14 and 15 leave the place as it was.
    #[inline(always)]
    pub fn advance(&mut self, slot: Slot, jumps: bool, program: &Program) -> Answer<()> {
        let after = self.position + 1;
        let code = if jumps { slot.first >> 6 & 3 } else { 0 };
        let mut target = if jumps { slot.second >> 16 } else { after };
        let mut depth = self.depth;
        if code != 0 {
            // a pop of none wraps, and so is past the store like a push of one too many
            depth = if code == PUSH {
                depth
            } else {
                depth.wrapping_sub(1)
            };
            let cell = self.returns.get(depth).ok_or(AT_LIMIT)?;
            if code == POP {
                target = *cell;
            }
        }
        if target > program.running {
            return Err(PAST_END);
        }
        if code == PUSH {
            self.returns[depth % 4] = after;
            depth += 1;
        }
        self.depth = depth;
        self.position = target;
        Ok(())
    }

    /// The stored returns, oldest first.
    pub fn returns(&self) -> &[u32] {
        &self.returns[..self.depth]
    }
}
