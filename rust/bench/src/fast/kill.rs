//! The kill test on a group's registers.

use super::group::{Counters, Group};
use super::program::Program;
use super::refusal::{Answer, ENDED, FLOW_WORD, ROOM};

/// The channels of a register.
const CHANNELS: usize = 4;

/// The registers that have a channel under the mask less than zero. All channels are asked: stopping at the first was much slower,
/// and of seven ways tried, building the mask from the last register down was the quickest.
#[inline(always)]
fn kills(registers: &[f32], mask: u32) -> u32 {
    registers
        .chunks_exact(CHANNELS)
        .rev()
        .fold(0, |found, register| {
            let under = |c: usize| (mask >> c & 1 != 0) & (register[c] < 0.0);
            found * 2 + u32::from(under(0) | under(1) | under(2) | under(3))
        })
}

impl<C: Counters> Group<C> {
    /// Kills the active processors whose registers kill, and says who they are. 16, 13 or 11; a refusal changes nothing.
    #[inline(never)]
    pub fn kill(&mut self, program: &Program, registers: &[f32], mask: u32) -> Answer<u32> {
        if program.has_ended(self.place.position) {
            return Err(ENDED);
        }
        if mask > 15 {
            return Err(FLOW_WORD);
        }
        let started = (self.members | self.killed).count_ones() as usize;
        if registers.len() != CHANNELS * started {
            return Err(ROOM);
        }
        let killed = self.active & kills(registers, mask);
        self.members &= !killed;
        self.active &= !killed;
        self.killed |= killed;
        Ok(killed)
    }

    pub fn killed(&self) -> u32 {
        self.killed
    }
}
