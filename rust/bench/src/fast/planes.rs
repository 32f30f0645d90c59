//! Branch counters in five bit planes: bit i of plane k is bit k of processor i's counter. The work is on all processors at
//! once, without a loop over them. Only the slot's own codes are branched on: doing all three kinds of counter work and
//! choosing by masks was slower, since each step waits for the one before.

use super::group::{self, Counters};
use super::refusal::{Answer, AT_LIMIT};

#[derive(Clone, Copy, Debug, PartialEq, Eq)]
pub struct Planes([u32; 5]);

pub type Group = group::Group<Planes>;

impl Counters for Planes {
    const ZEROS: Planes = Planes([0; 5]);

    #[inline(always)]
    fn at_zero(&self) -> u32 {
        !self.0.iter().fold(0, |all, plane| all | plane)
    }

    #[inline(always)]
    fn lower(&mut self, processors: u32, count: u32) -> u32 {
        let mut borrow = 0;
        for (bit, plane) in self.0.iter_mut().enumerate() {
            let taken = 0u32.wrapping_sub(count >> bit & 1);
            let difference = *plane ^ taken;
            let next = !*plane & taken | !difference & borrow;
            *plane = difference ^ borrow;
            borrow = next;
        }
        for plane in &mut self.0 {
            *plane &= processors & !borrow;
        }
        borrow & processors
    }

    #[inline(always)]
    fn raise(&mut self, processors: u32) -> Answer<()> {
        let mut carry = processors;
        for plane in &mut self.0 {
            let next = *plane & carry;
            *plane ^= carry;
            carry = next;
        }
        if carry != 0 {
            return Err(AT_LIMIT);
        }
        Ok(())
    }

    #[inline(always)]
    fn at_partial(&self) -> bool {
        let [p0, p1, p2, p3, p4] = self.0;
        p3 | p4 | p2 & (p0 | p1) != 0
    }

    fn counter(&self, processor: u32) -> u32 {
        let bits = self.0.iter().rev();
        bits.fold(0, |counter, plane| counter << 1 | plane >> processor & 1)
    }
}
