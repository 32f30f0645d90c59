//! One branch counter a processor, the way that comes to mind first: work on the counters loops over the processors. The
//! loops go over all 32 counters, whatever the group's size, so that the compiler can make vectors of them; that is faster
//! even for a group of 4 in a run.

use super::group::{self, Counters};
use super::refusal::{Answer, AT_LIMIT};

/// The greatest branch counter, and that of partial mode.
const GREATEST: u8 = 31;
const GREATEST_PARTIAL: u8 = 5;

pub type Group = group::Group<[u8; 32]>;

impl Counters for [u8; 32] {
    const ZEROS: [u8; 32] = [0; 32];

    #[inline(always)]
    fn at_zero(&self) -> u32 {
        let counters = self.iter().enumerate();
        counters.fold(0, |mask, (i, &counter)| mask | u32::from(counter == 0) << i)
    }

    #[inline(always)]
    fn lower(&mut self, processors: u32, count: u32) -> u32 {
        let count = count as u8;
        let mut below = 0;
        for (i, counter) in self.iter_mut().enumerate() {
            below |= u32::from(*counter < count) << i;
            *counter = counter.saturating_sub(count);
        }
        below & processors
    }

    #[inline(always)]
    fn raise(&mut self, processors: u32) -> Answer<()> {
        let mut all = 0;
        for (i, counter) in self.iter_mut().enumerate() {
            *counter += (processors >> i & 1) as u8;
            all |= *counter;
        }
        if all > GREATEST {
            return Err(AT_LIMIT);
        }
        Ok(())
    }

    #[inline(always)]
    fn at_partial(&self) -> bool {
        let over = |all, &counter: &u8| all | (counter >= GREATEST_PARTIAL);
        self.iter().fold(false, over)
    }

    fn counter(&self, processor: u32) -> u32 {
        u32::from(self[processor as usize])
    }
}
