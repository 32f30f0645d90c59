//! Open loops: at most four, each with its turns left, a LOOP with its aL and what each further turn adds to it.

use super::program::Slot;
use super::refusal::{Answer, AT_LIMIT, FLOW_WORD};

/// The most open loops.
const MOST: usize = 4;

#[derive(Clone, Copy, Debug, Default, PartialEq, Eq)]
struct Open {
    looping: bool,
    count: u8,
    al: u8,
    step: i8,
}

/// The open loops, the outermost first.
#[derive(Clone, Copy, Debug, Default, PartialEq, Eq)]
pub(super) struct Loops {
    open: [Open; MOST],
    depth: usize,
}

impl Loops {
    /// What a slot of ops 1 to 4 makes of the loops: whether the group jumps. 13 and 14 leave them as they were.
    #[inline(always)]
    pub fn turn(&mut self, slot: Slot, integers: &[u32]) -> Answer<bool> {
        // The odd ops open, and LOOP and ENDLOOP are the two below 3.
        let looping = slot.op() < 3;
        if slot.opens() {
            let word = integers.get(slot.integer()).copied();
            self.open(looping, word.unwrap_or(u32::MAX))
        } else {
            self.close(looping)
        }
    }

    #[inline(always)]
    fn open(&mut self, looping: bool, word: u32) -> Answer<bool> {
        let [count, al, step, reserved] = word.to_le_bytes();
        if reserved != 0 {
            return Err(FLOW_WORD);
        }
        if count == 0 {
            return Ok(true);
        }
        *self.open.get_mut(self.depth).ok_or(AT_LIMIT)? = Open {
            looping,
            count,
            al,
            step: step as i8,
        };
        self.depth += 1;
        Ok(false)
    }

    #[inline(always)]
    fn close(&mut self, looping: bool) -> Answer<bool> {
        let innermost = self.open.get_mut(self.depth.wrapping_sub(1));
        let open = innermost.ok_or(AT_LIMIT)?;
        if open.looping != looping {
            return Err(AT_LIMIT);
        }
        if open.count == 1 {
            // As it was before a loop stood there, so that equal groups are equal.
            *open = Open::default();
            self.depth -= 1;
            return Ok(false);
        }
        if looping {
            let next = i16::from(open.al) + i16::from(open.step);
            open.al = u8::try_from(next).map_err(|_| AT_LIMIT)?;
        }
        open.count -= 1;
        Ok(true)
    }

    /// The aL shown: the innermost open LOOP's, 0 if none is open.
    pub fn al(&self) -> u32 {
        let open = self.open[..self.depth].iter().rev();
        let looping = open.clone().find(|open| open.looping);
        looping.map_or(0, |open| u32::from(open.al))
    }

    /// The turns left in each, the outermost first.
    pub fn counts(&self) -> Vec<u32> {
        let open = self.open[..self.depth].iter();
        open.map(|open| u32::from(open.count)).collect()
    }
}
