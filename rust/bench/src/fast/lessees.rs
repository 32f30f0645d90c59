//! Two lessees on one card. Neither can see or change what is the other's, so each has a session of its own that owns its
//! numbers; a piece of both parties' words goes run by run to the one whose words they are.

use super::command::{EVERYTHING, FIRST_OUTPUT};
use super::refusal::{Answer, MALFORMED, ROOM};
use super::session::{Edition, Fed, Session};

#[derive(Clone)]
pub struct Pair {
    parties: [Session; 2],
    /// Bit n says that output n is party 1's.
    outputs: u32,
}

const NOTHING: Fed = Fed {
    taken: 0,
    commands: 0,
    refusal: None,
};

impl Pair {
    /// Bit n of the inputs and outputs says that the number n is party 1's. 3 for a bit above them.
    #[inline(never)]
    pub fn new(edition: Edition, inputs: u32, outputs: u32) -> Answer<Pair> {
        if inputs >> 16 != 0 || outputs >> 4 != 0 {
            return Err(MALFORMED);
        }
        let ones = inputs | outputs << FIRST_OUTPUT;
        let party = |mine| Session::new_of(edition, mine);
        Ok(Pair {
            parties: [party(EVERYTHING & !ones), party(ones)],
            outputs,
        })
    }

    /// Takes a piece of both parties' words; bit k of number i is the party of word 32 i + k. It runs on past a refused word.
    /// 11 for a wrong number of numbers.
    #[inline(never)]
    pub fn feed_both(&mut self, words: &[u32], parties: &[u32]) -> Answer<[Fed; 2]> {
        if parties.len() != words.len() / 32 + usize::from(words.len() % 32 != 0) {
            return Err(ROOM);
        }
        let mut fed = [NOTHING; 2];
        let mut at = 0;
        while at < words.len() {
            let party = parties[at / 32] >> (at % 32) & 1;
            let end = run_end(parties, at, party).min(words.len());
            let one = (party & 1) as usize;
            let told = self.parties[one].take_piece(&words[at..end]);
            fed[one].taken += told.taken;
            fed[one].commands += told.commands;
            fed[one].refusal = fed[one].refusal.or(told.refusal);
            at = end;
        }
        Ok(fed)
    }

    pub fn party(&self, party: usize) -> &Session {
        &self.parties[party]
    }

    /// Each party's own bits of the two masks.
    pub fn output_mask(&self) -> u32 {
        let ones: u32 = (0..4)
            .map(|n| ((self.outputs >> n & 1) * 0xF) << (4 * n))
            .sum();
        let [zero, one] = [0, 1].map(|party| self.parties[party].output_mask());
        zero & !ones | one & ones
    }
}

/// Where the run of this party's words ends, or past the last word.
#[inline(always)]
fn run_end(parties: &[u32], at: usize, party: u32) -> usize {
    // a bit that is set is the other party's
    let other = |number: u32| if party == 1 { !number } else { number };
    let mut place = at / 32;
    let mut bits = other(parties[place]) & u32::MAX << (at % 32);
    while bits == 0 {
        place += 1;
        match parties.get(place) {
            Some(number) => bits = other(*number),
            None => return 32 * place,
        }
    }
    32 * place + bits.trailing_zeros() as usize
}
