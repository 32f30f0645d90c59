//! The generator of all cases: a small one of our own, so that a case is the
//! same on every machine and can be made again from three numbers.

/// A stream of numbers that only look random. Each number is the next multiple
/// of an odd constant, stirred; or, in a case that is reduced, the next of a list,
/// and 0 behind it.
#[derive(Clone, Debug)]
pub struct Random {
    state: u64,
    list: Option<Vec<u64>>,
    drawn: usize,
}

/// A case of a list that draws more than this goes on for ever: with zeros alone, a
/// coin that is thrown until it falls otherwise never does.
const MOST_DRAWN: usize = 1_000_000;

/// Odd, and its bits are as mixed as those of the golden ratio that it comes
/// from: 2^64 divided by that ratio.
const STEP: u64 = 0x9E37_79B9_7F4A_7C15;

/// Every bit of the result depends on every bit of the number. Shifts and factors
/// are those of the well-known generator splitmix64.
fn stir(number: u64) -> u64 {
    let mut n = number;
    n = (n ^ (n >> 30)).wrapping_mul(0xBF58_476D_1CE4_E5B9);
    n = (n ^ (n >> 27)).wrapping_mul(0x94D0_49BB_1331_11EB);
    n ^ (n >> 31)
}

impl Random {
    /// The generator of one case. Stirring between the three numbers keeps
    /// neighbouring cases, seeds and kinds from having a sequence in common.
    pub fn of_case(kind: u64, seed: u64, case: u64) -> Random {
        let mut state = stir(kind.wrapping_add(STEP));
        state = stir(state ^ seed.wrapping_mul(STEP));
        state = stir(state ^ case.wrapping_mul(STEP));
        Random {
            state,
            list: None,
            drawn: 0,
        }
    }

    /// The numbers of a list, then zeros. Panics where a case has no end with them.
    pub fn of_list(list: &[u64]) -> Random {
        Random {
            state: 0,
            list: Some(list.to_vec()),
            drawn: 0,
        }
    }

    /// How many numbers were drawn so far.
    pub fn drawn(&self) -> usize {
        self.drawn
    }

    pub fn long(&mut self) -> u64 {
        let place = self.drawn;
        self.drawn += 1;
        if let Some(list) = &self.list {
            assert!(place < MOST_DRAWN, "a case without an end");
            return list.get(place).copied().unwrap_or(0);
        }
        self.state = self.state.wrapping_add(STEP);
        stir(self.state)
    }

    /// Any word.
    pub fn word(&mut self) -> u32 {
        (self.long() >> 32) as u32
    }

    /// A number below the bound, which is not 0.
    pub fn below(&mut self, bound: u32) -> u32 {
        ((u64::from(self.word()) * u64::from(bound)) >> 32) as u32
    }

    /// A number from `low` to `high`, both included.
    pub fn between(&mut self, low: u32, high: u32) -> u32 {
        low + self.below(high - low + 1)
    }

    /// True once in `times` on average.
    pub fn once_in(&mut self, times: u32) -> bool {
        self.below(times) == 0
    }

    pub fn coin(&mut self) -> bool {
        self.once_in(2)
    }

    pub fn one_of<T: Copy>(&mut self, list: &[T]) -> T {
        list[self.below(list.len() as u32) as usize]
    }

    /// A word with one bit set.
    pub fn bit(&mut self) -> u32 {
        1 << self.below(32)
    }

    /// A mask of a shape that tells something: all, none, one, few or any bits.
    pub fn mask(&mut self) -> u32 {
        match self.below(8) {
            0 => u32::MAX,
            1 => 0,
            2 => self.bit(),
            3 => self.word() & self.word() & self.word(),
            4 => !(self.word() & self.word() & self.word()),
            _ => self.word(),
        }
    }

    /// Fills a room with bytes.
    pub fn fill(&mut self, room: &mut [u8]) {
        for part in room.chunks_mut(8) {
            let bytes = self.long().to_le_bytes();
            part.copy_from_slice(&bytes[..part.len()]);
        }
    }
}

#[cfg(test)]
mod tests {
    use super::Random;

    #[test]
    fn the_same_three_numbers_make_the_same_case() {
        let mut a = Random::of_case(1, 2, 3);
        let mut b = Random::of_case(1, 2, 3);
        assert!((0..100).all(|_| a.long() == b.long()));
    }

    #[test]
    fn another_number_makes_another_case() {
        let first = Random::of_case(1, 2, 3).long();
        for (kind, seed, case) in [(2, 2, 3), (1, 3, 3), (1, 2, 4), (1, 3, 2), (3, 2, 1)] {
            assert_ne!(Random::of_case(kind, seed, case).long(), first);
        }
    }

    #[test]
    fn a_list_is_drawn_and_then_zeros() {
        let mut random = Random::of_list(&[5, 1 << 63]);
        assert_eq!((random.long(), random.below(8)), (5, 4));
        assert_eq!((random.long(), random.drawn()), (0, 3));
    }

    #[test]
    fn below_reaches_every_number_and_not_the_bound() {
        let mut random = Random::of_case(0, 0, 0);
        let mut seen = [0; 7];
        for _ in 0..7_000 {
            seen[random.below(7) as usize] += 1;
        }
        assert!(seen.iter().all(|count| (800..1_200).contains(count)));
    }
}
