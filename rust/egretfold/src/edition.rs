//! The editions of the lease rule.

use crate::{answer, lent, Answer};

/// The edition by which a session claims, chosen when it begins and never changed.
/// All answers but claimed elements, and what is reckoned from them, are the same in
/// both.
#[derive(Clone, Copy, Debug, PartialEq, Eq)]
pub enum Edition {
    /// A pair is credited one for each set output that isn't silent.
    First,
    /// A pair is credited, for each set output, the number of unmasked channels that
    /// its format has.
    Second,
}

impl Edition {
    /// The edition with this number. 3.
    pub fn of(number: u32) -> Answer<Edition> {
        // The product judges it, with a lease line that nothing is wrong with.
        answer(lent::score_lease(number, (0, 1, 0)))?;
        match number {
            1 => Ok(Edition::First),
            2 => Ok(Edition::Second),
            other => unreachable!("the library has no edition {other}"),
        }
    }

    /// The edition's number at the boundary.
    #[inline]
    pub fn number(self) -> u32 {
        match self {
            Edition::First => 1,
            Edition::Second => 2,
        }
    }
}
