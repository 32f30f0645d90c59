//! One case under way: its generator, the tally that it adds to, and the one
//! function that compares two answers.

use crate::random::Random;
use crate::tally::Tally;
use std::fmt::{self, Debug, Display, Formatter};
use std::io::Write;

/// Two answers that should be equal and are not, with what was asked.
#[derive(Clone, Debug, PartialEq, Eq)]
pub struct Difference {
    /// The call and all its arguments.
    pub asked: String,
    /// The product's answer, over the C boundary.
    pub product: String,
    /// The second program's answer, or what document 01 says of this call.
    pub expected: String,
}

/// What comes of a part of a case that both programs agreed on, else their
/// difference, which is large and so boxed.
pub type Agreed<T> = Result<T, Box<Difference>>;

/// The same where nothing is to be handed on.
pub type Agreement = Agreed<()>;

pub struct Case<'a> {
    pub random: Random,
    pub tally: &'a mut Tally,
    /// Prints both answers of every comparison, for a case run by itself.
    pub aloud: bool,
}

impl Case<'_> {
    /// Compares the product's answer with the second program's. `asked` is called
    /// only where its text is needed, so that agreeing costs little.
    pub fn agree<T: PartialEq + Debug>(
        &self,
        asked: impl FnOnce() -> String,
        product: &T,
        expected: &T,
    ) -> Agreement {
        let same = product == expected;
        if same && !self.aloud {
            return Ok(());
        }
        let difference = Difference {
            asked: asked(),
            product: format!("{product:?}"),
            expected: format!("{expected:?}"),
        };
        if self.aloud {
            say(&difference);
        }
        if same {
            Ok(())
        } else {
            Err(Box::new(difference))
        }
    }

    /// As `agree`, for an answer that may be a refusal, by its number: counted in the
    /// tally.
    pub fn agree_answer<T: PartialEq + Debug, R: Into<u32> + Copy>(
        &mut self,
        asked: impl FnOnce() -> String,
        product: &Result<T, R>,
        expected: &Result<T, u32>,
    ) -> Agreement {
        let product = product.as_ref().map_err(|&refusal| refusal.into());
        self.agree(
            asked,
            &product,
            &expected.as_ref().map_err(|&number| number),
        )?;
        self.tally.answer(match product {
            Ok(_) => 0,
            Err(number) => number,
        });
        Ok(())
    }

    /// Demands that a room is still as it was filled: what document 01 says of a
    /// refused call, and of room past a command's words.
    pub fn untouched<T: PartialEq + Debug>(
        &self,
        asked: impl FnOnce() -> String,
        room: &T,
        filled: &T,
    ) -> Agreement {
        let asked = || format!("room that must stay untouched, after {}", asked());
        self.agree(asked, room, filled)
    }
}

/// Prints a line. A reader who has gone away (a closed pipe) is no fault of ours,
/// and must not be taken for a difference.
pub fn say(line: &impl Display) {
    let _ = writeln!(std::io::stdout(), "{line}");
}

impl Display for Difference {
    fn fmt(&self, f: &mut Formatter<'_>) -> fmt::Result {
        writeln!(f, "{}", self.asked)?;
        writeln!(f, "    product   {}", self.product)?;
        write!(f, "    expected  {}", self.expected)
    }
}
