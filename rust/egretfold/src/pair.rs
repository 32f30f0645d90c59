//! Two lessees on one card: a session that two parties share. Each has its own open
//! command, domain, instruction format, tallies and stop; neither can learn of or
//! disturb the other.

use crate::lengths::{OWN, SHARED, TALLIES};
use crate::{accepted, answer, lent, Answer, Command, Edition, Fed, Reply, View};

/// Whose a word is.
#[derive(Clone, Copy, Debug, PartialEq, Eq)]
pub enum Party {
    Zero,
    One,
}

/// Who owns which number, fixed when the session begins: a bit that is set says
/// that the input or output of its place is party 1's.
#[derive(Clone, Copy, Debug, PartialEq, Eq)]
pub struct Owners {
    /// Sixteen bits.
    pub inputs: u32,
    /// Four bits. The output's bits of the mask go with it.
    pub outputs: u32,
}

/// What one party owns: a bit for each of its numbers.
#[derive(Clone, Copy, Debug, PartialEq, Eq)]
pub struct Owned {
    pub inputs: u32,
    pub outputs: u32,
    /// Whether the formats of the constants and of the conditional output, its mask and
    /// the test are the party's: they are party 0's.
    pub common: bool,
}

const INPUTS: u32 = 0xFFFF;
const OUTPUTS: u32 = 0xF;

/// A state of two parties. Its arrays are private, so that it is always one that the
/// library gave out. It may be cloned and both copies used.
#[derive(Clone, Debug, PartialEq, Eq)]
pub struct Pair {
    pub(crate) owners: Owners,
    pub(crate) own: [[u32; OWN]; 2],
    pub(crate) tallies: [[u64; TALLIES]; 2],
    pub(crate) shared: [u32; SHARED],
}

impl Party {
    pub const BOTH: [Party; 2] = [Party::Zero, Party::One];

    #[inline]
    pub fn number(self) -> u32 {
        match self {
            Party::Zero => 0,
            Party::One => 1,
        }
    }

    #[inline]
    pub fn other(self) -> Party {
        match self {
            Party::Zero => Party::One,
            Party::One => Party::Zero,
        }
    }

    #[inline]
    pub(crate) fn place(self) -> usize {
        self.number() as usize
    }

    /// The parties of a piece's words as [`Pair::feed_both`] takes them: bit k of
    /// number i is the party of word 32 i + k.
    pub fn packed(parties: impl IntoIterator<Item = Party>) -> Vec<u32> {
        let mut numbers = Vec::new();
        for (place, party) in parties.into_iter().enumerate() {
            if place % 32 == 0 {
                numbers.push(0);
            }
            numbers[place / 32] |= party.number() << (place % 32);
        }
        numbers
    }
}

impl Owners {
    /// What a party owns.
    pub fn of(self, party: Party) -> Owned {
        match party {
            Party::Zero => Owned {
                inputs: !self.inputs & INPUTS,
                outputs: !self.outputs & OUTPUTS,
                common: true,
            },
            Party::One => Owned {
                inputs: self.inputs,
                outputs: self.outputs,
                common: false,
            },
        }
    }
}

impl Owned {
    /// What the one party of a session owns.
    pub const ALL: Owned = Owned {
        inputs: INPUTS,
        outputs: OUTPUTS,
        common: true,
    };

    pub fn input(&self, number: u32) -> bool {
        self.inputs.checked_shr(number).unwrap_or(0) & 1 == 1
    }

    pub fn output(&self, number: u32) -> bool {
        self.outputs.checked_shr(number).unwrap_or(0) & 1 == 1
    }
}

impl Pair {
    /// A new session of two parties under an edition: nothing set, mask 65535. 3 for
    /// a bit above the sixteen inputs or the four outputs.
    #[inline]
    pub fn new(edition: Edition, owners: Owners) -> Answer<Pair> {
        lent::pair_begin(edition.number(), owners)
    }

    /// Takes one word of a party. 1 to 9, 17 or 20; all but 1 stop the party and drop
    /// its open command.
    #[inline]
    pub fn word(&mut self, party: Party, word: u32) -> Answer<Reply> {
        let mut room = [0; 6];
        accepted(lent::pair_word(self, party, word, &mut room))?;
        Ok(Command::completed(&room).map_or(Reply::Open, Reply::Done))
    }

    /// Takes a piece of one party's words, one after another up to the first refused
    /// one.
    #[inline]
    pub fn feed(&mut self, party: Party, words: &[u32]) -> Fed {
        let mut fed = [0; 2];
        let number = lent::pair_party_feed(self, party, words, &mut fed);
        Fed {
            taken: fed[0],
            commands: fed[1],
            refusal: answer(number).err(),
        }
    }

    /// Takes a piece of both parties' words, each of the party that its bit says
    /// ([`Party::packed`]). It runs on past a refused word and answers for each party
    /// apart, party 0 first. 11 where there isn't a number for each 32 words, with
    /// what is left of them: then nothing is taken.
    #[inline]
    pub fn feed_both(&mut self, words: &[u32], parties: &[u32]) -> Answer<[Fed; 2]> {
        let mut fed = [0; 6];
        accepted(lent::pair_feed(self, words, parties, &mut fed))?;
        let [taken, commands, first, other_taken, other_commands, other_first] = fed;
        let told = |taken, commands, first: u64| Fed {
            taken,
            commands,
            refusal: answer(first as u32).err(),
        };
        Ok([
            told(taken, commands, first),
            told(other_taken, other_commands, other_first),
        ])
    }

    /// What can be asked of a party.
    #[inline]
    pub fn view(&self, party: Party) -> View<'_> {
        View {
            own: &self.own[party.place()],
            tallies: &self.tallies[party.place()],
            shared: &self.shared,
            owned: self.owners.of(party),
        }
    }

    pub fn owners(&self) -> Owners {
        self.owners
    }
}
