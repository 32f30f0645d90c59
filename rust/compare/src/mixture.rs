//! Words of two parties for the cases: who owns what, a stream for each party that mostly keeps to what is its own, and the
//! two strewn among each other.

use crate::commands::HEADERS;
use crate::random::Random;
use crate::words;
use egretfold::headers::{
    SET_COND_OUT_FMT, SET_COND_OUT_MASK, SET_COND_TEST, SET_CONSTB_FMT, SET_CONSTF_FMT,
    SET_CONSTI_FMT, SET_INP_FMT, SET_OUT_FMT,
};
use egretfold::{Owned, Owners, Party};

/// A word with its party.
pub type Word = (Party, u32);

/// The headers that set what is party 0's alone.
pub const OF_PARTY_0: [u32; 6] = [
    SET_CONSTF_FMT,
    SET_CONSTI_FMT,
    SET_CONSTB_FMT,
    SET_COND_OUT_FMT,
    SET_COND_OUT_MASK,
    SET_COND_TEST,
];

/// Who owns what: all of it one party's, or any.
pub fn owners(random: &mut Random) -> Owners {
    match random.below(8) {
        0 => Owners {
            inputs: 0,
            outputs: 0,
        },
        1 => Owners {
            inputs: 0xFFFF,
            outputs: 0xF,
        },
        _ => Owners {
            inputs: random.below(1 << 16),
            outputs: random.between(1, 14),
        },
    }
}

/// The same with a bit for a number that there isn't.
pub fn wrong_owners(random: &mut Random) -> Owners {
    let mut owners = owners(random);
    match random.below(3) {
        0 => owners.inputs |= 1 << random.between(16, 31),
        1 => owners.outputs |= 1 << random.between(4, 31),
        _ => {
            owners.inputs = random.word() | 1 << 16;
            owners.outputs = random.word();
        }
    }
    owners
}

/// A stream for a party that owns so much: the numbers that it names are mostly its own, and it mostly leaves alone what is
/// party 0's.
pub fn stream(random: &mut Random, owned: Owned) -> Vec<u32> {
    let mut words = words::any(random);
    // One command in so many is left as it is.
    let careful = random.one_of(&[16, 200, 2_000]);
    let mut at = 0;
    while at < words.len() && HEADERS.contains(&words[at]) {
        let header = words[at];
        let after = at + 2 + (header >> 16 & 0x3FFF) as usize;
        if random.once_in(careful) {
            at = after;
        } else if OF_PARTY_0.contains(&header) && !owned.common {
            words.drain(at..after.min(words.len()));
        } else {
            if let Some(number) = words.get_mut(at + 1) {
                match header {
                    SET_INP_FMT => keep_to(number, 16, |number| owned.input(number)),
                    SET_OUT_FMT => keep_to(number, 4, |number| owned.output(number)),
                    _ => {}
                }
            }
            at = after;
        }
    }
    words
}

/// A number below the count becomes one that is owned, where there is any.
fn keep_to(number: &mut u32, count: u32, owned: impl Fn(u32) -> bool) {
    let own: Vec<u32> = (0..count).filter(|number| owned(*number)).collect();
    if *number < count && !own.is_empty() {
        *number = own[*number as usize % own.len()];
    }
}

/// Words for a party of which another one must see nothing: made for it, made as if all were its own, noise, or none.
pub fn replacement(random: &mut Random, owned: Owned) -> Vec<u32> {
    match random.below(8) {
        0 => Vec::new(),
        1 => (0..random.below(64)).map(|_| random.word()).collect(),
        2 | 3 => words::any(random),
        _ => stream(random, owned),
    }
}

/// Both parties' words, each party's in their order, in runs of some length.
pub fn mixed(random: &mut Random, [zero, one]: [&[u32]; 2]) -> Vec<Word> {
    let most = random.one_of(&[1, 1, 4, 16, 64, 1_000]);
    let (mut left, mut words) = ([zero, one], Vec::new());
    while left.iter().any(|words| !words.is_empty()) {
        let party = match left {
            [[], _] => Party::One,
            [_, []] => Party::Zero,
            _ => random.one_of(&Party::BOTH),
        };
        let rest = &mut left[party.number() as usize];
        let length = (rest.len() as u32).min(most);
        let (run, after) = rest.split_at(random.between(1, length) as usize);
        words.extend(run.iter().map(|word| (party, *word)));
        *rest = after;
    }
    words
}

/// A piece as the product takes it: its words, and its parties packed, with anything in the bits past the last word.
pub fn packed(random: &mut Random, piece: &[Word]) -> (Vec<u32>, Vec<u32>) {
    let words = piece.iter().map(|(_, word)| *word).collect();
    let mut parties = Party::packed(piece.iter().map(|(party, _)| *party));
    if let (Some(last), used) = (parties.last_mut(), piece.len() % 32) {
        if used > 0 {
            *last |= random.word() << used;
        }
    }
    (words, parties)
}
