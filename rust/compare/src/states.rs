//! Cases of the fourteenth kind: a session, a session of two parties, a replay or a group goes on at random
//! places from the bytes that it was kept in, and is compared with the second program's, which knows nothing of
//! that. On the way bytes that were damaged in one bit come back too: they are refused, or they are another state, which
//! keeps to being one whatever it is given.

use crate::case::{Agreed, Agreement, Case};
use crate::editions;
use crate::flow::{self, Given};
use crate::lessees;
use crate::logs;
use crate::mixture;
use crate::programs;
use crate::records;
use crate::settings;
use crate::words;
use egretfold::{Group, Pair, Party, Replay, Session};
use second::log::Replay as Second;
use std::fmt::Debug;

pub fn run(case: &mut Case) -> Agreement {
    match case.random.below(8) {
        0 => sessions(case),
        1 => pairs(case),
        2 | 3 => groups(case),
        _ => replays(case),
    }
}

/// A state that can be kept.
trait Kept: Clone + PartialEq + Debug {
    fn bytes(&self) -> Vec<u8>;
    fn of(bytes: &[u8]) -> Option<Self>;
}

macro_rules! kept {
    ($($state:ty),*) => {$(
        impl Kept for $state {
            fn bytes(&self) -> Vec<u8> {
                self.to_bytes()
            }

            fn of(bytes: &[u8]) -> Option<Self> {
                <$state>::from_bytes(bytes)
            }
        }
    )*};
}

kept!(Session, Pair, Replay, Group);

/// The state by its bytes, which is as it was. One in four times other bytes are tried too; what is taken of them is
/// given more.
fn again<T: Kept>(case: &mut Case, state: &T, more: impl Fn(&mut T)) -> Agreed<T> {
    let bytes = state.bytes();
    let again = T::of(&bytes);
    let asked = || format!("bytes {bytes:X?} of a state");
    case.agree(asked, &again, &Some(state.clone()))?;
    case.tally.mark("states that came back");
    if case.random.once_in(4) {
        damaged(case, state, bytes, more)?;
    }
    Ok(again.expect("it agreed"))
}

fn damaged<T: Kept>(
    case: &mut Case,
    state: &T,
    mut bytes: Vec<u8>,
    more: impl Fn(&mut T),
) -> Agreement {
    let length = bytes.len();
    if case.random.once_in(4) {
        bytes.resize(length - 1 + 2 * case.random.below(2) as usize, 0);
        let asked = || format!("{} bytes in place of {length}", bytes.len());
        return case.agree(asked, &T::of(&bytes), &None);
    }
    // Of a replay most are marks that haven't come: also in its first and last bytes, which hold the rest.
    let near = (length as u32).min(600);
    let place = match case.random.below(3) {
        0 => case.random.below(length as u32),
        1 => case.random.below(near),
        _ => length as u32 - 1 - case.random.below(near),
    };
    bytes[place as usize] ^= 1 << case.random.below(8);
    let asked = || format!("bytes {bytes:X?}, of a state damaged in byte {place},");
    match T::of(&bytes) {
        None => case.tally.mark("damaged states refused"),
        Some(mut other) => {
            case.tally.mark("damaged states that are others");
            case.agree(
                asked,
                &(other.bytes(), &other == state),
                &(bytes.clone(), false),
            )?;
            more(&mut other);
            let end = T::of(&other.bytes());
            case.agree(|| format!("{} fed on", asked()), &end, &Some(other))?;
        }
    }
    Ok(())
}

/// The next piece of what is left, some of them empty.
fn piece<'a, T>(case: &mut Case, left: &mut &'a [T], length: u32) -> &'a [T] {
    let most = (left.len() as u32).min(length);
    let (piece, rest) = left.split_at(case.random.between(0, most) as usize);
    *left = rest;
    piece
}

fn sessions(case: &mut Case) -> Agreement {
    let edition = editions::any(case);
    let words = words::any(&mut case.random);
    let mut both = settings::Both::new(edition);
    let length = case.random.one_of(&[1, 4, 64]);
    let mut left = words.as_slice();
    while !left.is_empty() {
        let piece = piece(case, &mut left, length);
        both.product.feed(piece);
        both.second.feed(piece);
        both.product = again(case, &both.product, |other| {
            other.feed(&words);
        })?;
    }
    case.tally.mark("sessions");
    both.agree(case, || format!("{words:X?}, kept in between"))
}

fn pairs(case: &mut Case) -> Agreement {
    let edition = editions::any(case);
    let owners = mixture::owners(&mut case.random);
    let streams = Party::BOTH.map(|party| mixture::stream(&mut case.random, owners.of(party)));
    let words = mixture::mixed(&mut case.random, [&streams[0], &streams[1]]);
    let mut both = lessees::Both::new(edition, owners);
    let length = case.random.one_of(&[1, 4, 64]);
    let mut left = words.as_slice();
    while !left.is_empty() {
        for (party, word) in piece(case, &mut left, length) {
            let product = both
                .product
                .word(*party, *word)
                .map(|_| ())
                .map_err(u32::from);
            let expected = both.second.word(lessees::is_one(*party), *word).map(|_| ());
            case.agree(
                || format!("a word of {words:X?}, kept in between"),
                &product,
                &expected,
            )?;
        }
        both.product = again(case, &both.product, |other| {
            for (party, word) in &words {
                let _ = other.word(*party, *word);
            }
        })?;
    }
    case.tally.mark("pairs");
    let kept = both.product.owners();
    case.agree(|| "owners that were kept".to_string(), &kept, &owners)?;
    both.agree(case, || format!("{words:X?}, kept in between"))
}

fn replays(case: &mut Case) -> Agreement {
    let edition = editions::any(case);
    let log = records::any(&mut case.random);
    let mut second = Second::new_in(edition.number()).expect("an edition of document 02");
    let expected = second.feed(&log);
    let mut product = Replay::new(edition);
    let length = case.random.one_of(&[1, 7, 64, 1_000]);
    let mut left = log.as_slice();
    let (mut taken, mut refusal) = (0, None);
    while !left.is_empty() {
        // Byte after byte only of short ones.
        let length = length.max(log.len() as u32 / 100);
        let fed = product.feed(piece(case, &mut left, length));
        taken += fed.taken;
        refusal = refusal.or(fed.refusal);
        product = again(case, &product, |other| {
            other.feed(&log);
        })?;
    }
    let asked = || format!("log {log:X?}, kept in between");
    let fed = (taken, refusal.map(u32::from));
    case.agree(asked, &fed, &(expected.taken, expected.refusal))?;
    case.tally.mark("replays");
    if second.unfinished() > 0 {
        case.tally.mark("replays kept inside a record");
    }
    if second.stopped().is_some() {
        case.tally.mark("replays kept stopped");
    }
    if second.refused().is_some() {
        case.tally.mark("replays kept with a refused word");
    }
    logs::agree(case, &product, &second, asked)
}

fn groups(case: &mut Case) -> Agreement {
    let words = programs::any(&mut case.random);
    let (program, both) = (flow::loaded(case, words)?, flow::begun(case)?);
    let (program, mut both) = match (program, both) {
        (Some(program), Some(both)) => (program, both),
        _ => return Ok(()),
    };
    let masks = flow::any_masks(&mut case.random);
    for (number, pair) in masks.list.chunks_exact(2).enumerate() {
        let asked = || {
            format!(
                "step {number}, kept before, of {}",
                flow::about(&program, &masks)
            )
        };
        let given = Given {
            program: &program,
            masks: (pair[0], pair[1], masks.booleans),
            integers: &masks.integers,
        };
        both.product = again(case, &both.product, |other| {
            let _ = other.run(
                &program.product,
                &masks.list,
                masks.booleans,
                &masks.integers,
            );
            let _ = other.kill(&program.product, &[-1.0; 128], 15);
        })?;
        let (refusal, _) = flow::step(case, asked, &given, &mut both)?;
        if refusal.is_some() {
            break;
        }
    }
    case.tally.mark("groups");
    Ok(())
}
