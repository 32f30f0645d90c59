//! Editions of the lease rule for the cases: half of them under each, and numbers that are no edition's.

use crate::case::{Agreement, Case};
use crate::random::Random;
use egretfold::{lent, Edition, Replay, Session};
use second::score::{score_in, Lease};
use std::fmt::Debug;

/// Half of the cases are under each edition. The mark counts them.
pub fn any(case: &mut Case) -> Edition {
    if case.random.coin() {
        case.tally.mark("cases under edition 1");
        Edition::First
    } else {
        case.tally.mark("cases under edition 2");
        Edition::Second
    }
}

/// The other one.
pub fn other(edition: Edition) -> Edition {
    match edition {
        Edition::First => Edition::Second,
        Edition::Second => Edition::First,
    }
}

/// A number that no edition has: beside the two, one of them with a bit too many, or any.
pub fn none(random: &mut Random) -> u32 {
    match random.below(4) {
        0 => random.one_of(&[0, 3, 4, u32::MAX]),
        1 => random.between(1, 2) | 1 << random.between(2, 31),
        2 => random.between(1, 2) << random.between(2, 30),
        _ => random.word().max(3),
    }
}

/// A session can't begin under such a number, and the arrays of one that is there stay; under an edition they begin anew.
pub fn refuse_session(case: &mut Case, session: &Session, edition: Edition) -> Agreement {
    let number = none(&mut case.random);
    let asked = || format!("a session under edition {number}");
    let second = second::session::Session::new_in(number).map(drop);
    let begun = lent::session_begin(number).map(drop).map_err(u32::from);
    case.agree(asked, &begun, &second)?;
    let anew = |session: &mut Session, number| lent::session_begin_anew(session, number);
    in_place(case, session, (number, edition), anew, Session::new)
}

/// The same for a replay.
pub fn refuse_replay(case: &mut Case, replay: &Replay, edition: Edition) -> Agreement {
    let number = none(&mut case.random);
    let asked = || format!("a replay under edition {number}");
    let second = second::log::Replay::new_in(number).map(drop);
    let begun = lent::log_begin(number).map(drop).map_err(u32::from);
    case.agree(asked, &begun, &second)?;
    let anew = |replay: &mut Replay, number| lent::log_begin_anew(replay, number);
    in_place(case, replay, (number, edition), anew, Replay::new)
}

/// The same for a score: 3 comes before what is wrong with the lease line and the log.
pub fn refuse_score(case: &mut Case, lease: &Lease, log: &[u8]) -> Agreement {
    let number = none(&mut case.random);
    let asked = || format!("{lease:?} under edition {number}");
    let line = (lease.first_day, lease.days, lease.owed);
    let product = match lent::score_lease(number, line) {
        0 => Ok(()),
        refusal => Err(refusal),
    };
    case.agree(asked, &product, &score_in(number, lease, log).map(drop))?;
    case.tally.mark("scores refused for their edition");
    Ok(())
}

/// Begins in the arrays of a state that is there: refused first, which leaves them, then as a new one.
fn in_place<T: Clone + PartialEq + Debug>(
    case: &mut Case,
    state: &T,
    (number, edition): (u32, Edition),
    begin: impl Fn(&mut T, u32) -> u32,
    new: impl Fn(Edition) -> T,
) -> Agreement {
    let mut arrays = state.clone();
    let asked = || format!("a begin under edition {number} in the arrays of another");
    case.agree(asked, &begin(&mut arrays, number), &3)?;
    case.untouched(asked, &arrays, state)?;
    let asked = || format!("a begin under {edition:?} in the arrays of another");
    case.agree(asked, &begin(&mut arrays, edition.number()), &0)?;
    case.agree(asked, &arrays, &new(edition))?;
    case.tally.mark("begins refused for their edition");
    Ok(())
}
