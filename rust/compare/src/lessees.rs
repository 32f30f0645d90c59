//! Cases of the tenth kind: the words of two parties on one card, mixed. They are given to both programs word by word, in
//! random pieces and uncut, and answers, settings and tallies of each party are compared. Then one party's words are replaced
//! by others in other places: the other party must see nothing of it.

use crate::case::{Agreed, Agreement, Case};
use crate::editions;
use crate::mixture::{self, Word};
use crate::owned;
use crate::settings::{of_lessee, of_product, of_view, Seen};
use crate::streams::reply_of_product;
use crate::words;
use egretfold::{lent, Edition, Owners, Pair, Party, Session};
use second::lessees::Lessees;
use second::session::{Fed, Reply};
use second::Answer;

/// A session of two parties of each program, which get the same words.
#[derive(Clone)]
pub struct Both {
    pub product: Pair,
    pub second: Lessees,
}

/// What a party's words were answered, in their order.
type Answers = Vec<Answer<Reply>>;

impl Both {
    /// Both begin under the edition, with these owners.
    pub fn new(edition: Edition, owners: Owners) -> Both {
        let Owners { inputs, outputs } = owners;
        let second = Lessees::begin(edition.number(), inputs, outputs);
        Both {
            product: Pair::new(edition, owners).expect("owners of what there is"),
            second: second.expect("owners of what there is"),
        }
    }

    /// All that both parties can ask.
    pub fn agree(&self, case: &Case, asked: impl Fn() -> String) -> Agreement {
        for party in Party::BOTH {
            let asked = || format!("{party:?}'s settings after {}", asked());
            let product = of_view(self.product.view(party));
            case.agree(asked, &product, &of_lessee(&self.second, party))?;
        }
        Ok(())
    }

    /// What a start of each party would get: stored by the product, worked out by the second program.
    fn ready_alike(&self, case: &Case, asked: impl Fn() -> String) -> Agreement {
        for party in Party::BOTH {
            let asked = || format!("what {party:?}'s start would get after {}", asked());
            let stored = self.product.view(party).status().readiness;
            case.agree(asked, &stored, &self.second.readiness(is_one(party)))?;
        }
        Ok(())
    }
}

/// The second program's bit of a party.
pub fn is_one(party: Party) -> bool {
    party == Party::One
}

pub fn run(case: &mut Case) -> Agreement {
    let edition = editions::any(case);
    let owners = mixture::owners(&mut case.random);
    let streams = Party::BOTH.map(|party| mixture::stream(&mut case.random, owners.of(party)));
    let words = mixture::mixed(&mut case.random, [&streams[0], &streams[1]]);
    case.tally.add("words", words.len() as u64);
    let (both, answers) = word_by_word(case, Both::new(edition, owners), &words)?;
    in_pieces(case, edition, owners, &words, &both)?;
    for party in Party::BOTH {
        let place = party.number() as usize;
        let answers = &answers[place];
        unseen(
            case,
            (edition, &both.product),
            party,
            &streams[place],
            answers,
        )?;
    }
    one_owns_all(case, edition)?;
    refused_begin(case, edition, &both.product)?;
    refused_piece(case, &both.product, &words)
}

/// Gives the words one by one to both sessions and compares every answer. A party that is stopped gets 1, and the other one
/// goes on.
pub fn word_by_word(
    case: &mut Case,
    mut both: Both,
    words: &[Word],
) -> Agreed<(Both, [Answers; 2])> {
    let mut answers = [Vec::new(), Vec::new()];
    for (place, (party, word)) in words.iter().copied().enumerate() {
        let asked = || format!("word {place} of {words:X?}");
        let before = both.second.clone();
        let product = both.product.word(party, word).map(reply_of_product);
        let expected = both.second.word(is_one(party), word);
        case.agree_answer(asked, &product, &expected)?;
        owned::count(case.tally, &before, &both.second, (party, word), &expected);
        if expected.is_err() && !before.stopped(is_one(party)) {
            both.agree(case, asked)?;
        }
        if expected != Ok(Reply::Open) {
            both.ready_alike(case, asked)?;
        }
        answers[party.number() as usize].push(expected);
    }
    both.agree(case, || format!("all of {words:X?}"))?;
    Ok((both, answers))
}

/// The words uncut and cut anywhere come to what they came to one by one, and the pieces' answers add up.
fn in_pieces(
    case: &mut Case,
    edition: Edition,
    owners: Owners,
    words: &[Word],
    by_words: &Both,
) -> Agreement {
    let mut uncut = Both::new(edition, owners);
    let whole = fed(case, &mut uncut, words)?;
    let mut cut = Both::new(edition, owners);
    let mut sums = [NOTHING; 2];
    let length = case.random.one_of(&[1, 4, 33, 64, 1_000]);
    let mut left = words;
    while !left.is_empty() {
        let most = (left.len() as u32).min(length);
        let (piece, rest) = left.split_at(case.random.between(0, most) as usize);
        for (sum, fed) in sums.iter_mut().zip(fed(case, &mut cut, piece)?) {
            sum.taken += fed.taken;
            sum.commands += fed.commands;
            // Later pieces get 1, which is no part of the whole's answer.
            sum.refusal = sum.refusal.or(fed.refusal);
        }
        left = rest;
    }
    case.agree(|| format!("pieces of {words:X?}"), &sums, &whole)?;
    let asked = || format!("{words:X?} uncut and in pieces");
    case.agree(asked, &uncut.product, &by_words.product)?;
    case.agree(asked, &cut.product, &by_words.product)
}

const NOTHING: Fed = Fed {
    taken: 0,
    commands: 0,
    refusal: None,
};

/// A piece of both parties' words; one that has one party's alone goes to either of the functions that take it.
fn fed(case: &mut Case, both: &mut Both, piece: &[Word]) -> Agreed<[Fed; 2]> {
    let asked = || format!("piece {piece:X?}");
    let bits: Vec<(bool, u32)> = piece.iter().map(|(p, word)| (is_one(*p), *word)).collect();
    let expected = both.second.feed_both(&bits);
    let (words, parties) = mixture::packed(&mut case.random, piece);
    let same = |party| piece.iter().all(|(of, _)| *of == party);
    let alone = Party::BOTH.into_iter().find(|party| same(*party));
    let product = match alone {
        Some(party) if case.random.coin() => {
            case.tally.mark("pieces of one party alone");
            let mut fed = [NOTHING; 2];
            fed[party.number() as usize] = of_product_fed(both.product.feed(party, &words));
            Ok(fed)
        }
        _ => {
            case.tally.mark("pieces of both parties");
            both.product
                .feed_both(&words, &parties)
                .map(|fed| fed.map(of_product_fed))
        }
    };
    case.agree(asked, &product, &Ok(expected))?;
    both.ready_alike(case, asked)?;
    Ok(expected)
}

fn of_product_fed(fed: egretfold::Fed) -> Fed {
    Fed {
        taken: fed.taken,
        commands: fed.commands,
        refusal: fed.refusal.map(u32::from),
    }
}

/// "Change party 1's words and their places at will: party 0's answers, settings and tallies stay the same", and the
/// reverse. Also what came later must be answered alike, so that nothing of the open command is lost.
fn unseen(
    case: &mut Case,
    (edition, before): (Edition, &Pair),
    party: Party,
    own: &[u32],
    answers: &Answers,
) -> Agreement {
    let owners = before.owners();
    let others = mixture::replacement(&mut case.random, owners.of(party.other()));
    let words = match party {
        Party::Zero => mixture::mixed(&mut case.random, [own, &others]),
        Party::One => mixture::mixed(&mut case.random, [&others, own]),
    };
    let asked = || format!("{party:?} among {words:X?}");
    let begin = || Pair::new(edition, owners).expect("owners of what there is");
    let mut by_words = begin();
    let mut again = Vec::new();
    for (of, word) in &words {
        let answer = by_words
            .word(*of, *word)
            .map(reply_of_product)
            .map_err(u32::from);
        if *of == party {
            again.push(answer);
        }
    }
    case.agree(asked, &again, answers)?;
    let mut uncut = begin();
    let (numbers, parties) = mixture::packed(&mut case.random, &words);
    let fed = uncut.feed_both(&numbers, &parties);
    let fed = fed.map(|fed| of_product_fed(fed[party.number() as usize]));
    case.agree(asked, &fed, &Ok(told_of(answers)))?;
    let owned_by = |pair: &Pair| -> Seen {
        let view = pair.view(party);
        of_view(view).own(view.owned())
    };
    let seen = owned_by(before);
    case.agree(asked, &owned_by(&by_words), &seen)?;
    case.agree(asked, &owned_by(&uncut), &seen)?;
    case.tally.mark("views that stayed the same");
    let moved = of_view(uncut.view(party.other())) != of_view(before.view(party.other()));
    if moved {
        case.tally
            .mark("views that stayed while the other's changed");
    }
    later(case, party, before.clone(), uncut)
}

/// What a piece with these answers tells the party.
fn told_of(answers: &Answers) -> Fed {
    let taken = answers.iter().filter(|answer| answer.is_ok()).count();
    let done = |answer: &&Answer<Reply>| matches!(answer, Ok(Reply::Done(_)));
    Fed {
        taken: taken as u64,
        commands: answers.iter().filter(done).count() as u64,
        refusal: answers.iter().find_map(|answer| answer.err()),
    }
}

/// More words of the party, to two sessions that it can't tell apart.
fn later(case: &mut Case, party: Party, mut one: Pair, mut other: Pair) -> Agreement {
    let owned = one.view(party).owned();
    let mut words = mixture::stream(&mut case.random, owned);
    // The rest of an open command too, so that its parameters are seen again.
    if one.view(party).status().open.is_some() {
        let rest = case.random.between(1, 4) as usize;
        words.splice(0..0, vec![case.random.below(4); rest]);
    }
    words.truncate(24);
    for word in &words {
        let asked = || format!("later word {word:X} of {party:?}, {words:X?}");
        let (answer, again) = (one.word(party, *word), other.word(party, *word));
        case.agree(asked, &again, &answer)?;
    }
    Ok(())
}

/// "Words of a log are party 0's, which there owns every number": then every answer is a session's.
fn one_owns_all(case: &mut Case, edition: Edition) -> Agreement {
    if !case.random.once_in(4) {
        return Ok(());
    }
    let words = words::any(&mut case.random);
    let owners = Owners {
        inputs: 0,
        outputs: 0,
    };
    let mut pair = Pair::new(edition, owners).expect("owners of what there is");
    let mut session = Session::new(edition);
    let asked = || format!("{words:X?} of one party that owns all");
    for word in &words {
        case.agree(asked, &pair.word(Party::Zero, *word), &session.word(*word))?;
    }
    let seen = of_product(&session);
    case.agree(asked, &of_view(pair.view(Party::Zero)), &seen)?;
    let mut pieces = Pair::new(edition, owners).expect("owners of what there is");
    let zeros = vec![0; (words.len() + 31) / 32];
    let fed = pieces.feed_both(&words, &zeros);
    let mut whole = Session::new(edition);
    let expected = [whole.feed(&words), NOTHING_FED];
    case.agree(asked, &fed, &Ok(expected))?;
    case.agree(asked, &of_view(pieces.view(Party::Zero)), &seen)?;
    case.tally.mark("sessions of one party that owns all");
    Ok(())
}

const NOTHING_FED: egretfold::Fed = egretfold::Fed {
    taken: 0,
    commands: 0,
    refusal: None,
};

/// 3 for a bit above the numbers that there are, and for an edition, before all else; the arrays stay as they are.
fn refused_begin(case: &mut Case, edition: Edition, pair: &Pair) -> Agreement {
    let (number, owners) = if case.random.coin() {
        (edition.number(), mixture::wrong_owners(&mut case.random))
    } else {
        (
            editions::none(&mut case.random),
            mixture::owners(&mut case.random),
        )
    };
    let asked = || format!("a begin of {owners:X?} under edition {number}");
    let Owners { inputs, outputs } = owners;
    let expected = Lessees::begin(number, inputs, outputs).map(drop);
    let begun = lent::pair_begin(number, owners)
        .map(drop)
        .map_err(u32::from);
    case.agree(asked, &begun, &expected)?;
    let mut arrays = pair.clone();
    case.agree(
        asked,
        &lent::pair_begin_anew(&mut arrays, number, owners),
        &3,
    )?;
    case.untouched(asked, &arrays, pair)?;
    let good = mixture::owners(&mut case.random);
    let begun = lent::pair_begin_anew(&mut arrays, edition.number(), good);
    case.agree(asked, &begun, &0)?;
    case.agree(asked, &Ok(arrays), &Pair::new(edition, good))?;
    case.tally.mark("begins refused");
    Ok(())
}

/// 11 where there isn't a number for each 32 words: nothing is taken, and the room stays as it is.
fn refused_piece(case: &mut Case, pair: &Pair, words: &[Word]) -> Agreement {
    let (words, mut parties) = mixture::packed(&mut case.random, words);
    match case.random.below(3) {
        0 => parties.push(case.random.word()),
        1 if !parties.is_empty() => {
            parties.pop();
        }
        _ => parties.resize(2 * parties.len() + 1, 0),
    }
    let asked = || format!("{} words with {} groups", words.len(), parties.len());
    let filled = [case.random.long(); 6];
    let (mut room, mut arrays) = (filled, pair.clone());
    let number = lent::pair_feed(&mut arrays, &words, &parties, &mut room);
    case.agree(asked, &number, &11)?;
    case.untouched(asked, &room, &filled)?;
    case.untouched(asked, &arrays, pair)?;
    case.tally.mark("pieces refused for their groups");
    Ok(())
}
