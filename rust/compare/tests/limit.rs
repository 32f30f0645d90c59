//! Refusal 17: a session that has taken 1,000,000,000 words takes no more. The
//! product is really given that many words, less some; from there on it is
//! compared with the second program, which can begin at that count.

use compare::case::Case;
use compare::random::Random;
use compare::settings::Both;
use compare::streams::word_by_word;
use compare::tally::Tally;
use compare::words;
use compare::{lessees, mixture};
use egretfold::headers::WAIT_FOR_IDLE;
use egretfold::{Edition, Owners, Pair, Party, Session};
use second::lessees::Lessees;

const LIMIT: u64 = 1_000_000_000;

/// Words left until the limit where the streams below begin.
const LEFT: u64 = 40;

/// A session that has taken all words up to there, every one of them accepted.
fn near_the_limit() -> Session {
    let piece: Vec<u32> = [WAIT_FOR_IDLE, 0].repeat(500_000);
    let mut session = Session::new(Edition::First);
    let mut wanted = LIMIT - LEFT;
    while wanted > 0 {
        let length = wanted.min(piece.len() as u64);
        let fed = session.feed(&piece[..length as usize]);
        assert_eq!((fed.taken, fed.refusal), (length, None));
        wanted -= length;
    }
    session
}

#[test]
fn no_word_is_taken_past_the_limit() {
    let product = near_the_limit();
    let mut tally = Tally::new();
    for number in 0..2_000 {
        let mut case = Case {
            random: Random::of_case(17, 1, number),
            tally: &mut tally,
            aloud: false,
        };
        let words = words::any(&mut case.random);
        let both = Both {
            product: product.clone(),
            second: second::session::Session::new_after(LIMIT - LEFT),
        };
        if let Err(difference) = word_by_word(&mut case, both, &words) {
            panic!("{LEFT} words before the limit, {difference}");
        }
    }
    assert!(
        tally.refused(17) >= 500,
        "17 came {} times",
        tally.refused(17)
    );
    // Later words get 1, also after 17.
    assert!(
        tally.refused(1) >= 2_000,
        "1 came {} times",
        tally.refused(1)
    );
}

/// The limit is each party's own: one that comes to it gets 17, and the other goes on; whoever owns what, 1 and 17 come before
/// 20.
#[test]
fn each_party_has_a_limit_of_its_own() {
    let piece: Vec<u32> = [WAIT_FOR_IDLE, 0].repeat(500_000);
    let mut tally = Tally::new();
    for party in Party::BOTH {
        let owners = Owners {
            inputs: 0xF0F0,
            outputs: 0x6,
        };
        let mut product = Pair::new(Edition::Second, owners).expect("owners of what there is");
        let mut wanted = LIMIT - LEFT;
        while wanted > 0 {
            let length = wanted.min(piece.len() as u64);
            let fed = product.feed(party, &piece[..length as usize]);
            assert_eq!((fed.taken, fed.refusal), (length, None));
            wanted -= length;
        }
        let mut taken = [0; 2];
        taken[party.number() as usize] = LIMIT - LEFT;
        let second = Lessees::begin_after(2, owners.inputs, owners.outputs, taken);
        let both = lessees::Both {
            product,
            second: second.expect("owners of what there is"),
        };
        for number in 0..1_000 {
            let mut case = Case {
                random: Random::of_case(20, u64::from(party.number()), number),
                tally: &mut tally,
                aloud: false,
            };
            let random = &mut case.random;
            let streams = Party::BOTH.map(|party| mixture::stream(random, owners.of(party)));
            let words = mixture::mixed(random, [&streams[0], &streams[1]]);
            if let Err(difference) = lessees::word_by_word(&mut case, both.clone(), &words) {
                panic!("{LEFT} words before the limit of {party:?}, {difference}");
            }
        }
    }
    for (number, least) in [(17, 500), (20, 100), (1, 10_000)] {
        let seen = tally.refused(number);
        assert!(seen >= least, "{number} came {seen} times");
    }
    let beside = tally.marked("words taken beside a stopped party");
    assert!(beside >= 10_000, "{beside}");
}

#[test]
fn an_empty_piece_is_never_refused() {
    let mut session = Session::new(Edition::First);
    assert_eq!(session.word(1), Err(egretfold::Refusal::UnknownHeader));
    let fed = session.feed(&[]);
    assert_eq!((fed.taken, fed.commands, fed.refusal), (0, 0, None));
}
