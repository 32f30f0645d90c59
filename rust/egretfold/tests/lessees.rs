//! Document 02, request 9, "Two lessees on one card", asked through the safe functions: who may set what, in which order
//! refusals come, and that a party neither learns of the other nor disturbs it.

use egretfold::headers::{
    FLUSH_COND_OUT_CACHE, INV_CONSTF_CACHE, SET_COND_OUT_FMT, SET_COND_OUT_MASK, SET_COND_TEST,
    SET_CONSTB_FMT, SET_CONSTF_FMT, SET_CONSTI_FMT, SET_DOMAIN, SET_INP_FMT, SET_INST_FMT,
    SET_OUT_FMT, SET_OUT_MASK, START_PROGRAM,
};
use egretfold::{lent, Command, Edition, Fed, Owned, Owners, Pair, Party, Refusal, Reply, Session};

const ONE: Edition = Edition::First;

/// Inputs 4 to 7 and outputs 1 and 3 are party 1's.
const OWNERS: Owners = Owners {
    inputs: 0x00F0,
    outputs: 0xA,
};

fn pair() -> Pair {
    Pair::new(ONE, OWNERS).expect("owners of what there is")
}

/// The instruction format, and a domain of 5 x 3 pairs.
const READY: [u32; 8] = [SET_INST_FMT, 0x1000, 0x400_0010, SET_DOMAIN, 3, 1, 7, 3];

/// An output of FLOAT32_1 at this base, linear, with a window of 32 x 4 elements.
fn output(number: u32, base: u32) -> [u32; 5] {
    [SET_OUT_FMT, number, base, 0x0200_0020, 4]
}

/// What a party owns, from the owners.
#[test]
fn each_number_has_one_owner() {
    for party in Party::BOTH {
        let owned = pair().view(party).owned();
        for number in 0..16 {
            let ones = (4..8).contains(&number);
            assert_eq!(owned.input(number), ones == (party == Party::One));
        }
        for number in 0..4 {
            let ones = number % 2 == 1;
            assert_eq!(owned.output(number), ones == (party == Party::One));
        }
        assert!(!owned.input(16) && !owned.input(32) && !owned.output(4));
        assert_eq!(owned.common, party == Party::Zero);
    }
    assert_eq!(Session::new(ONE).view().owned(), Owned::ALL);
}

#[test]
fn bits_above_the_numbers_get_3_and_nothing_is_touched() {
    let mut begun = pair();
    begun.feed(Party::One, &READY);
    for (inputs, outputs) in [(1 << 16, 0), (0, 16), (1 << 31, 0), (0, 1 << 31), (!0, !0)] {
        let owners = Owners { inputs, outputs };
        assert_eq!(
            Pair::new(ONE, owners),
            Err(Refusal::Malformed),
            "{owners:X?}"
        );
        let mut arrays = begun.clone();
        assert_eq!(lent::pair_begin_anew(&mut arrays, 1, owners), 3);
        assert_eq!(arrays, begun);
    }
    for edition in [0, 3] {
        assert_eq!(lent::pair_begin(edition, OWNERS), Err(Refusal::Malformed));
    }
    for (inputs, outputs) in [(0, 0), (0xFFFF, 0xF)] {
        assert!(Pair::new(Edition::Second, Owners { inputs, outputs }).is_ok());
    }
}

#[test]
fn a_number_of_anothers_gets_20_at_its_word_after_4() {
    for (header, count, ones) in [(SET_INP_FMT, 16, 0x00F0), (SET_OUT_FMT, 4, 0xA)] {
        for party in Party::BOTH {
            for number in 0..40 {
                let mut pair = pair();
                assert_eq!(pair.word(party, header), Ok(Reply::Open));
                let owner = ones >> number.min(31) & 1;
                let expected = match number {
                    number if number >= count => Err(Refusal::NumberTooHigh),
                    _ if owner != party.number() => Err(Refusal::NotOwned),
                    _ => Ok(Reply::Open),
                };
                assert_eq!(pair.word(party, number), expected, "{party:?} {number}");
                let status = pair.view(party).status();
                assert_eq!(status.stopped, expected.is_err());
                assert_eq!(status.taken, 1 + u32::from(expected.is_ok()));
                assert_eq!(status.open.is_some(), expected.is_ok());
                // A stop stops only its party.
                assert_eq!(pair.word(party.other(), INV_CONSTF_CACHE), Ok(Reply::Open));
            }
        }
    }
}

#[test]
fn what_is_party_0s_gets_20_at_party_1s_header() {
    let common = [
        SET_CONSTF_FMT,
        SET_CONSTI_FMT,
        SET_CONSTB_FMT,
        SET_COND_OUT_FMT,
        SET_COND_OUT_MASK,
        SET_COND_TEST,
    ];
    for header in common {
        let mut pair = pair();
        assert_eq!(pair.word(Party::Zero, header), Ok(Reply::Open));
        assert_eq!(
            pair.word(Party::One, header),
            Err(Refusal::NotOwned),
            "{header:X}"
        );
        assert_eq!(pair.word(Party::One, header), Err(Refusal::Stopped));
        // 2 for what is in no line, whoever sends it.
        let mut pair = Pair::new(ONE, OWNERS).expect("owners");
        assert_eq!(
            pair.word(Party::One, header ^ 1),
            Err(Refusal::UnknownHeader)
        );
    }
    // Their caches set nothing.
    for header in [INV_CONSTF_CACHE, FLUSH_COND_OUT_CACHE] {
        assert_eq!(pair().feed(Party::One, &[header, 0]).refusal, None);
    }
}

#[test]
fn a_mask_changes_the_bits_of_ones_own_outputs() {
    let mut pair = pair();
    assert_eq!(pair.word(Party::One, SET_OUT_MASK), Ok(Reply::Open));
    // The command keeps its word whole, so that it writes back.
    let command = Command {
        header: SET_OUT_MASK,
        fields: [0x1234, 0, 0, 0],
    };
    assert_eq!(pair.word(Party::One, 0x1234), Ok(Reply::Done(command)));
    assert_eq!(pair.view(Party::Zero).output_mask(), 0x1F3F);
    assert_eq!(pair.feed(Party::Zero, &[SET_OUT_MASK, 0]).refusal, None);
    assert_eq!(pair.view(Party::One).output_mask(), 0x1030);
    // Reserved bits get 3 as ever.
    assert_eq!(
        pair.feed(Party::One, &[SET_OUT_MASK, 0x1_0000]).refusal,
        Some(Refusal::Malformed)
    );
    assert_eq!(pair.view(Party::Zero).output_mask(), 0x1030);
}

#[test]
fn a_start_looks_at_ones_own_outputs() {
    let mut pair = pair();
    let feed = |pair: &mut Pair, party, words: &[u32]| pair.feed(party, words).refusal;
    // Party 0's output is no output of party 1's, and party 1's lies over it.
    assert_eq!(feed(&mut pair, Party::Zero, &output(0, 0)), None);
    assert_eq!(feed(&mut pair, Party::One, &READY), None);
    assert_eq!(pair.view(Party::One).status().readiness, 7);
    assert_eq!(feed(&mut pair, Party::One, &output(3, 0)), None);
    assert_eq!(pair.view(Party::One).status().readiness, 0);
    assert_eq!(feed(&mut pair, Party::One, &[START_PROGRAM, 0]), None);
    let counts = |pair: &Pair, party| (pair.view(party).runs(), pair.view(party).claims());
    assert_eq!(counts(&pair, Party::One), (1, 15));
    assert_eq!(counts(&pair, Party::Zero), (0, 0));
    // 7 for party 0, which has set no domain; this stops it alone.
    assert_eq!(pair.view(Party::Zero).domain(), None);
    assert_eq!(
        feed(&mut pair, Party::Zero, &[START_PROGRAM, 0]),
        Some(Refusal::StartUnset)
    );
    assert_eq!(feed(&mut pair, Party::One, &[START_PROGRAM, 0]), None);
    assert_eq!(counts(&pair, Party::One), (2, 30));
}

#[test]
fn a_piece_runs_on_past_a_refused_word() {
    let zero = [&READY[..], &output(0, 0), &[START_PROGRAM, 0]].concat();
    let one = [&[7][..], &READY, &output(1, 0), &[START_PROGRAM, 0]].concat();
    let words: Vec<(Party, u32)> = (0..one.len())
        .flat_map(|place| {
            let zero = zero.get(place).map(|word| (Party::Zero, *word));
            [Some((Party::One, one[place])), zero]
        })
        .flatten()
        .collect();
    let numbers: Vec<u32> = words.iter().map(|(_, word)| *word).collect();
    let parties = Party::packed(words.iter().map(|(party, _)| *party));
    assert_eq!(parties, [0x5555_5555 & ((1 << 31) - 1)]);
    let mut session = pair();
    let told = session.feed_both(&numbers, &parties);
    let zeros = Fed {
        taken: 15,
        commands: 4,
        refusal: None,
    };
    let ones = Fed {
        taken: 0,
        commands: 0,
        refusal: Some(Refusal::UnknownHeader),
    };
    assert_eq!(told, Ok([zeros, ones]));
    // In a later piece a stopped party gets 1, where it has a word there.
    let later = session.feed_both(&[0, 0], &[0b10]).expect("one group");
    assert_eq!(later[1].refusal, Some(Refusal::Stopped));
    let alone = session.feed_both(&[START_PROGRAM], &[0]);
    assert_eq!(alone.expect("one group")[1].refusal, None);
    // 11 for a wrong number of groups, and nothing is taken.
    let before = session.clone();
    for (length, groups) in [(0, 1), (1, 0), (1, 2), (32, 0), (32, 2), (33, 1), (33, 3)] {
        let told = session.feed_both(&vec![0; length], &vec![0; groups]);
        assert_eq!(told, Err(Refusal::WrongLength), "{length} {groups}");
        assert_eq!(session, before);
    }
}
