//! States kept as bytes: they come back as they were, and nothing else does.

use egretfold::headers::{SET_DOMAIN, SET_INST_FMT, SET_OUT_FMT, START_PROGRAM, WAIT_FOR_IDLE};
use egretfold::*;

/// Document 01's whole stream.
#[rustfmt::skip]
const WHOLE: [u32; 15] = [
    SET_INST_FMT, 0x1000, 0x0400_0010,
    SET_OUT_FMT, 0, 0x800, 0x0201_0064, 18,
    SET_DOMAIN, 0, 0, 95, 17,
    START_PROGRAM, 0,
];

const OWNERS: Owners = Owners {
    inputs: 0x8001,
    outputs: 0xA,
};

fn record(kind: u8, number: u32) -> Vec<u8> {
    [&[kind][..], &number.to_le_bytes()].concat()
}

/// A log of the whole stream and three days.
fn log() -> Vec<u8> {
    let words = WHOLE.iter().map(|word| record(1, *word));
    let days = (7..10).map(|day| [record(2, day), record(1, START_PROGRAM), record(1, 0)].concat());
    words.chain(days).flatten().collect()
}

#[test]
fn a_session_comes_back_at_every_word() {
    for edition in [Edition::First, Edition::Second] {
        for cut in 0..=WHOLE.len() {
            let mut session = Session::new(edition);
            session.feed(&WHOLE[..cut]);
            let bytes = session.to_bytes();
            assert_eq!(bytes.len(), Session::BYTES);
            let mut again = Session::from_bytes(&bytes).expect("a session's bytes");
            assert_eq!(again, session);
            assert_eq!(again.feed(&WHOLE[cut..]), session.feed(&WHOLE[cut..]));
            assert_eq!(again.claims(), session.claims());
            assert_eq!(again.status().edition, edition);
        }
    }
}

#[test]
fn a_replay_comes_back_at_every_byte() {
    let log = log();
    let mut whole = Replay::new(Edition::First);
    whole.feed(&log);
    for cut in 0..=log.len() {
        let mut replay = Replay::new(Edition::First);
        replay.feed(&log[..cut]);
        let bytes = replay.to_bytes();
        assert_eq!(bytes.len(), Replay::BYTES);
        let mut again = Replay::from_bytes(&bytes).expect("a replay's bytes");
        assert_eq!(again, replay);
        again.feed(&log[cut..]);
        assert_eq!(again, whole, "cut at {cut}");
        assert!(again.days().eq(whole.days()));
    }
}

#[test]
fn a_pair_comes_back_with_its_owners() {
    let mut pair = Pair::new(Edition::Second, OWNERS).expect("owners of what there is");
    for word in WHOLE {
        let _ = pair.word(Party::Zero, word);
        let _ = pair.word(Party::One, word);
        let again = Pair::from_bytes(&pair.to_bytes()).expect("a pair's bytes");
        assert_eq!(again, pair);
        assert_eq!(again.owners(), OWNERS);
    }
    // Party 1 was refused output 0, and party 0 has run.
    assert_eq!(pair.view(Party::Zero).runs(), 1);
    assert!(pair.view(Party::One).status().stopped);
}

#[test]
fn a_group_comes_back_at_every_step() {
    // A call, a branch with two sides and a return, as samples/branch.hex has it.
    let program = Program::load(&[
        0xFF80,
        0x7_0000,
        0x0200_F000,
        0x3_0000,
        0x20,
        0,
        0x10,
        0x5_0000,
        0x20,
        0,
        0x0101_0020,
        0,
        0xFF00,
        0x9_0000,
        0x20,
        0,
        0xFF40,
        0,
    ]);
    let program = program.expect("a program");
    let mut group = Group::begin(8).expect("a group");
    let mut steps = 0;
    while group.step(&program, 0x0F, 0, 0, &[]).is_ok() {
        let again = Group::from_bytes(&group.to_bytes()).expect("a group's bytes");
        assert_eq!(again, group);
        steps += 1;
    }
    assert_eq!(steps, 9);
    assert_eq!(group.to_bytes().len(), Group::BYTES);
}

/// Bytes of another length, all zeros, all ones, and another kind's.
#[test]
fn other_bytes_are_none() {
    let session = Session::new(Edition::First).to_bytes();
    let replay = Replay::new(Edition::First).to_bytes();
    for bytes in [&session, &replay] {
        for other in [&bytes[1..], &[&bytes[..], &[0]].concat(), &[]] {
            assert_eq!(Session::from_bytes(other), None);
            assert_eq!(Pair::from_bytes(other), None);
            assert_eq!(Replay::from_bytes(other), None);
            assert_eq!(Group::from_bytes(other), None);
        }
    }
    for byte in [0, 255] {
        assert_eq!(Session::from_bytes(&[byte; Session::BYTES]), None);
        assert_eq!(Pair::from_bytes(&[byte; Pair::BYTES]), None);
        assert_eq!(Replay::from_bytes(&[byte; Replay::BYTES]), None);
        assert_eq!(Group::from_bytes(&[byte; Group::BYTES]), None);
    }
    assert_eq!(Replay::from_bytes(&session), None);
    assert_eq!(Session::from_bytes(&replay), None);
}

/// Both parties of a pair pass the library's check, since its entries take either; as a session of its own, which
/// owns everything, neither does.
#[test]
fn a_party_of_a_pair_is_no_session() {
    let pair = Pair::new(Edition::First, OWNERS)
        .expect("owners of what there is")
        .to_bytes();
    let party = Session::BYTES - 4 * egretfold::lengths::SHARED;
    let shared = &pair[2 * party..];
    for place in [0, party] {
        let bytes = [&pair[place..place + party], shared].concat();
        assert_eq!(Session::from_bytes(&bytes), None);
    }
    let all = Owners {
        inputs: 0,
        outputs: 0,
    };
    let pair = Pair::new(Edition::First, all)
        .expect("owners of what there is")
        .to_bytes();
    let bytes = [&pair[..party], &pair[2 * party..]].concat();
    assert_eq!(
        Session::from_bytes(&bytes),
        Some(Session::new(Edition::First))
    );
}

/// No bytes make a call panic: every bit of states along their way is flipped, and what is taken is asked all there is.
#[test]
fn flipped_bits_make_no_call_panic() {
    let log = log();
    let mut taken = 0;
    for cut in [0, 33, 77, log.len()] {
        let mut replay = Replay::new(Edition::Second);
        replay.feed(&log[..cut]);
        let mut bytes = replay.to_bytes();
        for place in 0..8 * bytes.len() {
            bytes[place / 8] ^= 1 << (place % 8);
            if let Some(mut other) = Replay::from_bytes(&bytes) {
                taken += 1;
                let status = other.status();
                assert!(other.days().count() as u32 == status.midnights);
                let _ = other.session().view().status();
                let lease = Lease::new(7, 3, 1_728).expect("a lease line");
                let _ = other.score(&lease);
                other.feed(&log);
                let _ = other.status();
            }
            bytes[place / 8] ^= 1 << (place % 8);
        }
    }
    assert!(taken > 100, "{taken}");
}

#[test]
fn a_refused_word_has_a_number_that_is_known() {
    let mut replay = Replay::new(Edition::First);
    replay.feed(&[record(1, WAIT_FOR_IDLE), record(1, 0), record(1, 9)].concat());
    let bytes = replay.to_bytes();
    assert_eq!(
        replay.status().refused.map(|word| word.refusal),
        Some(Refusal::UnknownHeader)
    );
    // The replay's second number is the refusal's.
    for number in 0..=255 {
        let mut bytes = bytes.clone();
        bytes[4] = number;
        if let Some(other) = Replay::from_bytes(&bytes) {
            let refused = other.status().refused.map(|word| word.refusal.number());
            assert_eq!(refused.unwrap_or(0), u32::from(number));
        }
    }
}
