//! Document 02, request 12, "Conditional output tests", asked through the safe
//! functions: single tests, surveys, their refusals and what they leave alone.

use egretfold::headers::{SET_COND_OUT_FMT, SET_COND_TEST, SET_DOMAIN};
use egretfold::{lent, Edition, Refusal, Session};

/// UINT16_1, linear, E 16, H 4: 128 bytes from 2,048 on.
const ROWS: [u32; 4] = [SET_COND_OUT_FMT, BASE, 16, 4];
const BASE: u32 = 2048;
/// The whole window.
const ALL: [u32; 4] = [0, 0, 15, 3];
const PAIRS: usize = 64;

fn fed(words: &[u32]) -> Session {
    let mut session = Session::new(Edition::First);
    assert_eq!(session.feed(words).refusal, None, "{words:X?}");
    session
}

/// A session with a buffer and a test.
fn unit(buffer: [u32; 4], test: u32) -> Session {
    fed(&[&buffer[..], &[SET_COND_TEST, test]].concat())
}

/// Pair (x, y) holds 300 y + x.
fn memory() -> Vec<u8> {
    let held = |y: u16| (0..16).map(move |x| 300 * y + x);
    (0..4).flat_map(held).flat_map(u16::to_le_bytes).collect()
}

#[test]
fn each_test_lets_less_equal_or_greater_pass() {
    // Whether v passes where it is less than, equal to and greater than b.
    let lines = [
        [false, false, false],
        [true, false, false],
        [true, true, false],
        [false, true, false],
        [false, true, true],
        [false, false, true],
        [true, false, true],
        [true, true, true],
    ];
    // b is 302 at (2, 1), low byte first.
    for (test, line) in (0..).zip(lines) {
        let session = unit(ROWS, test);
        for (value, passes) in [301, 302, 303].into_iter().zip(line) {
            let answer = session.conditional_test(value, 2, 1, &memory(), BASE);
            assert_eq!(answer, Ok(passes), "{value} under test {test}");
        }
        // v has 32 bits, b has 16.
        let answer = session.conditional_test(0x1_0000 + 302, 2, 1, &memory(), BASE);
        assert_eq!(answer, Ok(line[2]), "test {test}");
    }
}

#[test]
fn a_survey_is_its_single_tests_row_by_row() {
    let tiled = [SET_COND_OUT_FMT, BASE, 0x0001_0020, 8];
    let bytes: Vec<u8> = (0..2048).map(|place| (place * 7 % 251) as u8).collect();
    for buffer in [ROWS, tiled] {
        for test in 0..8 {
            let session = unit(buffer, test);
            for domain in [ALL, [3, 1, 9, 2], [5, 0, 5, 3], [2, 2, 2, 2]] {
                let [i0, j0, i1, j1] = domain;
                let pairs = (j0..=j1).flat_map(|j| (i0..=i1).map(move |i| (i, j)));
                let single = |(i, j)| session.conditional_test(0x7000, i, j, &bytes, BASE);
                let wanted: Vec<u8> = pairs.map(|pair| u8::from(single(pair).unwrap())).collect();
                let mut room = vec![7; wanted.len()];
                let answer = session.survey(0x7000, domain, &bytes, BASE, &mut room);
                let passed = wanted.iter().map(|byte| u32::from(*byte)).sum();
                assert_eq!((answer, room), (Ok(passed), wanted), "{domain:?}");
            }
        }
    }
}

#[test]
fn a_test_and_its_opposite_split_the_pairs() {
    for (one, other) in [(1, 4), (2, 5), (3, 6), (0, 7)] {
        for value in [0, 302, 905, 70_000] {
            let survey = |test| {
                let mut room = [7; PAIRS];
                let passed = unit(ROWS, test).survey(value, ALL, &memory(), BASE, &mut room);
                (passed.unwrap(), room)
            };
            let ((a, first), (b, second)) = (survey(one), survey(other));
            assert_eq!(a + b, PAIRS as u32);
            assert!(first.iter().zip(&second).all(|(x, y)| x + y == 1));
        }
    }
}

/// The survey gets this number, and touches neither room.
fn refused(session: &Session, domain: [u32; 4], memory: &[u8], first: u32, room: usize, want: u32) {
    let mut bytes = vec![7; room];
    let mut passed = [99];
    let got = lent::conditional_survey(session, 3, domain, memory, first, &mut bytes, &mut passed);
    assert_eq!((got, passed), (want, [99]), "{domain:?}");
    assert_eq!(bytes, vec![7; room]);
}

#[test]
fn the_order_is_7_3_5_10_11() {
    let float = [SET_COND_OUT_FMT, BASE, 0x0200_0010, 4];
    let (crossed, outside) = ([1, 0, 0, 9], [0, 0, 16, 0]);
    for lacking in [fed(&[]), fed(&float), fed(&[SET_COND_TEST, 7])] {
        refused(&lacking, crossed, &[], 0, 3, 7);
        assert_eq!(
            lacking.conditional_test(3, 99, 99, &[], 0),
            Err(Refusal::StartUnset)
        );
    }
    for code in 1..5 {
        let other = unit([SET_COND_OUT_FMT, BASE, code << 24 | 0x20, 4], 7);
        refused(&other, crossed, &[], 0, 3, 3);
        assert_eq!(
            other.conditional_test(3, 99, 99, &[], 0),
            Err(Refusal::Malformed)
        );
    }
    let session = unit(ROWS, 7);
    refused(&session, [1, 0, 0, 9], &[], 0, 3, 5);
    refused(&session, [0, 9, 99, 8], &[], 0, 3, 5);
    refused(&session, [u32::MAX, 0, 0, 0], &[], 0, 3, 5);
    for domain in [outside, [0, 0, 0, 4], [u32::MAX; 4], [0, 0, 4096, 0]] {
        refused(&session, domain, &[], 0, 3, 10);
        refused(&session, domain, &vec![0; 65_537], 0, 3, 10);
    }
    assert_eq!(
        session.conditional_test(3, 16, 0, &[], 0),
        Err(Refusal::PairOutside)
    );
    refused(&session, ALL, &memory(), BASE, PAIRS - 1, 11);
    refused(&session, ALL, &memory(), BASE, PAIRS + 1, 11);
    refused(&session, ALL, &memory()[..127], BASE, PAIRS, 11);
    refused(&session, ALL, &memory(), BASE + 1, PAIRS, 11);
    refused(&session, ALL, &vec![0; 65_537], 0, PAIRS, 11);
    refused(&session, ALL, &memory(), u32::MAX - 126, PAIRS, 11);
    // Never and always read the buffer too.
    for test in [0, 7] {
        let none = unit(ROWS, test).conditional_test(3, 0, 0, &[], BASE);
        assert_eq!(none, Err(Refusal::WrongLength), "test {test}");
    }
}

#[test]
fn only_the_elements_that_are_asked_must_be_lent() {
    // (2, 1) to (5, 1) stand from 2,048 + 36 on.
    let mut room = [7; 4];
    let part = &memory()[36..44];
    let answer = unit(ROWS, 3).survey(303, [2, 1, 5, 1], part, BASE + 36, &mut room);
    assert_eq!((answer, room), (Ok(1), [0, 1, 0, 0]));
}

#[test]
fn a_stopped_session_is_asked_all_the_same_and_stays() {
    let mut session = unit(ROWS, 2);
    session.feed(&[SET_DOMAIN, 0]);
    let open = session.clone();
    assert_eq!(session.word(u32::MAX), Err(Refusal::Malformed));
    assert!(session.status().stopped);
    for session in [open, session] {
        let before = session.clone();
        let mut room = [7; PAIRS];
        let answer = session.survey(302, ALL, &memory(), BASE, &mut room);
        assert_eq!(answer, Ok(14 + 32));
        assert_eq!(
            session.conditional_test(0, 16, 0, &[], 0),
            Err(Refusal::PairOutside)
        );
        assert_eq!(session, before);
    }
}
