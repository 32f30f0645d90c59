//! Request 6: the number that the session stores of what the settings alone give a start.

use egretfold::headers::{
    SET_DOMAIN, SET_INP_FMT, SET_INST_FMT, SET_OUT_FMT, SET_OUT_MASK, START_PROGRAM, WAIT_FOR_IDLE,
};
use egretfold::{Edition, Refusal, Session};

/// UINT8_4, tiled, pitch 96: 32 columns a tile, 4 bytes an element.
const FORMAT: u32 = 0x0101_0060;
const INSTRUCTIONS: [u32; 3] = [SET_INST_FMT, 0x1000, 0x0400_0010];
/// Pairs (0, 0) to (95, 15).
const DOMAIN: [u32; 5] = [SET_DOMAIN, 0, 0, 95, 15];

fn output(number: u32, base: u32) -> [u32; 5] {
    [SET_OUT_FMT, number, base, FORMAT, 16]
}

fn fed(session: &mut Session, words: &[u32]) -> u32 {
    assert_eq!(session.feed(words).refusal, None, "{words:X?}");
    session.status().readiness
}

fn ready() -> Session {
    let mut session = Session::new(Edition::First);
    fed(&mut session, &INSTRUCTIONS);
    fed(&mut session, &output(0, 0));
    assert_eq!(fed(&mut session, &DOMAIN), 0);
    session
}

#[test]
fn the_stored_number_follows_the_settings() {
    let mut session = Session::new(Edition::First);
    assert_eq!(session.status().readiness, 7, "nothing is set");
    assert_eq!(fed(&mut session, &output(0, 0)), 7);
    assert_eq!(fed(&mut session, &DOMAIN), 7);
    assert_eq!(fed(&mut session, &INSTRUCTIONS), 0, "all three are set");
    assert_eq!(fed(&mut session, &[SET_DOMAIN, 0, 0, 96, 15]), 8);
    assert_eq!(fed(&mut session, &[SET_DOMAIN, 0, 0, 95, 16]), 8);
    assert_eq!(fed(&mut session, &DOMAIN), 0);
    // 96 columns by 16 rows of 4 bytes: 6,144 bytes from 0 on
    assert_eq!(fed(&mut session, &output(1, 0x1000)), 9);
    assert_eq!(fed(&mut session, &[SET_OUT_MASK, 0xFF0F]), 0, "1 is silent");
    assert_eq!(fed(&mut session, &[SET_OUT_MASK, 0xFFF0]), 0, "0 is silent");
    assert_eq!(fed(&mut session, &[SET_OUT_MASK, 0xFFFF]), 9);
    assert_eq!(fed(&mut session, &output(1, 0x1800)), 0, "it moved");
    // 8 comes before 9
    fed(&mut session, &output(1, 0x1000));
    assert_eq!(fed(&mut session, &[SET_DOMAIN, 0, 0, 96, 15]), 8);
    assert_eq!(fed(&mut session, &[SET_OUT_MASK, 0]), 0, "all are silent");
}

#[test]
fn an_open_command_sets_nothing_yet() {
    let mut session = ready();
    let outside = [SET_DOMAIN, 0, 0, 4095, 0];
    for (place, word) in outside.iter().enumerate() {
        assert_eq!(session.status().readiness, 0, "before word {place}");
        assert_eq!(session.feed(&[*word]).refusal, None);
    }
    assert_eq!(session.status().readiness, 8);
}

#[test]
fn other_commands_leave_it() {
    let mut session = ready();
    assert_eq!(fed(&mut session, &[START_PROGRAM, 0]), 0);
    assert_eq!(fed(&mut session, &[WAIT_FOR_IDLE, 0]), 0);
    assert_eq!(fed(&mut session, &[SET_INP_FMT, 3, 0, FORMAT, 16]), 0);
}

#[test]
fn a_stop_leaves_it() {
    for refused in [
        vec![0],
        vec![SET_DOMAIN, 2, 0, 1, 0],
        vec![SET_OUT_MASK, 0x10000],
    ] {
        let mut session = ready();
        assert!(session.feed(&refused).refusal.is_some());
        let status = session.status();
        assert!(status.stopped);
        assert_eq!(status.readiness, 0, "after {refused:X?}");
    }
}

#[test]
fn a_start_gets_the_stored_number_after_1_and_3() {
    let mut session = Session::new(Edition::First);
    assert_eq!(
        session.feed(&[START_PROGRAM, 1]).refusal,
        Some(Refusal::Malformed)
    );
    assert_eq!(
        session.feed(&[START_PROGRAM, 0]).refusal,
        Some(Refusal::Stopped)
    );
    assert_eq!(session.status().readiness, 7);
    for (words, number) in [
        (vec![], 7),
        (
            [&INSTRUCTIONS[..], &output(0, 0), &[SET_DOMAIN, 0, 0, 0, 16]].concat(),
            8,
        ),
        (
            [&INSTRUCTIONS[..], &output(0, 0), &output(3, 0), &DOMAIN].concat(),
            9,
        ),
    ] {
        let mut session = Session::new(Edition::First);
        assert_eq!(fed(&mut session, &words), number);
        let refusal = session.feed(&[START_PROGRAM, 0]).refusal;
        assert_eq!(refusal.map(u32::from), Some(number));
        assert_eq!(session.status().readiness, number, "after the stop");
    }
}
