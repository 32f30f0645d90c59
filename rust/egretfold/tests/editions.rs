//! Document 02, request 10, "Lease rule, second edition", asked through the safe
//! functions: what each edition credits for each format code under each nibble of the
//! mask, which numbers are editions, and what stays the same in both.

use egretfold::headers::{SET_DOMAIN, SET_INST_FMT, SET_OUT_FMT, SET_OUT_MASK, START_PROGRAM};
use egretfold::{lent, Edition, Lease, Refusal, Replay, Session, Verdict};

const BOTH: [Edition; 2] = [Edition::First, Edition::Second];

/// Numbers that no edition has.
const NONE: [u32; 6] = [0, 3, 4, 257, 1 << 31 | 2, u32::MAX];

/// The channels of UINT16_1, UINT8_4, FLOAT32_1, FLOAT32_2 and FLOAT32_4.
const CHANNELS: [u32; 5] = [1, 4, 1, 2, 4];

/// The instruction format, and a domain of 5 x 3 pairs.
const READY: [u32; 8] = [SET_INST_FMT, 0x1000, 0x400_0010, SET_DOMAIN, 3, 1, 7, 3];

/// Output `number` at this base, linear, with a window of 32 x 4 elements.
fn output(number: u32, base: u32, code: u32) -> [u32; 5] {
    [SET_OUT_FMT, number, base, code << 24 | 0x20, 4]
}

fn fed(edition: Edition, words: &[u32]) -> Session {
    let mut session = Session::new(edition);
    assert_eq!(session.feed(words).refusal, None, "{words:X?}");
    session
}

/// What one start claims, in a piece and word by word.
fn claims(edition: Edition, mask: u32, outputs: &[[u32; 5]]) -> u64 {
    let words = [
        &[SET_OUT_MASK, mask],
        &outputs.concat()[..],
        &READY,
        &[START_PROGRAM, 0],
    ]
    .concat();
    let whole = fed(edition, &words);
    let mut by_words = Session::new(edition);
    assert!(words.iter().all(|word| by_words.word(*word).is_ok()));
    assert_eq!(by_words, whole, "{words:X?}");
    assert_eq!((whole.runs(), whole.status().edition), (1, edition));
    whole.claims()
}

#[test]
fn another_edition_gets_3_and_nothing_is_touched() {
    let words = [&READY[..], &output(0, 0, 4), &[START_PROGRAM]].concat();
    let session = fed(Edition::Second, &words);
    let mut replay = Replay::new(Edition::Second);
    replay.feed(&[2, 1, 0, 0, 0, 1, 7]);
    for number in NONE {
        assert_eq!(Edition::of(number), Err(Refusal::Malformed), "{number}");
        assert_eq!(lent::session_begin(number), Err(Refusal::Malformed));
        assert_eq!(lent::log_begin(number), Err(Refusal::Malformed));
        let mut arrays = session.clone();
        assert_eq!(lent::session_begin_anew(&mut arrays, number), 3);
        assert_eq!(arrays, session);
        let mut arrays = replay.clone();
        assert_eq!(lent::log_begin_anew(&mut arrays, number), 3);
        assert_eq!(arrays, replay);
        // Before 21.
        for line in [(0, 1, 0), (0, 0, 0), (u32::MAX, 2, 100_000_001)] {
            assert_eq!(lent::score_lease(number, line), 3, "{line:?}");
        }
    }
    for edition in BOTH {
        assert_eq!(Edition::of(edition.number()), Ok(edition));
        assert_eq!(lent::score_lease(edition.number(), (0, 0, 0)), 21);
        assert_eq!(Session::new(edition).status().edition, edition);
        assert_eq!(Replay::new(edition).session(), &Session::new(edition));
        let mut arrays = session.clone();
        assert_eq!(lent::session_begin_anew(&mut arrays, edition.number()), 0);
        assert_eq!(arrays, Session::new(edition));
    }
}

#[test]
fn each_format_code_with_each_nibble_at_each_output() {
    for (code, channels) in (0..).zip(CHANNELS) {
        for nibble in 0..16u32 {
            let unmasked = (nibble % (1 << channels)).count_ones();
            for number in 0..4 {
                let only = [output(number, 0, code)];
                // What the mask has for the others doesn't matter.
                let at = nibble << (4 * number);
                for mask in [at, at | 0xFFFF ^ 0xF << (4 * number)] {
                    let asked = format!("code {code}, output {number}, mask {mask:04X}");
                    let first = 15 * u64::from(unmasked > 0);
                    let second = 15 * u64::from(unmasked);
                    assert_eq!(claims(Edition::First, mask, &only), first, "{asked}");
                    assert_eq!(claims(Edition::Second, mask, &only), second, "{asked}");
                }
            }
        }
    }
}

#[test]
fn credits_are_summed_over_the_outputs() {
    // UINT8_4, FLOAT32_2, FLOAT32_1 and FLOAT32_4, apart.
    let four = [
        output(0, 0, 1),
        output(1, 0x1000, 3),
        output(2, 0x2000, 2),
        output(3, 0x3000, 4),
    ];
    for (mask, first, second) in [
        (0xFFFF, 4, 11),
        (0x0000, 0, 0),
        (0x1111, 4, 4),
        (0xEEEE, 3, 3 + 1 + 3),
        (0xF0F3, 3, 2 + 2 + 4),
        (0x8EC5, 2, 2 + 1),
    ] {
        assert_eq!(claims(Edition::First, mask, &four), 15 * first, "{mask:X}");
        assert_eq!(
            claims(Edition::Second, mask, &four),
            15 * second,
            "{mask:X}"
        );
    }
}

#[test]
fn the_greatest_claim_of_a_start() {
    let mut words = vec![SET_INST_FMT, 0, 0x20];
    for number in 0..4 {
        words.extend([SET_OUT_FMT, number, number << 28, 0x0400_1000, 4096]);
    }
    words.extend([SET_DOMAIN, 0, 0, 4095, 4095, START_PROGRAM, 0]);
    assert_eq!(fed(Edition::First, &words).claims(), 67_108_864);
    assert_eq!(fed(Edition::Second, &words).claims(), 268_435_456);
}

#[test]
fn silent_outputs_are_passed_over_in_both() {
    // Output 1 lies over output 0 and is too low for the domain; FLOAT32_2 has no channels 2 and 3.
    let over = [SET_OUT_FMT, 1, 0, 0x0300_0020, 1];
    let words = [&READY[..], &output(0, 0, 4), &over].concat();
    let outside = Some(Refusal::DomainOutside);
    for (mask, refusal) in [(0xFFFF, outside), (0xFFCF, None), (0xFFDF, outside)] {
        for edition in BOTH {
            let mut session = fed(edition, &words);
            let fed = session.feed(&[SET_OUT_MASK, mask, START_PROGRAM, 0]);
            assert_eq!(fed.refusal, refusal, "{mask:X} {edition:?}");
        }
    }
}

/// A record of a log.
fn record(kind: u8, number: u32) -> Vec<u8> {
    [&[kind][..], &number.to_le_bytes()].concat()
}

#[test]
fn a_month_by_the_replays_edition() {
    let log = |mask| {
        let words = [&READY[..], &output(0, 0, 4), &[SET_OUT_MASK, mask]].concat();
        let mut log: Vec<u8> = words.iter().flat_map(|word| record(1, *word)).collect();
        log.extend(record(2, 7));
        log.extend([START_PROGRAM, 0].iter().flat_map(|word| record(1, *word)));
        log
    };
    let lease = Lease::new(7, 1, 40).expect("a lease line");
    for (mask, edition, claimed, verdict) in [
        (0xFFFF, Edition::First, 15, Verdict::Short),
        (0xFFFF, Edition::Second, 60, Verdict::Full),
        (0xFFFE, Edition::First, 15, Verdict::Short),
        (0xFFFE, Edition::Second, 45, Verdict::Full),
        (0xFFF3, Edition::Second, 30, Verdict::Short),
        (0xFFF0, Edition::First, 0, Verdict::Short),
        (0xFFF0, Edition::Second, 0, Verdict::Short),
    ] {
        let mut replay = Replay::new(edition);
        assert_eq!(replay.feed(&log(mask)).refusal, None);
        let month = replay.score(&lease).expect("a month");
        assert_eq!(month.days[0].claimed, claimed, "{mask:X} {edition:?}");
        assert_eq!((month.served, month.verdict), (claimed.min(40), verdict));
    }
}
