//! Document 02, request 2, "A masked camera is a silent camera", asked through the
//! safe functions: a worked case for each format code with each nibble of the mask,
//! and what a start makes of silent outputs.

use egretfold::headers::{SET_DOMAIN, SET_INST_FMT, SET_OUT_FMT, SET_OUT_MASK, START_PROGRAM};
use egretfold::{Edition, Part, Refusal, Replay, Session};

/// For each format code the nibbles under which its output is silent.
const SILENT: [&[u32]; 5] = [
    // UINT16_1 has channel 0
    &[0x0, 0x2, 0x4, 0x6, 0x8, 0xA, 0xC, 0xE],
    // UINT8_4 has all four
    &[0x0],
    // FLOAT32_1 has channel 0
    &[0x0, 0x2, 0x4, 0x6, 0x8, 0xA, 0xC, 0xE],
    // FLOAT32_2 has channels 0 and 1
    &[0x0, 0x4, 0x8, 0xC],
    // FLOAT32_4 has all four
    &[0x0],
];

/// The instruction format, and a domain of 5 x 3 pairs.
const READY: [u32; 8] = [SET_INST_FMT, 0x1000, 0x400_0010, SET_DOMAIN, 3, 1, 7, 3];

/// Output `number` at this base, linear, with a window of 32 x 4 elements.
fn output(number: u32, base: u32, code: u32) -> [u32; 5] {
    [SET_OUT_FMT, number, base, code << 24 | 0x20, 4]
}

/// The mask, the outputs, all else that a start needs, and the start.
fn stream(mask: u32, outputs: &[[u32; 5]]) -> Vec<u32> {
    let outputs = outputs.concat();
    [
        &[SET_OUT_MASK, mask],
        &outputs[..],
        &READY,
        &[START_PROGRAM, 0],
    ]
    .concat()
}

/// What the start comes to: its runs and claims, or its refusal. A piece and its
/// words one by one must come to the same session.
fn started(words: &[u32]) -> Result<(u64, u64), Refusal> {
    let mut whole = Session::new(Edition::First);
    let fed = whole.feed(words);
    let mut by_words = Session::new(Edition::First);
    let answers: Vec<_> = words.iter().map(|word| by_words.word(*word)).collect();
    assert_eq!(by_words, whole, "{words:X?}");
    let (last, before) = answers.split_last().expect("the start's last word");
    assert!(before.iter().all(Result::is_ok), "{words:X?}");
    assert_eq!(last.err(), fed.refusal);
    match fed.refusal {
        Some(refusal) => Err(refusal),
        None => Ok((whole.runs(), whole.claims())),
    }
}

#[test]
fn each_format_code_with_each_nibble_at_each_output() {
    for (code, silent) in (0..).zip(SILENT) {
        for nibble in 0..16 {
            let claims = if silent.contains(&nibble) { 0 } else { 15 };
            for number in 0..4 {
                let mask = nibble << (4 * number);
                // What the mask has for the other outputs doesn't matter.
                for others in [0, 0xFFFF ^ 0xF << (4 * number)] {
                    let words = stream(mask | others, &[output(number, 0, code)]);
                    let asked = format!("code {code}, mask {:04X}, output {number}", mask | others);
                    assert_eq!(started(&words), Ok((1, claims)), "{asked}");
                }
            }
        }
    }
}

#[test]
fn every_choice_of_four_outputs_is_claimed() {
    // UINT8_4 has all four channels; the last one is enough.
    let four: Vec<[u32; 5]> = (0..4).map(|n| output(n, 0x800 * n, 1)).collect();
    for choice in 0..16u32 {
        let mask: u32 = (0..4).map(|n| (choice >> n & 1) << (4 * n + 3)).sum();
        let claims = 15 * u64::from(choice.count_ones());
        assert_eq!(started(&stream(mask, &four)), Ok((1, claims)), "{mask:04X}");
    }
}

#[test]
fn silent_outputs_are_passed_over_in_8_and_9() {
    let float = output(0, 0, 2);
    // Over the first one's bytes.
    let over = output(1, 0, 2);
    assert_eq!(
        started(&stream(0x0011, &[float, over])),
        Err(Refusal::SpansShared)
    );
    assert_eq!(started(&stream(0x00E1, &[float, over])), Ok((1, 15)));
    assert_eq!(started(&stream(0x00EE, &[float, over])), Ok((1, 0)));
    // Too low for the domain.
    let low = [SET_OUT_FMT, 2, 0x800, 0x0300_0020, 3];
    assert_eq!(
        started(&stream(0x0201, &[float, low])),
        Err(Refusal::DomainOutside)
    );
    assert_eq!(started(&stream(0x0C01, &[float, low])), Ok((1, 15)));
    assert_eq!(started(&stream(0x0C00, &[float, low])), Ok((1, 0)));
    // 8 and 9 of those that count, in their order.
    let low_over = [SET_OUT_FMT, 3, 0, 0x0200_0020, 3];
    let all = [float, over, low_over];
    assert_eq!(started(&stream(0x1011, &all)), Err(Refusal::DomainOutside));
    assert_eq!(started(&stream(0x0011, &all)), Err(Refusal::SpansShared));
    assert_eq!(started(&stream(0x0010, &all)), Ok((1, 15)));
}

#[test]
fn refusal_7_is_as_before() {
    for mask in [0, 0xFFFF] {
        assert_eq!(started(&stream(mask, &[])), Err(Refusal::StartUnset));
        let silent = [&[SET_OUT_MASK, mask], &output(0, 0, 1)[..]].concat();
        let start = [START_PROGRAM, 0];
        assert_eq!(
            started(&[&silent[..], &start].concat()),
            Err(Refusal::StartUnset)
        );
        for missing in [&READY[..3], &READY[3..]] {
            assert_eq!(
                started(&[&silent, missing, &start].concat()),
                Err(Refusal::StartUnset)
            );
        }
    }
}

#[test]
fn the_mask_at_the_starts_last_word_counts() {
    let mut session = Session::new(Edition::First);
    let set_up = [&output(1, 0, 2)[..], &READY].concat();
    assert_eq!(session.feed(&set_up).refusal, None);
    let masks = [(0xFFFF, 15), (0xFF0F, 15), (0xFFEF, 15), (0x0010, 30)];
    for (runs, (mask, claims)) in (1..).zip(masks) {
        let earlier = session.claims();
        assert_eq!(
            session.feed(&[SET_OUT_MASK, mask, START_PROGRAM]).refusal,
            None
        );
        assert_eq!(session.claims(), earlier);
        assert!(session.word(0).is_ok());
        assert_eq!((session.runs(), session.claims()), (runs, claims));
    }
}

#[test]
fn a_camera_masked_for_a_day_has_runs_and_no_elements() {
    let words = |words: &[u32]| -> Vec<u8> {
        let record = |word: &u32| [&[1], &word.to_le_bytes()[..]].concat();
        words.iter().flat_map(record).collect()
    };
    let midnight = |day| vec![2, day, 0, 0, 0];
    let log = [
        words(&[&output(0, 0, 3)[..], &READY].concat()),
        midnight(1),
        words(&[START_PROGRAM, 0, SET_OUT_MASK, 0xFFFC]),
        midnight(2),
        words(&[START_PROGRAM, 0, START_PROGRAM, 0, SET_OUT_MASK]),
        midnight(3),
        words(&[0xFFFE, START_PROGRAM, 0]),
    ];
    let mut replay = Replay::new(Edition::First);
    assert_eq!(replay.feed(&log.concat()).refusal, None);
    let days: Vec<Part> = replay.days().map(|day| day.part).collect();
    let part = |runs, claims| Part { runs, claims };
    assert_eq!(days, [part(1, 15), part(2, 0), part(1, 15)]);
}
