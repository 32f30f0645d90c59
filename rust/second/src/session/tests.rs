//! The reader of command words held to document 01, sentence by sentence.

use super::*;
use crate::command::{write, TABLE};

/// Document 01's whole stream, with the guide's headers.
const STREAM: [u32; 15] = [
    0xC001_0A00,
    0x1000,
    0x0400_0010,
    0xC003_0C00,
    0,
    0x800,
    0x0201_0064,
    0x12,
    0xC003_0700,
    0,
    0,
    0x5F,
    0x11,
    0xC000_0800,
    0,
];

/// A session that has taken these words.
fn after(words: &[u32]) -> Session {
    let mut session = Session::new();
    let fed = session.feed(words);
    assert_eq!(fed.refusal, None, "{words:X?}");
    assert_eq!(fed.taken, words.len() as u64);
    session
}

fn fed(taken: u64, commands: u64, refusal: Option<u32>) -> Fed {
    Fed {
        taken,
        commands,
        refusal,
    }
}

/// The words are taken up to the last, which gets this number and leaves
/// settings and tallies as they were.
fn assert_last_refused(words: &[u32], number: u32) {
    let (last, before) = words.split_last().unwrap();
    let mut session = after(before);
    let settings = session.settings.clone();
    assert_eq!(session.word(*last), Err(number), "{words:X?}");
    assert_eq!(session.settings, settings);
    assert_eq!(session.taken(), before.len() as u64);
    assert_eq!(session.open(), None);
    assert!(session.stopped());
}

/// The words of an instruction format, these outputs, this domain and a start.
fn start_with_outputs(outputs: &[[u32; 4]], domain: [u32; 4]) -> Vec<u32> {
    let mut words = vec![SET_INST_FMT, 0, 0x20];
    for output in outputs {
        words.push(SET_OUT_FMT);
        words.extend(output);
    }
    words.push(SET_DOMAIN);
    words.extend(domain);
    words.extend([START_PROGRAM, 0]);
    words
}

#[test]
fn the_whole_stream() {
    let mut session = Session::new();
    assert_eq!(session.feed(&STREAM), fed(15, 4, None));
    assert_eq!(session.taken(), 15);
    assert_eq!(session.runs(), 1);
    assert_eq!(session.claims(), 1728);
    assert_eq!(session.open(), None);
    assert!(!session.stopped());
    assert_eq!(session.domain(), Some([0, 0, 0x5F, 0x11]));
    let instructions = Format {
        base: 0x1000,
        format: 0x0400_0010,
        height: 1,
    };
    assert_eq!(session.instructions(), Some(instructions));
    let output = Format {
        base: 0x800,
        format: 0x0201_0064,
        height: 18,
    };
    assert_eq!(session.output(0), Ok(Some(output)));
}

#[test]
fn the_whole_stream_cut_at_each_place() {
    let whole = after(&STREAM);
    for first in 0..=15 {
        for second in first..=15 {
            let mut session = Session::new();
            let one = session.feed(&STREAM[..first]);
            let two = session.feed(&STREAM[first..second]);
            let three = session.feed(&STREAM[second..]);
            assert_eq!(one.commands + two.commands + three.commands, 4);
            assert_eq!(one.taken + two.taken + three.taken, 15);
            assert_eq!(session, whole, "cut at {first} and {second}");
        }
    }
}

#[test]
fn the_whole_stream_word_by_word() {
    let mut session = Session::new();
    let done: Vec<u64> = (1..=15)
        .filter(|place| {
            let reply = session.word(STREAM[*place as usize - 1]).unwrap();
            assert_eq!(session.taken(), *place);
            reply != Reply::Open
        })
        .collect();
    assert_eq!(done, [3, 8, 13, 15]);
}

#[test]
fn accepted_commands_write_back_to_their_words() {
    let mut session = Session::new();
    let mut written = Vec::new();
    for word in STREAM {
        if let Reply::Done(command) = session.word(word).unwrap() {
            written.extend(write(&command, 5).unwrap());
        }
    }
    assert_eq!(written, STREAM);
}

#[test]
fn a_new_session() {
    let session = Session::new();
    assert_eq!(session.taken(), 0);
    assert!(!session.stopped());
    assert_eq!(session.open(), None);
    assert_eq!((session.runs(), session.claims()), (0, 0));
    assert_eq!(session.domain(), None);
    assert_eq!(session.instructions(), None);
    assert_eq!(session.floats(), None);
    assert_eq!(session.integers(), None);
    assert_eq!(session.booleans(), None);
    assert_eq!(session.conditional(), None);
    assert_eq!(session.output_mask(), 65_535);
    assert_eq!(session.conditional_mask(), None);
    assert_eq!(session.test(), None);
    for number in 0..20 {
        let output = if number < 4 { Ok(None) } else { Err(4) };
        let input = if number < 16 { Ok(None) } else { Err(4) };
        assert_eq!(session.output(number), output);
        assert_eq!(session.input(number), input);
    }
    assert_eq!(Session::default(), session);
}

#[test]
fn an_open_command_is_shown() {
    let mut session = Session::new();
    for (place, word) in [SET_OUT_FMT, 0, 0x800, 0x0201_0064].iter().enumerate() {
        assert_eq!(session.word(*word), Ok(Reply::Open));
        assert_eq!(session.open(), Some((SET_OUT_FMT, place as u32)));
        assert_eq!(session.output(0), Ok(None));
    }
    let command = Command {
        header: SET_OUT_FMT,
        fields: [0, 0x800, 0x0201_0064, 1],
    };
    assert_eq!(session.word(1), Ok(Reply::Done(command)));
    assert_eq!(session.open(), None);
}

#[test]
fn waits_invalidations_and_flushes_change_no_setting() {
    let before = after(&STREAM);
    for header in [0x09, 0x11, 0x12, 0x13, 0x14, 0x15, 0x16, 0x17, 0x18] {
        let word = 0xC000_0000 | header << 8;
        let mut session = before.clone();
        assert_eq!(session.feed(&[word, 0]), fed(2, 1, None));
        assert_eq!(session.settings, before.settings);
        assert_last_refused(&[word, 1], 3);
        assert_last_refused(&[word, 0x8000_0000], 3);
    }
}

#[test]
fn each_format_goes_to_its_setting() {
    let format = Format {
        base: 0x800,
        format: 0x0402_0020,
        height: 1,
    };
    let words = |header| [header, 0x800, 0x0402_0020];
    assert_eq!(after(&words(SET_INST_FMT)).instructions(), Some(format));
    assert_eq!(after(&words(SET_CONSTF_FMT)).floats(), Some(format));
    assert_eq!(after(&words(SET_CONSTI_FMT)).integers(), Some(format));
    assert_eq!(after(&words(SET_CONSTB_FMT)).booleans(), Some(format));
    let tall = Format {
        height: 4096,
        ..format
    };
    let session = after(&[SET_COND_OUT_FMT, 0x800, 0x0402_0020, 4096]);
    assert_eq!(session.conditional(), Some(tall));
    for number in 0..4 {
        let session = after(&[SET_OUT_FMT, number, 0x800, 0x0402_0020, 4096]);
        for other in 0..4 {
            let wanted = if other == number { Some(tall) } else { None };
            assert_eq!(session.output(other), Ok(wanted));
        }
    }
}

#[test]
fn each_input_goes_to_its_number() {
    // FLOAT32_1, superfine.
    for number in 0..16 {
        let session = after(&[SET_INP_FMT, number, 0, 0x0202_0020, 7]);
        for other in 0..16 {
            let set = session.input(other).unwrap();
            assert_eq!(
                set.map(|format| format.height),
                (other == number).then_some(7)
            );
        }
        assert_eq!(session.settings.set_outputs(), []);
    }
}

#[test]
fn masks_and_the_test_are_kept() {
    let session = after(&[SET_OUT_MASK, 0, SET_COND_OUT_MASK, 1, SET_COND_TEST, 7]);
    assert_eq!(session.output_mask(), 0);
    assert_eq!(session.conditional_mask(), Some(1));
    assert_eq!(session.test(), Some(7));
    assert_last_refused(&[SET_OUT_MASK, 0x1_0000], 3);
    assert_last_refused(&[SET_COND_OUT_MASK, 2], 3);
    assert_last_refused(&[SET_COND_TEST, 8], 3);
    assert_eq!(after(&[SET_OUT_MASK, 0xFFFF]).output_mask(), 0xFFFF);
}

#[test]
fn a_later_setting_replaces() {
    let mut session = after(&[SET_OUT_FMT, 1, 0, 0x20, 5, SET_OUT_FMT, 1, 0x800, 0x40, 6]);
    let second = Format {
        base: 0x800,
        format: 0x40,
        height: 6,
    };
    assert_eq!(session.output(1), Ok(Some(second)));
    // A refused one leaves the earlier.
    let piece = [SET_OUT_FMT, 1, 0x1000, 0x80, 0];
    assert_eq!(session.feed(&piece), fed(4, 0, Some(6)));
    assert_eq!(session.output(1), Ok(Some(second)));
    assert_eq!(session.taken(), 14);
}

#[test]
fn refusal_1() {
    let mut session = Session::new();
    assert_eq!(session.word(7), Err(2));
    let stopped = session.clone();
    for word in [0xC000_0900, 0, 7, u32::MAX] {
        assert_eq!(session.word(word), Err(1));
        assert_eq!(session, stopped);
    }
    assert_eq!(session.feed(&STREAM), fed(0, 0, Some(1)));
    assert_eq!(session.feed(&[]), fed(0, 0, None));
    assert_eq!(session, stopped);
}

#[test]
fn refusal_2() {
    for word in [0, u32::MAX, 0xC003_8000, 0xC000_8100, 0xC000_0901] {
        assert_last_refused(&[word], 2);
        let mut words = STREAM.to_vec();
        words.push(word);
        assert_last_refused(&words, 2);
    }
    // In a parameter's place the same words are no headers.
    assert_last_refused(&[SET_OUT_FMT, 0xC003_8000], 4);
    assert_last_refused(&[SET_DOMAIN, 0xC003_8000], 3);
}

#[test]
fn refusal_3_with_the_word_at_fault() {
    assert_last_refused(&[START_PROGRAM, 1], 3);
    assert_last_refused(&[SET_INST_FMT, 1], 3);
    assert_last_refused(&[SET_INST_FMT, 0x400], 3);
    assert_last_refused(&[SET_INST_FMT, 0, 0x0500_0020], 3);
    assert_last_refused(&[SET_INP_FMT, 0, 0x7FF], 3);
    assert_last_refused(&[SET_INP_FMT, 0, 0, 0x22], 3);
    for code in [1, 3, 4] {
        assert_last_refused(&[SET_INP_FMT, 0, 0, code << 24 | 0x2_0020], 3);
        let kept = after(&[SET_OUT_FMT, 0, 0, code << 24 | 0x2_0020, 1]);
        assert!(kept.output(0).unwrap().is_some());
    }
    assert_last_refused(&[SET_OUT_FMT, 0, 0, 0x20, 8192], 3);
    assert_last_refused(&[SET_OUT_FMT, 0, 0, 0x20, u32::MAX], 3);
    for place in 0..4 {
        let words = [SET_DOMAIN, 0, 0, 0, 0];
        let mut cut = words[..=place].to_vec();
        cut.push(4096);
        assert_last_refused(&cut, 3);
    }
}

#[test]
fn refusal_4_with_the_word_at_fault() {
    for number in [4, 16, u32::MAX] {
        assert_last_refused(&[SET_OUT_FMT, number], 4);
    }
    for number in [16, 17, u32::MAX] {
        assert_last_refused(&[SET_INP_FMT, number], 4);
    }
}

#[test]
fn refusal_5_with_the_last_parameter() {
    assert_last_refused(&[SET_DOMAIN, 1, 0, 0, 0], 5);
    assert_last_refused(&[SET_DOMAIN, 0, 1, 0, 0], 5);
    assert_last_refused(&[SET_DOMAIN, 4095, 0, 4094, 4095], 5);
    // A reserved bit in the last word comes first.
    assert_last_refused(&[SET_DOMAIN, 1, 0, 0, 4096], 3);
    assert_eq!(after(&[SET_DOMAIN, 9, 9, 9, 9]).domain(), Some([9; 4]));
}

#[test]
fn refusal_6_with_the_last_parameter() {
    for height in [0, 4097, 8191] {
        assert_last_refused(&[SET_OUT_FMT, 0, 0, 0x20, height], 6);
        assert_last_refused(&[SET_INP_FMT, 0, 0, 0x20, height], 6);
        assert_last_refused(&[SET_COND_OUT_FMT, 0, 0x20, height], 6);
    }
    // A row step of 0 shows at the format word but waits for the height.
    assert_last_refused(&[SET_OUT_FMT, 0, 0, 0, 1], 6);
    assert_last_refused(&[SET_OUT_FMT, 0, 0, 0, 8192], 3);
    assert_last_refused(&[SET_OUT_FMT, 0, 0, 0x1FFC, 1], 6);
    for header in [SET_INST_FMT, SET_CONSTF_FMT, SET_CONSTI_FMT, SET_CONSTB_FMT] {
        assert_last_refused(&[header, 0, 0], 6);
        assert_last_refused(&[header, 0xFFFF_F800, 0x0401_0020], 6);
        assert_last_refused(&[header, 0xFFFF_F800, 0x0400_0084], 6);
    }
    // Base plus span at 2^32 (C8's numbers) and above.
    after(&[SET_OUT_FMT, 0, 0xFFFF_F800, 0x0200_0008, 64]);
    assert_last_refused(&[SET_OUT_FMT, 0, 0xFFFF_F800, 0x0200_0008, 65], 6);
}

#[test]
fn refusal_7_for_each_thing_missing() {
    let instructions = vec![SET_INST_FMT, 0, 0x20];
    let output = vec![SET_OUT_FMT, 3, 0, 0x20, 1];
    let domain = vec![SET_DOMAIN, 0, 0, 0, 0];
    let start = vec![START_PROGRAM, 0];
    let all = [&instructions, &output, &domain, &start];
    for missing in 0..3 {
        let words: Vec<u32> = (0..4)
            .filter(|place| *place != missing)
            .flat_map(|place| all[place].clone())
            .collect();
        assert_last_refused(&words, 7);
    }
    assert_last_refused(&start, 7);
    assert_eq!(after(&all.map(|words| words.clone()).concat()).runs(), 1);
    // 3 comes before 7; an input or a conditional output is no output.
    assert_last_refused(&[START_PROGRAM, 2], 3);
    let other = [
        vec![SET_INP_FMT, 0, 0, 0x20, 1],
        vec![SET_COND_OUT_FMT, 0, 0x20, 1],
        instructions.clone(),
        domain.clone(),
        start.clone(),
    ];
    assert_last_refused(&other.concat(), 7);
}

#[test]
fn refusal_8_at_the_windows_edges() {
    // Linear FLOAT32_1, pitch 100: E is 96; height 18.
    let output = [0, 0x800, 0x0200_0064, 18];
    let start = |domain| start_with_outputs(&[output], domain);
    assert_eq!(after(&start([0, 0, 95, 17])).claims(), 96 * 18);
    assert_last_refused(&start([0, 0, 96, 17]), 8);
    assert_last_refused(&start([0, 0, 99, 0]), 8);
    assert_last_refused(&start([0, 0, 95, 18]), 8);
    assert_eq!(after(&start([95, 17, 95, 17])).claims(), 1);
    // Inside one output is not enough.
    let small = [1, 0x8000, 0x0200_0008, 18];
    let two = |domain| start_with_outputs(&[output, small], domain);
    assert_last_refused(&two([0, 0, 8, 0]), 8);
    assert_eq!(after(&two([0, 0, 7, 17])).claims(), 8 * 18 * 2);
}

#[test]
fn refusal_9_looks_at_spans() {
    // FLOAT32_1, pitch 32, tiled, height 1: a span of 2,048 bytes of which
    // only 128 are owned.
    let one = [0, 0x800, 0x0201_0020, 1];
    let start = |other| start_with_outputs(&[one, other], [0, 0, 0, 0]);
    assert_last_refused(&start([1, 0x800, 0x0200_0020, 1]), 9);
    assert_eq!(after(&start([1, 0x1000, 0x0200_0020, 1])).runs(), 1);
    assert_eq!(after(&start([1, 0, 0x0200_0020, 16])).runs(), 1);
    // 17 rows of 128 bytes from 0 on end in the other's span.
    assert_last_refused(&start([1, 0, 0x0200_0020, 17]), 9);
    // 8 comes before 9.
    let both = [[0, 0, 0x20, 1], [3, 0, 0x20, 1]];
    assert_last_refused(&start_with_outputs(&both, [0, 0, 0, 1]), 8);
    assert_last_refused(&start_with_outputs(&both, [0, 0, 0, 0]), 9);
}

#[test]
fn only_set_outputs_are_compared() {
    let mut words = vec![SET_INP_FMT, 0, 0, 0x20, 1, SET_COND_OUT_FMT, 0, 0x20, 1];
    words.extend([SET_CONSTF_FMT, 0, 0x20]);
    words.extend(start_with_outputs(&[[2, 0, 0x20, 1]], [0, 0, 31, 0]));
    assert_eq!(after(&words).claims(), 32);
    // Three outputs, of which the first and the last meet.
    let three = [
        [0, 0, 0x20, 64],
        [1, 0x2000, 0x20, 64],
        [2, 0x800, 0x20, 64],
    ];
    assert_last_refused(&start_with_outputs(&three, [0, 0, 0, 0]), 9);
}

#[test]
fn claims_are_pairs_times_set_outputs() {
    let four = [
        [0, 0, 0x20, 4],
        [1, 0x800, 0x20, 4],
        [2, 0x1000, 0x20, 4],
        [3, 0x1800, 0x20, 4],
    ];
    for count in 1..=4 {
        let mut session = after(&start_with_outputs(&four[..count], [3, 1, 7, 3]));
        assert_eq!(session.claims(), 15 * count as u64);
        // A mask that leaves each output a channel changes nothing.
        let piece = [SET_OUT_MASK, 0x1111, START_PROGRAM, 0];
        assert_eq!(session.feed(&piece), fed(4, 2, None));
        assert_eq!(session.runs(), 2);
        assert_eq!(session.claims(), 30 * count as u64);
        // Without any, the outputs are silent and claim nothing.
        let piece = [SET_OUT_MASK, 0, START_PROGRAM, 0];
        assert_eq!(session.feed(&piece), fed(4, 2, None));
        assert_eq!(session.runs(), 3);
        assert_eq!(session.claims(), 30 * count as u64);
    }
}

#[test]
fn settings_need_no_wait_after_a_start() {
    let mut session = after(&STREAM);
    let piece = [SET_OUT_FMT, 0, 0x800, 0x0200_0064, 18, START_PROGRAM, 0];
    assert_eq!(session.feed(&piece), fed(7, 2, None));
    assert_eq!((session.runs(), session.claims()), (2, 2 * 1728));
    // A domain outside every window is accepted; only the start is not.
    assert_eq!(session.feed(&[SET_DOMAIN, 0, 0, 4095, 0]), fed(5, 1, None));
    assert_eq!(session.feed(&[START_PROGRAM, 0]), fed(1, 0, Some(8)));
    assert_eq!((session.runs(), session.claims()), (2, 2 * 1728));
    assert_eq!(session.domain(), Some([0, 0, 4095, 0]));
}

#[test]
fn the_largest_domain() {
    let output = [0, 0, 0x1000, 4096];
    let session = after(&start_with_outputs(&[output], [0, 0, 4095, 4095]));
    assert_eq!(session.claims(), 1 << 24);
}

#[test]
fn refusal_17() {
    // The 1,000,000,000th word is judged as usual, the next gets 17.
    let mut session = Session::new_after(999_999_999);
    assert_eq!(session.word(SET_COND_TEST), Ok(Reply::Open));
    assert_eq!(session.taken(), 1_000_000_000);
    assert_eq!(session.word(0), Err(17));
    assert_eq!(session.open(), None);
    assert!(session.stopped());
    assert_eq!(session.taken(), 1_000_000_000);
    assert_eq!(session.test(), None);
    assert_eq!(session.word(0), Err(1));
    // A command may be completed by the last word.
    let mut session = Session::new_after(999_999_998);
    assert_eq!(session.feed(&[SET_COND_TEST, 5, 77]), fed(2, 1, Some(17)));
    assert_eq!(session.test(), Some(5));
    // 17 comes before 2 and before any other refusal but 1.
    for word in [0, SET_DOMAIN, u32::MAX] {
        let mut full = Session::new_after(1_000_000_000);
        assert_eq!(full.feed(&[]), fed(0, 0, None));
        assert_eq!(full.word(word), Err(17));
        assert_eq!(full.word(word), Err(1));
    }
    let mut session = Session::new_after(999_999_999);
    assert_eq!(session.word(0), Err(2));
    assert_eq!(session.taken(), 999_999_999);
}

#[test]
fn what_a_refused_piece_says() {
    let mut words = STREAM.to_vec();
    words.extend([SET_OUT_FMT, 0, 0x800, 0x0201_0065, 1, SET_COND_TEST, 1]);
    let mut session = Session::new();
    assert_eq!(session.feed(&words), fed(18, 4, Some(3)));
    assert_eq!(session.taken(), 18);
    assert_eq!(session.settings, after(&STREAM).settings);
    assert_eq!(session.test(), None);
}

/// A small generator, so that the streams are the same at each run.
fn next(seed: &mut u64) -> u32 {
    *seed ^= *seed << 13;
    *seed ^= *seed >> 7;
    *seed ^= *seed << 17;
    (*seed >> 32) as u32
}

/// A stream of which most words are good.
fn some_stream(seed: &mut u64) -> Vec<u32> {
    let mut words = Vec::new();
    for _ in 0..12 {
        let line = &TABLE[next(seed) as usize % 21];
        words.push(line.header);
        for kind in line.parameters {
            words.push(some_word(*kind, seed));
        }
    }
    words
}

fn some_word(kind: crate::command::Kind, seed: &mut u64) -> u32 {
    use crate::command::Kind;
    let any = next(seed);
    match kind {
        _ if any % 61 == 0 => any,
        Kind::Reserved => 0,
        Kind::InputNumber => any % 16,
        Kind::OutputNumber => any % 4,
        Kind::Base => any & 0xF800,
        Kind::Format => (any & 3) << 24 | any & 0x0001_00FC | 0x40,
        Kind::InputFormat => (any & 2) << 24 | any & 0x0003_00FC | 0x40,
        Kind::Height => any % 100 + 1,
        Kind::OutputMask => any & 0xFFFF,
        Kind::ConditionalMask => any & 1,
        Kind::Test => any & 7,
        Kind::DomainEnd => any & 15,
    }
}

#[test]
fn streams_cut_anywhere_and_written_back() {
    let mut seed = 0x5EED;
    let (mut refused, mut accepted) = (0, 0);
    for _ in 0..300 {
        let words = some_stream(&mut seed);
        let mut whole = Session::new();
        let answer = whole.feed(&words);
        for cut in 0..=words.len() {
            let mut session = Session::new();
            let first = session.feed(&words[..cut]);
            if first.refusal.is_none() {
                let second = session.feed(&words[cut..]);
                assert_eq!(first.taken + second.taken, answer.taken);
                assert_eq!(first.commands + second.commands, answer.commands);
                assert_eq!(second.refusal, answer.refusal);
            }
            assert_eq!(session, whole);
        }
        let mut reader = Session::new();
        let mut written = Vec::new();
        for word in &words[..answer.taken as usize] {
            if let Reply::Done(command) = reader.word(*word).unwrap() {
                written.extend(write(&command, 5).unwrap());
            }
        }
        assert_eq!(written, words[..written.len()]);
        refused += u32::from(answer.refusal.is_some());
        accepted += answer.commands;
    }
    // The streams must try both outcomes often.
    assert!(refused > 100, "{refused}");
    assert!(accepted > 300, "{accepted}");
}
