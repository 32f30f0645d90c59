//! Document 01's worked values, and a few refusals beside them.

use super::address::{locate, translate, translate_by_table, Translated};
use super::command::{write_command, Command, Domain, Format};
use super::element::{read, superfine, write};
use super::layout::{judge, Layout};
use super::lessees::Pair;
use super::log::Replay;
use super::program::{Program, Stepped};
use super::refusal::Answer;
use super::session::{Edition, Fed, Reply, Session};
use super::{planes, processors};

const WHOLE_STREAM: [u32; 15] = [
    0xC001_0A00,
    0x1000,
    0x0400_0010,
    0xC003_0C00,
    0,
    0x800,
    0x0201_0064,
    0x12,
    0xC003_0700,
    0,
    0,
    0x5F,
    0x11,
    0xC000_0800,
    0,
];

fn linear(base: u32, pitch: u32, height: u32, size: u32) -> Layout {
    Layout {
        base,
        pitch,
        height,
        size,
        tiled: false,
    }
}

fn tiled(base: u32, pitch: u32, height: u32, size: u32) -> Layout {
    Layout {
        tiled: true,
        ..linear(base, pitch, height, size)
    }
}

/// What a translation answers.
fn at(address: u32, run: u32) -> Answer<Translated> {
    Ok(Translated { address, run })
}

#[test]
fn worked_addresses_c1_to_c8() {
    let c1 = linear(2048, 100, 3, 4);
    assert_eq!(judge(&c1).unwrap().step, 96);
    assert_eq!(translate(&c1, 5, 2), at(2836, 91));
    assert_eq!(translate(&c1, 95, 0), at(2428, 1));
    assert_eq!(translate(&c1, 96, 0), Err(10));
    assert_eq!(translate(&tiled(0, 100, 20, 4), 37, 18), at(9828, 3));
    assert_eq!(translate(&tiled(0, 128, 64, 1), 64, 0), at(3072, 8));
    assert_eq!(translate(&tiled(0, 128, 64, 1), 0, 32), at(4608, 8));
    assert_eq!(translate(&tiled(0, 16, 8, 16), 15, 7), at(1648, 1));
    assert_eq!(judge(&tiled(0, 28, 1, 4)), Err(6));
    assert!(judge(&linear(4_294_965_248, 8, 64, 4)).is_ok());
    assert_eq!(judge(&linear(4_294_965_248, 8, 65, 4)), Err(6));
}

/// Document 01's table, bit by bit, as it is printed: `x6` is (true, 6).
fn printed_place(size: u32, x: u32, y: u32) -> u32 {
    let bit = |from: u32, place: u32| from >> place & 1;
    let (low, rest) = match size {
        1 => (y & 3, (5, 4, 2, 3)),
        2 => (y & 3, (5, 4, 2, 2)),
        4 => (y & 1, (4, 3, 1, 2)),
        8 => (y & 1, (4, 3, 1, 1)),
        _ => (0, (3, 2, 0, 1)),
    };
    let (y_top, y_high, y_low, x_low) = rest;
    let low_y_at = match size {
        1 | 2 => 3,
        _ => 4,
    };
    (bit(y, y_high) ^ bit(x, x_low + 3)) << 10
        | (bit(x, x_low + 2) ^ bit(y, y_top)) << 9
        | (bit(y, y_high - 1) ^ bit(x, x_low + 2)) << 8
        | (bit(x, x_low + 1) ^ bit(y, y_high)) << 7
        | bit(y, y_low) << 6
        | bit(x, x_low) << 5
        | low << low_y_at
        | ((x & ((1 << x_low) - 1)) * size)
}

#[test]
fn every_pair_of_tiled_windows_is_at_its_printed_place_and_comes_back() {
    for (size, width, height) in [
        (1, 64, 32),
        (2, 32, 32),
        (4, 32, 16),
        (8, 16, 16),
        (16, 16, 8),
    ] {
        let layout = tiled(4096, 3 * width, 3 * height - 1, size);
        for y in 0..layout.height {
            for x in 0..layout.pitch {
                let tile = 3 * (y / height) + x / width;
                let address = 4096 + 2048 * tile + printed_place(size, x, y);
                let found = translate(&layout, x, y).unwrap();
                assert_eq!(found.address, address, "{size} ({x}, {y})");
                assert_eq!(translate_by_table(&layout, x, y), Ok(found));
                let last = address + size - 1;
                assert_eq!(locate(&layout, last), Ok((x, y, size - 1)));
            }
        }
        let owned: usize = (0..2048 * 9)
            .filter(|byte| locate(&layout, 4096 + byte).is_ok())
            .count();
        assert_eq!(
            owned as u32,
            layout.pitch * layout.height * size,
            "size {size}"
        );
        assert_eq!(locate(&layout, 4095), Err(12));
        assert_eq!(locate(&layout, 4096 + 2048 * 9), Err(12));
    }
}

#[test]
fn elements_are_read_written_and_refused() {
    let layout = tiled(2048, 32, 20, 4);
    let mut memory = [0; 4096];
    assert_eq!(
        write(&layout, 3, 2, &mut memory, 2048, &[1, 2, 3, 4]),
        Ok(())
    );
    let element = read(&layout, 3, 2, &memory, 2048).unwrap();
    assert_eq!(
        (&element.bytes[..4], element.length),
        (&[1, 2, 3, 4][..], 4)
    );
    assert_eq!(memory.iter().filter(|byte| **byte != 0).count(), 4);
    assert_eq!(read(&layout, 3, 20, &memory, 2048), Err(10));
    assert_eq!(read(&layout, 3, 2, &memory, 4096), Err(11));
    assert_eq!(write(&layout, 3, 2, &mut memory, 2048, &[1]), Err(11));
    let format = 0x0203_0020;
    let four = superfine(2048, format, 20, 2, 2, &memory, 2048).unwrap();
    assert_eq!((&four.bytes[..4], four.length), (&[1, 2, 3, 4][..], 16));
    assert_eq!(superfine(2048, format, 20, 31, 2, &memory, 2048), Err(10));
    assert_eq!(
        superfine(2048, 0x0103_0020, 20, 2, 2, &memory, 2048),
        Err(3)
    );
    assert_eq!(superfine(2048, format, 4097, 2, 2, &memory, 2048), Err(6));
}

#[test]
fn the_whole_stream_gives_one_run_however_it_is_cut() {
    for first in 0..=WHOLE_STREAM.len() {
        let mut session = Session::new();
        let fed = [&WHOLE_STREAM[..first], &WHOLE_STREAM[first..]].map(|part| session.feed(part));
        assert_eq!(fed[0].taken + fed[1].taken, 15);
        assert_eq!(fed[0].commands + fed[1].commands, 4);
        assert_eq!((session.runs(), session.claims()), (1, 1728));
        assert_eq!((session.taken(), session.open()), (15, None));
    }
}

#[test]
fn a_refused_word_stops_the_session_where_it_stands() {
    let mut stream = WHOLE_STREAM;
    stream[12] = 0x1000;
    let mut session = Session::new();
    let fed = session.feed(&stream);
    let expected = Fed {
        taken: 12,
        commands: 2,
        refusal: Some(3),
    };
    assert_eq!(fed, expected);
    assert!(session.stopped() && session.open().is_none());
    assert_eq!(session.word(0xC000_0900), Err(1));
}

#[test]
fn each_refusal_of_a_word() {
    let last = |words: &[u32]| {
        let mut session = Session::new();
        let fed = session.feed(words);
        assert_eq!(fed.taken as usize, words.len() - 1, "{words:X?}");
        fed.refusal
    };
    assert_eq!(last(&[0xC003_8000]), Some(2));
    assert_eq!(last(&[0xC000_0900, 1]), Some(3));
    assert_eq!(last(&[0xC003_0C00, 4]), Some(4));
    assert_eq!(last(&[0xC003_0B00, 16]), Some(4));
    assert_eq!(last(&[0xC003_0B00, 0, 0, 0x0102_0020]), Some(3));
    assert_eq!(last(&[0xC003_0C00, 0, 0, 0x0500_0020]), Some(3));
    assert_eq!(last(&[0xC003_0700, 5, 0, 4, 0]), Some(5));
    assert_eq!(last(&[0xC003_0C00, 0, 0, 0x0200_0004, 1]), Some(6));
    assert_eq!(last(&[0xC000_0800, 0]), Some(7));
    let mut outside = WHOLE_STREAM;
    outside[12] = 0x12;
    assert_eq!(last(&outside), Some(8));
    let second_output = [0xC003_0C00, 1, 0x1000, 0x0201_0064, 0x12];
    let shared = [&WHOLE_STREAM[..13], &second_output, &[0xC000_0800, 0]].concat();
    assert_eq!(last(&shared), Some(9));
}

/// The whole stream with this mask before it and these further outputs before its start.
fn masked(mask: u32, outputs: &[[u32; 4]]) -> Vec<u32> {
    let mut words = vec![0xC000_1900, mask];
    words.extend(&WHOLE_STREAM[..13]);
    for output in outputs {
        words.push(0xC003_0C00);
        words.extend(output);
    }
    words.extend([0xC000_0800, 0]);
    words
}

/// What the start comes to, taken in one piece and word by word: its run and claim, or its refusal.
fn started(words: &[u32]) -> Result<(u64, u64), u32> {
    let mut whole = Session::new();
    let refusal = whole.feed(words).refusal;
    let mut by_words = Session::new();
    let last = words.iter().map(|word| by_words.word(*word)).last();
    assert_eq!(last.and_then(Result::err), refusal);
    assert_eq!(by_words.runs(), whole.runs());
    assert_eq!(by_words.claims(), whole.claims());
    match refusal {
        Some(number) => Err(number),
        None => Ok((whole.runs(), whole.claims())),
    }
}

/// For each format code the nibbles under which its output is silent.
const SILENT: [&[u32]; 5] = [
    &[0x0, 0x2, 0x4, 0x6, 0x8, 0xA, 0xC, 0xE],
    &[0x0],
    &[0x0, 0x2, 0x4, 0x6, 0x8, 0xA, 0xC, 0xE],
    &[0x0, 0x4, 0x8, 0xC],
    &[0x0],
];

#[test]
fn silent_outputs_claim_nothing() {
    for (code, silent) in (0..).zip(SILENT) {
        for (nibble, number) in (0..16).flat_map(|nibble| (1..4).map(move |n| (nibble, n))) {
            // output 0, of FLOAT32_1, always counts
            let mask = nibble << (4 * number) | 1;
            let output = [number, 0x10_0000, code << 24 | 0x64, 0x12];
            let counted = if silent.contains(&nibble) { 1 } else { 2 };
            let answer = started(&masked(mask, &[output]));
            assert_eq!(answer, Ok((1, 1_728 * counted)), "code {code}, {mask:04X}");
        }
    }
    assert_eq!(started(&masked(0xFFFE, &[])), Ok((1, 0)));
    assert_eq!(started(&masked(0x0001, &[])), Ok((1, 1_728)));
}

#[test]
fn two_parties_keep_to_what_is_theirs() {
    // Output 1 and inputs 8 to 15 are party 1's; a mask changes one's own bits, and a piece runs on past a refused word.
    let pair = || Pair::new(Edition::First, 0xFF00, 0x2).expect("owners of what there is");
    let fed = |words: &[u32], party: u32| {
        let mut pair = pair();
        let groups = vec![party.wrapping_neg(); (words.len() + 31) / 32];
        let told = pair.feed_both(words, &groups).expect("a group for each 32");
        (told[party as usize].taken, told[party as usize].refusal)
    };
    for (words, zero, one) in [
        ([0xC003_0C00, 0], (2, None), (1, Some(20))),
        ([0xC003_0C00, 1], (1, Some(20)), (2, None)),
        ([0xC003_0C00, 4], (1, Some(4)), (1, Some(4))),
        ([0xC003_0B00, 8], (1, Some(20)), (2, None)),
        ([0xC003_0B00, 16], (1, Some(4)), (1, Some(4))),
        ([0xC001_0E00, 0], (2, None), (0, Some(20))),
        ([0xC000_1B00, 0], (2, None), (0, Some(20))),
        ([0xC000_1B01, 0], (0, Some(2)), (0, Some(2))),
    ] {
        assert_eq!((fed(&words, 0), fed(&words, 1)), (zero, one), "{words:X?}");
    }
    let mut mixed = pair();
    let words = [0xC000_1900, 7, 0, 0xC000_0900, 7];
    let told = mixed.feed_both(&words, &[0b01010]).expect("one group");
    let zero = (told[0].taken, told[0].commands, told[0].refusal);
    assert_eq!(zero, (2, 1, Some(2)));
    assert_eq!((told[1].taken, told[1].refusal), (0, Some(2)));
    assert_eq!(mixed.output_mask(), 0x00F0);
    assert_eq!(mixed.feed_both(&words, &[]), Err(11));
    assert!(Pair::new(Edition::First, 0x1_0000, 0).is_err());
}

#[test]
fn edition_2_credits_unmasked_channels() {
    for (code, channels) in (0..).zip([1, 4, 1, 2, 4]) {
        for (nibble, number) in (0..16u32).flat_map(|nibble| (1..4).map(move |n| (nibble, n))) {
            // output 0, of FLOAT32_1, has one
            let mask = nibble << (4 * number) | 0xF;
            let output = [number, 0x10_0000, code << 24 | 0x64, 0x12];
            let mut session = Session::new_in(Edition::Second);
            assert_eq!(session.feed(&masked(mask, &[output])).refusal, None);
            let credit = 1 + (nibble % (1 << channels)).count_ones();
            let asked = format!("code {code}, {mask:04X}");
            assert_eq!(session.claims(), 1_728 * u64::from(credit), "{asked}");
        }
    }
}

#[test]
fn silent_outputs_are_passed_over_in_8_and_9_and_enough_for_7() {
    let over = [1, 0x800, 0x0201_0064, 0x12];
    assert_eq!(started(&masked(0x0011, &[over])), Err(9));
    assert_eq!(started(&masked(0x00E1, &[over])), Ok((1, 1_728)));
    let small = [2, 0x10_0000, 0x0200_0008, 1];
    assert_eq!(started(&masked(0x0101, &[small])), Err(8));
    assert_eq!(started(&masked(0x0E01, &[small])), Ok((1, 1_728)));
    assert_eq!(started(&masked(0, &[over, small])), Ok((1, 0)));
    // without its output, the stream's start gets 7 under any mask
    let none = [&[0xC000_1900, 0], &WHOLE_STREAM[..3], &WHOLE_STREAM[8..]].concat();
    assert_eq!(started(&none), Err(7));
}

#[test]
fn the_last_word_of_a_session_is_judged_and_the_next_gets_17() {
    for left in 0..=WHOLE_STREAM.len() {
        let mut session = Session::new_after(1_000_000_000 - left);
        let fed = session.feed(&WHOLE_STREAM);
        assert_eq!(fed.taken as usize, left);
        let refusal = if left < 15 { Some(17) } else { None };
        assert_eq!(fed.refusal, refusal, "{left} words left");
        assert_eq!(session.word(0), Err(if left < 15 { 1 } else { 17 }));
        assert_eq!(session.word(0), Err(1));
    }
}

#[test]
fn commands_write_back_to_their_words() {
    let mut session = Session::new();
    let mut written = Vec::new();
    for word in WHOLE_STREAM {
        if let Reply::Done(command) = session.word(word).unwrap() {
            let mut room = [0; 5];
            let length = write_command(&command, &mut room).unwrap();
            written.extend_from_slice(&room[..length]);
        }
    }
    assert_eq!(written, WHOLE_STREAM);
    let domain = Command::SetDomain(Domain {
        i0: 1,
        j0: 0,
        i1: 0,
        j1: 0,
    });
    assert_eq!(write_command(&domain, &mut [0; 5]), Err(5));
    let format = Format {
        base: 1,
        word: 0,
        height: 1,
    };
    let bad_twice = Command::SetInput(16, format);
    assert_eq!(write_command(&bad_twice, &mut [0; 5]), Err(3));
    assert_eq!(write_command(&Command::Start, &mut [0; 1]), Err(11));
}

/// C9 to C12 on either kind of group: both have the same calls.
macro_rules! worked_steps {
    ($test:ident, $group:ty) => {
        #[test]
        fn $test() {
            let step = |group: &mut $group, first: u32, alu: u32| {
                let program = Program::load(&[first, 0].repeat(4)).unwrap();
                let stepped = group.step(&program, alu, 0, 0, &[]).unwrap();
                (stepped.jumped, group.active())
            };
            let fresh = <$group>::begin(4).unwrap();
            let mut group = fresh;
            assert_eq!(step(&mut group, 0x0200_0F00, 0b0011), (false, 0b0011));
            assert_eq!(step(&mut fresh.clone(), 0x0200_0F00, 0), (true, 0b1111));
            assert_eq!(step(&mut group, 0x0000_0010, 0), (false, 0b1100));
            assert_eq!(step(&mut group, 0x0101_0020, 0), (false, 0b1111));
            assert_eq!(<$group>::begin(33), Err(13));
        }
    };
}

worked_steps!(worked_steps_by_planes, planes::Group);
worked_steps!(worked_steps_by_processors, processors::Group);

#[test]
fn steps_are_refused_in_order() {
    let mut group = planes::Group::begin(2).unwrap();
    let step = |group: &mut planes::Group, words: &[u32]| {
        group.step(&Program::load(words).unwrap(), 0, 0, 0, &[])
    };
    let before = group;
    assert_eq!(step(&mut group, &[0x0000_00C0, 0]), Err(13));
    assert_eq!(step(&mut group, &[0x0000_FF40, 0]), Err(14));
    assert_eq!(step(&mut group, &[0x0000_FF00, 0x0002_0000]), Err(15));
    assert_eq!(group, before);
    let end = Stepped {
        jumped: true,
        position: 1,
    };
    assert_eq!(step(&mut group, &[0x0000_FF00, 0x0001_0000]), Ok(end));
    assert_eq!(step(&mut group, &[0x0000_FF00, 0]), Err(16));
    assert!(Program::load(&[0; 3]).is_err());
}

/// A LOOP of three turns around a REP of two: the turns left and aL after every step.
#[test]
fn loops_turn_and_are_refused() {
    let program = Program::load(&[
        1,
        0x0004_0000,
        3,
        0x0004_0100,
        4,
        0x0002_0000,
        2,
        0x0001_0000,
    ]);
    let program = program.unwrap();
    let integers = [0x00FC_0A03, 2];
    let mut group = planes::Group::begin(4).unwrap();
    let mut seen = Vec::new();
    while group.position() < 4 {
        group.step(&program, 0, 0, 0, &integers).unwrap();
        seen.push(group.loops());
    }
    assert_eq!(seen.len(), 13);
    assert_eq!(seen[1], (10, vec![3, 2]));
    assert_eq!(seen[4], (6, vec![2]));
    assert_eq!(seen[12], (0, vec![]));
    let fresh = processors::Group::begin(4).unwrap();
    let step = |first: u32, second: u32, integers: &[u32]| {
        let mut group = fresh;
        let stepped = group.step(&Program::load(&[first, second]).unwrap(), 0, 0, 0, integers);
        (stepped.map(|stepped| stepped.jumped), group == fresh)
    };
    assert_eq!(step(1, 0x0001_0000, &[0]).0, Ok(true));
    assert_eq!(step(3, 0x0000_0100, &[2]), (Err(13), true));
    assert_eq!(step(3, 0, &[0x0100_0002]), (Err(13), true));
    assert_eq!(step(2, 0x0000_0100, &[2, 2]), (Err(13), true));
    assert_eq!(step(5, 0, &[2]), (Err(13), true));
    assert_eq!(step(4, 0, &[2]), (Err(14), true));
    assert_eq!(step(2, 0, &[]), (Err(14), true));
    assert_eq!(step(1, 0x0002_0000, &[0]), (Err(15), true));
}

/// A record's bytes: its kind, then its number, low byte first.
fn record(kind: u8, number: u32) -> Vec<u8> {
    let mut bytes = vec![kind];
    bytes.extend(number.to_le_bytes());
    bytes
}

fn log_of(words: &[u32]) -> Vec<u8> {
    words.iter().flat_map(|word| record(1, *word)).collect()
}

/// The whole stream with its start cut by a midnight, one more start, and a second day with a refused word.
fn two_days() -> Vec<u8> {
    [
        log_of(&WHOLE_STREAM),
        log_of(&[0xC000_0800]),
        record(2, 30),
        log_of(&[0]),
        record(2, 31),
        log_of(&[0xC003_0C00, 4, 0xC000_0800, 0]),
    ]
    .concat()
}

#[test]
fn a_log_is_counted_day_by_day_however_it_is_cut() {
    let log = two_days();
    for length in [1, 2, 3, 4, 5, 7, log.len()] {
        let mut replay = Replay::new();
        for piece in log.chunks(length) {
            let fed = replay.feed(piece);
            assert_eq!((fed.taken as usize, fed.refusal), (piece.len(), None));
        }
        assert_eq!((replay.midnights(), replay.first_day()), (2, 30));
        assert_eq!(replay.part(0), (1, 1_728));
        assert_eq!(replay.part(1), (1, 1_728));
        assert_eq!(replay.part(2), (0, 0));
        assert_eq!(replay.part(3), (0, 0));
        assert_eq!(replay.refused(), Some((4, 2)));
        assert_eq!((replay.stopped(), replay.unfinished()), (None, 0));
    }
}

#[test]
fn a_log_stops_at_a_wrong_kind_and_a_wrong_day() {
    let cases = [
        ([log_of(&[0xC000_0900]), vec![3, 1]].concat(), 5, 18),
        ([record(2, 9), record(2, 9)].concat(), 9, 19),
        ([record(2, u32::MAX), record(2, 0)].concat(), 9, 19),
        ((0..401).flat_map(|day| record(2, day)).collect(), 2_004, 19),
    ];
    for (log, taken, number) in cases {
        for length in [1, 3, log.len()] {
            let mut replay = Replay::new();
            let fed: Vec<_> = log.chunks(length).map(|piece| replay.feed(piece)).collect();
            assert_eq!(fed.iter().map(|fed| fed.taken).sum::<u64>(), taken);
            let refusal = fed.iter().find_map(|fed| fed.refusal);
            assert_eq!((refusal, replay.stopped()), (Some(number), Some(number)));
            assert_eq!(replay.unfinished(), 0);
            let later = replay.feed(&record(1, 0));
            assert_eq!((later.taken, later.refusal), (0, Some(number)));
            assert_eq!(replay.feed(&[]).refusal, None);
        }
    }
}
