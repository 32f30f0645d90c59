//! A station's log over midnight, asked through the safe functions. Also a first
//! look at how a replay is used.

use egretfold::headers::{SET_DOMAIN, SET_INST_FMT, SET_OUT_FMT, START_PROGRAM};
use egretfold::{lent, BytesFed, Day, Edition, Lease, LogStatus, Part, Refusal, Replay, Session};

/// Document 01's whole stream up to its start, which claims 1,728 elements.
#[rustfmt::skip]
const SETTINGS: [u32; 13] = [
    SET_INST_FMT, 0x1000, 0x400_0010,
    SET_OUT_FMT, 0, 0x800, 0x201_0064, 0x12,
    SET_DOMAIN, 0, 0, 0x5F, 0x11,
];

fn record(kind: u8, number: u32) -> Vec<u8> {
    let mut bytes = vec![kind];
    bytes.extend(number.to_le_bytes());
    bytes
}

fn words(words: &[u32]) -> Vec<u8> {
    words.iter().flat_map(|word| record(1, *word)).collect()
}

fn midnight(day: u32) -> Vec<u8> {
    record(2, day)
}

fn fed(taken: usize, refusal: Option<Refusal>) -> BytesFed {
    let taken = taken as u64;
    BytesFed { taken, refusal }
}

fn part(runs: u64) -> Part {
    let claims = runs * 1_728;
    Part { runs, claims }
}

fn day(number: u32, runs: u64) -> Day {
    let part = part(runs);
    Day { number, part }
}

fn days(replay: &Replay) -> Vec<Day> {
    replay.days().collect()
}

/// Settings and a start before the first midnight, a start that midnight cuts, two
/// more on the second day.
fn three_days() -> Vec<u8> {
    [
        words(&SETTINGS),
        words(&[START_PROGRAM, 0, START_PROGRAM]),
        midnight(100),
        words(&[0]),
        midnight(101),
        words(&[START_PROGRAM, 0, START_PROGRAM, 0]),
        midnight(102),
    ]
    .concat()
}

#[test]
fn a_new_replay_has_nothing() {
    let replay = Replay::new(Edition::First);
    let status = LogStatus {
        stopped: None,
        refused: None,
        midnights: 0,
        days: None,
        unfinished: 0,
    };
    assert_eq!(replay.status(), status);
    assert_eq!((replay.before(), replay.part(1)), (part(0), part(0)));
    assert_eq!(days(&replay), []);
    assert_eq!(replay.session(), &Session::new(Edition::First));
}

#[test]
fn days_are_counted_by_the_last_word() {
    let bytes = three_days();
    let mut replay = Replay::new(Edition::First);
    assert_eq!(replay.feed(&bytes), fed(bytes.len(), None));
    assert_eq!(replay.before(), part(1));
    assert_eq!(days(&replay), [day(100, 1), day(101, 2), day(102, 0)]);
    // There is no part past the last day.
    for number in [4, 400, 401, u32::MAX] {
        assert_eq!(replay.part(number), part(0));
    }
    let status = replay.status();
    assert_eq!((status.midnights, status.days), (3, Some((100, 102))));
    assert_eq!((status.stopped, status.refused), (None, None));
    // The session's own questions.
    let session = replay.session();
    assert_eq!((session.runs(), session.claims()), (4, 4 * 1_728));
    assert_eq!(session.domain(), Some([0, 0, 0x5F, 0x11]));
    assert_eq!((session.status().taken, session.status().open), (21, None));
}

#[test]
fn pieces_may_be_cut_at_every_byte() {
    let mut bytes = three_days();
    bytes.extend([1, 7]);
    let mut whole = Replay::new(Edition::First);
    assert_eq!(whole.feed(&bytes), fed(bytes.len(), None));
    assert_eq!(whole.status().unfinished, 2);
    for cut in 0..=bytes.len() {
        let (first, second) = bytes.split_at(cut);
        let mut replay = Replay::new(Edition::First);
        assert_eq!(replay.feed(first), fed(first.len(), None));
        assert_eq!(replay.status().unfinished as usize, cut % 5);
        assert_eq!(replay.feed(second), fed(second.len(), None));
        assert_eq!(replay, whole, "cut at {cut}");
    }
}

#[test]
fn bytes_one_by_one_are_a_piece() {
    for last in [vec![1, 7], vec![3, 1], midnight(104)] {
        let bytes = [three_days(), last].concat();
        let mut whole = Replay::new(Edition::First);
        let answer = whole.feed(&bytes);
        let mut single = Replay::new(Edition::First);
        for (place, byte) in bytes.iter().enumerate() {
            let refusal = answer.refusal.filter(|_| place as u64 >= answer.taken);
            assert_eq!(
                single.byte(*byte),
                refusal.map_or(Ok(()), Err),
                "byte {place}"
            );
        }
        assert_eq!(single, whole);
        let mut pieces = Replay::new(Edition::First);
        for (place, piece) in bytes.chunks(1).enumerate() {
            let refusal = answer.refusal.filter(|_| place as u64 >= answer.taken);
            let taken = usize::from(refusal.is_none());
            assert_eq!(pieces.feed(piece), fed(taken, refusal), "piece {place}");
        }
        assert_eq!(pieces, whole);
    }
}

#[test]
fn a_wrong_kind_byte_is_18() {
    let mut replay = Replay::new(Edition::First);
    let bytes = [three_days(), vec![3], words(&[START_PROGRAM, 0])].concat();
    assert_eq!(
        replay.feed(&bytes),
        fed(bytes.len() - 11, Some(Refusal::RecordKind))
    );
    let stopped = replay.clone();
    assert_eq!(stopped.status().stopped, Some(Refusal::RecordKind));
    assert_eq!(stopped.status().unfinished, 0);
    assert_eq!(
        replay.feed(&midnight(103)),
        fed(0, Some(Refusal::RecordKind))
    );
    assert_eq!(replay.feed(&[]), fed(0, None));
    assert_eq!(replay, stopped);
    assert_eq!(days(&replay), [day(100, 1), day(101, 2), day(102, 0)]);
    assert!(!replay.session().status().stopped);
}

#[test]
fn a_wrong_day_is_19_at_its_last_byte() {
    for (first, next) in [(7, 7), (7, 6), (7, 9), (u32::MAX, 0), (0, u32::MAX)] {
        let mut replay = Replay::new(Edition::First);
        let bytes = [midnight(first), midnight(next), vec![1]].concat();
        assert_eq!(replay.feed(&bytes), fed(9, Some(Refusal::MidnightDay)));
        let status = replay.status();
        assert_eq!(
            (status.stopped, status.midnights),
            (Some(Refusal::MidnightDay), 1)
        );
        assert_eq!((status.days, status.unfinished), (Some((first, first)), 0));
        assert_eq!(replay.feed(&[1]), fed(0, Some(Refusal::MidnightDay)));
    }
}

#[test]
fn four_hundred_midnights_come_and_no_more() {
    let first = u32::MAX - 399;
    let all: Vec<u8> = (0..400).flat_map(|place| midnight(first + place)).collect();
    let mut replay = Replay::new(Edition::First);
    assert_eq!(replay.feed(&words(&SETTINGS)), fed(65, None));
    assert_eq!(replay.feed(&all), fed(2_000, None));
    assert_eq!(replay.feed(&words(&[START_PROGRAM, 0])), fed(10, None));
    assert_eq!(replay.status().days, Some((first, u32::MAX)));
    assert_eq!(replay.days().count(), 400);
    assert_eq!(replay.days().last(), Some(day(u32::MAX, 1)));
    assert_eq!(
        replay.feed(&midnight(0)),
        fed(4, Some(Refusal::MidnightDay))
    );
    let mut low = Replay::new(Edition::First);
    let all: Vec<u8> = (0..401).flat_map(midnight).collect();
    assert_eq!(low.feed(&all), fed(2_004, Some(Refusal::MidnightDay)));
    assert_eq!(low.status().days, Some((0, 399)));
}

#[test]
fn the_days_go_on_after_a_refused_word() {
    let bytes = [
        three_days(),
        words(&[SET_OUT_FMT, 4, START_PROGRAM, 0]),
        midnight(103),
    ]
    .concat();
    let mut replay = Replay::new(Edition::First);
    assert_eq!(replay.feed(&bytes), fed(bytes.len(), None));
    let status = replay.status();
    let word = status.refused.expect("a refused word");
    assert_eq!((word.refusal, word.midnights), (Refusal::NumberTooHigh, 3));
    let record = three_days().len() as u64 / 5 + 1;
    assert_eq!(word.record_after(0), Some(record));
    assert_eq!((status.stopped, status.days), (None, Some((100, 103))));
    assert_eq!(days(&replay)[2..], [day(102, 0), day(103, 0)]);
    assert!(replay.session().status().stopped);
}

/// Four outputs of the largest window, and the largest domain: a start claims 2^26
/// elements.
fn largest() -> Vec<u32> {
    let mut words = vec![SET_INST_FMT, 0x1000, 0x400_0010];
    for number in 0..4 {
        words.extend([SET_OUT_FMT, number, number << 28, 0x1000, 0x1000]);
    }
    words.extend([SET_DOMAIN, 0, 0, 0xFFF, 0xFFF]);
    words
}

#[test]
fn a_day_may_claim_more_than_2_to_the_32_elements() {
    let bytes = [
        words(&largest()),
        midnight(100),
        words(&[START_PROGRAM, 0].repeat(65)),
        midnight(101),
        words(&[START_PROGRAM, 0]),
    ]
    .concat();
    let mut replay = Replay::new(Edition::First);
    assert_eq!(replay.feed(&bytes), fed(bytes.len(), None));
    let part = |runs| Part {
        runs,
        claims: runs << 26,
    };
    assert_eq!((replay.part(1), replay.part(2)), (part(65), part(1)));
    assert_eq!(replay.session().claims(), 66 << 26);
    // What a day owes is at most 100,000,000, and so is what it is served.
    let lease = Lease::new(100, 2, 100_000_000).expect("a lease line");
    let month = replay.score(&lease).expect("a log that isn't stopped");
    let days: Vec<(u64, u64)> = month.days.iter().map(|d| (d.claimed, d.served)).collect();
    assert_eq!(days, [(65 << 26, 100_000_000), (1 << 26, 1 << 26)]);
}

/// Words in a row are taken many at a time; no number of them is a special one, nor
/// is the place of a refused word among them.
#[test]
fn words_in_a_row_may_be_any_number() {
    for count in [127, 128, 129, 255, 256, 257, 1_000] {
        let row = [words(&SETTINGS), words(&[START_PROGRAM, 0].repeat(count))].concat();
        for refused in [None, Some(127), Some(128), Some(129), Some(2 * count)] {
            let mut bytes = [midnight(100), row.clone(), midnight(101), words(&[7])].concat();
            if let Some(place) = refused {
                // One of the words in the row is no header and no parameter.
                let at = 5 * (1 + place) + 1;
                bytes[at..at + 4].copy_from_slice(&[255; 4]);
            }
            let mut whole = Replay::new(Edition::First);
            assert_eq!(whole.feed(&bytes), fed(bytes.len(), None));
            let mut single = Replay::new(Edition::First);
            bytes
                .iter()
                .for_each(|byte| assert_eq!(single.byte(*byte), Ok(())));
            assert_eq!(whole, single, "{count} starts in a row, {refused:?}");
            let place = refused.unwrap_or(SETTINGS.len() + 2 * count);
            let midnights = if refused.is_some() { 1 } else { 2 };
            let word = whole.status().refused.expect("a word that is refused");
            assert_eq!(
                (word.record_after(0), word.midnights),
                (Some(place as u64 + midnights), midnights as u32)
            );
        }
    }
}

#[test]
fn the_room_of_a_refused_piece_is_written() {
    let mut replay = Replay::new(Edition::First);
    let mut taken = [9];
    assert_eq!(
        lent::log_feed(&mut replay, &[2, 0, 0, 0, 0, 0], &mut taken),
        18
    );
    assert_eq!(taken, [5]);
    assert_eq!(lent::log_feed(&mut replay, &[1], &mut taken), 18);
    assert_eq!(taken, [0]);
    taken = [9];
    assert_eq!(lent::log_feed(&mut replay, &[], &mut taken), 0);
    assert_eq!(taken, [0]);
}

/// Three days, and six more with a start on every second one; the sixth is open.
fn nine_days() -> Vec<u8> {
    let later = (103..109).flat_map(|day| {
        let starts = if day % 2 == 0 { 2 } else { 0 };
        [midnight(day), words(&[START_PROGRAM, 0].repeat(starts))].concat()
    });
    three_days().into_iter().chain(later).collect()
}

/// A replay of these bytes, all taken.
fn replayed(bytes: &[u8]) -> Replay {
    let mut replay = Replay::new(Edition::First);
    assert_eq!(replay.feed(bytes), fed(bytes.len(), None));
    replay
}

/// The scores of all leases of up to five days that begin on this day or up to three days later.
fn scores(replay: &Replay, from: u32) -> Vec<egretfold::Answer<egretfold::Month>> {
    let leases = (from..from + 4).flat_map(|first| (1..=5).map(move |days| (first, days)));
    leases
        .map(|(first, days)| {
            let lease = Lease::new(first, days, 3_000).expect("a lease line");
            replay.score(&lease)
        })
        .collect()
}

/// What a trimmed replay shares with the one that forgot nothing.
fn assert_same_from_kept_day(trimmed: &Replay, whole: &Replay, forgotten: u32, what: &str) {
    assert_eq!(trimmed.session(), whole.session(), "{what}");
    let kept = whole.days().skip(forgotten as usize);
    assert_eq!(days(trimmed), kept.collect::<Vec<Day>>(), "{what}");
    let (ours, all) = (trimmed.status(), whole.status());
    assert_eq!(ours.midnights + forgotten, all.midnights, "{what}");
    assert_eq!(
        (ours.stopped, ours.unfinished),
        (all.stopped, all.unfinished),
        "{what}"
    );
    let last = |status: &LogStatus| status.days.map(|(_, last)| last);
    assert_eq!(last(&ours), last(&all), "{what}");
    let from = ours.days.map_or(0, |(first, _)| first);
    assert_eq!(scores(trimmed, from), scores(whole, from), "{what}");
}

#[test]
fn a_trimmed_replay_goes_on_as_the_untrimmed_one() {
    let endings = [vec![], vec![1, 7], vec![3], midnight(108), words(&[7])];
    for ending in endings {
        let bytes = [nine_days(), ending].concat();
        for cut in 0..=bytes.len() {
            let mut whole = Replay::new(Edition::First);
            whole.feed(&bytes[..cut]);
            let mut trimmed = whole.clone();
            let forgotten = trimmed.trim();
            let midnights = whole.status().midnights;
            assert_eq!(forgotten, midnights.saturating_sub(1), "cut at {cut}");
            assert_same_from_kept_day(&trimmed, &whole, forgotten, &format!("cut at {cut}"));
            let answer = whole.feed(&bytes[cut..]);
            assert_eq!(trimmed.feed(&bytes[cut..]), answer, "cut at {cut}");
            assert_same_from_kept_day(&trimmed, &whole, forgotten, &format!("after {cut}"));
        }
    }
}

#[test]
fn what_ended_before_the_kept_day_is_one_part() {
    let mut replay = replayed(&nine_days());
    let before = replay.before().runs + replay.days().take(8).map(|d| d.part.runs).sum::<u64>();
    assert_eq!(replay.trim(), 8);
    assert_eq!(
        (replay.before(), days(&replay)),
        (part(before), vec![day(108, 2)])
    );
    assert_eq!(before + 2, replay.session().runs());
}

#[test]
fn trimmed_twice_is_trimmed_and_the_check_takes_it() {
    let bytes = [nine_days(), vec![1, 7]].concat();
    for cut in 0..=bytes.len() {
        let mut replay = replayed(&bytes[..cut]);
        let untrimmed = replay.clone();
        if replay.trim() == 0 {
            assert_eq!(replay, untrimmed, "nothing to forget at {cut}");
        }
        let mut again = Replay::from_bytes(&replay.to_bytes()).expect("a replay's bytes");
        assert_eq!(again.trim(), 0, "cut at {cut}");
        assert_eq!(again, replay, "cut at {cut}");
        // It doesn't matter when: trimmed here and at the end is trimmed at the end alone.
        let mut whole = replayed(&bytes);
        for (late, rest) in [(&mut again, &bytes[cut..]), (&mut whole, &[])] {
            assert_eq!(late.feed(rest), fed(rest.len(), None));
            assert!(late.trim() <= 8);
        }
        assert_eq!(again, whole, "cut at {cut}");
    }
}

#[test]
fn two_thousand_midnights_come_where_every_31st_is_trimmed() {
    let mut replay = replayed(&words(&SETTINGS));
    let mut forgotten = 0;
    for number in 0..2_000 {
        let starts = [START_PROGRAM, 0].repeat(number as usize % 3);
        let bytes = [midnight(number), words(&starts)].concat();
        assert_eq!(replay.feed(&bytes), fed(bytes.len(), None), "day {number}");
        if number % 31 == 30 {
            let first = number - 30;
            let lease = Lease::new(first, 31, 1_728).expect("a lease line");
            let month = replay.score(&lease).expect("a log that isn't stopped");
            let claimed = |k: u32| u64::from((first + k) % 3) * 1_728;
            assert!((0..31).all(|k| month.days[k as usize].claimed == claimed(k)));
            forgotten += replay.trim();
            assert!(Replay::from_bytes(&replay.to_bytes()).is_some());
        }
    }
    // The last trim was on day 1,983.
    assert_eq!(
        (forgotten, replay.status().days),
        (1_983, Some((1_983, 1_999)))
    );
    assert_eq!(
        replay.session().runs(),
        (0..2_000).map(|n| n % 3).sum::<u64>()
    );
}

#[test]
fn nineteen_after_a_trim_for_a_day_that_is_not_the_next() {
    let whole = replayed(&nine_days());
    for number in [0, 1, 100, 107, 108, 110, u32::MAX] {
        let mut replay = whole.clone();
        assert_eq!(replay.trim(), 8);
        let piece = [midnight(number), midnight(109)].concat();
        assert_eq!(replay.feed(&piece), fed(4, Some(Refusal::MidnightDay)));
        let status = replay.status();
        assert_eq!((status.midnights, status.days), (1, Some((108, 108))));
        // A trim doesn't set it going again.
        assert_eq!(replay.trim(), 0);
        assert_eq!(
            replay.feed(&midnight(109)),
            fed(0, Some(Refusal::MidnightDay))
        );
    }
}

#[test]
fn a_trim_makes_room_for_399_midnights_and_no_more() {
    let all: Vec<u8> = (0..400).flat_map(midnight).collect();
    let more: Vec<u8> = (400..800).flat_map(midnight).collect();
    let mut full = replayed(&all);
    let mut trimmed = full.clone();
    assert_eq!(full.feed(&more), fed(4, Some(Refusal::MidnightDay)));
    assert_eq!(trimmed.trim(), 399);
    assert_eq!(trimmed.feed(&more), fed(1_999, Some(Refusal::MidnightDay)));
    assert_eq!(trimmed.status().days, Some((399, 798)));
    // One that the 401st midnight has stopped stays stopped.
    assert_eq!(full.trim(), 399);
    assert_eq!(full.status().stopped, Some(Refusal::MidnightDay));
}

/// The record number of a refused word: told after a trim where the word came on the
/// kept day or later, and never told wrong.
#[test]
fn a_refused_words_record_after_a_trim() {
    let bytes = nine_days();
    for place in (0..=bytes.len()).step_by(5) {
        let (first, second) = bytes.split_at(place);
        let refused = [first, &words(&[u32::MAX]), second].concat();
        let untrimmed = replayed(&refused);
        let whole = untrimmed.status().refused.expect("a refused word");
        let taken = u64::from(untrimmed.session().status().taken);
        let due = taken + u64::from(whole.midnights);
        assert_eq!(whole.record_after(0), Some(due));
        for cut in (0..=refused.len()).step_by(5) {
            let mut replay = replayed(&refused[..cut]);
            let forgotten = u64::from(replay.trim());
            assert_eq!(replay.feed(&refused[cut..]).refusal, None);
            let word = replay.status().refused.expect("a refused word");
            assert_eq!(word.refusal, whole.refusal);
            let known = forgotten == 0 || u64::from(whole.midnights) > forgotten;
            let record = whole.record_after(0).filter(|_| known);
            assert_eq!(
                word.record_after(forgotten),
                record,
                "word {place}, cut {cut}"
            );
        }
    }
}

/// Why a caller must not score such a line: its forgotten days look like days without
/// a midnight.
#[test]
fn a_lease_from_before_the_kept_day_finds_nothing_there() {
    let mut replay = replayed(&three_days());
    assert_eq!(replay.trim(), 2);
    assert_eq!(replay.feed(&words(&[START_PROGRAM, 0])), fed(10, None));
    let lease = Lease::new(100, 3, 1_728).expect("a lease line");
    let month = replay.score(&lease).expect("a log that isn't stopped");
    let claimed: Vec<u64> = month.days.iter().map(|d| d.claimed).collect();
    assert_eq!(claimed, [0, 0, 1_728]);
}
