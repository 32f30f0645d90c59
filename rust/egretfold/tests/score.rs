//! A month scored against its lease line, asked through the safe functions. Also a
//! first look at how a score is used.

use egretfold::headers::{SET_DOMAIN, SET_INST_FMT, SET_OUT_FMT, START_PROGRAM};
use egretfold::lengths::DAYS;
use egretfold::{lent, Edition, Lease, Month, Refusal, Replay, ScoredDay, Verdict};

/// Document 01's whole stream up to its start, which claims 1,728 elements.
#[rustfmt::skip]
const SETTINGS: [u32; 13] = [
    SET_INST_FMT, 0x1000, 0x400_0010,
    SET_OUT_FMT, 0, 0x800, 0x201_0064, 0x12,
    SET_DOMAIN, 0, 0, 0x5F, 0x11,
];

const CLAIM: u32 = 1_728;

fn words(words: &[u32]) -> Vec<u8> {
    let record = |word: &u32| [&[1][..], &word.to_le_bytes()].concat();
    words.iter().flat_map(record).collect()
}

fn midnight(day: u32) -> Vec<u8> {
    [&[2][..], &day.to_le_bytes()].concat()
}

/// Settings and a start before the first midnight, which cuts another one; two
/// starts on day 100 with that, none on 101, one on 102.
fn three_days() -> Vec<u8> {
    [
        words(&SETTINGS),
        words(&[START_PROGRAM, 0, START_PROGRAM]),
        midnight(100),
        words(&[0, START_PROGRAM, 0]),
        midnight(101),
        midnight(102),
        words(&[START_PROGRAM, 0]),
    ]
    .concat()
}

fn replayed(bytes: &[u8]) -> Replay {
    let mut replay = Replay::new(Edition::First);
    replay.feed(bytes);
    replay
}

fn lease(first_day: u32, days: u32, owed: u32) -> Lease {
    Lease::new(first_day, days, owed).expect("the lease line is accepted")
}

fn day(number: u32, claimed: u32, served: u32) -> ScoredDay {
    let (claimed, served) = (claimed.into(), served.into());
    ScoredDay {
        number,
        claimed,
        served,
    }
}

fn month(days: &[ScoredDay], owed: u32, verdict: Verdict) -> Month {
    Month {
        days: days.to_vec(),
        served: days.iter().map(|day| day.served).sum(),
        owed: owed.into(),
        verdict,
    }
}

#[test]
fn an_accepted_lease_line_keeps_its_numbers() {
    let lease = lease(100, 31, 100_000_000);
    assert_eq!((lease.first_day(), lease.last_day()), (100, 130));
    assert_eq!((lease.days(), lease.owed()), (31, 100_000_000));
}

#[test]
fn each_bound_of_the_lease_line_on_both_sides() {
    for (first, days, owed) in [
        (0, 1, 0),
        (0, 31, 100_000_000),
        (u32::MAX, 1, 1),
        (u32::MAX - 1, 2, 1),
        (u32::MAX - 30, 31, 1),
    ] {
        assert!(
            Lease::new(first, days, owed).is_ok(),
            "{first}, {days}, {owed}"
        );
    }
    for (first, days, owed) in [
        (0, 0, 0),
        (0, 32, 0),
        (0, u32::MAX, 0),
        (u32::MAX, 0, 1),
        (0, 1, 100_000_001),
        (0, 1, u32::MAX),
        (u32::MAX, 2, 1),
        (u32::MAX - 29, 31, 1),
    ] {
        let answer = Lease::new(first, days, owed);
        assert_eq!(answer, Err(Refusal::LeaseLine), "{first}, {days}, {owed}");
    }
}

#[test]
fn a_day_is_served_what_it_claimed_up_to_what_it_owes() {
    let replay = replayed(&three_days());
    let days = [
        day(99, 0, 0),
        day(100, 2 * CLAIM, CLAIM),
        day(101, 0, 0),
        day(102, CLAIM, CLAIM),
        day(103, 0, 0),
    ];
    let due = month(&days, 5 * CLAIM, Verdict::Short);
    assert_eq!(replay.score(&lease(99, 5, CLAIM)), Ok(due));
}

#[test]
fn the_three_verdicts() {
    let replay = replayed(&three_days());
    let full = month(&[day(102, CLAIM, CLAIM)], CLAIM, Verdict::Full);
    assert_eq!(replay.score(&lease(102, 1, CLAIM)), Ok(full));
    let short = month(&[day(102, CLAIM, CLAIM)], CLAIM + 1, Verdict::Short);
    assert_eq!(replay.score(&lease(102, 1, CLAIM + 1)), Ok(short));
    let nothing = month(&[day(102, CLAIM, 0)], 0, Verdict::NothingOwed);
    assert_eq!(replay.score(&lease(102, 1, 0)), Ok(nothing));
    // A new replay has no midnight.
    let nothing = month(&[day(0, 0, 0)], 0, Verdict::NothingOwed);
    assert_eq!(
        Replay::new(Edition::First).score(&lease(0, 1, 0)),
        Ok(nothing)
    );
    let short = month(&[day(0, 0, 0)], 1, Verdict::Short);
    assert_eq!(
        Replay::new(Edition::First).score(&lease(0, 1, 1)),
        Ok(short)
    );
}

#[test]
fn a_stopped_replay_has_no_score() {
    for (end, refusal) in [
        (vec![3], Refusal::RecordKind),
        (midnight(104), Refusal::MidnightDay),
    ] {
        let replay = replayed(&[three_days(), end].concat());
        assert_eq!(replay.score(&lease(100, 3, CLAIM)), Err(refusal));
        assert_eq!(replay.score(&lease(7, 1, 0)), Err(refusal));
    }
}

#[test]
fn a_refused_word_and_an_unfinished_record_refuse_nothing() {
    let end = [words(&[7, START_PROGRAM, 0]), vec![2, 103]].concat();
    let replay = replayed(&[three_days(), end].concat());
    let status = replay.status();
    assert_eq!(status.refused.map(|word| word.refusal.number()), Some(2));
    assert_eq!(status.unfinished, 2);
    let full = month(&[day(102, CLAIM, CLAIM)], CLAIM, Verdict::Full);
    assert_eq!(replay.score(&lease(102, 1, CLAIM)), Ok(full));
}

#[test]
fn cutting_the_log_changes_nothing() {
    let bytes = three_days();
    let lease = lease(99, 5, CLAIM);
    let whole = replayed(&bytes).score(&lease);
    for cut in 0..=bytes.len() {
        let (first, second) = bytes.split_at(cut);
        let mut replay = replayed(first);
        // Asking in between changes nothing either.
        assert!(replay.score(&lease).is_ok());
        replay.feed(second);
        assert_eq!(replay.score(&lease), whole, "cut at {cut}");
    }
}

/// Rooms that were filled before the call.
#[derive(Clone, Copy, Debug, PartialEq, Eq)]
struct Rooms {
    claimed: [u64; DAYS],
    served: [u64; DAYS],
    month: [u64; 3],
}

const FILLED: Rooms = Rooms {
    claimed: [9; DAYS],
    served: [9; DAYS],
    month: [9; 3],
};

/// The number that the library returns, and what it left in the rooms.
fn asked(replay: &Replay, lease: (u32, u32, u32)) -> (u32, Rooms) {
    let mut rooms = FILLED;
    let Rooms {
        claimed,
        served,
        month,
    } = &mut rooms;
    let number = lent::score_month(replay, lease, claimed, served, month);
    (number, rooms)
}

#[test]
fn a_refusal_writes_nothing_to_the_rooms() {
    let running = replayed(&three_days());
    let stopped = replayed(&[three_days(), vec![0]].concat());
    let wrong_day = replayed(&[three_days(), midnight(7)].concat());
    // 21 comes first, also where the replay is stopped.
    for replay in [&running, &stopped, &wrong_day] {
        for lease in [
            (100, 0, 1),
            (100, 32, 1),
            (100, 1, 100_000_001),
            (u32::MAX, 2, 0),
        ] {
            assert_eq!(asked(replay, lease), (21, FILLED), "{lease:?}");
        }
    }
    assert_eq!(asked(&stopped, (100, 3, CLAIM)), (18, FILLED));
    assert_eq!(asked(&wrong_day, (100, 3, CLAIM)), (19, FILLED));
}

#[test]
fn the_rooms_past_the_last_day_are_0() {
    let replay = replayed(&three_days());
    for days in 1..=DAYS as u32 {
        let (number, rooms) = asked(&replay, (100, days, 1));
        assert_eq!(number, 0);
        let days = days as usize;
        assert_eq!(rooms.claimed[0], u64::from(2 * CLAIM));
        assert_eq!(rooms.served[0], 1);
        assert!(rooms.claimed[days..].iter().all(|count| *count == 0));
        assert!(rooms.served[days..].iter().all(|count| *count == 0));
        assert_eq!(rooms.month[1], days as u64);
    }
}
