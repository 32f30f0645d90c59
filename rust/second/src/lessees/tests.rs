//! A session of two parties held to document 02's request 9, and to two single sessions.

use super::*;
use crate::command::{write, TABLE};
use crate::session::Session;

const INSTRUCTIONS: [u32; 3] = [SET_INST_FMT, 0, 0x20];
const START: [u32; 2] = [START_PROGRAM, 0];

/// Inputs 8 to 15 and outputs 2 and 3 are party 1's.
const INPUTS: u32 = 0xFF00;
const OUTPUTS: u32 = 0b1100;

fn shared() -> Lessees {
    Lessees::begin(1, INPUTS, OUTPUTS).unwrap()
}

/// FLOAT32_4, linear, E 32, H 4: 2,048 bytes.
fn output(number: u32, base: u32) -> [u32; 5] {
    [SET_OUT_FMT, number, base, 0x0400_0020, 4]
}

fn domain(i1: u32, j1: u32) -> [u32; 5] {
    [SET_DOMAIN, 0, 0, i1, j1]
}

fn fed(taken: u64, commands: u64, refusal: Option<u32>) -> Fed {
    Fed {
        taken,
        commands,
        refusal,
    }
}

/// All words of the piece are taken.
fn accept(lessees: &mut Lessees, party: bool, words: &[u32]) {
    let fed = lessees.feed(party, words);
    assert_eq!(
        (fed.taken, fed.refusal),
        (words.len() as u64, None),
        "{words:X?}"
    );
}

/// The words are taken up to the last, which gets this number: settings and
/// tallies and the other party stay, this party has no open command and is
/// stopped.
fn assert_last_refused(before: &Lessees, party: bool, words: &[u32], number: u32) {
    let mut lessees = before.clone();
    let (last, first) = words.split_last().unwrap();
    accept(&mut lessees, party, first);
    let mut wanted = lessees.clone();
    wanted.of_mut(party).open = None;
    wanted.of_mut(party).stopped = true;
    assert_eq!(lessees.word(party, *last), Err(number), "{words:X?}");
    assert_eq!(lessees, wanted);
    for later in [0, SET_DOMAIN, u32::MAX] {
        assert_eq!(lessees.word(party, later), Err(1));
        assert_eq!(lessees, wanted);
    }
}

/// The numbers that a party owns of `shared`.
fn own_numbers(party: bool) -> [u32; 2] {
    if party {
        [2, 3]
    } else {
        [0, 1]
    }
}

#[test]
fn r125_owners_above_the_numbers_get_3() {
    for bit in 0..32 {
        let answer = Lessees::begin(1, 1 << bit, 0);
        assert_eq!(answer.is_ok(), bit < 16, "{bit}");
        let answer = Lessees::begin(1, 0, 1 << bit);
        assert_eq!(answer.is_ok(), bit < 4, "{bit}");
    }
    assert_eq!(Lessees::begin(1, 0x1_0000, 0), Err(3));
    assert_eq!(Lessees::begin(1, 0, 16), Err(3));
    for edition in [0, 3, u32::MAX] {
        assert_eq!(Lessees::begin(edition, 0, 0), Err(3));
    }
    assert!(Lessees::begin(2, 0xFFFF, 0xF).is_ok());
}

#[test]
fn a_new_session() {
    let lessees = shared();
    for party in [false, true] {
        assert_eq!((lessees.taken(party), lessees.open(party)), (0, None));
        assert_eq!((lessees.runs(party), lessees.claims(party)), (0, 0));
        assert_eq!(
            (lessees.domain(party), lessees.instructions(party)),
            (None, None)
        );
        assert!(!lessees.stopped(party));
        assert_eq!(lessees.readiness(party), 7);
    }
    assert_eq!(lessees.output_mask(), 0xFFFF);
    assert_eq!(lessees.output(4), Err(4));
    assert_eq!(lessees.input(16), Err(4));
    assert_eq!((lessees.output(3), lessees.input(15)), (Ok(None), Ok(None)));
}

#[test]
fn r126_20_at_party_1s_headers() {
    let headers = [
        0xC001_0E00,
        0xC001_0F00,
        0xC001_1000,
        0xC002_0D00,
        0xC000_1A00,
        0xC000_1B00,
    ];
    for line in &TABLE {
        let mut lessees = shared();
        let answer = lessees.word(true, line.header);
        if headers.contains(&line.header) {
            assert_eq!(answer, Err(20));
            assert_last_refused(&shared(), true, &[line.header], 20);
            assert_last_refused(&shared(), true, &[SET_DOMAIN, 0, 0, 0, 0, line.header], 20);
        } else {
            assert_eq!(answer, Ok(Reply::Open), "{:08X}", line.header);
        }
        // Party 0 may send them all.
        assert_eq!(shared().word(false, line.header), Ok(Reply::Open));
    }
    // In a parameter's place such a word is no header.
    assert_last_refused(&shared(), true, &[SET_OUT_MASK, SET_COND_TEST], 3);
    assert_last_refused(&shared(), true, &[SET_OUT_FMT, SET_COND_TEST], 4);
}

#[test]
fn party_0_sets_what_belongs_to_it() {
    let mut lessees = shared();
    accept(&mut lessees, false, &[SET_CONSTF_FMT, 0x800, 0x20]);
    accept(&mut lessees, false, &[SET_CONSTI_FMT, 0x1000, 0x20]);
    accept(&mut lessees, false, &[SET_CONSTB_FMT, 0x1800, 0x20]);
    accept(&mut lessees, false, &[SET_COND_OUT_FMT, 0x2000, 0x20, 7]);
    accept(
        &mut lessees,
        false,
        &[SET_COND_OUT_MASK, 1, SET_COND_TEST, 6],
    );
    let bases = [
        lessees.floats(),
        lessees.integers(),
        lessees.booleans(),
        lessees.conditional(),
    ];
    let bases = bases.map(|format| format.unwrap().base);
    assert_eq!(bases, [0x800, 0x1000, 0x1800, 0x2000]);
    assert_eq!(
        (lessees.conditional_mask(), lessees.test()),
        (Some(1), Some(6))
    );
}

#[test]
fn r127_20_at_a_number_of_the_other_after_4() {
    for owners in [0, 0xFFFF, INPUTS, 0x5A5A] {
        let lessees = Lessees::begin(1, owners, owners & 0xF).unwrap();
        for party in [false, true] {
            for number in 0..16 {
                let owned = (owners >> number & 1 == 1) == party;
                for (header, most) in [(SET_INP_FMT, 15), (SET_OUT_FMT, 3)] {
                    let words = [header, number];
                    if number > most {
                        assert_last_refused(&lessees, party, &words, 4);
                    } else if owned {
                        accept(&mut lessees.clone(), party, &words);
                    } else {
                        assert_last_refused(&lessees, party, &words, 20);
                    }
                }
            }
            for number in [16, 0x8000_0000, u32::MAX] {
                assert_last_refused(&lessees, party, &[SET_INP_FMT, number], 4);
                assert_last_refused(&lessees, party, &[SET_OUT_FMT, number], 4);
            }
        }
    }
}

#[test]
fn r127_1_and_17_come_before_20() {
    let full = Lessees::begin_after(1, 0, 0, [5, 1_000_000_000]).unwrap();
    let mut lessees = full.clone();
    assert_eq!(lessees.word(true, SET_COND_TEST), Err(17));
    assert_eq!(lessees.word(true, SET_COND_TEST), Err(1));
    let last = Lessees::begin_after(1, 0, 0, [5, 999_999_999]).unwrap();
    let mut lessees = last.clone();
    assert_eq!(lessees.feed(true, &[SET_OUT_FMT, 0]), fed(1, 0, Some(17)));
    // The 1,000,000,000th word is judged as usual.
    assert_eq!(last.clone().word(true, SET_COND_TEST), Err(20));
    // 2 comes before 20: an unknown header is no one's.
    assert_eq!(shared().word(true, SET_COND_TEST + 1), Err(2));
}

#[test]
fn the_word_limit_is_per_party() {
    let mut lessees = Lessees::begin_after(1, 0, 0, [999_999_998, 999_999_999]).unwrap();
    let words = [
        (true, SET_DOMAIN),
        (false, SET_OUT_MASK),
        (true, 0),
        (false, 9),
    ];
    let answers = lessees.feed_both(&words);
    assert_eq!(answers, [fed(2, 1, None), fed(1, 0, Some(17))]);
    assert_eq!(
        (lessees.stopped(false), lessees.stopped(true)),
        (false, true)
    );
    assert_eq!(lessees.word(false, SET_DOMAIN), Err(17));
    assert_eq!(lessees.taken(false), 1_000_000_000);
    assert_eq!(lessees.taken(true), 1_000_000_000);
}

#[test]
fn r128_a_mask_changes_only_ones_own_bits() {
    let mut lessees = shared();
    accept(&mut lessees, false, &[SET_OUT_MASK, 0]);
    assert_eq!(lessees.output_mask(), 0xFF00);
    accept(&mut lessees, true, &[SET_OUT_MASK, 0x1234]);
    assert_eq!(lessees.output_mask(), 0x1200);
    // The command keeps the whole word.
    assert_eq!(lessees.word(false, SET_OUT_MASK), Ok(Reply::Open));
    let command = Command {
        header: SET_OUT_MASK,
        fields: [0xABCD, 0, 0, 0],
    };
    assert_eq!(lessees.word(false, 0xABCD), Ok(Reply::Done(command)));
    assert_eq!(lessees.output_mask(), 0x12CD);
    for party in [false, true] {
        assert_last_refused(&lessees, party, &[SET_OUT_MASK, 0x1_0000], 3);
    }
    // Every choice of owners.
    for owners in 0..16 {
        let mut lessees = Lessees::begin(1, 0, owners).unwrap();
        accept(&mut lessees, true, &[SET_OUT_MASK, 0]);
        let nibble = |n: u32| {
            if owners >> n & 1 == 1 {
                0
            } else {
                0xF << (4 * n)
            }
        };
        let left: u32 = (0..4).map(nibble).sum();
        assert_eq!(lessees.output_mask(), left);
    }
}

#[test]
fn r129_7_looks_at_ones_own() {
    for party in [false, true] {
        let [one, _] = own_numbers(party);
        let parts = [&INSTRUCTIONS[..], &output(one, 0), &domain(31, 3)];
        // Whatever the other has set.
        let mut other = shared();
        accept(&mut other, !party, &INSTRUCTIONS);
        accept(&mut other, !party, &output(own_numbers(!party)[0], 0));
        accept(&mut other, !party, &domain(0, 0));
        for before in [shared(), other] {
            for missing in 0..3 {
                let mut words: Vec<u32> = Vec::new();
                for place in (0..3).filter(|place| *place != missing) {
                    words.extend(parts[place]);
                }
                words.extend(START);
                assert_last_refused(&before, party, &words, 7);
            }
            let mut lessees = before.clone();
            let words = [parts.concat(), START.to_vec()].concat();
            accept(&mut lessees, party, &words);
            assert_eq!((lessees.runs(party), lessees.claims(party)), (1, 128));
            assert_eq!((lessees.runs(!party), lessees.claims(!party)), (0, 0));
        }
    }
    // A party that owns no output always gets 7.
    let all = Lessees::begin(1, 0, 0).unwrap();
    let words = [&INSTRUCTIONS[..], &domain(0, 0), &START].concat();
    assert_last_refused(&all, true, &words, 7);
}

#[test]
fn r129_8_and_9_look_at_ones_own() {
    for party in [false, true] {
        let ([one, two], [theirs, _]) = (own_numbers(party), own_numbers(!party));
        // The other's window is small and lies over this one's.
        let mut lessees = shared();
        accept(
            &mut lessees,
            !party,
            &[SET_OUT_FMT, theirs, 0, 0x0400_0008, 1],
        );
        let ready = [&INSTRUCTIONS[..], &output(one, 0), &domain(31, 3)].concat();
        accept(&mut lessees, party, &[&ready[..], &START].concat());
        assert_eq!((lessees.runs(party), lessees.claims(party)), (1, 128));
        // Two of one's own that meet.
        let both = [&output(two, 0)[..], &START].concat();
        assert_last_refused(&lessees, party, &both, 9);
        assert_last_refused(&lessees, party, &[&domain(32, 0)[..], &START].concat(), 8);
        // The other's mask changes nothing, one's own does.
        let mut masked = lessees.clone();
        accept(&mut masked, !party, &[SET_OUT_MASK, 0]);
        assert_last_refused(&masked, party, &both, 9);
        accept(&mut masked, party, &output(two, 0));
        accept(&mut masked, party, &[SET_OUT_MASK, 0xF << (4 * one)]);
        accept(&mut masked, party, &START);
        assert_eq!(masked.claims(party), 256);
    }
}

#[test]
fn a_stop_stops_only_its_party() {
    for party in [false, true] {
        let mut lessees = shared();
        accept(&mut lessees, !party, &[SET_DOMAIN, 1, 2]);
        assert_eq!(lessees.word(party, 7), Err(2));
        assert_eq!(
            (lessees.stopped(party), lessees.stopped(!party)),
            (true, false)
        );
        // The other's open command goes on.
        accept(&mut lessees, !party, &[3, 4]);
        assert_eq!(lessees.domain(!party), Some([1, 2, 3, 4]));
        assert_eq!(lessees.domain(party), None);
        assert_eq!(lessees.word(party, SET_DOMAIN), Err(1));
    }
}

#[test]
fn each_party_has_its_own_open_command() {
    let mut lessees = shared();
    let words = [
        (false, SET_OUT_FMT),
        (true, SET_OUT_FMT),
        (true, 2),
        (false, 1),
        (false, 0x800),
        (true, 0x1000),
        (true, 0x20),
        (false, 0x40),
        (true, 5),
        (false, 6),
    ];
    assert_eq!(lessees.feed_both(&words), [fed(5, 1, None); 2]);
    let format = |base, format, height| {
        Ok(Some(Format {
            base,
            format,
            height,
        }))
    };
    assert_eq!(lessees.output(1), format(0x800, 0x40, 6));
    assert_eq!(lessees.output(2), format(0x1000, 0x20, 5));
}

#[test]
fn r130_a_piece_runs_on_and_answers_for_each_apart() {
    let mut lessees = shared();
    let words = [
        (true, SET_COND_TEST),
        (false, SET_COND_TEST),
        (true, SET_DOMAIN),
        (false, 3),
        (true, 0),
        (false, SET_INP_FMT),
        (false, 8),
        (false, SET_DOMAIN),
    ];
    let answers = lessees.feed_both(&words);
    assert_eq!(answers, [fed(3, 1, Some(20)), fed(0, 0, Some(20))]);
    assert_eq!(lessees.test(), Some(3));
    // The first refusal is of this piece: 1 for a stopped party that has a word
    // in it, none for one that hasn't.
    assert_eq!(lessees.feed_both(&[]), [fed(0, 0, None); 2]);
    let answers = lessees.feed_both(&[(true, SET_DOMAIN)]);
    assert_eq!(answers, [fed(0, 0, None), fed(0, 0, Some(1))]);
}

#[test]
fn editions_count_ones_own_channels() {
    for (edition, due) in [(1, 15), (2, 45)] {
        let mut lessees = Lessees::begin(edition, INPUTS, OUTPUTS).unwrap();
        for party in [false, true] {
            let [one, two] = own_numbers(party);
            let words = [
                &INSTRUCTIONS[..],
                &output(one, 0),
                &output(two, 0x800),
                // Three channels of the first, none of the second.
                &[SET_OUT_MASK, 0x0E << (4 * one)],
                &domain(4, 2),
                &START,
            ];
            accept(&mut lessees, party, &words.concat());
            assert_eq!((lessees.runs(party), lessees.claims(party)), (1, due));
        }
    }
}

/// The second way: two single sessions. Each gets its party's words, and the
/// words that get 20 are held back from it.
struct Apart {
    sessions: [Session; 2],
    /// Stopped by 20, which a single session doesn't know.
    stopped: [bool; 2],
    inputs: u32,
    outputs: u32,
}

impl Apart {
    fn new(inputs: u32, outputs: u32) -> Apart {
        Apart {
            sessions: [Session::new(), Session::new()],
            stopped: [false; 2],
            inputs,
            outputs,
        }
    }

    fn word(&mut self, party: bool, word: u32) -> Answer<Reply> {
        let number = usize::from(party);
        if self.stopped[number] {
            return Err(1);
        }
        let session = &mut self.sessions[number];
        let foreign = match session.open() {
            _ if session.stopped() => false,
            None => party && OF_PARTY_0.contains(&word),
            Some((SET_INP_FMT, 0)) => word < 16 && (self.inputs >> word & 1 == 1) != party,
            Some((SET_OUT_FMT, 0)) => word < 4 && (self.outputs >> word & 1 == 1) != party,
            Some(_) => false,
        };
        if foreign {
            self.stopped[number] = true;
            return Err(20);
        }
        session.word(word)
    }

    /// All that the two tell must be what the one tells.
    fn assert_same(&self, lessees: &Lessees) {
        for party in [false, true] {
            let number = usize::from(party);
            let session = &self.sessions[number];
            assert_eq!(lessees.taken(party), session.taken());
            let stopped = self.stopped[number] || session.stopped();
            assert_eq!(lessees.stopped(party), stopped);
            let open = if stopped { None } else { session.open() };
            assert_eq!(lessees.open(party), open);
            let tallies = (session.runs(), session.claims());
            assert_eq!((lessees.runs(party), lessees.claims(party)), tallies);
            assert_eq!(lessees.domain(party), session.domain());
            assert_eq!(lessees.instructions(party), session.instructions());
            assert_eq!(lessees.readiness(party), asked(session));
            for number in 0..16 {
                if (self.inputs >> number & 1 == 1) == party {
                    assert_eq!(lessees.input(number), session.input(number));
                }
            }
            for number in 0..4 {
                if (self.outputs >> number & 1 == 1) == party {
                    assert_eq!(lessees.output(number), session.output(number));
                    let nibble = |mask: u32| mask >> (4 * number) & 0xF;
                    let (one, other) = (lessees.output_mask(), session.output_mask());
                    assert_eq!(nibble(one), nibble(other));
                }
            }
        }
        let session = &self.sessions[0];
        assert_eq!(lessees.floats(), session.floats());
        assert_eq!(lessees.integers(), session.integers());
        assert_eq!(lessees.booleans(), session.booleans());
        assert_eq!(lessees.conditional(), session.conditional());
        assert_eq!(lessees.conditional_mask(), session.conditional_mask());
        assert_eq!(lessees.test(), session.test());
    }
}

/// What a session's start would get: its settings' commands are written into a
/// new session, and a start after them.
fn asked(session: &Session) -> u32 {
    let mut other = Session::new();
    let mut set = |words: &[u32]| assert_eq!(other.feed(words).refusal, None);
    if let Some(format) = session.instructions() {
        set(&[SET_INST_FMT, format.base, format.format]);
    }
    for number in 0..4 {
        if let Some(format) = session.output(number).unwrap() {
            set(&[
                SET_OUT_FMT,
                number,
                format.base,
                format.format,
                format.height,
            ]);
        }
    }
    if let Some([i0, j0, i1, j1]) = session.domain() {
        set(&[SET_DOMAIN, i0, j0, i1, j1]);
    }
    set(&[SET_OUT_MASK, session.output_mask(), START_PROGRAM]);
    match other.word(0) {
        Ok(_) => 0,
        Err(number) => number,
    }
}

/// A small generator, so that the streams are the same at each run.
fn next(seed: &mut u64) -> u32 {
    *seed ^= *seed << 13;
    *seed ^= *seed >> 7;
    *seed ^= *seed << 17;
    (*seed >> 32) as u32
}

/// One of a party's commands. Most name what the party owns; some are damaged.
fn some_command(seed: &mut u64, party: bool, outputs: u32) -> Vec<u32> {
    let mut any = || next(seed);
    let mut own = any() % 4;
    if any() % 16 > 0 {
        for _ in 0..4 {
            if (outputs >> own & 1 == 1) != party {
                own = (own + 1) % 4;
            }
        }
    }
    let format = (any() % 5) << 24 | (any() & 1) << 16 | 0x20 << (any() % 2);
    let mut words = match any() % 16 {
        0 | 1 => vec![SET_INST_FMT, 0, format],
        2..=5 => vec![SET_OUT_FMT, own, (any() % 8) << 11, format, any() % 12 + 1],
        6 | 7 => vec![
            SET_DOMAIN,
            any() % 4,
            any() % 3,
            any() % 30 + 3,
            any() % 3 + 2,
        ],
        8 | 9 => vec![SET_OUT_MASK, (any() | any()) & 0xFFFF],
        10 => vec![SET_INP_FMT, any() % 8 + 8 * u32::from(party), 0, 0x20, 1],
        11 if !party => vec![SET_COND_OUT_FMT, 0, format, any() % 9 + 1],
        12 if !party => vec![SET_COND_TEST, any() % 8],
        _ => vec![START_PROGRAM, 0],
    };
    if any() % 60 == 0 {
        let place = any() as usize % words.len();
        words[place] ^= 1 << (any() % 32);
    }
    words
}

/// A party's stream. Most begin with what a start needs.
fn some_stream(seed: &mut u64, party: bool, outputs: u32) -> Vec<u32> {
    let mut words = Vec::new();
    let own = (0..4).find(|number| (outputs >> number & 1 == 1) == party);
    if let (Some(number), true) = (own, next(seed) % 8 > 0) {
        words.extend(INSTRUCTIONS);
        words.extend(output(number, (next(seed) % 8) << 11));
        words.extend(domain(next(seed) % 32, next(seed) % 4));
    }
    for _ in 0..30 {
        words.extend(some_command(seed, party, outputs));
    }
    words
}

/// Two streams put together word by word, each in its own order.
fn mixed(seed: &mut u64, streams: [&[u32]; 2]) -> Vec<(bool, u32)> {
    let mut words = Vec::new();
    let mut places = [0, 0];
    while places[0] < streams[0].len() || places[1] < streams[1].len() {
        let party = next(seed) % 2 == 1;
        let number = usize::from(party);
        if let Some(word) = streams[number].get(places[number]) {
            words.push((party, *word));
            places[number] += 1;
        }
    }
    words
}

#[test]
fn one_session_of_two_is_two_sessions_apart() {
    let mut seed = 0x1E55;
    let mut refusals = [0; 21];
    let (mut done, mut runs) = (0, [0, 0]);
    for round in 0..800 {
        let outputs = if round % 4 == 0 {
            next(&mut seed) % 16
        } else {
            OUTPUTS
        };
        let streams = [false, true].map(|party| some_stream(&mut seed, party, outputs));
        let words = mixed(&mut seed, [&streams[0], &streams[1]]);
        let mut lessees = Lessees::begin(1, INPUTS, outputs).unwrap();
        let mut apart = Apart::new(INPUTS, outputs);
        for (party, word) in &words {
            let answer = lessees.word(*party, *word);
            assert_eq!(answer, apart.word(*party, *word));
            match answer {
                Ok(Reply::Done(_)) => done += 1,
                Ok(Reply::Open) => {}
                Err(number) => refusals[number as usize] += 1,
            }
            if next(&mut seed) % 8 == 0 {
                apart.assert_same(&lessees);
            }
        }
        apart.assert_same(&lessees);
        for party in [false, true] {
            runs[usize::from(party)] += lessees.runs(party);
        }
    }
    assert!(done > 5000, "{done}");
    assert!(runs[0] > 100 && runs[1] > 100, "{runs:?}");
    for number in [1, 2, 3, 4, 7, 8, 9, 20] {
        assert!(refusals[number] > 10, "{number}: {refusals:?}");
    }
}

/// All that party 0 can see.
fn view(lessees: &Lessees) -> String {
    let own = |number: &u32| lessees.owns_output(false, *number);
    let outputs: Vec<_> = (0..4).filter(own).map(|n| lessees.output(n)).collect();
    let inputs: Vec<_> = (0..16)
        .filter(|n| lessees.owns_input(false, *n))
        .map(|n| lessees.input(n))
        .collect();
    let mask: Vec<u32> = (0..16)
        .filter(|place| own(&(place / 4)))
        .map(|place| lessees.output_mask() >> place & 1)
        .collect();
    format!(
        "{:?} {:?} {outputs:?} {inputs:?} {mask:?} {:?} {:?} {:?}",
        lessees.of(false),
        lessees.readiness(false),
        (lessees.floats(), lessees.integers(), lessees.booleans()),
        (lessees.conditional(), lessees.conditional_mask()),
        lessees.test(),
    )
}

#[test]
fn r131_party_1s_words_change_nothing_of_party_0s() {
    let mut seed = 0x1507;
    for _ in 0..300 {
        let own = some_stream(&mut seed, false, OUTPUTS);
        let mut alone = shared();
        let answers: Vec<_> = own.iter().map(|word| alone.word(false, *word)).collect();
        for _ in 0..3 {
            // Other words of party 1, some of them random, at other places.
            let mut theirs = some_stream(&mut seed, true, OUTPUTS);
            for _ in 0..next(&mut seed) % 4 {
                let place = next(&mut seed) as usize % theirs.len();
                theirs[place] = next(&mut seed);
            }
            let words = mixed(&mut seed, [&own, &theirs]);
            let mut lessees = shared();
            let mut seen = Vec::new();
            for (party, word) in &words {
                let answer = lessees.word(*party, *word);
                if !party {
                    seen.push(answer);
                }
            }
            assert_eq!(seen, answers);
            assert_eq!(view(&lessees), view(&alone));
            // As a piece too.
            let mut lessees = shared();
            let [fed, _] = lessees.feed_both(&words);
            assert_eq!(fed, shared().feed(false, &own));
            assert_eq!(view(&lessees), view(&alone));
        }
    }
}

#[test]
fn with_party_0_owning_all_every_answer_is_the_old_one() {
    let mut seed = 0x0A11;
    for _ in 0..300 {
        let words = some_stream(&mut seed, false, 0);
        let mut lessees = Lessees::begin(1, 0, 0).unwrap();
        let mut session = Session::new();
        for word in &words {
            assert_eq!(lessees.word(false, *word), session.word(*word));
        }
        let mut again = Lessees::begin(1, 0, 0).unwrap();
        let both: Vec<(bool, u32)> = words.iter().map(|word| (false, *word)).collect();
        let [fed, nothing] = again.feed_both(&both);
        assert_eq!(fed, Session::new().feed(&words));
        assert_eq!(nothing, NOTHING);
        assert_eq!(again, lessees);
    }
}

#[test]
fn a_stream_of_two_may_be_cut_anywhere() {
    let mut seed = 0xC07;
    for _ in 0..40 {
        let streams = [false, true].map(|party| some_stream(&mut seed, party, OUTPUTS));
        let words = mixed(&mut seed, [&streams[0], &streams[1]]);
        let mut whole = shared();
        let answers = whole.feed_both(&words);
        for cut in 0..=words.len() {
            let mut lessees = shared();
            let first = lessees.feed_both(&words[..cut]);
            let second = lessees.feed_both(&words[cut..]);
            assert_eq!(lessees, whole);
            for party in 0..2 {
                let (one, two) = (first[party], second[party]);
                let joined = Fed {
                    taken: one.taken + two.taken,
                    commands: one.commands + two.commands,
                    refusal: one.refusal.or(two.refusal),
                };
                assert_eq!(joined, answers[party]);
            }
        }
    }
}

#[test]
fn commands_write_back_and_read_again() {
    let mut seed = 0x3EAD;
    for _ in 0..100 {
        for party in [false, true] {
            let words = some_stream(&mut seed, party, OUTPUTS);
            let mut lessees = shared();
            let mut met = lessees.clone();
            let mut begun = 0;
            for (place, word) in words.iter().enumerate() {
                match lessees.word(party, *word) {
                    Ok(Reply::Done(command)) => {
                        let written = write(&command, 5).unwrap();
                        assert_eq!(written, words[begun..=place]);
                        let mut again = met.clone();
                        let count = written.len() as u64;
                        assert_eq!(again.feed(party, &written), fed(count, 1, None));
                        assert_eq!(again, lessees);
                        met = lessees.clone();
                        begun = place + 1;
                    }
                    Ok(Reply::Open) => {}
                    Err(_) => break,
                }
            }
        }
    }
}
