//! Bytes fed to a replay: logs of the mixed stream with midnights in them, in pieces of several lengths; and a replay that is
//! trimmed again and again, so that its midnights never end.

use super::feed::check_sessions;
use crate::inputs::mixed_log;
use crate::table::Table;
use bench::fast::log as fast;
use egretfold::{lent, Edition};

/// A log has about this many words, and a midnight before every so many of them.
const WORDS: usize = 1 << 16;
const DAY: usize = 1 << 10;
/// A log that is too long to be learnt by the processor's branch prediction: a replay has at most 400 days.
const LONG: usize = 1 << 20;
const LONG_DAY: usize = 1 << 12;

/// The bytes of a record.
const RECORD: usize = 5;

/// Midnights that are trimmed away one by one: more than a replay has room for.
const TRIMMED: u32 = 2_000;

pub fn add(table: &mut Table) {
    let whole = usize::MAX;
    for (log, words, day, lengths) in [
        ("mixed log", WORDS, DAY, &[whole, 4096, 1][..]),
        ("mixed log of 2^20 words", LONG, LONG_DAY, &[whole, 4096]),
    ] {
        for &length in lengths {
            let cut = match length {
                usize::MAX => "one piece".to_string(),
                length => format!("pieces of {length}"),
            };
            let name = format!("replay, {log}, {cut}, a byte");
            let wanted = match words {
                LONG => table.wants_long(&name),
                _ => table.wants(&name),
            };
            if wanted {
                check_damaged(&mixed_log(40, 10));
                let log = mixed_log(words, day);
                let refusal = check_pieces(&log, length);
                assert_eq!(refusal, None, "the benchmark's logs are good");
                pieces(table, &name, &log, length);
            }
        }
    }
    let name = "trim after each midnight, a midnight and a trim";
    if table.wants(name) {
        check_trimmed(&mixed_log(4_000, 10));
        trims(table, name);
    }
}

/// A midnight's record.
fn midnight(day: u32) -> [u8; RECORD] {
    let [a, b, c, d] = day.to_le_bytes();
    [2, a, b, c, d]
}

/// The midnights come byte by byte: a piece of one record would ask for room for many words, which costs as much as a trim.
fn trims(table: &mut Table, name: &str) {
    table.line(
        name,
        TRIMMED as usize,
        || {
            let mut replay = egretfold::Replay::new(Edition::First);
            let mut taken = 0;
            for day in 0..TRIMMED {
                let bytes = midnight(day);
                taken += bytes.iter().map(|b| replay.feed(&[*b]).taken).sum::<u64>();
                lent::log_trim(&mut replay);
            }
            taken
        },
        || {
            let mut replay = fast::Replay::new();
            let mut taken = 0;
            for day in 0..TRIMMED {
                let bytes = midnight(day);
                taken += bytes.iter().map(|b| replay.feed(&[*b]).taken).sum::<u64>();
                replay.trim();
            }
            taken
        },
    );
}

/// Both sides trimmed every seven records, and every seven times seven: equal answers and states.
fn check_trimmed(log: &[u8]) {
    for often in [7 * RECORD, 49 * RECORD] {
        let mut product = egretfold::Replay::new(Edition::First);
        let mut rust = fast::Replay::new();
        for piece in log.chunks(often) {
            check_piece(&mut product, &mut rust, piece);
            lent::log_trim(&mut product);
            rust.trim();
            check_states(&product, &rust);
        }
    }
}

fn pieces(table: &mut Table, name: &str, log: &[u8], length: usize) {
    table.line(
        name,
        log.len(),
        || {
            let mut replay = egretfold::Replay::new(Edition::First);
            let fed = log.chunks(length).map(|piece| replay.feed(piece));
            fed.map(|fed| fed.taken).sum()
        },
        || {
            let mut replay = fast::Replay::new();
            let fed = log.chunks(length).map(|piece| replay.feed(piece));
            fed.map(|fed| fed.taken).sum()
        },
    );
}

/// Feeds the pieces to both sides: equal answers, and at the end equal days and equal sessions. The number of a refused byte or
/// word, where there is one.
fn check_pieces(log: &[u8], length: usize) -> Option<u32> {
    let mut product = egretfold::Replay::new(Edition::First);
    let mut rust = fast::Replay::new();
    for piece in log.chunks(length) {
        check_piece(&mut product, &mut rust, piece);
    }
    check_states(&product, &rust);
    rust.stopped().or(rust.refused().map(|(number, _)| number))
}

fn check_piece(product: &mut egretfold::Replay, rust: &mut fast::Replay, piece: &[u8]) {
    let (by_product, by_rust) = (product.feed(piece), rust.feed(piece));
    assert_eq!(by_product.taken, by_rust.taken, "bytes taken");
    assert_eq!(by_product.refusal.map(u32::from), by_rust.refusal);
}

fn check_states(product: &egretfold::Replay, rust: &fast::Replay) {
    let status = product.status();
    assert_eq!(status.stopped.map(u32::from), rust.stopped(), "stopped");
    assert_eq!(status.midnights as usize, rust.midnights(), "midnights");
    let word = status
        .refused
        .map(|word| (u32::from(word.refusal), word.midnights as usize));
    assert_eq!(word, rust.refused(), "refused word");
    assert_eq!(status.unfinished as usize, rust.unfinished());
    for number in 0..=status.midnights {
        let part = product.part(number);
        let by_product = (part.runs, part.claims);
        assert_eq!(by_product, rust.part(number as usize), "part {number}");
    }
    check_sessions(product.session(), rust.session());
}

/// The log with one record made a wrong one, wherever it stands among those that are read together: of no kind, a midnight whose
/// day is wrong, and a word that is refused.
fn check_damaged(log: &[u8]) {
    for place in (0..log.len()).step_by(RECORD) {
        for damage in [
            [3, 0, 0, 0, 0],
            [2, 9, 9, 9, 9],
            [1, 0xFE, 0xFF, 0xFF, 0xFF],
        ] {
            let mut damaged = log.to_vec();
            damaged[place..][..RECORD].copy_from_slice(&damage);
            for length in [log.len(), 203, 7, 1] {
                assert!(
                    check_pieces(&damaged, length).is_some(),
                    "{damage:?} at {place}"
                );
            }
        }
    }
}
