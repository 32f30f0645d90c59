//! Decoded streams, encoded again, are byte for byte what they were.

use crate::common::egretfold;
use compare::random::Random;
use compare::words;
use egretfold::{Edition, Session};

const SEED: u64 = 7;
const STREAMS: usize = 2_000;

fn bytes(words: &[u32]) -> Vec<u8> {
    words.iter().flat_map(|word| word.to_le_bytes()).collect()
}

/// The first so many made-up streams that the product accepts, or refuses.
fn streams(count: usize, accepted: bool) -> impl Iterator<Item = Vec<u32>> {
    let made = (0..).map(|case| words::any(&mut Random::of_case(90, SEED, case)));
    let kept = made.filter(move |words| {
        Session::new(Edition::First).feed(words).refusal.is_none() == accepted
    });
    kept.take(count)
}

/// Decodes the stream with these options and encodes what that prints.
fn again(options: &str, stream: &[u8], status: i32) -> Vec<u8> {
    let listing = egretfold(&format!("decode {options}"), stream);
    assert_eq!(listing.status.code(), Some(status));
    let encoded = egretfold("encode", &listing.stdout);
    assert_eq!(encoded.status.code(), Some(0));
    encoded.stdout
}

#[test]
fn accepted_streams_come_back_from_the_listing() {
    let mut long = 0;
    for words in streams(STREAMS, true) {
        let stream = bytes(&words);
        assert!(again("", &stream, 0) == stream, "{words:X?}");
        long += usize::from(words.len() > 100);
    }
    // The streams are not all trifles.
    assert!(long > STREAMS / 10, "{long} streams of over 100 words");
}

#[test]
fn accepted_streams_come_back_from_the_terse_form() {
    for words in streams(STREAMS, true) {
        let stream = bytes(&words);
        assert!(again("--terse", &stream, 0) == stream, "{words:X?}");
    }
}

/// Nothing is dropped of a refused stream either.
#[test]
fn refused_streams_come_back_whole() {
    for words in streams(300, false) {
        let stream = bytes(&words);
        for options in ["", "--terse"] {
            assert!(again(options, &stream, 1) == stream, "{words:X?}");
        }
    }
}
