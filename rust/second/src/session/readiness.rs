//! Document 02, request 6, "Keep readiness instead of asking again": which of 0,
//! 7, 8 or 9 the settings alone would give a start.
//!
//! It is worked out here from the settings, by another way than a start's own
//! judgement goes: the domain's corners are translated, and spans are put in
//! order before neighbours are compared. The unit tests ask a start too.

use super::{Format, Session};
use crate::address::translate;
use crate::command::{layout_of, FormatCode};
use crate::layout::{judge, Layout};

impl Session {
    /// What a start would get from the settings alone: 0 where it would pass, else
    /// 7, 8 or 9. The stop, the words taken and the open command play no part.
    pub fn readiness(&self) -> u32 {
        let domain = match self.domain() {
            Some(domain) => domain,
            None => return 7,
        };
        let outputs = self.numbered_outputs();
        if self.instructions().is_none() || outputs.is_empty() {
            return 7;
        }
        let layouts: Vec<Layout> = outputs
            .iter()
            .filter(|(number, format)| updates_something(*number, format, self.output_mask()))
            .map(|(_, format)| layout_of_set(format))
            .collect();
        if !layouts.iter().all(|layout| holds_corners(layout, &domain)) {
            return 8;
        }
        if any_spans_meet(&layouts) {
            return 9;
        }
        0
    }

    /// The outputs that are set, with their numbers.
    fn numbered_outputs(&self) -> Vec<(u32, Format)> {
        let mut set = Vec::new();
        for number in 0..4 {
            if let Ok(Some(format)) = self.output(number) {
                set.push((number, format));
            }
        }
        set
    }
}

/// A format that was set has a layout.
fn layout_of_set(format: &Format) -> Layout {
    layout_of(format.base, format.format, format.height).expect("a format that was set")
}

/// Whether the mask has a bit for a channel that the output's format has: bit
/// 4n+c for output n, channel c. An output without one is silent.
fn updates_something(number: u32, format: &Format, mask: u32) -> bool {
    let code = FormatCode::of(format.format).expect("a format that was set");
    let of_output = mask >> (4 * number);
    (0..code.channels).any(|channel| of_output >> channel & 1 == 1)
}

/// Whether the four corners of the domain have addresses; then each pair of it
/// has one, as a window is a rectangle.
fn holds_corners(layout: &Layout, domain: &[u32; 4]) -> bool {
    let [i0, j0, i1, j1] = *domain;
    let corners = [(i0, j0), (i1, j0), (i0, j1), (i1, j1)];
    corners
        .iter()
        .all(|(i, j)| translate(layout, *i, *j).is_ok())
}

/// Whether two spans share a byte. In the order of their first bytes, two
/// neighbours do if any two do.
fn any_spans_meet(layouts: &[Layout]) -> bool {
    let mut spans = Vec::new();
    for layout in layouts {
        let window = judge(layout).expect("a format that was set");
        let first = u64::from(layout.base);
        spans.push((first, first + window.span));
    }
    spans.sort_unstable();
    spans.windows(2).any(|pair| pair[1].0 < pair[0].1)
}

#[cfg(test)]
mod tests {
    use super::*;
    use crate::command::{
        SET_COND_OUT_FMT, SET_COND_TEST, SET_CONSTF_FMT, SET_DOMAIN, SET_INP_FMT, SET_INST_FMT,
        SET_OUT_FMT, SET_OUT_MASK, START_PROGRAM,
    };
    use crate::session::Reply;

    const INSTRUCTIONS: [u32; 3] = [SET_INST_FMT, 0, 0x20];

    /// Linear FLOAT32_1, E 32, H 4: 512 bytes from the base on.
    fn output(number: u32, base: u32) -> [u32; 5] {
        [SET_OUT_FMT, number, base, 0x0200_0020, 4]
    }

    fn domain(i1: u32, j1: u32) -> [u32; 5] {
        [SET_DOMAIN, 0, 0, i1, j1]
    }

    fn after(words: &[u32]) -> Session {
        let mut session = Session::new();
        assert_eq!(session.feed(words).refusal, None, "{words:X?}");
        session
    }

    /// The second way: a session with these settings and nothing else of this one
    /// is given a start.
    fn asked(session: &Session) -> u32 {
        let mut other = Session {
            settings: session.settings.clone(),
            ..Session::new()
        };
        assert_eq!(other.word(START_PROGRAM), Ok(Reply::Open));
        match other.word(0) {
            Ok(_) => 0,
            Err(number) => number,
        }
    }

    fn assert_readiness(session: &Session, number: u32) {
        assert_eq!(session.readiness(), number);
        assert_eq!(asked(session), number);
    }

    #[test]
    fn a_new_session_would_get_7() {
        assert_readiness(&Session::new(), 7);
    }

    #[test]
    fn it_is_7_until_all_three_are_set() {
        let parts = [&INSTRUCTIONS[..], &output(2, 0), &domain(31, 3)];
        for order in [
            [0, 1, 2],
            [0, 2, 1],
            [1, 0, 2],
            [1, 2, 0],
            [2, 0, 1],
            [2, 1, 0],
        ] {
            let mut session = Session::new();
            for (place, part) in order.iter().enumerate() {
                assert_eq!(session.feed(parts[*part]).refusal, None);
                assert_readiness(&session, if place < 2 { 7 } else { 0 });
            }
        }
        // Inputs, constants and the conditional output are no output.
        let mut session = after(&[&INSTRUCTIONS[..], &domain(0, 0)].concat());
        for other in [
            &[SET_INP_FMT, 0, 0, 0x20, 1][..],
            &[SET_CONSTF_FMT, 0, 0x20],
            &[SET_COND_OUT_FMT, 0, 0x20, 1],
        ] {
            assert_eq!(session.feed(other).refusal, None);
            assert_readiness(&session, 7);
        }
    }

    #[test]
    fn it_is_8_where_the_domain_is_outside_an_output() {
        let set_up = [&INSTRUCTIONS[..], &output(0, 0)].concat();
        for (i1, j1, number) in [
            (31, 3, 0),
            (32, 3, 8),
            (31, 4, 8),
            (0, 0, 0),
            (4095, 4095, 8),
        ] {
            let session = after(&[&set_up[..], &domain(i1, j1)].concat());
            assert_readiness(&session, number);
        }
        // One that is not wide enough, of several.
        let wide = [SET_OUT_FMT, 1, 0x800, 0x0200_0040, 4];
        let session = after(&[&set_up[..], &wide, &domain(63, 3)].concat());
        assert_readiness(&session, 8);
    }

    #[test]
    fn it_is_9_where_spans_share_a_byte() {
        // 512 bytes each; the second base is the first's or the next tile's.
        let start = |base, domain: [u32; 5]| {
            let outputs = [output(1, 0x800), output(3, base)].concat();
            after(&[&INSTRUCTIONS[..], &outputs, &domain].concat())
        };
        assert_readiness(&start(0x800, domain(31, 3)), 9);
        assert_readiness(&start(0x1000, domain(31, 3)), 0);
        assert_readiness(&start(0, domain(31, 3)), 0);
        // 8 comes first.
        assert_readiness(&start(0x800, domain(32, 3)), 8);
        // Whole tiles count, also the bytes that no pair owns.
        let tile = [SET_OUT_FMT, 0, 0, 0x0201_0020, 1];
        let inside = [SET_OUT_FMT, 1, 0, 0x0200_0020, 16];
        let outputs = [tile, inside].concat();
        let session = after(&[&INSTRUCTIONS[..], &outputs, &domain(31, 0)].concat());
        assert_readiness(&session, 9);
        // The first and the last of three meet over the middle one's number.
        let three = [output(0, 0x1000), output(1, 0), output(2, 0x1000)].concat();
        let session = after(&[&INSTRUCTIONS[..], &three, &domain(0, 0)].concat());
        assert_readiness(&session, 9);
    }

    #[test]
    fn each_setting_renews_it() {
        let mut session = after(&[&INSTRUCTIONS[..], &output(0, 0), &domain(31, 3)].concat());
        assert_readiness(&session, 0);
        let mut set = |words: &[u32], number| {
            assert_eq!(session.feed(words).refusal, None, "{words:X?}");
            assert_readiness(&session, number);
        };
        set(&output(1, 0), 9);
        // A silent output is passed over, and counts again.
        set(&[SET_OUT_MASK, 0xFFEF], 0);
        set(&[SET_OUT_MASK, 0x000E], 0);
        set(&[SET_OUT_MASK, 0x0011], 9);
        // The old span goes with the old format.
        set(&output(1, 0x800), 0);
        set(&domain(32, 0), 8);
        set(&[SET_OUT_MASK, 0], 0);
        // More channels make the same bits count.
        set(&[SET_OUT_MASK, 0x0002], 0);
        set(&[SET_OUT_FMT, 0, 0, 0x0400_0020, 4], 8);
        set(&domain(31, 3), 0);
        set(&INSTRUCTIONS, 0);
        set(&[SET_COND_TEST, 7], 0);
        set(&[START_PROGRAM, 0], 0);
    }

    #[test]
    fn all_silent_would_pass() {
        let two = [output(0, 0), output(1, 0)].concat();
        let mask = [SET_OUT_MASK, 0];
        let session = after(&[&INSTRUCTIONS[..], &two, &mask, &domain(4095, 4095)].concat());
        assert_readiness(&session, 0);
        // 7 is as before.
        let session = after(&[&two[..], &mask, &domain(0, 0)].concat());
        assert_readiness(&session, 7);
    }

    #[test]
    fn r120_a_stop_does_not_change_it() {
        let ready = [&INSTRUCTIONS[..], &output(0, 0), &domain(31, 3)].concat();
        let late = [&ready[..], &domain(32, 0)].concat();
        let over = [&ready[..], &output(1, 0)].concat();
        for (words, number) in [(vec![], 7), (ready, 0), (late, 8), (over, 9)] {
            // Stopped by an unknown header, inside a command, and by the start.
            for last in [&[7][..], &[SET_OUT_MASK, 0x1_0000], &[START_PROGRAM, 1]] {
                let mut session = after(&words);
                assert!(session.feed(last).refusal.is_some());
                assert!(session.stopped());
                assert_readiness(&session, number);
            }
        }
    }

    #[test]
    fn r120_an_open_command_and_the_words_taken_play_no_part() {
        let ready = [&INSTRUCTIONS[..], &output(0, 0), &domain(31, 3)].concat();
        let mut session = after(&ready);
        // A format takes effect with its last word.
        for word in [SET_OUT_FMT, 1, 0, 0x0200_0020] {
            assert_eq!(session.word(word), Ok(Reply::Open));
            assert_readiness(&session, 0);
        }
        assert!(session.word(4).is_ok());
        assert_readiness(&session, 9);
        let mut full = Session::new_after(1_000_000_000 - ready.len() as u64);
        assert_eq!(full.feed(&ready).refusal, None);
        assert_readiness(&full, 0);
        assert_eq!(full.word(START_PROGRAM), Err(17));
        assert_readiness(&full, 0);
    }

    /// A small generator, so that the streams are the same at each run.
    fn next(seed: &mut u64) -> u32 {
        *seed ^= *seed << 13;
        *seed ^= *seed >> 7;
        *seed ^= *seed << 17;
        (*seed >> 32) as u32
    }

    /// A command that has to do with starts; one in forty is damaged.
    fn some_command(seed: &mut u64) -> Vec<u32> {
        let mut any = || next(seed);
        let code = any() % 5;
        let format = code << 24 | (any() & 1) << 16 | 0x20 << (any() % 2);
        let mut words = match any() % 6 {
            0 => vec![SET_INST_FMT, 0, format],
            1 | 2 => vec![
                SET_OUT_FMT,
                any() % 4,
                (any() % 6) << 11,
                format,
                any() % 12 + 1,
            ],
            3 => vec![
                SET_DOMAIN,
                any() % 4,
                any() % 3,
                any() % 40 + 3,
                any() % 7 + 2,
            ],
            4 => vec![SET_OUT_MASK, any() & any() & 0xFFFF],
            _ => vec![START_PROGRAM, 0],
        };
        if any() % 40 == 0 {
            let place = any() as usize % words.len();
            words[place] ^= 1 << (any() % 32);
        }
        words
    }

    #[test]
    fn after_every_word_both_ways_agree_and_a_start_gets_it() {
        let mut seed = 0x5EAD;
        let mut seen = [0; 10];
        let mut starts = 0;
        for _ in 0..1500 {
            let mut session = Session::new();
            for _ in 0..30 {
                for word in some_command(&mut seed) {
                    let before = session.clone();
                    let answer = session.word(word);
                    let last_of_start = before.open() == Some((START_PROGRAM, 0)) && word == 0;
                    if last_of_start {
                        let gets = answer.map_or_else(|number| number, |_| 0);
                        assert_eq!(gets, before.readiness());
                        starts += 1;
                    }
                    if answer.is_err() {
                        assert_eq!(session.readiness(), before.readiness());
                    }
                    assert_eq!(session.readiness(), asked(&session));
                    seen[session.readiness() as usize] += 1;
                }
            }
        }
        // All four must come often.
        for number in [0, 7, 8, 9] {
            assert!(seen[number] > 1000, "{number}: {seen:?}");
        }
        assert!(starts > 1000, "{starts}");
    }
}
