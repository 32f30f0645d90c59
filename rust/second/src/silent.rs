//! Document 02, request 2, "A masked camera is a silent camera": which outputs a
//! start passes over.

use crate::bits;
use crate::command::FormatCode;
use crate::session::Format;

/// "An output is silent when no mask bit is set for a channel its format has."
/// Mask bit 4n+c is for output n, channel c. Bits for channels that the format
/// doesn't have say nothing.
pub(crate) fn is_silent(mask: u32, number: u32, output: &Format) -> bool {
    // A format that was set has a known code.
    let channels = FormatCode::of(output.format).map_or(0, |code| code.channels);
    for channel in 0..channels {
        let place = 4 * number + channel;
        if bits(mask, place, place) == 1 {
            return false;
        }
    }
    true
}

#[cfg(test)]
mod tests {
    use crate::command::{SET_DOMAIN, SET_INST_FMT, SET_OUT_FMT, SET_OUT_MASK, START_PROGRAM};
    use crate::log::{Part, Replay};
    use crate::session::Session;
    use crate::Answer;

    const UINT16_1: u32 = 0;
    const FLOAT32_1: u32 = 2;
    const FLOAT32_2: u32 = 3;
    const FLOAT32_4: u32 = 4;

    /// For each format code the nibbles under which its output is silent.
    const SILENT: [&[u32]; 5] = [
        // UINT16_1 has channel 0
        &[0x0, 0x2, 0x4, 0x6, 0x8, 0xA, 0xC, 0xE],
        // UINT8_4 has all four
        &[0x0],
        // FLOAT32_1 has channel 0
        &[0x0, 0x2, 0x4, 0x6, 0x8, 0xA, 0xC, 0xE],
        // FLOAT32_2 has channels 0 and 1
        &[0x0, 0x4, 0x8, 0xC],
        // FLOAT32_4 has all four
        &[0x0],
    ];

    /// An output's number, base, format word and height: linear, 32 columns wide
    /// and 4 rows high, at most 2,048 bytes.
    fn output(number: u32, base: u32, code: u32) -> [u32; 4] {
        [number, base, code << 24 | 0x20, 4]
    }

    /// Inside every window of `output`: 15 pairs.
    const DOMAIN: [u32; 4] = [3, 1, 7, 3];

    /// Outside every window of `output`.
    const OUTSIDE: [u32; 4] = [0, 0, 32, 0];

    fn set_outputs(outputs: &[[u32; 4]]) -> Vec<u32> {
        let mut words = Vec::new();
        for fields in outputs {
            words.push(SET_OUT_FMT);
            words.extend(fields);
        }
        words
    }

    /// An instruction format and a domain.
    fn ready(domain: [u32; 4]) -> Vec<u32> {
        let mut words = vec![SET_INST_FMT, 0, 0x20, SET_DOMAIN];
        words.extend(domain);
        words
    }

    /// A session that has taken these words.
    fn after(words: &[u32]) -> Session {
        let mut session = Session::new();
        assert_eq!(session.feed(words).refusal, None, "{words:X?}");
        session
    }

    /// One start more: what the session has run and claimed by then, or the
    /// refusal of the start's last word.
    fn start(session: &mut Session) -> Answer<(u64, u64)> {
        assert_eq!(session.feed(&[START_PROGRAM]).refusal, None);
        session.word(0)?;
        Ok((session.runs(), session.claims()))
    }

    /// The first start, with the mask set before the outputs.
    fn started(mask: u32, outputs: &[[u32; 4]], domain: [u32; 4]) -> Answer<(u64, u64)> {
        let set_mask = vec![SET_OUT_MASK, mask];
        let words = [set_mask, set_outputs(outputs), ready(domain)].concat();
        start(&mut after(&words))
    }

    #[test]
    fn each_format_code_with_each_nibble_at_each_output() {
        for (code, silent) in SILENT.iter().enumerate() {
            for nibble in 0..16 {
                let claims = if silent.contains(&nibble) { 0 } else { 15 };
                for number in 0..4 {
                    let at = nibble << (4 * number);
                    // What the mask has for the other outputs doesn't matter.
                    let others = 0xFFFF ^ 0xF << (4 * number);
                    let only = [output(number, 0, code as u32)];
                    let asked = format!("code {code}, nibble {nibble:X}, output {number}");
                    assert_eq!(started(at, &only, DOMAIN), Ok((1, claims)), "{asked}");
                    let full = started(at | others, &only, DOMAIN);
                    assert_eq!(full, Ok((1, claims)), "{asked}");
                }
            }
        }
    }

    #[test]
    fn bits_for_channels_that_the_format_lacks_say_nothing() {
        let claims = |nibble, code| started(nibble, &[output(0, 0, code)], DOMAIN).unwrap().1;
        assert_eq!((claims(0xE, FLOAT32_1), claims(0x1, FLOAT32_1)), (0, 15));
        assert_eq!((claims(0xE, UINT16_1), claims(0x1, UINT16_1)), (0, 15));
        assert_eq!((claims(0xC, FLOAT32_2), claims(0x2, FLOAT32_2)), (0, 15));
        // A partly masked output counts each pair once, like one that isn't masked.
        assert_eq!((claims(0x8, FLOAT32_4), claims(0xF, FLOAT32_4)), (15, 15));
    }

    #[test]
    fn only_the_others_are_claimed() {
        // Four outputs apart, of which every choice of some is masked off.
        let four: Vec<[u32; 4]> = (0..4).map(|n| output(n, n * 0x800, FLOAT32_4)).collect();
        for choice in 0..16u32 {
            let mask: u32 = (0..4).map(|n| (choice >> n & 1) << (4 * n + n)).sum();
            let claims = 15 * u64::from(choice.count_ones());
            assert_eq!(started(mask, &four, DOMAIN), Ok((1, claims)), "{mask:04X}");
        }
    }

    #[test]
    fn spans_of_silent_outputs_may_share_bytes() {
        let same = [output(0, 0, FLOAT32_1), output(2, 0, FLOAT32_1)];
        assert_eq!(started(0x0101, &same, DOMAIN), Err(9));
        assert_eq!(started(0x0001, &same, DOMAIN), Ok((1, 15)));
        assert_eq!(started(0x0E01, &same, DOMAIN), Ok((1, 15)));
        assert_eq!(started(0x0100, &same, DOMAIN), Ok((1, 15)));
        assert_eq!(started(0x0EFE, &same, DOMAIN), Ok((1, 0)));
        // Of three over each other two that count are enough.
        let three = [same[0], same[1], output(3, 0, FLOAT32_1)];
        assert_eq!(started(0x1001, &three, DOMAIN), Err(9));
        assert_eq!(started(0x1000, &three, DOMAIN), Ok((1, 15)));
        // A silent one over two that lie apart.
        let apart = [same[0], output(1, 0x800, FLOAT32_1)];
        let wide = [2, 0, 0x20, 200];
        let bridged = [apart[0], apart[1], wide];
        assert_eq!(started(0x0111, &bridged, DOMAIN), Err(9));
        assert_eq!(started(0x0011, &bridged, DOMAIN), Ok((1, 30)));
    }

    #[test]
    fn the_domain_may_be_outside_a_silent_output() {
        let small = output(0, 0, FLOAT32_1);
        let wide = [1, 0x800, 0x40, 4];
        assert_eq!(started(0x0011, &[small, wide], OUTSIDE), Err(8));
        assert_eq!(started(0x00FE, &[small, wide], OUTSIDE), Ok((1, 33)));
        // It is still asked of the others, also where a silent one would hold it.
        assert_eq!(started(0x0001, &[small, wide], OUTSIDE), Err(8));
        // 8 and 9 are asked in their order of the outputs that count.
        let over = [[1, 0x800, 0x40, 4], [3, 0x800, 0x40, 4]];
        let all = [small, over[0], over[1]];
        assert_eq!(started(0x1011, &all, OUTSIDE), Err(8));
        assert_eq!(started(0x1010, &all, OUTSIDE), Err(9));
        assert_eq!(started(0x1000, &all, OUTSIDE), Ok((1, 33)));
    }

    #[test]
    fn all_silent_is_a_run_of_no_elements() {
        // Also where all lie over each other and the domain is outside.
        let four: Vec<[u32; 4]> = (0..4).map(|n| output(n, 0, n)).collect();
        for count in 1..=4 {
            for domain in [DOMAIN, OUTSIDE, [4095; 4]] {
                assert_eq!(started(0, &four[..count], domain), Ok((1, 0)));
            }
        }
        let mut session =
            after(&[vec![SET_OUT_MASK, 0], set_outputs(&four), ready(DOMAIN)].concat());
        for runs in 1..=3 {
            assert_eq!(start(&mut session), Ok((runs, 0)));
        }
        assert!(!session.stopped());
    }

    #[test]
    fn refusal_7_is_as_before() {
        for mask in [0, 0xFFFF] {
            // No output is set.
            assert_eq!(started(mask, &[], DOMAIN), Err(7));
            // A silent output is set; a domain and an instruction format are due.
            let masked = [vec![SET_OUT_MASK, mask], set_outputs(&[output(0, 0, 1)])].concat();
            assert_eq!(start(&mut after(&masked)), Err(7));
            let instructions = vec![SET_INST_FMT, 0, 0x20];
            let domain = vec![SET_DOMAIN, 0, 0, 0, 0];
            for one in [&instructions, &domain] {
                let words = [masked.clone(), one.clone()].concat();
                assert_eq!(start(&mut after(&words)), Err(7));
            }
            let words = [masked, instructions, domain].concat();
            assert!(start(&mut after(&words)).is_ok());
        }
    }

    #[test]
    fn the_mask_at_the_starts_last_word_counts() {
        let set_up = [set_outputs(&[output(1, 0, FLOAT32_1)]), ready(DOMAIN)].concat();
        // Nothing is masked off in a new session.
        let mut session = after(&set_up);
        assert_eq!(start(&mut session), Ok((1, 15)));
        let masks = [
            (0xFF0F, 15),
            (0xFFEF, 15),
            (0x0010, 30),
            (0, 30),
            (0xFFFF, 45),
        ];
        for (mask, claims) in masks {
            let earlier = (session.runs(), session.claims());
            assert_eq!(session.feed(&[SET_OUT_MASK, mask]).refusal, None);
            // A later mask changes no earlier claim.
            assert_eq!((session.runs(), session.claims()), earlier);
            assert_eq!(
                start(&mut session),
                Ok((earlier.0 + 1, claims)),
                "{mask:04X}"
            );
        }
        // A mask may come before its output is set.
        let mut before = after(&[vec![SET_OUT_MASK, 0xFF0F], set_up].concat());
        assert_eq!(start(&mut before), Ok((1, 0)));
    }

    #[test]
    fn the_format_at_the_starts_last_word_counts() {
        let narrow = set_outputs(&[output(3, 0, FLOAT32_1)]);
        let mut session = after(&[vec![SET_OUT_MASK, 0xEFFF], narrow, ready(DOMAIN)].concat());
        assert_eq!(start(&mut session), Ok((1, 0)));
        // The same nibble has channels of a format with four.
        let four = set_outputs(&[output(3, 0, FLOAT32_4)]);
        assert_eq!(session.feed(&four).refusal, None);
        assert_eq!(start(&mut session), Ok((2, 15)));
    }

    #[test]
    fn a_refused_start_leaves_the_mask() {
        let same = set_outputs(&[output(0, 0, FLOAT32_1), output(1, 0, FLOAT32_1)]);
        let mut session = after(&[vec![SET_OUT_MASK, 0x0011], same, ready(DOMAIN)].concat());
        assert_eq!(start(&mut session), Err(9));
        assert_eq!((session.runs(), session.claims()), (0, 0));
        assert_eq!(session.output_mask(), 0x0011);
        assert!(session.stopped());
    }

    #[test]
    fn a_camera_masked_for_a_day_has_runs_and_no_elements() {
        let words = |words: &[u32]| -> Vec<u8> {
            let record = |word: &u32| [vec![1], word.to_le_bytes().to_vec()].concat();
            words.iter().flat_map(record).collect()
        };
        let midnight = |day: u8| vec![2, day, 0, 0, 0];
        let set_up = [set_outputs(&[output(0, 0, FLOAT32_2)]), ready(DOMAIN)].concat();
        let log = [
            words(&set_up),
            midnight(1),
            words(&[START_PROGRAM, 0, SET_OUT_MASK, 0xFFFC]),
            midnight(2),
            words(&[START_PROGRAM, 0, START_PROGRAM, 0, SET_OUT_MASK]),
            midnight(3),
            words(&[0xFFFE, START_PROGRAM, 0]),
        ];
        let mut replay = Replay::new();
        assert_eq!(replay.feed(&log.concat()).refusal, None);
        let parts: Vec<Part> = replay.days().iter().map(|day| day.part).collect();
        let part = |runs, claims| Part { runs, claims };
        assert_eq!(parts, [part(1, 15), part(2, 0), part(1, 15)]);
    }
}
