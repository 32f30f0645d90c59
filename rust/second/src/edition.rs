//! Document 02, request 10, "Lease rule, second edition": what a pair of the
//! domain is credited for an output, under each edition.

use crate::command::FormatCode;
use crate::session::Format;
use crate::silent::is_silent;
use crate::{bits, Answer};

/// The edition of a session, "fixed at its birth".
#[derive(Clone, Copy, Debug, PartialEq, Eq)]
pub(crate) enum Edition {
    First,
    Second,
}

impl Edition {
    /// "1 or 2, else 3".
    pub(crate) fn of(number: u32) -> Answer<Edition> {
        match number {
            1 => Ok(Edition::First),
            2 => Ok(Edition::Second),
            _ => Err(3),
        }
    }

    /// "Edition 1 credits one for each pair of an output that isn't silent; edition
    /// 2 credits, for each pair, the number of unmasked channels its format has."
    pub(crate) fn credit(self, mask: u32, number: u32, output: &Format) -> u64 {
        match self {
            Edition::First => u64::from(!is_silent(mask, number, output)),
            Edition::Second => unmasked_channels(mask, number, output),
        }
    }
}

/// Mask bit 4n+c is for output n, channel c. Bits for channels that the format
/// doesn't have aren't counted.
fn unmasked_channels(mask: u32, number: u32, output: &Format) -> u64 {
    // A format that was set has a known code.
    let channels = FormatCode::of(output.format).map_or(0, |code| code.channels);
    let mut count = 0;
    for channel in 0..channels {
        let place = 4 * number + channel;
        count += u64::from(bits(mask, place, place));
    }
    count
}

#[cfg(test)]
mod tests {
    use crate::command::{SET_DOMAIN, SET_INST_FMT, SET_OUT_FMT, SET_OUT_MASK, START_PROGRAM};
    use crate::log::{Part, Replay};
    use crate::score::{score, score_in, Lease, Verdict};
    use crate::session::{Reply, Session};

    /// The channels of the five format codes.
    const CHANNELS: [u32; 5] = [1, 4, 1, 2, 4];

    /// 15 pairs.
    const DOMAIN: [u32; 5] = [SET_DOMAIN, 3, 1, 7, 3];

    /// Linear, 32 columns wide and 4 rows high.
    fn output(number: u32, base: u32, code: u32) -> Vec<u32> {
        vec![SET_OUT_FMT, number, base, code << 24 | 0x20, 4]
    }

    fn after(edition: u32, words: &[u32]) -> Session {
        let mut session = Session::new_in(edition).unwrap();
        assert_eq!(session.feed(words).refusal, None, "{words:X?}");
        session
    }

    /// What one start claims under an edition.
    fn claims(edition: u32, mask: u32, outputs: &[Vec<u32>]) -> u64 {
        let words = [
            vec![SET_INST_FMT, 0, 0x20, SET_OUT_MASK, mask],
            outputs.concat(),
            DOMAIN.to_vec(),
            vec![START_PROGRAM, 0],
        ];
        let session = after(edition, &words.concat());
        assert_eq!(session.runs(), 1);
        session.claims()
    }

    #[test]
    fn r132_another_edition_gets_3_before_all_else() {
        let good = Lease {
            first_day: 1,
            days: 1,
            owed: 1,
        };
        let bad = Lease { days: 0, ..good };
        for edition in [0, 3, 4, 257, u32::MAX] {
            assert_eq!(Session::new_in(edition), Err(3));
            assert_eq!(Replay::new_in(edition), Err(3));
            for (lease, log) in [(good, &[][..]), (good, &[9]), (bad, &[]), (bad, &[9])] {
                assert_eq!(score_in(edition, &lease, log), Err(3));
            }
        }
        // Then 21, then 18.
        for edition in [1, 2] {
            assert_eq!(score_in(edition, &bad, &[9]), Err(21));
            assert_eq!(score_in(edition, &good, &[9]), Err(18));
            assert!(score_in(edition, &good, &[]).is_ok());
        }
    }

    #[test]
    fn edition_1_is_what_stood_before() {
        assert_eq!(Session::new_in(1), Ok(Session::new()));
        assert_eq!(Replay::new_in(1), Ok(Replay::new()));
        assert_ne!(Session::new_in(2), Ok(Session::new()));
    }

    #[test]
    fn r133_each_format_code_with_each_nibble_at_each_output() {
        for (code, channels) in CHANNELS.iter().enumerate() {
            for nibble in 0..16u32 {
                // By the nibble's lowest bits, one for each channel.
                let unmasked = (nibble % (1 << channels)).count_ones();
                for number in 0..4 {
                    let only = [output(number, 0, code as u32)];
                    let at = nibble << (4 * number);
                    // What the mask has for the other outputs doesn't matter.
                    let others = 0xFFFF ^ 0xF << (4 * number);
                    for mask in [at, at | others] {
                        let asked = format!("code {code}, mask {mask:04X}, output {number}");
                        assert_eq!(claims(2, mask, &only), 15 * u64::from(unmasked), "{asked}");
                        let first = 15 * u64::from(unmasked > 0);
                        assert_eq!(claims(1, mask, &only), first, "{asked}");
                    }
                }
            }
        }
    }

    #[test]
    fn r133_credits_are_summed_over_the_outputs() {
        // UINT8_4, FLOAT32_2, FLOAT32_1 and FLOAT32_4 apart.
        let four: Vec<Vec<u32>> = [1, 3, 2, 4]
            .iter()
            .enumerate()
            .map(|(place, code)| output(place as u32, place as u32 * 0x1000, *code))
            .collect();
        for (mask, first, second) in [
            (0xFFFF, 4, 4 + 2 + 1 + 4),
            (0x0000, 0, 0),
            (0x1111, 4, 4),
            (0xEEEE, 3, 3 + 1 + 3),
            (0xF0F3, 3, 2 + 2 + 4),
            (0x8EC5, 2, 2 + 1),
        ] {
            assert_eq!(claims(1, mask, &four), 15 * first, "{mask:04X}");
            assert_eq!(claims(2, mask, &four), 15 * second, "{mask:04X}");
        }
    }

    #[test]
    fn r134_outputs_of_one_channel_claim_alike() {
        let two = [output(0, 0, 0), output(3, 0x800, 2)];
        for mask in [0xFFFF, 0x1001, 0xEFFE, 0x0001, 0x1000, 0] {
            assert_eq!(claims(1, mask, &two), claims(2, mask, &two), "{mask:04X}");
        }
    }

    #[test]
    fn the_greatest_claim_of_a_start() {
        let mut words = vec![SET_INST_FMT, 0, 0x20];
        for number in 0..4 {
            words.extend([SET_OUT_FMT, number, number << 28, 0x0400_1000, 4096]);
        }
        words.extend([SET_DOMAIN, 0, 0, 4095, 4095, START_PROGRAM, 0]);
        assert_eq!(after(1, &words).claims(), 4 << 24);
        assert_eq!(after(2, &words).claims(), 268_435_456);
    }

    #[test]
    fn the_mask_at_the_starts_last_word_counts() {
        let words = [
            output(1, 0, 4),
            vec![SET_INST_FMT, 0, 0x20],
            DOMAIN.to_vec(),
        ];
        let mut session = after(2, &words.concat());
        let mut total = 0;
        for (mask, unmasked) in [(0xFFFF, 4), (0xFF3F, 2), (0xFF0F, 0), (0x0080, 1)] {
            let piece = [SET_OUT_MASK, mask, START_PROGRAM, 0];
            assert_eq!(session.feed(&piece).refusal, None);
            total += 15 * unmasked;
            assert_eq!(session.claims(), total);
        }
        assert_eq!(session.runs(), 4);
    }

    /// A small generator, so that the streams are the same at each run.
    fn next(seed: &mut u64) -> u32 {
        *seed ^= *seed << 13;
        *seed ^= *seed >> 7;
        *seed ^= *seed << 17;
        (*seed >> 32) as u32
    }

    fn some_command(seed: &mut u64) -> Vec<u32> {
        let mut any = || next(seed);
        let format = (any() % 5) << 24 | (any() & 1) << 16 | 0x40;
        let mut words = match any() % 6 {
            0 => vec![SET_INST_FMT, 0, format],
            1 | 2 => vec![
                SET_OUT_FMT,
                any() % 4,
                (any() % 40) << 11,
                format,
                any() % 9 + 5,
            ],
            3 => vec![
                SET_DOMAIN,
                any() % 4,
                any() % 3,
                any() % 9 + 3,
                any() % 4 + 2,
            ],
            4 => vec![SET_OUT_MASK, any() & 0xFFFF],
            _ => vec![START_PROGRAM, 0],
        };
        if any() % 50 == 0 {
            let place = any() as usize % words.len();
            words[place] ^= 1 << (any() % 32);
        }
        words
    }

    /// The claims of a session, and the same session as if it had none.
    fn apart(session: &Session) -> (u64, String) {
        let told = format!(
            "{:?}",
            (
                session.taken(),
                session.stopped(),
                session.open(),
                session.runs(),
                session.domain(),
                session.instructions(),
                (0..4).map(|n| session.output(n)).collect::<Vec<_>>(),
                session.output_mask(),
            )
        );
        (session.claims(), told)
    }

    #[test]
    fn r134_all_answers_but_claims_agree() {
        let mut seed = 0xED12;
        let (mut equal, mut more, mut starts) = (0, 0, 0);
        for _ in 0..800 {
            let mut first = Session::new_in(1).unwrap();
            let mut second = Session::new_in(2).unwrap();
            // Ready from the beginning, so that most starts pass.
            let set_up = [
                vec![SET_INST_FMT, 0, 0x20],
                output(0, 0, 4),
                DOMAIN.to_vec(),
            ];
            first.feed(&set_up.concat());
            second.feed(&set_up.concat());
            for _ in 0..30 {
                for word in some_command(&mut seed) {
                    let before = (first.claims(), second.claims());
                    let answer = first.word(word);
                    assert_eq!(answer, second.word(word));
                    let ((one, told), (other, again)) = (apart(&first), apart(&second));
                    assert_eq!(told, again);
                    let (one, other) = (one - before.0, other - before.1);
                    assert!(one <= other && other <= 4 * one, "{one} {other}");
                    if let Ok(Reply::Done(command)) = answer {
                        if command.header == START_PROGRAM {
                            starts += 1;
                            equal += u32::from(one == other);
                            more += u32::from(one < other);
                        }
                    }
                }
            }
        }
        assert_eq!(starts, equal + more);
        assert!(equal > 200 && more > 1000, "{equal} {more}");
    }

    fn words(words: &[u32]) -> Vec<u8> {
        let record = |word: &u32| [&[1][..], &word.to_le_bytes()].concat();
        words.iter().flat_map(record).collect()
    }

    fn midnight(day: u32) -> Vec<u8> {
        [&[2][..], &day.to_le_bytes()].concat()
    }

    /// A FLOAT32_4 output of which day 1 masks nothing, day 2 half and day 3 all.
    fn three_days() -> Vec<u8> {
        let set_up = [
            vec![SET_INST_FMT, 0, 0x20],
            output(0, 0, 4),
            DOMAIN.to_vec(),
        ];
        [
            words(&set_up.concat()),
            midnight(1),
            words(&[START_PROGRAM, 0]),
            midnight(2),
            words(&[SET_OUT_MASK, 0xFFF6, START_PROGRAM, 0]),
            midnight(3),
            words(&[SET_OUT_MASK, 0xFFF0, START_PROGRAM, 0]),
        ]
        .concat()
    }

    #[test]
    fn replays_under_both_editions() {
        let log = three_days();
        for (edition, due) in [(1, [15, 15, 0]), (2, [60, 30, 0])] {
            let mut replay = Replay::new_in(edition).unwrap();
            let fed = replay.feed(&log);
            assert_eq!((fed.taken, fed.refusal), (log.len() as u64, None));
            let parts: Vec<Part> = replay.days().iter().map(|day| day.part).collect();
            let due = due.map(|claims| Part { runs: 1, claims });
            assert_eq!(parts, due);
        }
    }

    #[test]
    fn scores_under_both_editions() {
        let log = three_days();
        let lease = |days, owed| Lease {
            first_day: 1,
            days,
            owed,
        };
        let served = |edition, days, owed| {
            let month = score_in(edition, &lease(days, owed), &log).unwrap();
            (month.served, month.owed, month.verdict)
        };
        // The month's name may differ with what was claimed.
        assert_eq!(served(1, 2, 30), (30, 60, Verdict::Short));
        assert_eq!(served(2, 2, 30), (60, 60, Verdict::Full));
        assert_eq!(served(2, 2, 40), (70, 80, Verdict::Short));
        assert_eq!(served(2, 3, 15), (30, 45, Verdict::Short));
        assert_eq!(served(1, 2, 15), (30, 30, Verdict::Full));
        assert_eq!(served(2, 3, 0), (0, 0, Verdict::NothingOwed));
        // Edition 1's score is the score as it was.
        for owed in [0, 1, 15, 16, 100] {
            let lease = lease(3, owed);
            assert_eq!(score_in(1, &lease, &log), score(&lease, &log));
        }
    }
}
