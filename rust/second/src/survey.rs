//! Document 02, request 12, "Conditional output tests": a value compared with what
//! the conditional buffer holds at a pair, and a survey of a whole domain. The
//! order is 7, 3, 5, 10, 11.

use crate::address::translate;
use crate::command::{layout_of, FormatCode};
use crate::layout::Layout;
use crate::memory::read;
use crate::session::{Format, Session};
use crate::Answer;

/// The code of UINT16_1, the one format that the unit takes.
const UINT16_1: u32 = 0;

/// What the unit reads of a session's settings, and all that it needs of a session:
/// it works on a stopped one too, and its refusals stop nothing.
#[derive(Clone, Copy, Debug, PartialEq, Eq)]
pub struct Unit {
    /// The conditional output's format.
    pub buffer: Option<Format>,
    pub test: Option<u32>,
}

impl Unit {
    /// The unit of a session as its settings are now.
    pub fn of(session: &Session) -> Unit {
        Unit {
            buffer: session.conditional(),
            test: session.test(),
        }
    }

    /// The buffer's layout and the test: "With no conditional buffer or test set,
    /// 7"; then 3 for another format than UINT16_1.
    fn judge(&self) -> Answer<(Layout, u32)> {
        let buffer = self.buffer.ok_or(7u32)?;
        let test = self.test.ok_or(7u32)?;
        let code = FormatCode::of(buffer.format).ok_or(3u32)?;
        if code.code != UINT16_1 {
            return Err(3);
        }
        let layout = layout_of(buffer.base, buffer.format, buffer.height).ok_or(3u32)?;
        Ok((layout, test))
    }

    /// The test of one pair: 7, 3, 10, 11.
    pub fn pair(&self, value: u32, i: u32, j: u32, memory: &[u8], first: u32) -> Answer<bool> {
        let (layout, test) = self.judge()?;
        let bytes = read(&layout, i, j, memory, first)?;
        // Low byte first.
        let b = u32::from(bytes[0]) + 256 * u32::from(bytes[1]);
        Ok(passes(test, value, b))
    }

    /// The tests of all pairs of a domain, i0, j0, i1, j1, with one value: how many
    /// pass, and a byte 1 or 0 for each, row by row, in the room. A refusal touches
    /// no byte of it.
    pub fn survey(
        &self,
        value: u32,
        domain: [u32; 4],
        memory: &[u8],
        first: u32,
        room: &mut [u8],
    ) -> Answer<u64> {
        let (layout, _) = self.judge()?;
        let [i0, j0, i1, j1] = domain;
        if i0 > i1 || j0 > j1 {
            return Err(5);
        }
        // A window is a rectangle, so all pairs are inside if the corners are.
        for (i, j) in [(i0, j0), (i1, j0), (i0, j1), (i1, j1)] {
            translate(&layout, i, j)?;
        }
        // Inside a window, so there are at most 4,096 of each.
        let pairs = (i1 - i0 + 1) * (j1 - j0 + 1);
        if room.len() as u64 != u64::from(pairs) {
            return Err(11);
        }
        let mut results = Vec::new();
        for j in j0..=j1 {
            for i in i0..=i1 {
                results.push(self.pair(value, i, j, memory, first)?);
            }
        }
        let mut passed = 0;
        for (byte, result) in room.iter_mut().zip(results) {
            *byte = u8::from(result);
            passed += u64::from(result);
        }
        Ok(passed)
    }
}

/// "result v op b". The guide's list can be read for 0 and 1; the others are house.
fn passes(test: u32, v: u32, b: u32) -> bool {
    match test {
        0 => false,
        1 => v < b,
        2 => v <= b,
        3 => v == b,
        4 => v >= b,
        5 => v > b,
        6 => v != b,
        // A test that was set is at most 7.
        _ => true,
    }
}

#[cfg(test)]
mod tests {
    use super::*;
    use crate::command::{SET_COND_OUT_FMT, SET_COND_TEST, SET_DOMAIN};

    /// UINT16_1, linear, E 16, H 4: 128 bytes from 2,048 on.
    const ROWS: Format = Format {
        base: 2048,
        format: 16,
        height: 4,
    };

    /// UINT16_1, tiled, E 64, H 35: four tiles from 0 on.
    const TILES: Format = Format {
        base: 0,
        format: 0x0001_0040,
        height: 35,
    };

    fn unit(buffer: Format, test: u32) -> Unit {
        Unit {
            buffer: Some(buffer),
            test: Some(test),
        }
    }

    fn counted(length: usize) -> Vec<u8> {
        (0..length).map(|place| (place * 7 % 251) as u8).collect()
    }

    /// What the memory holds for a pair, by the read alone.
    fn held(buffer: &Format, i: u32, j: u32, memory: &[u8], first: u32) -> u32 {
        let layout = layout_of(buffer.base, buffer.format, buffer.height).unwrap();
        let bytes = read(&layout, i, j, memory, first).unwrap();
        u32::from(u16::from_le_bytes([bytes[0], bytes[1]]))
    }

    /// The single test and the survey get this number, and the room stays.
    fn assert_refused(unit: &Unit, domain: [u32; 4], memory: &[u8], first: u32, number: u32) {
        // No window holds more than 4,096 columns or rows.
        let pairs = |low: u32, high: u32| high.saturating_sub(low).min(4096) as usize + 1;
        let mut room = vec![7; pairs(domain[0], domain[2]) * pairs(domain[1], domain[3])];
        let before = room.clone();
        let answer = unit.survey(3, domain, memory, first, &mut room);
        assert_eq!(answer, Err(number), "{domain:?}");
        assert_eq!(room, before);
    }

    #[test]
    fn r140_the_tests_by_what_they_let_pass() {
        // The second way: whether less, equal and greater pass.
        let lines = [
            (false, false, false),
            (true, false, false),
            (true, true, false),
            (false, true, false),
            (false, true, true),
            (false, false, true),
            (true, false, true),
            (true, true, true),
        ];
        let numbers = [0, 1, 2, 255, 256, 0x7FFF, 0x8000, 0xFFFE, 0xFFFF];
        for (test, (less, equal, greater)) in lines.iter().enumerate() {
            for v in numbers.iter().chain(&[0x1_0000, 0x8000_0000, u32::MAX]) {
                for b in &numbers {
                    let wanted = match v.cmp(b) {
                        std::cmp::Ordering::Less => *less,
                        std::cmp::Ordering::Equal => *equal,
                        std::cmp::Ordering::Greater => *greater,
                    };
                    assert_eq!(passes(test as u32, *v, *b), wanted, "{v} {test} {b}");
                }
            }
        }
    }

    #[test]
    fn a_test_and_its_opposite_split_the_pairs() {
        let memory = counted(128);
        for (one, other) in [(1, 4), (2, 5), (3, 6), (0, 7)] {
            for value in [0, 1799, 0xFFFF, u32::MAX] {
                let mut rooms = [[9; 64]; 2];
                let domain = [0, 0, 15, 3];
                let counts = [one, other]
                    .iter()
                    .zip(&mut rooms)
                    .map(|(test, room)| {
                        unit(ROWS, *test).survey(value, domain, &memory, 2048, room)
                    })
                    .map(|answer| answer.unwrap())
                    .sum::<u64>();
                assert_eq!(counts, 64);
                for (one, other) in rooms[0].iter().zip(&rooms[1]) {
                    assert_eq!(one + other, 1);
                }
            }
        }
    }

    #[test]
    fn r141_v_stands_on_the_left_and_b_comes_low_byte_first() {
        // b is 0x0102.
        let memory = [2, 1];
        let pair = |test, value| unit(ROWS, test).pair(value, 0, 0, &memory, 2048).unwrap();
        assert!(pair(1, 0x0101) && !pair(1, 0x0102) && !pair(1, 0x0201));
        assert!(pair(5, 0x0103) && !pair(5, 0x0102));
        assert!(pair(3, 0x0102) && !pair(3, 0x0201));
        // v has 32 bits, b has 16.
        assert!(pair(5, 0x1_0000) && pair(6, 0x1_0102) && !pair(3, 0x1_0102));
        assert!(!pair(1, u32::MAX));
    }

    #[test]
    fn r142_7_where_the_buffer_or_the_test_is_missing() {
        let memory = counted(128);
        for missing in [
            Unit {
                test: None,
                ..unit(ROWS, 1)
            },
            Unit {
                buffer: None,
                ..unit(ROWS, 1)
            },
            Unit {
                buffer: None,
                test: None,
            },
        ] {
            assert_eq!(missing.pair(0, 0, 0, &memory, 2048), Err(7));
            assert_eq!(missing.pair(0, 99, 0, &[], 0), Err(7));
            assert_refused(&missing, [0, 0, 0, 0], &memory, 2048, 7);
            // Before 3, 5, 10 and 11.
            assert_refused(&missing, [1, 0, 0, 99], &[], 0, 7);
        }
        let other = Format {
            format: 0x0200_0010,
            ..ROWS
        };
        let missing = Unit {
            test: None,
            ..unit(other, 1)
        };
        assert_eq!(missing.pair(0, 0, 0, &memory, 2048), Err(7));
    }

    #[test]
    fn another_format_gets_3() {
        let memory = counted(2048);
        for code in 1..5 {
            for tiled in [0, 1] {
                let format = code << 24 | tiled << 16 | 0x20;
                let other = unit(Format { format, ..ROWS }, 7);
                assert_eq!(other.pair(0, 0, 0, &memory, 2048), Err(3));
                // Before 5, 10 and 11.
                assert_eq!(other.pair(0, 99, 0, &[], 0), Err(3));
                assert_refused(&other, [0, 0, 1, 1], &memory, 2048, 3);
                assert_refused(&other, [1, 0, 0, 99], &[], 0, 3);
            }
        }
        // Superfine is kept and ignored.
        let fine = Format {
            format: 16 | 1 << 17,
            ..ROWS
        };
        assert_eq!(unit(fine, 7).pair(0, 0, 0, &memory, 2048), Ok(true));
    }

    #[test]
    fn r144_5_for_a_crossed_domain_and_never_3() {
        let memory = counted(128);
        for domain in [
            [1, 0, 0, 0],
            [0, 1, 0, 0],
            [u32::MAX, 0, 0, 0],
            [99, 1, 98, 0],
            [0, u32::MAX, 0, 0],
        ] {
            assert_refused(&unit(ROWS, 1), domain, &memory, 2048, 5);
            assert_refused(&unit(ROWS, 1), domain, &[], u32::MAX, 5);
        }
        for domain in [
            [0, 0, 4096, 0],
            [0, 0, u32::MAX, 0],
            [0, 0, 0, u32::MAX],
            [0, 0, u32::MAX, u32::MAX],
            [u32::MAX; 4],
        ] {
            assert_refused(&unit(ROWS, 1), domain, &memory, 2048, 10);
        }
    }

    #[test]
    fn r142_10_at_any_pair_before_11() {
        let memory = counted(65_537);
        for domain in [[0, 0, 16, 0], [0, 0, 0, 4], [16, 0, 16, 0], [3, 4, 5, 4]] {
            // Memory that is too long, that holds nothing, and a good one.
            assert_refused(&unit(ROWS, 1), domain, &memory, 2048, 10);
            assert_refused(&unit(ROWS, 1), domain, &[], 0, 10);
            assert_refused(&unit(ROWS, 1), domain, &memory[..128], 2048, 10);
            // A room of another length.
            let mut room = [7; 3];
            let answer = unit(ROWS, 1).survey(0, domain, &memory[..128], 2048, &mut room);
            assert_eq!((answer, room), (Err(10), [7; 3]));
        }
        let single = |i, j| unit(ROWS, 1).pair(0, i, j, &[], 0);
        assert_eq!((single(16, 0), single(0, 4)), (Err(10), Err(10)));
        assert_eq!((single(15, 3), single(0, 0)), (Err(11), Err(11)));
    }

    #[test]
    fn r145_the_room_is_exactly_one_byte_a_pair() {
        let memory = counted(128);
        for length in 0..20 {
            let mut room = vec![7; length];
            let answer = unit(ROWS, 7).survey(0, [1, 1, 4, 3], &memory, 2048, &mut room);
            if length == 12 {
                assert_eq!((answer, room), (Ok(12), vec![1; 12]));
            } else {
                assert_eq!((answer, room), (Err(11), vec![7; length]));
            }
        }
    }

    #[test]
    fn r143_11_where_the_memory_does_not_hold_every_element() {
        let memory = counted(128);
        // Also for never and always.
        for test in 0..8 {
            let asked = unit(ROWS, test);
            let all = [0, 0, 15, 3];
            assert_refused(&asked, all, &memory[..127], 2048, 11);
            assert_refused(&asked, all, &memory[..127], 2049, 11);
            assert_refused(&asked, all, &memory, 2049, 11);
            assert_refused(&asked, all, &[], 2048, 11);
            assert_refused(&asked, all, &counted(65_537), 0, 11);
            assert_refused(&asked, all, &memory, 0xFFFF_FFFF, 11);
            // Only the domain's elements are asked for.
            let mut room = [7; 4];
            let answer = asked.survey(0, [2, 1, 5, 1], &memory[..8], 2048 + 36, &mut room);
            assert!(answer.is_ok(), "{answer:?}");
            assert_eq!(asked.pair(0, 2, 1, &memory[..2], 2048 + 37), Err(11));
        }
    }

    #[test]
    fn a_survey_is_its_single_tests_row_by_row() {
        let memory = counted(4 * 2048);
        for (buffer, first) in [(ROWS, 2048), (TILES, 0)] {
            for domain in [[0, 0, 15, 3], [3, 1, 9, 2], [5, 0, 5, 3], [2, 2, 2, 2]] {
                let [i0, j0, i1, j1] = domain;
                for test in 0..8 {
                    for value in [0, 700, 0x8000, 0x1_0000] {
                        let asked = unit(buffer, test);
                        let mut wanted = Vec::new();
                        for j in j0..=j1 {
                            for i in i0..=i1 {
                                let pass = asked.pair(value, i, j, &memory, first).unwrap();
                                let b = held(&buffer, i, j, &memory, first);
                                assert_eq!(pass, passes(test, value, b));
                                wanted.push(u8::from(pass));
                            }
                        }
                        let mut room = vec![7; wanted.len()];
                        let answer = asked.survey(value, domain, &memory, first, &mut room);
                        let sum = wanted.iter().map(|byte| u64::from(*byte)).sum();
                        assert_eq!((answer, room), (Ok(sum), wanted));
                    }
                }
            }
        }
    }

    #[test]
    fn r145_rows_are_j() {
        // Only pair (1, 0) holds 9.
        let mut memory = vec![0; 128];
        memory[2] = 9;
        let mut room = [7; 6];
        let answer = unit(ROWS, 3).survey(9, [0, 0, 2, 1], &memory, 2048, &mut room);
        assert_eq!((answer, room), (Ok(1), [0, 1, 0, 0, 0, 0]));
    }

    #[test]
    fn corners_inside_mean_all_pairs_inside() {
        // The second way of 10: every pair is asked.
        let memory = counted(128);
        for i1 in 0..19 {
            for j1 in 0..7 {
                let domain = [i1 / 2, j1 / 2, i1, j1];
                let layout = layout_of(ROWS.base, ROWS.format, ROWS.height).unwrap();
                let outside = (domain[1]..=j1)
                    .flat_map(|j| (domain[0]..=i1).map(move |i| (i, j)))
                    .any(|(i, j)| translate(&layout, i, j) == Err(10));
                let mut room = vec![7; ((i1 - domain[0] + 1) * (j1 - domain[1] + 1)) as usize];
                let answer = unit(ROWS, 0).survey(0, domain, &memory, 2048, &mut room);
                assert_eq!(answer, if outside { Err(10) } else { Ok(0) });
            }
        }
    }

    #[test]
    fn r146_it_reads_a_stopped_session_and_changes_nothing() {
        let mut session = Session::new();
        assert_eq!(Unit::of(&session).pair(0, 0, 0, &[], 0), Err(7));
        let words = [
            SET_COND_OUT_FMT,
            2048,
            16,
            4,
            SET_COND_TEST,
            2,
            SET_DOMAIN,
            0,
        ];
        assert_eq!(session.feed(&words).refusal, None);
        let open = session.clone();
        assert_eq!(session.word(u32::MAX), Err(3));
        for session in [open, session] {
            let before = session.clone();
            assert_eq!(Unit::of(&session), unit(ROWS, 2));
            let mut room = [7; 64];
            let answer =
                Unit::of(&session).survey(70, [0, 0, 15, 3], &counted(128), 2048, &mut room);
            assert!(answer.is_ok());
            assert_eq!(Unit::of(&session).pair(0, 16, 0, &[], 0), Err(10));
            assert_eq!(session, before);
        }
    }

    #[test]
    fn r145_more_than_32_768_pairs_always_get_11() {
        let large = Format {
            base: 0,
            format: 0x1000,
            height: 4096,
        };
        let memory = counted(65_536);
        let mut room = vec![7; 32_768];
        let answer = unit(large, 7).survey(0, [0, 0, 4095, 7], &memory, 0, &mut room);
        assert_eq!(answer, Ok(32_768));
        assert_refused(&unit(large, 7), [0, 0, 4095, 8], &memory, 0, 11);
        let mut room = vec![7; 1 << 24];
        let answer = unit(large, 7).survey(0, [0, 0, 4095, 4095], &memory, 0, &mut room);
        assert_eq!(answer, Err(11));
    }
}
