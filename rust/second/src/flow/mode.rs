//! Document 02, request 7, "Partial flow control": a mode for programs without
//! loops or subroutines and with branches nested at most 6 deep (the guide's page
//! 38, in source document 004).

use super::loops::Op;
use super::{Group, ReturnOp, Slot};
use crate::Answer;

/// The mode of a group, chosen at its start and never changed.
#[derive(Clone, Copy, Debug, PartialEq, Eq)]
pub enum Mode {
    /// Document 01's, with request 4's loops.
    Full,
    Partial,
}

impl Mode {
    /// The mode of a number, 0 full and 1 partial; 13 for any other.
    fn of(number: u32) -> Answer<Mode> {
        match number {
            0 => Ok(Mode::Full),
            1 => Ok(Mode::Partial),
            _ => Err(13),
        }
    }

    /// The most that a branch counter holds: "0 to 31", and in partial mode "0 to
    /// 5".
    pub(super) fn most_counter(self) -> u32 {
        match self {
            Mode::Full => 31,
            Mode::Partial => 5,
        }
    }

    /// "ops 1 to 4 and A_OP other than 0 get 13", whether the group would jump or
    /// stay, and before the integer word is looked at.
    pub(super) fn judge(self, slot: &Slot) -> Answer<()> {
        let plain = slot.op == Op::Jump && slot.a_op == ReturnOp::Nothing;
        if self == Mode::Partial && !plain {
            return Err(13);
        }
        Ok(())
    }
}

impl Group {
    /// A group at its start in the mode of this number: 13 for a size other than 1
    /// to 32 and for a number that is no mode.
    pub fn begin_in(size: u32, mode: u32) -> Answer<Group> {
        let group = Group::begin(size)?;
        let mode = Mode::of(mode)?;
        Ok(Group { mode, ..group })
    }
}

#[cfg(test)]
mod tests {
    use super::*;
    use crate::bits;
    use crate::flow::Processor::{Active, Inactive};
    use crate::flow::{Loop, Processor, Program, Stepped, PLAIN};

    const FULL: u32 = 0;
    const PARTIAL: u32 = 1;
    const B_ELSE: u32 = 1 << 4;
    const ANY: u32 = 1 << 5;
    const POP: u32 = 1 << 6;
    const PUSH: u32 = 2 << 6;
    const ALWAYS: u32 = 0xFF << 8;
    /// Wanting to jump where alu is true.
    const BY_ALU: u32 = 0xF0 << 8;
    const STAY_DECREMENT: u32 = 1 << 24;
    const STAY_INCREMENT: u32 = 2 << 24;
    const JUMP_INCREMENT: u32 = 2 << 26;

    fn to(address: u32) -> u32 {
        address << 16
    }

    fn program(slots: &[[u32; 2]]) -> Program {
        Program::load(&slots.concat()).unwrap()
    }

    fn in_mode(mode: u32, processors: &[Processor]) -> Group {
        let group = Group::begin_in(1, mode).unwrap();
        Group {
            processors: processors.to_vec(),
            ..group
        }
    }

    fn stepped(jumped: bool, position: u32) -> Answer<Stepped> {
        Ok(Stepped { jumped, position })
    }

    /// The same group in full mode.
    fn in_full(group: &Group) -> Group {
        Group {
            mode: Mode::Full,
            ..group.clone()
        }
    }

    /// The step and the run of this slot get this number and change nothing.
    fn assert_refused(slot: [u32; 2], before: &Group, integers: &[u32], number: u32) {
        let program = program(&[slot, PLAIN, PLAIN]);
        let mut group = before.clone();
        let answer = group.step_with(&program, 0, 0, 0, integers);
        assert_eq!(answer, Err(number), "{slot:X?}");
        assert_eq!(group, *before);
        let answer = group.run_with(&program, &[0, 0, 0, 0], 0, integers);
        assert_eq!(answer, Err(number), "{slot:X?}");
        assert_eq!(group, *before);
    }

    fn accepted(slot: [u32; 2], before: &Group, integers: &[u32]) -> (Stepped, Group) {
        let program = program(&[slot, PLAIN, PLAIN]);
        let mut group = before.clone();
        let answer = group.step_with(&program, 0, 0, 0, integers);
        (answer.unwrap(), group)
    }

    #[test]
    fn r123_the_mode_is_chosen_at_the_start() {
        for size in [1, 7, 32] {
            let full = Group::begin(size).unwrap();
            assert_eq!(Group::begin_in(size, FULL).as_ref(), Ok(&full));
            let partial = Group::begin_in(size, PARTIAL).unwrap();
            assert_eq!(partial.mode, Mode::Partial);
            assert_eq!(in_full(&partial), full);
            for number in [2, 3, 31, u32::MAX] {
                assert_eq!(Group::begin_in(size, number), Err(13));
            }
        }
        for size in [0, 33, u32::MAX] {
            for number in [FULL, PARTIAL, 2] {
                assert_eq!(Group::begin_in(size, number), Err(13));
            }
        }
    }

    #[test]
    fn no_step_and_no_run_changes_the_mode() {
        for (number, mode) in [(FULL, Mode::Full), (PARTIAL, Mode::Partial)] {
            let program = program(&[PLAIN, [B_ELSE, to(0)], PLAIN]);
            let mut group = Group::begin_in(3, number).unwrap();
            for _ in 0..3 {
                group.step_with(&program, 0, 0, 0, &[]).unwrap();
                assert_eq!(group.mode, mode);
            }
            group.run_with(&program, &[0; 4], 0, &[]).unwrap();
            assert_eq!(group.mode, mode);
        }
    }

    #[test]
    fn r121_ops_1_to_4_get_13() {
        let full = in_mode(FULL, &[Active; 2]);
        let partial = in_mode(PARTIAL, &[Active; 2]);
        // Openings with a good word, with count 0, with a bad word and with none.
        for op in [1, 3] {
            for integers in [&[2][..], &[0], &[u32::MAX], &[]] {
                assert_refused([op, 0], &partial, integers, 13);
            }
            assert_eq!(accepted([op, 0], &full, &[2]).0.position, 1);
        }
        // A close with none open is 14 in full mode.
        for op in [2, 4] {
            assert_refused([op, 0], &full, &[], 14);
            assert_refused([op, 0], &partial, &[], 13);
        }
        for op in 5..16 {
            assert_refused([op, 0], &full, &[2], 13);
            assert_refused([op, 0], &partial, &[2], 13);
        }
    }

    #[test]
    fn r121_a_op_other_than_0_gets_13_on_a_stay_too() {
        let partial = in_mode(PARTIAL, &[Active; 2]);
        let full = in_mode(FULL, &[Active; 2]);
        for a_op in [POP, PUSH] {
            // On a stay full mode takes it.
            assert_refused([a_op | ANY, 0], &partial, &[], 13);
            assert_eq!(accepted([a_op | ANY, 0], &full, &[]).0.position, 1);
            assert_refused([a_op | ALWAYS, to(1)], &partial, &[], 13);
        }
        assert_refused([POP | PUSH | ANY, 0], &partial, &[], 13);
        assert_eq!(accepted([PUSH | ALWAYS, to(2)], &full, &[]).0.position, 2);
        assert_refused([POP | ALWAYS, 0], &full, &[], 14);
        // 13 comes before 14 and 15, and after 16.
        let high = in_mode(PARTIAL, &[Active, Inactive(5)]);
        let word = PUSH | ALWAYS | JUMP_INCREMENT;
        assert_refused([word, to(511)], &high, &[], 13);
        let ended = Group {
            position: 3,
            ..high
        };
        assert_refused([word, to(511)], &ended, &[], 16);
    }

    #[test]
    fn from_5_an_increment_gets_14() {
        for word in [ANY | STAY_INCREMENT, ANY | ALWAYS | JUMP_INCREMENT] {
            let slot = [word, to(1)];
            for counter in 0..5 {
                let before = in_mode(PARTIAL, &[Active, Inactive(counter)]);
                let (_, group) = accepted(slot, &before, &[]);
                assert_eq!(group.processors, [Active, Inactive(counter + 1)]);
            }
            let at_limit = in_mode(PARTIAL, &[Active, Inactive(5)]);
            assert_refused(slot, &at_limit, &[], 14);
            let (_, group) = accepted(slot, &in_full(&at_limit), &[]);
            assert_eq!(group.processors, [Active, Inactive(6)]);
            // Full mode's own limit is as it was.
            let (_, group) = accepted(slot, &in_mode(FULL, &[Active, Inactive(30)]), &[]);
            assert_eq!(group.processors, [Active, Inactive(31)]);
            assert_refused(slot, &in_mode(FULL, &[Active, Inactive(31)]), &[], 14);
        }
        // Only where an increment is worked.
        let at_limit = in_mode(PARTIAL, &[Active, Inactive(5)]);
        for word in [ANY | JUMP_INCREMENT, ANY, ANY | STAY_DECREMENT | 5 << 16] {
            assert_eq!(accepted([word, 0], &at_limit, &[]).0.position, 1);
        }
        // 14 comes before 15.
        let slot = [ALWAYS | JUMP_INCREMENT, to(511)];
        assert_refused(slot, &at_limit, &[], 14);
        assert_refused(slot, &in_full(&at_limit), &[], 15);
    }

    #[test]
    fn r122_branches_nest_6_deep() {
        // At each branch one more processor leaves; then each is joined again.
        for depth in 1..=9u32 {
            let branch = [BY_ALU | STAY_INCREMENT, to(0)];
            let end = [ANY | STAY_DECREMENT | 1 << 16, 0];
            let slots = [vec![branch; depth as usize], vec![end; depth as usize]].concat();
            let program = program(&slots);
            let mut masks: Vec<u32> = (0..depth).flat_map(|place| [1 << place, 0]).collect();
            masks.extend(vec![0; 2 * depth as usize]);
            let mut full = Group::begin_in(12, FULL).unwrap();
            let report = full.run_with(&program, &masks, 0, &[]).unwrap();
            assert_eq!(report.steps, u64::from(2 * depth));
            assert_eq!(report.active, 12);
            let mut partial = Group::begin_in(12, PARTIAL).unwrap();
            let answer = partial.run_with(&program, &masks, 0, &[]);
            if depth <= 6 {
                assert_eq!(answer, Ok(report));
                assert_eq!(in_full(&partial), full);
            } else {
                assert_eq!(answer, Err(14), "{depth}");
                assert_eq!(partial, Group::begin_in(12, PARTIAL).unwrap());
            }
            // Step by step: the seventh branch is the first refused.
            let mut partial = Group::begin_in(12, PARTIAL).unwrap();
            for place in 0..depth {
                let answer = partial.step_with(&program, 1 << place, 0, 0, &[]);
                if place < 6 {
                    assert_eq!(answer, stepped(false, place + 1));
                    assert_eq!(partial.processors[0], Inactive(place));
                } else {
                    assert_eq!(answer, Err(14));
                    break;
                }
            }
        }
    }

    /// A small generator, so that the programs are the same at each run.
    fn next(seed: &mut u64) -> u32 {
        *seed ^= *seed << 13;
        *seed ^= *seed >> 7;
        *seed ^= *seed << 17;
        (*seed >> 32) as u32
    }

    /// A slot of which most are good in partial mode.
    fn some_slot(seed: &mut u64) -> [u32; 2] {
        let any = next(seed);
        let op = if any % 9 == 0 { any >> 8 & 7 } else { 0 };
        let a_op = if any % 7 == 0 { any >> 12 & 3 } else { 0 };
        let b_ops = (next(seed) % 3) << 24 | (next(seed) % 3) << 26;
        let first = op | a_op << 6 | b_ops | next(seed) & 0x0003_FF30;
        let integer = if op == 1 || op == 3 { any & 0x300 } else { 0 };
        [first, next(seed) & 0x0007_0003 | integer]
    }

    /// The three causes, asked of the words and the state before the step.
    fn a_cause_stands(words: [u32; 2], before: &Group) -> bool {
        let op = bits(words[0], 3, 0);
        let a_op = bits(words[0], 7, 6);
        let increments = bits(words[0], 25, 24) == 2 || bits(words[0], 27, 26) == 2;
        let high = before.processors.contains(&Inactive(5));
        (1..=4).contains(&op) || a_op == 1 || a_op == 2 || (high && increments)
    }

    #[test]
    fn r162_r163_what_both_modes_share() {
        let mut seed = 0x7007;
        let (mut both, mut apart, mut neither) = (0, 0, 0);
        for _ in 0..4000 {
            let slots: Vec<[u32; 2]> = (0..8).map(|_| some_slot(&mut seed)).collect();
            let program = program(&slots);
            let integers = [next(&mut seed) & 0xFF_FFFF, 1, 0];
            let booleans = next(&mut seed);
            let mut partial = Group::begin_in(6, PARTIAL).unwrap();
            for _ in 0..24 {
                let before = partial.clone();
                let mut full = in_full(&partial);
                let (alu, predicate) = (next(&mut seed), next(&mut seed));
                let of_partial = partial.step_with(&program, alu, predicate, booleans, &integers);
                let of_full = full.step_with(&program, alu, predicate, booleans, &integers);
                match (of_partial, of_full) {
                    (Ok(one), Ok(other)) => {
                        assert_eq!(one, other);
                        assert_eq!(in_full(&partial), full);
                        both += 1;
                    }
                    (Ok(_), Err(number)) => panic!("full mode alone refuses: {number}"),
                    (Err(_), Ok(_)) => {
                        let slot = program.slots[before.position as usize];
                        assert!(a_cause_stands(slot, &before), "{slot:X?} {before:?}");
                        apart += 1;
                    }
                    (Err(_), Err(_)) => neither += 1,
                }
                // What partial mode reaches.
                assert_eq!(partial.mode, Mode::Partial);
                assert!(partial.returns.is_empty() && partial.loops.is_empty());
                let low = |processor: &Processor| match processor {
                    Active => true,
                    Inactive(counter) => *counter <= 5,
                };
                assert!(partial.processors.iter().all(low));
                if of_partial.is_err() {
                    assert_eq!(partial, before);
                    break;
                }
            }
        }
        // The programs must try all three outcomes often.
        assert!(both > 10_000, "{both}");
        assert!(apart > 500 && neither > 500, "{apart} {neither}");
    }

    #[test]
    fn r162_runs_share_it_too() {
        let mut seed = 0x7117;
        let (mut accepted, mut refused) = (0, 0);
        for _ in 0..4000 {
            let slots: Vec<[u32; 2]> = (0..6).map(|_| some_slot(&mut seed)).collect();
            let program = program(&slots);
            let masks: Vec<u32> = (0..8).map(|_| next(&mut seed)).collect();
            let mut partial = Group::begin_in(4, PARTIAL).unwrap();
            let mut full = Group::begin_in(4, FULL).unwrap();
            let of_full = full.run_with(&program, &masks, 5, &[1, 2]);
            match partial.run_with(&program, &masks, 5, &[1, 2]) {
                Ok(report) => {
                    assert_eq!(of_full, Ok(report));
                    assert_eq!(in_full(&partial), full);
                    accepted += 1;
                }
                Err(_) => refused += 1,
            }
        }
        assert!(accepted > 500 && refused > 500, "{accepted} {refused}");
    }

    #[test]
    fn a_state_with_loops_and_returns_keeps_them_in_partial_mode() {
        let before = Group {
            returns: vec![2],
            loops: vec![Loop::Rep { count: 3 }],
            ..in_mode(PARTIAL, &[Active])
        };
        let (_, after) = accepted([ANY, 0], &before, &[]);
        assert_eq!(
            (&after.returns, &after.loops),
            (&before.returns, &before.loops)
        );
    }
}
