//! Document 02, request 11, "Kill test on float registers": the kill, and a group
//! of which some processors were killed.

use super::floats::is_less_than_zero;
use super::{Group, Processor, Program};
use crate::{bits, Answer};

/// The highest write mask: one of four bits.
const MOST_MASK: u32 = 15;

impl Group {
    /// TEX_INST_KILL_LT_0: kills each active processor that has a channel under
    /// the write mask less than zero, and says which, as a mask. The registers are
    /// the bits of four channels for each processor of the starting group. An
    /// ended program gets 16, then a write mask over 15 gets 13, then a list of
    /// another length 11. The position and all else stay.
    pub fn kill(&mut self, program: &Program, registers: &[u32], mask: u32) -> Answer<u32> {
        if program.has_ended(self.position) {
            return Err(16);
        }
        if mask > MOST_MASK {
            return Err(13);
        }
        if registers.len() != 4 * self.processors.len() {
            return Err(11);
        }
        let mut killed = 0;
        for (number, register) in registers.chunks_exact(4).enumerate() {
            let active = self.processors[number] == Processor::Active;
            if active && has_less_than_zero(register, mask) {
                self.processors[number] = Processor::Inactive(0);
                killed += 1 << number;
            }
        }
        self.killed += killed;
        Ok(killed)
    }

    /// Whether the processor of this number was killed.
    fn is_killed(&self, number: usize) -> bool {
        bits(self.killed, number as u32, number as u32) == 1
    }

    /// The numbers of those that weren't killed, in their order.
    fn numbers_of_living(&self) -> Vec<usize> {
        (0..self.processors.len())
            .filter(|number| !self.is_killed(*number))
            .collect()
    }

    /// The group without the killed: the others move together.
    pub(super) fn living(&self) -> Group {
        let numbers = self.numbers_of_living();
        Group {
            processors: numbers.iter().map(|n| self.processors[*n]).collect(),
            killed: 0,
            ..self.clone()
        }
    }

    /// The bits of a mask that the living have, moved together likewise.
    pub(super) fn mask_of_living(&self, mask: u32) -> u32 {
        let mut moved = 0;
        for (place, number) in self.numbers_of_living().iter().enumerate() {
            moved += bits(mask, *number as u32, *number as u32) << place;
        }
        moved
    }

    /// What became of the living, each at its own number again beside the killed.
    pub(super) fn with_living(&self, living: Group) -> Group {
        let mut processors = self.processors.clone();
        for (place, number) in self.numbers_of_living().iter().enumerate() {
            processors[*number] = living.processors[place];
        }
        Group {
            processors,
            killed: self.killed,
            ..living
        }
    }
}

/// "bit c for channel c"
fn has_less_than_zero(register: &[u32], mask: u32) -> bool {
    for channel in 0..4 {
        let under_mask = bits(mask, channel, channel) == 1;
        if under_mask && is_less_than_zero(register[channel as usize]) {
            return true;
        }
    }
    false
}

#[cfg(test)]
mod tests {
    use super::*;
    use crate::flow::floats::tests::*;
    use crate::flow::Processor::{Active, Inactive};
    use crate::flow::{Loop, Stepped, PLAIN};

    const B_ELSE: u32 = 1 << 4;
    const ANY: u32 = 1 << 5;
    const ALWAYS: u32 = 0xFF << 8;
    /// Wanting to jump where alu is true.
    const BY_ALU: u32 = 0xF0 << 8;
    const STAY_DECREMENT: u32 = 1 << 24;
    const STAY_INCREMENT: u32 = 2 << 24;
    const JUMP_INCREMENT: u32 = 2 << 26;

    fn to(address: u32) -> u32 {
        address << 16
    }

    fn program(slots: &[[u32; 2]]) -> Program {
        Program::load(&slots.concat()).unwrap()
    }

    /// A program that hasn't ended.
    fn plain() -> Program {
        program(&[PLAIN, PLAIN])
    }

    fn group(processors: &[Processor]) -> Group {
        Group {
            processors: processors.to_vec(),
            ..Group::begin(1).unwrap()
        }
    }

    /// The registers of a group of this size in which the chosen ones have -1 in
    /// channel 0 and all else is 1.
    fn negative(size: usize, chosen: u32) -> Vec<u32> {
        let mut registers = vec![ONE; 4 * size];
        for number in (0..size).filter(|number| chosen >> number & 1 == 1) {
            registers[4 * number] = MINUS_ONE;
        }
        registers
    }

    /// The group after the kill of these.
    fn killed(before: &Group, chosen: u32) -> Group {
        let mut group = before.clone();
        let registers = negative(group.processors.len(), chosen);
        group.kill(&plain(), &registers, 15).unwrap();
        group
    }

    fn assert_refused(
        before: &Group,
        program: &Program,
        registers: &[u32],
        mask: u32,
        number: u32,
    ) {
        let mut group = before.clone();
        assert_eq!(group.kill(program, registers, mask), Err(number));
        assert_eq!(group, *before);
    }

    fn stepped(jumped: bool, position: u32) -> Answer<Stepped> {
        Ok(Stepped { jumped, position })
    }

    #[test]
    fn each_class_in_each_channel_under_each_mask() {
        for (number, less) in [
            (ZERO, false),
            (MINUS_ZERO, false),
            (ONE, false),
            (INFINITY, false),
            (QUIET, false),
            (SIGNALLING, false),
            (MINUS_QUIET, false),
            (MINUS_SIGNALLING, false),
            (MINUS_ONE, true),
            (MINUS_INFINITY, true),
            (LEAST_NEGATIVE, true),
        ] {
            for channel in 0..4 {
                for mask in 0..16u32 {
                    let mut registers = vec![ZERO; 12];
                    registers[4 + channel] = number;
                    let mut group = Group::begin(3).unwrap();
                    let dies = less && mask >> channel & 1 == 1;
                    let chosen = if dies { 0b010 } else { 0 };
                    assert_eq!(group.kill(&plain(), &registers, mask), Ok(chosen));
                    assert_eq!(group.killed, chosen);
                    let middle = if dies { Inactive(0) } else { Active };
                    assert_eq!(group.processors, [Active, middle, Active]);
                }
            }
        }
    }

    #[test]
    fn one_channel_of_several_is_enough() {
        let register = [ONE, MINUS_ONE, QUIET, MINUS_INFINITY];
        for mask in 0..16u32 {
            let mut group = Group::begin(1).unwrap();
            let chosen = u32::from(mask & 0b1010 != 0);
            assert_eq!(group.kill(&plain(), &register, mask), Ok(chosen));
        }
    }

    #[test]
    fn r136_write_mask_0_kills_nobody() {
        let mut group = Group::begin(4).unwrap();
        let answer = group.kill(&plain(), &[MINUS_ONE; 16], 0);
        assert_eq!((answer, group), (Ok(0), Group::begin(4).unwrap()));
    }

    #[test]
    fn r137_only_active_ones_are_killed() {
        let before = group(&[Active, Inactive(0), Inactive(3), Active]);
        let mut now = before.clone();
        assert_eq!(now.kill(&plain(), &[MINUS_ONE; 16], 1), Ok(0b1001));
        assert_eq!(now.killed, 0b1001);
        let left = [Inactive(0), Inactive(0), Inactive(3), Inactive(0)];
        assert_eq!(now.processors, left);
        // A second kill finds nobody.
        let again = now.clone();
        assert_eq!(now.kill(&plain(), &[MINUS_ONE; 16], 15), Ok(0));
        assert_eq!(now, again);
    }

    #[test]
    fn kills_add_up() {
        let mut group = Group::begin(32).unwrap();
        let mut all = 0;
        for chosen in [1, 0x8000_0001, 0x0F0, 0x0F0, u32::MAX] {
            let answer = group.kill(&plain(), &negative(32, chosen), 1);
            assert_eq!(answer, Ok(chosen & !all));
            all |= chosen;
            assert_eq!(group.killed, all);
        }
        assert_eq!(group.processors, [Inactive(0); 32]);
    }

    #[test]
    fn r160_all_else_stays() {
        let before = Group {
            position: 1,
            returns: vec![1, 2],
            loops: vec![Loop::Rep { count: 3 }],
            ..Group::begin(2).unwrap()
        };
        let now = killed(&before, 0b10);
        let wanted = Group {
            processors: vec![Active, Inactive(0)],
            killed: 0b10,
            ..before
        };
        assert_eq!(now, wanted);
    }

    #[test]
    fn r136_order_16_13_11() {
        let fresh = Group::begin(3).unwrap();
        let ended = Group {
            position: 2,
            ..fresh.clone()
        };
        assert_refused(&ended, &plain(), &[], 16, 16);
        assert_refused(&ended, &plain(), &[MINUS_ONE; 12], 15, 16);
        for mask in [16, 17, 0x8000_0000, u32::MAX] {
            assert_refused(&fresh, &plain(), &[], mask, 13);
            assert_refused(&fresh, &plain(), &[MINUS_ONE; 12], mask, 13);
        }
        for length in [0, 1, 3, 4, 8, 11, 13, 16, 48] {
            assert_refused(&fresh, &plain(), &vec![MINUS_ONE; length], 15, 11);
        }
        // The starting group's length counts, also when some were killed.
        let some = killed(&fresh, 0b011);
        for length in [4, 8] {
            assert_refused(&some, &plain(), &vec![MINUS_ONE; length], 15, 11);
        }
        let mut rest = some.clone();
        assert_eq!(rest.kill(&plain(), &[MINUS_ONE; 12], 15), Ok(0b100));
    }

    #[test]
    fn r138_b_else_does_not_wake_the_killed() {
        let before = killed(&group(&[Active, Active, Inactive(0), Inactive(2)]), 0b01);
        let program = program(&[[B_ELSE | ANY, 0], PLAIN]);
        let mut now = before.clone();
        assert_eq!(now.step(&program, 0, 0, 0), stepped(false, 1));
        let left = [Inactive(0), Inactive(0), Active, Inactive(2)];
        assert_eq!((now.processors, now.killed), (left.to_vec(), 1));
    }

    #[test]
    fn r138_decrement_does_not_wake_the_killed() {
        let before = killed(&group(&[Active, Active, Inactive(0), Inactive(2)]), 0b10);
        for count in [0, 1, 31] {
            let program = program(&[[ANY | STAY_DECREMENT | count << 16, 0], PLAIN]);
            let mut now = before.clone();
            assert_eq!(now.step(&program, 0, 0, 0), stepped(false, 1));
            assert_eq!((now.processors[1], now.killed), (Inactive(0), 0b10));
        }
    }

    #[test]
    fn r137_an_increment_leaves_the_killed_at_0() {
        let program = program(&[[ANY | BY_ALU | JUMP_INCREMENT, 0]]);
        let mut now = killed(&Group::begin(3).unwrap(), 0b100);
        // So often that a counter would reach its limit.
        for _ in 0..40 {
            assert_eq!(now.step(&program, 0b011, 0, 0), stepped(true, 0));
            assert_eq!(now.processors, [Active, Active, Inactive(0)]);
        }
    }

    #[test]
    fn r161_the_wishes_of_the_killed_are_not_asked() {
        let before = killed(&Group::begin(3).unwrap(), 0b010);
        let all = program(&[[BY_ALU, to(2)], PLAIN]);
        let any = program(&[[ANY | BY_ALU, to(2)], PLAIN]);
        for alu in 0..8 {
            let asked = alu & 0b101;
            let jumped = before.clone().step(&all, alu, 0, 0).unwrap().jumped;
            assert_eq!(jumped, asked == 0b101);
            let jumped = before.clone().step(&any, alu, 0, 0).unwrap().jumped;
            assert_eq!(jumped, asked != 0);
        }
    }

    #[test]
    fn r138_with_all_killed_jump_any_0_jumps() {
        let before = killed(&Group::begin(3).unwrap(), 0b111);
        let slots = |first| program(&[[first, to(2)], PLAIN]);
        for func in [0, ALWAYS] {
            let mut now = before.clone();
            assert_eq!(now.step(&slots(func), 7, 7, 7), stepped(true, 2));
            let mut now = before.clone();
            assert_eq!(now.step(&slots(func | ANY), 7, 7, 7), stepped(false, 1));
            let mut now = before.clone();
            let word = func | ANY | B_ELSE | STAY_INCREMENT;
            assert_eq!(now.step(&slots(word), 7, 7, 7), stepped(false, 1));
            assert_eq!(now.processors, [Inactive(0); 3]);
        }
        // The report has nobody.
        let mut now = before;
        let report = now.run(&plain(), &[0, 0], 0).unwrap();
        assert_eq!((report.steps, report.first, report.active), (1, 32, 0));
    }

    #[test]
    fn the_report_counts_the_living_by_their_own_numbers() {
        let mut now = killed(&Group::begin(32).unwrap(), 0x8000_000F);
        let report = now.run(&plain(), &[0, 0], 0).unwrap();
        assert_eq!((report.first, report.active), (4, 27));
    }

    /// A small generator, so that the programs are the same at each run.
    fn next(seed: &mut u64) -> u32 {
        *seed ^= *seed << 13;
        *seed ^= *seed >> 7;
        *seed ^= *seed << 17;
        (*seed >> 32) as u32
    }

    #[test]
    fn the_killed_are_as_if_idle_for_good() {
        // The second way: in place of a kill the processor is idle with a counter
        // so far from 0 and from 31 that 8 steps which lose at most 1 reach neither.
        const FAR: u32 = 15;
        let mut seed = 0x4B11;
        let mut kills = 0;
        for _ in 0..3000 {
            let slots: Vec<[u32; 2]> = (0..4)
                .map(|_| {
                    let b_ops = (next(&mut seed) % 3) << 24 | (next(&mut seed) % 3) << 26;
                    let first = next(&mut seed) & 0x0001_FF30 | b_ops;
                    [first, next(&mut seed) & 0x0003_001F]
                })
                .collect();
            let program = program(&slots);
            let mut group = Group::begin(6).unwrap();
            let mut idle = group.clone();
            for _ in 0..8 {
                let (alu, predicate, booleans) =
                    (next(&mut seed), next(&mut seed), next(&mut seed));
                if next(&mut seed) % 3 == 0 {
                    let chosen = next(&mut seed);
                    let registers = negative(6, chosen);
                    let answer = group.kill(&program, &registers, 1);
                    if let Ok(dead) = answer {
                        for number in (0..6).filter(|number| dead >> number & 1 == 1) {
                            assert_eq!(idle.processors[number], Active);
                            idle.processors[number] = Inactive(FAR);
                            kills += 1;
                        }
                    }
                }
                let dead = group.killed;
                let answer = group.step(&program, alu, predicate, booleans);
                assert_eq!(answer, idle.step(&program, alu, predicate, booleans));
                assert_eq!((group.position, group.killed), (idle.position, dead));
                for number in 0..6 {
                    if dead >> number & 1 == 1 {
                        assert_eq!(group.processors[number], Inactive(0));
                    } else {
                        assert_eq!(group.processors[number], idle.processors[number]);
                    }
                }
            }
        }
        assert!(kills > 3000, "{kills}");
    }

    #[test]
    fn a_refused_step_or_run_keeps_the_killed() {
        let before = killed(&Group::begin(4).unwrap(), 0b0110);
        let far = program(&[[B_ELSE, to(511)]]);
        let mut now = before.clone();
        assert_eq!(now.step(&far, 0, 0, 0), Err(15));
        assert_eq!(now.run(&far, &[0, 0], 0), Err(15));
        assert_eq!(now, before);
        // An idle one at the limit still gets 14.
        let mut at_limit = before.clone();
        at_limit.processors[3] = Inactive(31);
        let word = program(&[[ANY | STAY_INCREMENT, 0]]);
        assert_eq!(at_limit.clone().step(&word, 0, 0, 0), Err(14));
        at_limit.processors[3] = Active;
        assert!(at_limit.step(&word, 0, 0, 0).is_ok());
    }
}
