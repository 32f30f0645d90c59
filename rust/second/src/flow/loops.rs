//! Document 02, request 4, "Loops in the stepper": LOOP, ENDLOOP, REP and ENDREP.

use super::Group;
use crate::{bits, Answer};

/// "At most 4 open loops".
const MOST_LOOPS: usize = 4;

/// The codes of op; 5 to 15 aren't known.
#[derive(Clone, Copy, Debug, PartialEq, Eq)]
pub(super) enum Op {
    Jump,
    Loop,
    EndLoop,
    Rep,
    EndRep,
}

impl Op {
    pub(super) fn of(code: u32) -> Answer<Op> {
        match code {
            0 => Ok(Op::Jump),
            1 => Ok(Op::Loop),
            2 => Ok(Op::EndLoop),
            3 => Ok(Op::Rep),
            4 => Ok(Op::EndRep),
            _ => Err(13),
        }
    }

    /// Whether it opens a loop, and so has the number of an integer word.
    pub(super) fn opens(self) -> bool {
        self == Op::Loop || self == Op::Rep
    }
}

/// An open loop: its count, which is that of the turns left with the present one
/// among them, and for a LOOP its aL and what each further turn adds to it.
#[derive(Clone, Copy, Debug, PartialEq, Eq)]
pub enum Loop {
    Loop { count: u32, al: u32, step: i32 },
    Rep { count: u32 },
}

/// An integer word: "count in bits 7:0, start of aL in 15:8, step in 23:16 as
/// -128 to 127".
#[derive(Clone, Copy, Debug, Default, PartialEq, Eq)]
pub(super) struct Integer {
    count: u32,
    start: u32,
    step: i32,
}

impl Integer {
    /// Takes the word apart; 13 unless "the rest" is 0.
    fn of(word: u32) -> Answer<Integer> {
        if bits(word, 31, 24) != 0 {
            return Err(13);
        }
        let step = bits(word, 23, 16) as i32;
        Ok(Integer {
            count: bits(word, 7, 0),
            start: bits(word, 15, 8),
            // From 128 on the eight bits mean 256 less.
            step: if step < 128 { step } else { step - 256 },
        })
    }

    /// What the op needs of the lent list: an opening the word of this number, 13
    /// where there is none; the others nothing. Without a list no op but JUMP is
    /// known, so that the others get 13 too.
    pub(super) fn asked_by(op: Op, number: u32, integers: Option<&[u32]>) -> Answer<Integer> {
        match integers {
            None if op != Op::Jump => Err(13),
            Some(words) if op.opens() => Integer::of(*words.get(number as usize).ok_or(13u32)?),
            _ => Ok(Integer::default()),
        }
    }
}

/// The decision of a loop's word, whether to jump, and its work on the open
/// loops: 14.
pub(super) fn decide(op: Op, integer: Integer, loops: &mut Vec<Loop>) -> Answer<bool> {
    let count = integer.count;
    match op {
        Op::Loop => open(
            count,
            Loop::Loop {
                count,
                al: integer.start,
                step: integer.step,
            },
            loops,
        ),
        Op::Rep => open(count, Loop::Rep { count }, loops),
        Op::EndLoop => close_loop(loops),
        Op::EndRep => close_rep(loops),
        // A JUMP's decision is the processors'.
        Op::Jump => Err(13),
    }
}

/// "Opening: count 0 jumps; otherwise stay and push". A fifth push gets 14, so a
/// count of 0 doesn't.
fn open(count: u32, new: Loop, loops: &mut Vec<Loop>) -> Answer<bool> {
    if count == 0 {
        return Ok(true);
    }
    if loops.len() >= MOST_LOOPS {
        return Err(14);
    }
    loops.push(new);
    Ok(false)
}

/// "Closing: the count falls by one; if it is then above 0 jump, else pop and
/// stay. LOOP's close also adds the step to its aL on a jump; aL outside 0 to 255
/// gets 14." So does a close with none open or of the other kind.
fn close_loop(loops: &mut Vec<Loop>) -> Answer<bool> {
    match loops.pop() {
        Some(Loop::Loop { count: 1, .. }) => Ok(false),
        Some(Loop::Loop { count, al, step }) => {
            // Both are small, so the sum can't wrap.
            let next = al as i32 + step;
            if !(0..=255).contains(&next) {
                return Err(14);
            }
            let (count, al) = (count - 1, next as u32);
            loops.push(Loop::Loop { count, al, step });
            Ok(true)
        }
        _ => Err(14),
    }
}

fn close_rep(loops: &mut Vec<Loop>) -> Answer<bool> {
    match loops.pop() {
        Some(Loop::Rep { count: 1 }) => Ok(false),
        Some(Loop::Rep { count }) => {
            loops.push(Loop::Rep { count: count - 1 });
            Ok(true)
        }
        _ => Err(14),
    }
}

impl Group {
    /// "The aL shown is the innermost open LOOP's, 0 if none."
    pub fn al(&self) -> u32 {
        let mut shown = 0;
        // Outermost first, so that the last one found is the innermost.
        for open in &self.loops {
            if let Loop::Loop { al, .. } = open {
                shown = *al;
            }
        }
        shown
    }
}

#[cfg(test)]
mod tests {
    use super::*;
    use crate::flow::Processor::{Active, Inactive};
    use crate::flow::{Program, Report, Stepped, PLAIN};

    const LOOP: u32 = 1;
    const ENDLOOP: u32 = 2;
    const REP: u32 = 3;
    const ENDREP: u32 = 4;
    const B_ELSE: u32 = 1 << 4;
    const ANY: u32 = 1 << 5;
    const POP: u32 = 1 << 6;
    const PUSH: u32 = 2 << 6;
    const ALWAYS: u32 = 0xFF << 8;
    /// Wanting to jump where alu is true.
    const BY_ALU: u32 = 0xF0 << 8;
    const STAY_INCREMENT: u32 = 2 << 24;
    const JUMP_DECREMENT: u32 = 1 << 26;
    const JUMP_INCREMENT: u32 = 2 << 26;

    fn to(address: u32) -> u32 {
        address << 16
    }

    fn number(integer: u32) -> u32 {
        integer << 8
    }

    /// An integer word of its three parts.
    fn word(count: u32, start: u32, step: i32) -> u32 {
        count | start << 8 | (step as u32 & 0xFF) << 16
    }

    fn program(slots: &[[u32; 2]]) -> Program {
        Program::load(&slots.concat()).unwrap()
    }

    fn fresh() -> Group {
        Group::begin(2).unwrap()
    }

    /// A fresh group with these loops open.
    fn with(loops: &[Loop]) -> Group {
        Group {
            loops: loops.to_vec(),
            ..fresh()
        }
    }

    /// The same group at the first position again.
    fn again(group: &Group) -> Group {
        Group {
            position: 0,
            ..group.clone()
        }
    }

    fn rep(count: u32) -> Loop {
        Loop::Rep { count }
    }

    fn counted(count: u32, al: u32, step: i32) -> Loop {
        Loop::Loop { count, al, step }
    }

    fn stepped(jumped: bool, position: u32) -> Answer<Stepped> {
        Ok(Stepped { jumped, position })
    }

    /// One step of this slot, the first of three, from this group.
    fn after(slot: [u32; 2], before: &Group, integers: &[u32]) -> (Answer<Stepped>, Group) {
        let program = program(&[slot, PLAIN, PLAIN]);
        let mut group = before.clone();
        let answer = group.step_with(&program, 0, 0, 0, integers);
        (answer, group)
    }

    /// The step and the run of this slot get this number and change nothing.
    fn assert_refused(slot: [u32; 2], before: &Group, integers: &[u32], refusal: u32) {
        let (answer, group) = after(slot, before, integers);
        assert_eq!(answer, Err(refusal), "{slot:X?}");
        assert_eq!(group, *before);
        let program = program(&[slot, PLAIN, PLAIN]);
        let mut group = before.clone();
        let run = group.run_with(&program, &[0, 0, 0, 0], 0, integers);
        assert_eq!(run, Err(refusal), "{slot:X?}");
        assert_eq!(group, *before);
    }

    #[test]
    fn an_integer_word_in_parts() {
        for (parts, step) in [(0x00, 0), (0x01, 1), (0x7F, 127), (0x80, -128), (0xFF, -1)] {
            let integer = Integer {
                count: 0x12,
                start: 0x34,
                step,
            };
            assert_eq!(Integer::of(parts << 16 | 0x3412), Ok(integer));
        }
        for bit in 0..32 {
            let named = bit < 24;
            assert_eq!(Integer::of(1 << bit).is_ok(), named, "bit {bit}");
        }
    }

    #[test]
    fn r109_ops_5_to_15_get_13() {
        for op in 5..16 {
            assert_refused([op, 0], &fresh(), &[word(1, 0, 0)], 13);
            assert_refused([op | ALWAYS, 0], &with(&[rep(1)]), &[], 13);
        }
    }

    #[test]
    fn r109_the_integer_number_is_named_for_openings_alone() {
        let list = [word(2, 7, 1); 32];
        for number in 1..32 {
            let second = number << 8 | to(1);
            for (op, open) in [(LOOP, counted(2, 7, 1)), (REP, rep(2))] {
                let (answer, group) = after([op, second], &fresh(), &list);
                assert_eq!(answer, stepped(false, 1));
                assert_eq!(group.loops, [open]);
            }
            assert_refused([0, second], &fresh(), &list, 13);
            assert_refused([ENDLOOP, second], &with(&[counted(2, 0, 0)]), &list, 13);
            assert_refused([ENDREP, second], &with(&[rep(2)]), &list, 13);
        }
        // The bits beside it stay reserved for all.
        for bit in [5, 6, 7, 13, 14, 15, 25, 31] {
            for op in [LOOP, REP] {
                assert_refused([op, 1 << bit], &fresh(), &list, 13);
            }
        }
    }

    #[test]
    fn r110_no_such_integer_word_gets_13() {
        let list = [word(1, 0, 0), word(2, 0, 0), word(3, 0, 0)];
        for op in [LOOP, REP] {
            for length in 0..4 {
                for asked in 0..32 {
                    let (answer, _) = after([op, number(asked)], &fresh(), &list[..length]);
                    if asked < length as u32 {
                        assert_eq!(answer, stepped(false, 1));
                    } else {
                        assert_eq!(answer, Err(13), "{asked} of {length}");
                    }
                }
            }
        }
        // A list may be longer than the numbers go.
        let long = [word(9, 0, 0); 40];
        let (_, group) = after([REP, number(31)], &fresh(), &long);
        assert_eq!(group.loops, [rep(9)]);
    }

    #[test]
    fn r110_the_rest_of_an_integer_word_is_0() {
        for bit in 24..32 {
            for count in [0, 1] {
                let list = [count | 1 << bit];
                assert_refused([LOOP, 0], &fresh(), &list, 13);
                assert_refused([REP, 0], &fresh(), &list, 13);
                // 13 comes before 14.
                assert_refused([REP, 0], &with(&[rep(1); 4]), &list, 13);
            }
        }
        assert_refused([LOOP, 0], &with(&[rep(1); 4]), &[], 13);
        // Words that no opening asks for aren't judged.
        let list = [u32::MAX, word(1, 0, 0)];
        let (answer, _) = after([LOOP, number(1)], &fresh(), &list);
        assert_eq!(answer, stepped(false, 1));
    }

    #[test]
    fn r110_rep_ignores_al_and_step() {
        let (_, group) = after([REP, 0], &fresh(), &[word(5, 200, 100)]);
        assert_eq!(group.loops, [rep(5)]);
        let (_, group) = after([ENDREP, to(1)], &again(&group), &[]);
        assert_eq!(group.loops, [rep(4)]);
    }

    #[test]
    fn opening_stays_and_pushes() {
        for count in [1, 2, 255] {
            let list = [word(count, 17, -3)];
            let (answer, group) = after([LOOP | ALWAYS, to(2)], &fresh(), &list);
            assert_eq!(answer, stepped(false, 1));
            assert_eq!(group.loops, [counted(count, 17, -3)]);
            let (answer, group) = after([REP | ALWAYS, to(2)], &with(&[rep(8)]), &list);
            assert_eq!(answer, stepped(false, 1));
            assert_eq!(group.loops, [rep(8), rep(count)]);
        }
    }

    #[test]
    fn opening_with_count_0_jumps_and_pushes_nothing() {
        for op in [LOOP, REP] {
            for open in 0..=4 {
                let before = with(&vec![rep(1); open]);
                let (answer, group) = after([op, to(2)], &before, &[word(0, 9, 9)]);
                // With four open too, since nothing is pushed.
                assert_eq!(answer, stepped(true, 2));
                assert_eq!(group.loops, before.loops);
            }
        }
    }

    #[test]
    fn r111_a_fifth_push_gets_14() {
        for op in [LOOP, REP] {
            let mut group = fresh();
            for open in 1..=4 {
                let (answer, next) = after([op, 0], &group, &[word(3, 0, 0)]);
                assert_eq!(answer, stepped(false, 1));
                assert_eq!(next.loops.len(), open);
                group = again(&next);
            }
            assert_refused([op, 0], &group, &[word(3, 0, 0)], 14);
            assert_refused([op, 0], &group, &[word(255, 0, 0)], 14);
        }
    }

    #[test]
    fn closing_counts_down_and_jumps_while_above_0() {
        for outer in [vec![], vec![rep(6)], vec![counted(2, 1, 1), rep(3)]] {
            for count in 1..6 {
                let loops = [outer.clone(), vec![rep(count)]].concat();
                let (answer, group) = after([ENDREP, to(2)], &with(&loops), &[]);
                if count == 1 {
                    assert_eq!((answer, &group.loops), (stepped(false, 1), &outer));
                } else {
                    let left = [outer.clone(), vec![rep(count - 1)]].concat();
                    assert_eq!((answer, group.loops), (stepped(true, 2), left));
                }
                let loops = [outer.clone(), vec![counted(count, 40, -5)]].concat();
                let (answer, group) = after([ENDLOOP, to(2)], &with(&loops), &[]);
                if count == 1 {
                    assert_eq!((answer, &group.loops), (stepped(false, 1), &outer));
                } else {
                    let left = [outer.clone(), vec![counted(count - 1, 35, -5)]].concat();
                    assert_eq!((answer, group.loops), (stepped(true, 2), left));
                }
            }
        }
    }

    #[test]
    fn r112_al_outside_0_to_255_gets_14_on_a_jump_alone() {
        for (al, step, next) in [
            (255, 1, None),
            (255, 0, Some(255)),
            (254, 1, Some(255)),
            (129, 127, None),
            (128, 127, Some(255)),
            (0, -1, None),
            (1, -1, Some(0)),
            (127, -128, None),
            (128, -128, Some(0)),
        ] {
            let before = with(&[counted(2, al, step)]);
            match next {
                Some(next) => {
                    let (answer, group) = after([ENDLOOP, to(1)], &before, &[]);
                    assert_eq!(answer, stepped(true, 1));
                    assert_eq!((group.loops[0], group.al()), (counted(1, next, step), next));
                }
                None => assert_refused([ENDLOOP, to(1)], &before, &[], 14),
            }
            // The last close adds nothing.
            let (answer, group) = after([ENDLOOP, to(2)], &with(&[counted(1, al, step)]), &[]);
            assert_eq!((answer, group.loops.len()), (stepped(false, 1), 0));
        }
    }

    #[test]
    fn a_close_with_none_open_or_of_the_other_kind_gets_14() {
        for close in [ENDLOOP, ENDREP] {
            assert_refused([close, 0], &fresh(), &[], 14);
        }
        for count in [1, 2] {
            let inside = with(&[counted(3, 0, 0), rep(count)]);
            assert_refused([ENDLOOP, 0], &inside, &[], 14);
            let inside = with(&[rep(3), counted(count, 0, 0)]);
            assert_refused([ENDREP, 0], &inside, &[], 14);
        }
    }

    #[test]
    fn r113_the_al_shown() {
        for (loops, al) in [
            (vec![], 0),
            (vec![rep(2), rep(2)], 0),
            (vec![counted(1, 7, 0)], 7),
            // A REP inside doesn't hide it.
            (vec![counted(1, 7, 0), rep(2), rep(1)], 7),
            (vec![counted(1, 7, 0), rep(2), counted(1, 0, 5)], 0),
            (vec![counted(1, 7, 0), counted(1, 9, 0), rep(1)], 9),
        ] {
            assert_eq!(with(&loops).al(), al, "{loops:?}");
        }
        // After the inner LOOP is popped the outer one's shows again.
        let before = with(&[counted(1, 7, 0), counted(1, 9, 0)]);
        let (_, group) = after([ENDLOOP, 0], &before, &[]);
        assert_eq!((before.al(), group.al()), (9, 7));
    }

    #[test]
    fn r114_jump_any_and_the_wishes_decide_nothing() {
        for rest in [0, ANY, ALWAYS, ALWAYS | ANY] {
            for (before, jumped) in [(with(&[rep(2)]), true), (with(&[rep(1)]), false)] {
                let (answer, _) = after([ENDREP | rest, to(1)], &before, &[]);
                assert_eq!(answer.unwrap().jumped, jumped);
            }
            for (count, jumped) in [(0, true), (1, false)] {
                let (answer, _) = after([LOOP | rest, to(1)], &fresh(), &[count]);
                assert_eq!(answer.unwrap().jumped, jumped);
            }
        }
    }

    #[test]
    fn r114_the_branch_work_goes_by_the_loops_decision() {
        let group = |loops: &[Loop]| Group {
            processors: vec![Active, Active, Inactive(3)],
            ..with(loops)
        };
        let word = ENDREP | BY_ALU | JUMP_INCREMENT;
        let program = program(&[[word, 0], PLAIN]);
        // A jump: the one that wanted to stay becomes idle.
        let mut turned = group(&[rep(2)]);
        assert_eq!(
            turned.step_with(&program, 0b01, 0, 0, &[]),
            stepped(true, 0)
        );
        assert_eq!(turned.processors, [Active, Inactive(0), Inactive(4)]);
        // Everyone, where all wanted to.
        let mut turned = group(&[rep(2)]);
        assert_eq!(turned.step_with(&program, 0, 0, 0, &[]), stepped(true, 0));
        assert_eq!(turned.processors, [Inactive(0), Inactive(0), Inactive(4)]);
        // On the stay B_OP1 isn't worked.
        let mut left = group(&[rep(1)]);
        assert_eq!(left.step_with(&program, 0b01, 0, 0, &[]), stepped(false, 1));
        assert_eq!(left.processors, [Active, Active, Inactive(3)]);
        // An opening that stays idles those who wanted to jump.
        let opening = self::program(&[[REP | BY_ALU | STAY_INCREMENT, 0], PLAIN]);
        let mut opened = group(&[]);
        let answer = opened.step_with(&opening, 0b01, 0, 0, &[1]);
        assert_eq!(answer, stepped(false, 1));
        assert_eq!(opened.processors, [Inactive(0), Active, Inactive(4)]);
        assert_eq!(opened.loops, [rep(1)]);
        // B_ELSE and decrement.
        let (_, woken) = after([REP | B_ELSE, to(1)], &group(&[]), &[0]);
        assert_eq!(woken.processors, [Inactive(0), Inactive(0), Inactive(3)]);
        let word = REP | JUMP_DECREMENT | 4 << 16;
        let (_, woken) = after([word, to(1)], &group(&[]), &[0]);
        assert_eq!(woken.processors, [Active; 3]);
    }

    #[test]
    fn r114_the_return_work_goes_by_the_loops_decision() {
        // On a jump a push stores and a pop replaces the address.
        let (answer, group) = after([ENDREP | PUSH, to(2)], &with(&[rep(2)]), &[]);
        assert_eq!(answer, stepped(true, 2));
        assert_eq!((group.returns, group.loops), (vec![1], vec![rep(1)]));
        let before = Group {
            returns: vec![3],
            ..with(&[rep(2)])
        };
        let (answer, group) = after([ENDREP | POP, to(511)], &before, &[]);
        assert_eq!(answer, stepped(true, 3));
        assert_eq!((group.returns.len(), group.loops), (0, vec![rep(1)]));
        // On a stay neither happens.
        let (answer, group) = after([REP | POP, to(511)], &fresh(), &[1]);
        assert_eq!(answer, stepped(false, 1));
        assert_eq!(group.loops, [rep(1)]);
        // 14 of the stack and 15 of the jump leave the loops as they were.
        assert_refused([ENDREP | POP, 0], &with(&[rep(2)]), &[], 14);
        assert_refused([ENDREP, to(4)], &with(&[rep(2)]), &[], 15);
        assert_refused([ENDLOOP, to(4)], &with(&[counted(2, 5, 5)]), &[], 15);
        assert_refused([REP, to(4)], &fresh(), &[0], 15);
        // 3 is N and ends the program.
        let (answer, _) = after([REP, to(3)], &fresh(), &[0]);
        assert_eq!(answer, stepped(true, 3));
    }

    #[test]
    fn r115_the_count_alone_decides_with_nobody_active() {
        let idle = |loops: &[Loop]| Group {
            processors: vec![Inactive(0), Inactive(2)],
            ..with(loops)
        };
        for any in [0, ANY] {
            let (answer, _) = after([ENDREP | any | ALWAYS, to(2)], &idle(&[rep(2)]), &[]);
            assert_eq!(answer, stepped(true, 2));
            let (answer, _) = after([ENDREP | any, to(2)], &idle(&[rep(1)]), &[]);
            assert_eq!(answer, stepped(false, 1));
        }
    }

    #[test]
    fn order_16_13_14_15_with_loops() {
        // An increment from 31 and a loop's fault get the same number.
        let limit = Group {
            processors: vec![Active, Inactive(31)],
            ..with(&[rep(2)])
        };
        assert_refused([ENDREP | JUMP_INCREMENT, 0], &limit, &[], 14);
        // 14 of the loop comes before 15 of the jump.
        let high = with(&[counted(2, 255, 1)]);
        assert_refused([ENDLOOP, to(511)], &high, &[], 14);
        assert_refused([ENDLOOP | 1 << 21, to(511)], &high, &[], 13);
        let ended = Group {
            position: 3,
            ..high.clone()
        };
        assert_refused([ENDLOOP, 0], &ended, &[], 16);
    }

    #[test]
    fn without_a_list_every_op_but_jump_gets_13() {
        for op in 1..5 {
            let program = program(&[[op, 0]]);
            for before in [fresh(), with(&[rep(2)]), with(&[counted(2, 0, 0)])] {
                let mut group = before.clone();
                assert_eq!(group.step(&program, 0, 0, 0), Err(13));
                assert_eq!(group.run(&program, &[0, 0], 0), Err(13));
                assert_eq!(group, before);
            }
        }
    }

    #[test]
    fn with_op_0_every_old_answer_stays() {
        let mut seed = 0x0105;
        for _ in 0..2000 {
            let words: Vec<u32> = (0..8)
                .map(|place| match place % 2 {
                    0 => next(&mut seed) & 0x0F1F_FFF0,
                    _ => next(&mut seed) & 0x0007_001F,
                })
                .collect();
            let program = Program::load(&words).unwrap();
            let masks: Vec<u32> = (0..12).map(|_| next(&mut seed)).collect();
            let booleans = next(&mut seed);
            let integers = [next(&mut seed), next(&mut seed)];
            let mut old = Group::begin(5).unwrap();
            let mut new = old.clone();
            for pair in masks.chunks_exact(2) {
                let answer = old.step(&program, pair[0], pair[1], booleans);
                let with = new.step_with(&program, pair[0], pair[1], booleans, &integers);
                assert_eq!((answer, &old), (with, &new));
            }
            let (mut old, mut new) = (Group::begin(5).unwrap(), Group::begin(5).unwrap());
            let answer = old.run(&program, &masks, booleans);
            assert_eq!(answer, new.run_with(&program, &masks, booleans, &integers));
            assert_eq!(old, new);
        }
    }

    /// A small generator, so that the programs are the same at each run.
    fn next(seed: &mut u64) -> u32 {
        *seed ^= *seed << 13;
        *seed ^= *seed >> 7;
        *seed ^= *seed << 17;
        (*seed >> 32) as u32
    }

    /// A part of a program: a plain slot, or a loop around other parts.
    enum Node {
        Plain,
        Around {
            rep: bool,
            integer: usize,
            body: Vec<Node>,
        },
    }

    fn some_nodes(seed: &mut u64, depth: u32) -> Vec<Node> {
        let count = 1 + next(seed) % 2;
        (0..count)
            .map(|_| {
                if depth >= 6 || next(seed) % 4 == 0 {
                    return Node::Plain;
                }
                Node::Around {
                    rep: next(seed) % 2 == 0,
                    integer: next(seed) as usize % 8,
                    body: some_nodes(seed, depth + 1),
                }
            })
            .collect()
    }

    /// The slots of the parts; a closing jumps to its body, an opening behind it.
    fn written(nodes: &[Node], slots: &mut Vec<[u32; 2]>) {
        for node in nodes {
            match node {
                Node::Plain => slots.push(PLAIN),
                Node::Around { rep, integer, body } => {
                    let (open, close) = if *rep { (REP, ENDREP) } else { (LOOP, ENDLOOP) };
                    let place = slots.len();
                    slots.push([open, 0]);
                    written(body, slots);
                    slots.push([close, to(place as u32 + 1)]);
                    slots[place][1] = number(*integer as u32) | to(slots.len() as u32);
                }
            }
        }
    }

    /// The second way: what the parts do, told without a stack of loops. Each step
    /// adds its position and the aL before it. An error is a refusal 14.
    fn told(
        nodes: &[Node],
        place: &mut u32,
        (depth, al): (u32, u32),
        integers: &[u32],
        trace: &mut Vec<(u32, u32)>,
    ) -> Result<(), ()> {
        for node in nodes {
            let (rep, integer, body) = match node {
                Node::Plain => {
                    trace.push((*place, al));
                    *place += 1;
                    continue;
                }
                Node::Around { rep, integer, body } => (*rep, integers[*integer], body),
            };
            trace.push((*place, al));
            let [count, start, step, _] = integer.to_le_bytes();
            let first = *place + 1;
            if count == 0 {
                let mut skipped = Vec::new();
                written(body, &mut skipped);
                *place = first + skipped.len() as u32 + 1;
                continue;
            }
            if depth == 4 {
                return Err(());
            }
            let mut inner = if rep { al } else { u32::from(start) };
            for turn in 0..count {
                *place = first;
                told(body, place, (depth + 1, inner), integers, trace)?;
                trace.push((*place, inner));
                if turn + 1 < count && !rep {
                    let next = i64::from(inner) + i64::from(step as i8);
                    inner = u8::try_from(next).map_err(|_| ())?.into();
                }
            }
            *place += 1;
        }
        Ok(())
    }

    #[test]
    fn nests_of_loops_do_what_they_say() {
        let mut seed = 0x4C4F_4F50;
        let (mut ended, mut refused, mut steps) = (0, 0, 0);
        for _ in 0..3000 {
            let nodes = some_nodes(&mut seed, 0);
            let mut slots = Vec::new();
            written(&nodes, &mut slots);
            let program = program(&slots);
            let integers: Vec<u32> = (0..8)
                .map(|_| {
                    let any = next(&mut seed);
                    let step = (any >> 24) as i32 % 40 - 20;
                    word(any % 4, any >> 8 & 0xFF, step)
                })
                .collect();
            let mut trace = Vec::new();
            let outcome = told(&nodes, &mut 0, (0, 0), &integers, &mut trace);
            let mut group = Group::begin(3).unwrap();
            let last = trace.len() - 1;
            for (step, (position, al)) in trace.iter().enumerate() {
                assert_eq!((group.position, group.al()), (*position, *al));
                let answer = group.step_with(&program, 0, 0, 0, &integers);
                if step == last && outcome.is_err() {
                    assert_eq!(answer, Err(14));
                } else {
                    assert!(answer.is_ok());
                }
            }
            // The run of all its steps says the same, all or nothing.
            let mut run = Group::begin(3).unwrap();
            let report = run.run_with(&program, &vec![0; 2 * trace.len()], 0, &integers);
            if outcome.is_ok() {
                assert_eq!(group.position, program.running);
                assert_eq!((group.loops.len(), group.al()), (0, 0));
                let steps = trace.len() as u64;
                let (first, active) = (0, 3);
                assert_eq!(
                    report,
                    Ok(Report {
                        steps,
                        first,
                        active
                    })
                );
                assert_eq!(run, group);
                ended += 1;
            } else {
                assert_eq!(report, Err(14));
                assert_eq!(run, Group::begin(3).unwrap());
                refused += 1;
            }
            steps += trace.len();
        }
        // The programs must try both outcomes often.
        assert!(ended > 500 && refused > 300, "{ended} {refused}");
        assert!(steps > 30_000, "{steps}");
    }

    #[test]
    fn a_loop_of_count_n_runs_its_body_n_times() {
        for count in [1, 2, 3, 64, 255] {
            let program = program(&[[LOOP, to(3)], PLAIN, [ENDLOOP, to(1)]]);
            let integers = [word(count, 0, 1)];
            let mut group = fresh();
            let mut shown = Vec::new();
            while group.position < 3 {
                if group.position == 1 {
                    shown.push(group.al());
                }
                group.step_with(&program, 0, 0, 0, &integers).unwrap();
            }
            assert_eq!(shown, (0..count).collect::<Vec<u32>>());
            assert_eq!(group.loops, []);
        }
    }
}
