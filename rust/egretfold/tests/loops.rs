//! Loops in the stepper (request 4), over the boundary: turns and aL, what a loop
//! overrides, and every refusal that loops added.

use egretfold::{lent, Answer, Group, Loop, Program, Stepped};

const LOOP: u32 = 1;
const ENDLOOP: u32 = 2;
const REP: u32 = 3;
const ENDREP: u32 = 4;

/// The second word of a slot that jumps to this address.
fn to(address: u32) -> u32 {
    address << 16
}

/// The second word's bits of an opening's integer number.
fn number(integer: u32) -> u32 {
    integer << 8
}

/// An integer word of its three parts.
fn word(count: u32, start: u32, step: i32) -> u32 {
    count | start << 8 | (step as u32 & 0xFF) << 16
}

fn counted(count: u32, al: u32, step: i32) -> Loop {
    Loop::Loop { count, al, step }
}

fn load(slots: &[[u32; 2]]) -> Program {
    Program::load(&slots.concat()).unwrap()
}

/// A group with these loops open, the outermost first: each opening is a step.
fn opened(openings: &[(u32, u32)]) -> Group {
    let mut group = Group::begin(4).unwrap();
    for (count, (op, integer)) in openings.iter().enumerate() {
        let mut slots = vec![[0x20, 0]; count];
        slots.push([*op, 0]);
        group.step(&load(&slots), 0, 0, 0, &[*integer]).unwrap();
    }
    group
}

/// One step of this slot, which jumps to the program's end.
fn step(group: &mut Group, first: u32, second: u32, integers: &[u32]) -> Answer<Stepped> {
    let at = group.position();
    let mut slots = vec![[0x20, 0]; at as usize];
    slots.push([first, second | to(at + 1)]);
    group.step(&load(&slots), 0, 0, 0, integers)
}

/// A step gets this number, and neither the group nor a room is touched.
fn assert_refused(group: &Group, first: u32, second: u32, integers: &[u32], refusal: u32) {
    let mut after = *group;
    let stepped = step(&mut after, first, second, integers);
    assert_eq!(stepped.map_err(u32::from), Err(refusal));
    assert_eq!(after, *group);
    let program = load(&vec![[first, second]; group.position() as usize + 1]);
    let mut taken = [7; 2];
    lent::group_step(&mut after, &program, (0, 0, 0), integers, &mut taken);
    assert_eq!((after, taken), (*group, [7; 2]));
}

#[test]
fn a_loop_turns_by_its_count_and_counts_al() {
    // LOOP, a plain slot, ENDLOOP back to it: five turns, aL from 200 on by 10.
    let program = load(&[[LOOP, number(1) | to(3)], [0x20, 0], [ENDLOOP, to(1)]]);
    let integers = [0, word(5, 200, 10)];
    let mut group = Group::begin(32).unwrap();
    let mut shown = Vec::new();
    while group.position() < 3 {
        let at = group.position();
        group.step(&program, 0, 0, 0, &integers).unwrap();
        if at == 1 {
            shown.push(group.loops().al);
        }
    }
    assert_eq!(shown, [200, 210, 220, 230, 240]);
    assert_eq!((group.loops().open.len(), group.loops().al), (0, 0));
    // The same as one run: an opening, five bodies and five closes.
    let mut group = Group::begin(32).unwrap();
    let report = group.run(&program, &[0; 100], 0, &integers).unwrap();
    assert_eq!((report.steps, group.position()), (11, 3));
}

#[test]
fn a_count_of_0_jumps_and_opens_nothing() {
    for op in [LOOP, REP] {
        let mut group = Group::begin(1).unwrap();
        let stepped = step(&mut group, op, 0, &[word(0, 9, 9)]).unwrap();
        assert!(stepped.jumped);
        assert_eq!(group.loops().open, []);
        // With four open too.
        let mut group = opened(&[(REP, 1); 4]);
        assert!(step(&mut group, op, 0, &[0]).unwrap().jumped);
        assert_eq!(group.loops().open.len(), 4);
    }
}

#[test]
fn a_rep_hides_no_al() {
    let mut group = opened(&[(LOOP, word(2, 30, 5)), (LOOP, word(1, 40, 0)), (REP, 1)]);
    let open = [counted(2, 30, 5), counted(1, 40, 0), Loop::Rep { count: 1 }];
    assert_eq!(group.loops().open, open);
    assert_eq!(group.loops().al, 40);
    // The REP closes, then the inner LOOP; the outer's aL shows.
    assert!(!step(&mut group, ENDREP, 0, &[]).unwrap().jumped);
    assert_eq!(group.loops().al, 40);
    assert!(!step(&mut group, ENDLOOP, 0, &[]).unwrap().jumped);
    assert_eq!(group.loops().al, 30);
    assert!(step(&mut group, ENDLOOP, 0, &[]).unwrap().jumped);
    assert_eq!(group.loops().open, [counted(1, 35, 5)]);
}

#[test]
fn a_step_is_from_128_below_to_127_above() {
    for (step_of, start, then) in [(127, 128, 255), (-128, 128, 0), (-1, 1, 0)] {
        let mut group = opened(&[(LOOP, word(2, start, step_of))]);
        assert_eq!(group.loops().open, [counted(2, start, step_of)]);
        assert!(step(&mut group, ENDLOOP, 0, &[]).unwrap().jumped);
        assert_eq!(group.loops().open, [counted(1, then, step_of)]);
        // One more step would lead out of 0 to 255; the last close adds none.
        assert!(!step(&mut group, ENDLOOP, 0, &[]).unwrap().jumped);
    }
    for (step_of, start) in [(127, 129), (-128, 127), (-1, 0), (1, 255)] {
        let group = opened(&[(LOOP, word(2, start, step_of))]);
        assert_refused(&group, ENDLOOP, 0, &[], 14);
    }
}

#[test]
fn integer_words_that_are_not_there_or_not_allowed_get_13() {
    let fresh = Group::begin(4).unwrap();
    let full = opened(&[(REP, 1); 4]);
    for op in [LOOP, REP] {
        for group in [&fresh, &full] {
            assert_refused(group, op, 0, &[], 13);
            assert_refused(group, op, number(2), &[1, 1], 13);
            assert_refused(group, op, 0, &[1 << 24], 13);
            assert_refused(group, op, 0, &[1 << 31 | 1], 13);
        }
    }
    // Bits 12:8 are named for openings alone, and ops end with 4.
    for op in [0, ENDLOOP, ENDREP] {
        assert_refused(&fresh, op, number(1), &[1, 1], 13);
    }
    assert_refused(&fresh, 5, 0, &[1], 13);
}

#[test]
fn loops_at_their_limit_get_14() {
    let fresh = Group::begin(4).unwrap();
    let full = opened(&[(REP, 1), (LOOP, word(1, 0, 0)), (REP, 9), (REP, 9)]);
    assert_refused(&full, REP, 0, &[1], 14);
    assert_refused(&full, LOOP, 0, &[word(1, 0, 0)], 14);
    for op in [ENDLOOP, ENDREP] {
        assert_refused(&fresh, op, 0, &[], 14);
    }
    assert_refused(&opened(&[(REP, 2)]), ENDLOOP, 0, &[], 14);
    assert_refused(&opened(&[(LOOP, word(2, 0, 0))]), ENDREP, 0, &[], 14);
}

#[test]
fn the_loop_decides_and_those_who_wish_otherwise_wait() {
    // Alu wants to jump; the opening stays, and increments on a stay.
    let program = load(&[[REP | 0xF0 << 8 | 2 << 24, 0], [0x20, 0]]);
    let mut group = Group::begin(4).unwrap();
    let stepped = group.step(&program, 0b0110, 0, 0, &[3]).unwrap();
    assert_eq!((stepped.jumped, group.active()), (false, 0b1001));
    assert_eq!(group.loops().open, [Loop::Rep { count: 3 }]);
}
