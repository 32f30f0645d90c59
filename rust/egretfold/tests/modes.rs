//! Request 7: groups in partial mode, beside groups in full mode.

use egretfold::lengths::CELLS;
use egretfold::{lent, Answer, Group, Mode, Program, Refusal, Stepped};

/// A branch that those whose alu bit is set leave; where all do, to slot 0.
const BRANCH: [u32; 2] = [0x0200_F000, 0];
/// Always jumps, to slot 0.
const JUMP: [u32; 2] = [0x0000_FF00, 0];

fn program(slots: &[[u32; 2]]) -> Program {
    Program::load(&slots.concat()).unwrap()
}

fn step(group: &mut Group, slot: [u32; 2], alu: u32) -> Answer<Stepped> {
    // In every slot, so that the position doesn't matter.
    group.step(&program(&[slot; 512]), alu, 0, 0, &[3])
}

#[test]
fn a_group_keeps_the_mode_that_it_began_in() {
    for mode in [Mode::Full, Mode::Partial] {
        let mut group = Group::begin_in(4, mode).unwrap();
        assert_eq!(group.mode(), mode);
        for alu in [1, 2, 0] {
            step(&mut group, BRANCH, alu).unwrap();
            assert_eq!((group.mode(), group.cells()[12]), (mode, mode.number()));
        }
        group.run(&program(&[JUMP]), &[0; 8], 0, &[]).unwrap_err();
        assert_eq!(group.mode(), mode);
    }
    assert_eq!(Group::begin(4), Group::begin_in(4, Mode::Full));
}

#[test]
fn another_number_is_no_mode() {
    for (size, mode) in [(4, 2), (4, u32::MAX), (0, 1), (33, 1), (33, 2)] {
        let mut cells = [9; CELLS];
        assert_eq!(lent::group_begin(size, mode, &mut cells), 13);
        assert_eq!(cells, [9; CELLS]);
    }
}

#[test]
fn partial_mode_has_no_loops() {
    // LOOP with its integer word and without it; closes with nothing open, which
    // full mode gives 14 for.
    for (slot, full) in [
        ([1, 0], Ok(false)),
        ([3, 0x0500], Err(Refusal::FlowField)),
        ([2, 0], Err(Refusal::AtLimit)),
        ([4, 0], Err(Refusal::AtLimit)),
    ] {
        let mut group = Group::begin_in(4, Mode::Partial).unwrap();
        assert_eq!(step(&mut group, slot, 0), Err(Refusal::FlowField));
        let mut group = Group::begin(4).unwrap();
        let stepped = step(&mut group, slot, 0).map(|stepped| stepped.jumped);
        assert_eq!(stepped, full);
    }
}

#[test]
fn partial_mode_has_no_returns_on_a_stay_either() {
    // Push and pop: where all jump, and where nobody does.
    for first in [0x0000_FF80, 0x0000_FF40, 0x0000_00A0, 0x0000_0060] {
        let mut group = Group::begin_in(4, Mode::Partial).unwrap();
        let before = group;
        assert_eq!(step(&mut group, [first, 0], 0), Err(Refusal::FlowField));
        assert_eq!(group, before);
    }
}

#[test]
fn partial_mode_counts_to_five() {
    let mut partial = Group::begin_in(8, Mode::Partial).unwrap();
    let mut full = Group::begin(8).unwrap();
    for level in 0..6 {
        let alu = 1 << level;
        let answer = step(&mut partial, BRANCH, alu);
        assert_eq!(answer, step(&mut full, BRANCH, alu));
        assert!(answer.is_ok(), "level {level}");
        assert_eq!(partial.counter(0), level);
    }
    assert_eq!(step(&mut partial, BRANCH, 1 << 6), Err(Refusal::AtLimit));
    assert!(step(&mut full, BRANCH, 1 << 6).is_ok());
    assert_eq!((partial.counter(0), full.counter(0)), (5, 6));
}

#[test]
fn what_partial_mode_accepts_full_mode_answers_identically() {
    let program = program(&[BRANCH, BRANCH, [0x0101_0020, 0], [0x0102_0020, 0]]);
    let masks = [3, 0, 4, 0, 0, 0, 0, 0];
    let mut partial = Group::begin_in(4, Mode::Partial).unwrap();
    let mut full = Group::begin(4).unwrap();
    let report = partial.run(&program, &masks, 0, &[]).unwrap();
    assert_eq!(full.run(&program, &masks, 0, &[]), Ok(report));
    let mut cells = *full.cells();
    cells[12] = Mode::Partial.number();
    assert_eq!(&cells, partial.cells());
}
