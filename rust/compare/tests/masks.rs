//! Request 3: what a run reports of a group of 32 when the active processors are
//! one alone, none or all: by the product, by the second program, and by the mask.

use egretfold::{Group, Program};
use second::flow;

/// On a stay, those whose bit of alu is 0 become inactive.
const KEEP_ALU: u32 = 0x0200_0F00;

/// B_ELSE: all become inactive.
const TURN: u32 = 0x0000_0010;

/// The plain slot.
const PLAIN: [u32; 2] = [0x20, 0];

/// A step that leaves just these processors active: its first word, and its alu.
fn leaving(mask: u32) -> (u32, u32) {
    if mask == 0 {
        (TURN, 0)
    } else {
        (KEEP_ALU, mask)
    }
}

/// Both programs run that one step of a fresh group.
fn agree_on(mask: u32) {
    let (first, alu) = leaving(mask);
    let words = [[first, 0], PLAIN, PLAIN].concat();
    let program = Program::load(&words).unwrap();
    let mut group = Group::begin(32).unwrap();
    let report = group.run(&program, &[alu, 0], 0, &[]).unwrap();
    let told = (report.steps, report.first, report.active);
    assert_eq!(group.active(), mask);
    assert_eq!(
        told,
        (1, mask.trailing_zeros(), mask.count_ones()),
        "{mask:08X}"
    );

    let program = flow::Program::load(&words).unwrap();
    let mut group = flow::Group::begin(32).unwrap();
    let report = group.run(&program, &[alu, 0], 0).unwrap();
    assert_eq!(
        (report.steps, report.first, report.active),
        told,
        "{mask:08X}"
    );
}

#[test]
fn one_processor_alone_is_the_first_and_the_only_one() {
    for number in 0..32 {
        agree_on(1 << number);
    }
}

#[test]
fn with_nobody_active_the_first_is_32() {
    agree_on(0);
}

#[test]
fn with_all_active_the_first_is_0() {
    agree_on(0xFFFF_FFFF);
}
