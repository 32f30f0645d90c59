//! The kill test on float registers (request 11), over the boundary: who is killed,
//! what the killed are skipped by, every refusal in its order, and the bits that the
//! maximum and the choice copy.

use egretfold::{choice, lent, maximum, Group, Mode, Program, Refusal};

const SIGN: u32 = 0x8000_0000;

/// Patterns whose order with zero is known: less than zero, or not.
const LESS: [u32; 6] = [
    0x8000_0001, // the negative number next to zero
    0x807F_FFFF, // the denormal furthest from it
    0x8080_0000,
    0xBF80_0000, // -1
    0xFF7F_FFFF,
    0xFF80_0000, // minus infinity
];
const NOT_LESS: [u32; 11] = [
    0x0000_0000,
    0x8000_0000, // minus zero
    0x0000_0001,
    0x3F80_0000,
    0x7F80_0000, // infinity
    0x7FC0_0000, // NaNs, quiet and signalling, of either sign
    0xFFC0_0000,
    0x7F80_0001,
    0xFF80_0001,
    0x7FFF_FFFF,
    0xFFFF_FFFF,
];

/// A program of plain slots.
fn plain(slots: usize) -> Program {
    Program::load(&[0x20, 0].repeat(slots)).unwrap()
}

fn floats(bits: &[u32]) -> Vec<f32> {
    bits.iter().map(|bits| f32::from_bits(*bits)).collect()
}

/// Registers of 0 but for -1 in channel 0 of these processors.
fn negative(size: u32, processors: u32) -> Vec<f32> {
    let one = |number| {
        if processors >> number & 1 == 1 {
            -1.0
        } else {
            0.0
        }
    };
    (0..size).flat_map(|n| [one(n), 0.0, 0.0, 0.0]).collect()
}

#[test]
fn less_than_zero_is_told_by_the_bits() {
    let program = plain(1);
    for channel in 0..4 {
        for mask in 0..16 {
            for bits in LESS.iter().chain(&NOT_LESS) {
                let mut registers = [0; 4];
                registers[channel] = *bits;
                let mut group = Group::begin(1).unwrap();
                let killed = LESS.contains(bits) && mask >> channel & 1 == 1;
                let answer = group.kill(&program, &floats(&registers), mask);
                assert_eq!(answer, Ok(u32::from(killed)), "{bits:08X} under {mask}");
                assert_eq!(group.killed(), u32::from(killed));
                assert_eq!(
                    (group.mask(), group.active()),
                    (1 - group.killed(), 1 - group.killed())
                );
            }
        }
    }
}

#[test]
fn only_active_ones_are_killed() {
    // C9: processors 0 and 1 stay active, 2 and 3 are idle with counter 0.
    let program = Program::load(&[0x0200_0F00, 0, 0x10, 0, 0x20, 0]).unwrap();
    let mut group = Group::begin(4).unwrap();
    group.step(&program, 0b0011, 0, 0, &[]).unwrap();
    let before = group;
    assert_eq!(group.kill(&program, &[-1.0; 16], 15), Ok(0b0011));
    assert_eq!(
        (group.mask(), group.active(), group.killed()),
        (0b1100, 0, 0b0011)
    );
    assert_eq!((group.size(), group.position()), (2, before.position()));
    assert_eq!(
        (group.returns(), group.loops()),
        (before.returns(), before.loops())
    );
    // B_ELSE wakes the idle ones and not the killed, who had counter 0 too.
    group.step(&program, 0, 0, 0, &[]).unwrap();
    assert_eq!((group.active(), group.killed()), (0b1100, 0b0011));
    // Nor does it bring them back a second time.
    assert_eq!(group.kill(&program, &[-1.0; 16], 15), Ok(0b1100));
    assert_eq!(
        (group.mask(), group.active(), group.killed()),
        (0, 0, 0b1111)
    );
}

#[test]
fn a_decrement_wakes_no_killed_one() {
    let program = Program::load(&[0x0101_0020, 0, 0x0101_0020, 0]).unwrap();
    let mut group = Group::begin(3).unwrap();
    group.kill(&program, &negative(3, 0b010), 1).unwrap();
    group.step(&program, 0, 0, 0, &[]).unwrap();
    assert_eq!((group.active(), group.killed()), (0b101, 0b010));
}

#[test]
fn with_all_killed_nobody_decides() {
    // JUMP_ANY 0 jumps where nobody is active; JUMP_ANY 1 doesn't.
    for (first, jumps) in [(0x0000_0000, true), (0x0000_FF20, false)] {
        let program = Program::load(&[first, 2 << 16, 0x20, 0]).unwrap();
        let mut group = Group::begin(5).unwrap();
        assert_eq!(
            group.kill(&program, &[f32::NEG_INFINITY; 20], 8),
            Ok(0b11111)
        );
        let stepped = group.step(&program, u32::MAX, u32::MAX, 0, &[]).unwrap();
        assert_eq!(stepped.jumped, jumps);
        assert_eq!((group.size(), group.active()), (0, 0));
    }
}

#[test]
fn a_killed_processors_mask_bits_are_ignored() {
    // Jump where some active one wants to: only the killed one's alu bit is set.
    let program = Program::load(&[0x0000_F020, 1 << 16, 0x20, 0]).unwrap();
    let mut group = Group::begin(2).unwrap();
    group.kill(&program, &negative(2, 0b01), 1).unwrap();
    assert!(!group.step(&program, 0b01, 0, 0, &[]).unwrap().jumped);
}

#[test]
fn refusals_come_in_their_order_and_change_nothing() {
    let ended = plain(1);
    let mut over = Group::begin(3).unwrap();
    over.step(&ended, 0, 0, 0, &[]).unwrap();
    let mut some = Group::begin(3).unwrap();
    some.kill(&ended, &negative(3, 0b011), 1).unwrap();
    let (whole, living) = ([-1.0; 12], [-1.0; 4]);
    for (group, registers, mask, refusal) in [
        (over, &whole[..0], 16, Refusal::Ended),
        (over, &whole[..], 15, Refusal::Ended),
        (some, &whole[..0], 16, Refusal::FlowField),
        (some, &whole[..], u32::MAX, Refusal::FlowField),
        (some, &living[..], 15, Refusal::WrongLength),
        (some, &whole[..11], 0, Refusal::WrongLength),
        (some, &whole[..0], 15, Refusal::WrongLength),
    ] {
        let mut after = group;
        assert_eq!(after.kill(&ended, registers, mask), Err(refusal));
        assert_eq!(after, group);
        let mut room = [7];
        lent::group_kill(&mut after, &ended, mask, registers, &mut room);
        assert_eq!((after, room), (group, [7]));
    }
    // The starting group's length is right, also when some were killed.
    assert_eq!(some.kill(&ended, &whole, 15), Ok(0b100));
}

#[test]
fn kills_add_up_over_32_processors_in_both_modes() {
    let program = plain(1);
    for mode in [Mode::Full, Mode::Partial] {
        let mut group = Group::begin_in(32, mode).unwrap();
        let mut all = 0;
        for chosen in [0x8000_0001, 0x0000_FF00, 0x8000_FFFF, u32::MAX] {
            let answer = group.kill(&program, &negative(32, chosen), 1);
            assert_eq!(answer, Ok(chosen & !all));
            all |= chosen;
            let masks = (group.killed(), group.active(), group.mask());
            assert_eq!(masks, (all, !all, !all));
            assert_eq!((group.mode(), group.started()), (mode, 32));
        }
    }
}

/// Every class of NaN, by its quiet bit, its sign and payloads at the ends and in
/// between; and every other class, by its ends.
fn patterns() -> Vec<u32> {
    let payloads = (0..22).map(|bit| 1 << bit).chain([0x12_3456, 0x3F_FFFF]);
    let signalling = payloads.clone().map(|payload| 0x7F80_0000 | payload);
    let quiet = payloads.chain([0]).map(|payload| 0x7FC0_0000 | payload);
    let others = [
        0,
        1,
        0x007F_FFFF,
        0x0080_0000,
        0x3F80_0000,
        0x7F7F_FFFF,
        0x7F80_0000,
    ];
    let all = signalling.chain(quiet).chain(others);
    all.flat_map(|bits| [bits, bits | SIGN]).collect()
}

/// Less, by signs and magnitudes.
fn less(a: u32, b: u32) -> bool {
    let number = |bits: u32| bits & !SIGN <= 0x7F80_0000;
    let key = |bits: u32| {
        let magnitude = i64::from(bits & !SIGN);
        if bits & SIGN == 0 {
            magnitude
        } else {
            -magnitude
        }
    };
    number(a) && number(b) && key(a) < key(b)
}

/// Over bits, of which the proof speaks, and over the host's floats.
fn both_maxima(a: &[u32; 4], b: &[u32; 4]) -> [[u32; 4]; 2] {
    let mut bits = [0xDEAD_BEEF; 4];
    lent::register_maximum(a, b, &mut bits);
    let floats = maximum(&a.map(f32::from_bits), &b.map(f32::from_bits));
    [bits, floats.map(f32::to_bits)]
}

fn both_choices(a: &[u32; 4], b: &[u32; 4], third: &[u32; 4]) -> [[u32; 4]; 2] {
    let mut bits = [0xDEAD_BEEF; 4];
    lent::register_choice(a, b, third, &mut bits);
    let [a, b, third] = [a, b, third].map(|register| register.map(f32::from_bits));
    [bits, choice(&a, &b, &third).map(f32::to_bits)]
}

#[test]
fn the_maximum_copies_bits_exactly() {
    let patterns = patterns();
    for a in &patterns {
        for b in &patterns {
            // In every channel, so that each is seen to be copied.
            for channel in 0..4 {
                let (mut one, mut other) = ([0x3F80_0000; 4], [0x4000_0000; 4]);
                (one[channel], other[channel]) = (*a, *b);
                let mut expected = other;
                expected[channel] = if less(*b, *a) { *a } else { *b };
                let answers = both_maxima(&one, &other);
                assert_eq!(answers, [expected; 2], "{a:08X} and {b:08X}");
            }
        }
    }
}

#[test]
fn the_choice_copies_bits_exactly() {
    let patterns = patterns();
    for third in &patterns {
        let at_least_zero = !less(*third, 0) && *third & !SIGN <= 0x7F80_0000;
        for a in &patterns {
            let b = a ^ 0x0040_0001;
            // In every channel, so that each is seen to be copied.
            for channel in 0..4 {
                let (mut one, mut other, mut by) = ([1; 4], [2; 4], [SIGN | 1; 4]);
                (one[channel], other[channel], by[channel]) = (*a, b, *third);
                let mut expected = other;
                expected[channel] = if at_least_zero { *a } else { b };
                let answers = both_choices(&one, &other, &by);
                assert_eq!(answers, [expected; 2], "{a:08X} by {third:08X}");
            }
        }
    }
}
