//! Floats by their bits, of every class and either sign, and registers of them.

use crate::case::{Agreement, Case};
use crate::random::Random;
use egretfold::Register;
use second::flow;

const SIGN: u32 = 0x8000_0000;
const INFINITY: u32 = 0x7F80_0000;

/// The least quiet NaN: from it on a NaN is quiet, below it signalling.
const QUIET: u32 = 0x7FC0_0000;

/// The classes of [`any`], by the names that they are counted under.
pub const CLASSES: [&str; 6] = [
    "zeros",
    "denormals",
    "finite numbers",
    "infinities",
    "quiet NaNs",
    "signalling NaNs",
];

/// The class of a float.
pub fn class(bits: u32) -> &'static str {
    CLASSES[match bits & !SIGN {
        0 => 0,
        1..=0x007F_FFFF => 1,
        0x0080_0000..=0x7F7F_FFFF => 2,
        INFINITY => 3,
        QUIET.. => 4,
        _ => 5,
    }]
}

/// The bits of a float: every class and its ends come up, beside any bits.
pub fn any(random: &mut Random) -> u32 {
    let magnitude = match random.below(12) {
        0 => 0,
        1 => random.one_of(&[1, 2, 0x007F_FFFF, 0x0080_0000]),
        2 => random.between(1, 0x007F_FFFF),
        3 => random.one_of(&[0x3F80_0000, 0x7F7F_FFFF]),
        4 => INFINITY,
        5 => random.one_of(&[QUIET, 0x7FFF_FFFF]),
        6 => random.between(QUIET, 0x7FFF_FFFF),
        7 => random.one_of(&[INFINITY + 1, QUIET - 1]),
        8 => random.between(INFINITY + 1, QUIET - 1),
        _ => random.word() & !SIGN,
    };
    magnitude | if random.coin() { SIGN } else { 0 }
}

/// The same of a float that isn't less than zero.
pub fn harmless(random: &mut Random) -> u32 {
    let bits = any(random);
    let number = bits & !SIGN <= INFINITY;
    // A number loses its sign; a NaN and minus zero may keep it.
    if number && bits != SIGN {
        bits & !SIGN
    } else {
        bits
    }
}

/// The floats of bits, whatever they are.
pub fn of_bits(bits: &[u32]) -> Vec<f32> {
    bits.iter().map(|bits| f32::from_bits(*bits)).collect()
}

fn register(bits: &[u32; 4]) -> Register {
    bits.map(f32::from_bits)
}

fn bits(register: Register) -> [u32; 4] {
    register.map(f32::to_bits)
}

/// The maximum and the choice of registers: bit for bit those of the second program.
pub fn agree(case: &mut Case) -> Agreement {
    let mut some = || [(); 4].map(|()| any(&mut case.random));
    let (a, mut b, third) = (some(), some(), some());
    if case.random.coin() {
        // One channel equal, or equal but for its sign.
        let channel = case.random.below(4) as usize;
        b[channel] = a[channel] ^ if case.random.coin() { SIGN } else { 0 };
    }
    let asked = || format!("maximum of {a:X?} and {b:X?}");
    let maximum = egretfold::maximum(&register(&a), &register(&b));
    case.agree(asked, &bits(maximum), &flow::maximum(&a, &b))?;
    let asked = || format!("choice of {a:X?} and {b:X?} by {third:X?}");
    let choice = egretfold::choice(&register(&a), &register(&b), &register(&third));
    case.agree(asked, &bits(choice), &flow::choice(&a, &b, &third))?;
    case.tally.mark("registers compared");
    for given in [a, b, third].concat() {
        case.tally.mark(class(given));
    }
    Ok(())
}
