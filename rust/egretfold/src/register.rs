//! Registers of four f32 channels: the maximum and the choice. The kill test is a
//! group's: [`Group::kill`](crate::Group::kill).
//!
//! Bits are copied as they are, a NaN's payload too: what is proved speaks of bit
//! patterns. [`Register`] has floats, whose bits go in and come back by
//! [`f32::to_bits`] and [`f32::from_bits`]; a host that has bits hands them to
//! [`lent::register_maximum`] and [`lent::register_choice`] as they are.

use crate::lengths::CHANNELS;
use crate::lent;

/// Channel 0 first.
pub type Register = [f32; CHANNELS];

/// The maximum, channel by channel: `a`'s where `b`'s is less than `a`'s, otherwise
/// `b`'s, so that of equal ones, and where one is a NaN, it is `b`'s.
#[inline]
pub fn maximum(a: &Register, b: &Register) -> Register {
    let mut maximum = [0; CHANNELS];
    lent::register_maximum(&bits(a), &bits(b), &mut maximum);
    maximum.map(f32::from_bits)
}

/// The choice, channel by channel: `a`'s where `third`'s is at least zero, as minus
/// zero is, otherwise `b`'s, also where it is a NaN.
#[inline]
pub fn choice(a: &Register, b: &Register, third: &Register) -> Register {
    let mut choice = [0; CHANNELS];
    lent::register_choice(&bits(a), &bits(b), &bits(third), &mut choice);
    choice.map(f32::from_bits)
}

fn bits(register: &Register) -> [u32; CHANNELS] {
    register.map(f32::to_bits)
}
