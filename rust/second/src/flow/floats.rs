//! Document 02, request 11: what it asks of f32 numbers, by their bits alone. A
//! number is its sign in bit 31, its exponent in 30:23 and its fraction in 22:0.

use crate::bits;

/// A register of four f32 channels, each given by its bits.
pub type Register = [u32; 4];

/// The exponent that infinities and NaNs have.
const HIGHEST_EXPONENT: u32 = 255;

/// With the highest exponent, a fraction other than 0 is no number.
fn is_nan(number: u32) -> bool {
    bits(number, 30, 23) == HIGHEST_EXPONENT && bits(number, 22, 0) != 0
}

/// Where a number stands among all: both zeros at 0, and each further value one
/// further from it. Exponent and fraction count up together, from the least
/// denormal to infinity.
fn rank(number: u32) -> i64 {
    let from_zero = i64::from(bits(number, 30, 0));
    if bits(number, 31, 31) == 1 {
        -from_zero
    } else {
        from_zero
    }
}

/// Whether one is less than the other; never where one of them is a NaN.
pub fn is_less(one: u32, other: u32) -> bool {
    !is_nan(one) && !is_nan(other) && rank(one) < rank(other)
}

/// "Minus zero and NaN are not less than zero; minus infinity is."
pub(super) fn is_less_than_zero(number: u32) -> bool {
    is_less(number, 0)
}

/// Minus zero is at least zero, a NaN isn't.
fn is_at_least_zero(number: u32) -> bool {
    !is_nan(number) && rank(number) >= 0
}

/// "maximum of A and B is A if B < A, otherwise B", channel by channel, the bits
/// copied as they are.
pub fn maximum(a: &Register, b: &Register) -> Register {
    let mut result = [0; 4];
    for channel in 0..4 {
        result[channel] = if is_less(b[channel], a[channel]) {
            a[channel]
        } else {
            b[channel]
        };
    }
    result
}

/// "the choice by "third operand at least zero" (first operand if yes, second if
/// no)", channel by channel, the bits copied as they are.
pub fn choice(first: &Register, second: &Register, third: &Register) -> Register {
    let mut result = [0; 4];
    for channel in 0..4 {
        result[channel] = if is_at_least_zero(third[channel]) {
            first[channel]
        } else {
            second[channel]
        };
    }
    result
}

#[cfg(test)]
pub(super) mod tests {
    use super::*;

    pub(crate) const ZERO: u32 = 0;
    pub(crate) const MINUS_ZERO: u32 = 0x8000_0000;
    pub(crate) const ONE: u32 = 0x3F80_0000;
    pub(crate) const MINUS_ONE: u32 = 0xBF80_0000;
    pub(crate) const INFINITY: u32 = 0x7F80_0000;
    pub(crate) const MINUS_INFINITY: u32 = 0xFF80_0000;
    /// The negative number nearest to zero, a denormal.
    pub(crate) const LEAST_NEGATIVE: u32 = 0x8000_0001;
    pub(crate) const QUIET: u32 = 0x7FC0_0000;
    pub(crate) const SIGNALLING: u32 = 0x7F80_0001;
    pub(crate) const MINUS_QUIET: u32 = 0xFFC0_0000;
    pub(crate) const MINUS_SIGNALLING: u32 = 0xFF80_0001;

    /// Numbers of every class, with the first and the last of each.
    fn all_classes() -> Vec<u32> {
        let mut numbers = Vec::new();
        for exponent in [0, 1, 2, 126, 127, 128, 253, 254, 255] {
            for fraction in [0, 1, 2, 0x1234, 0x3F_FFFF, 0x40_0000, 0x40_0001, 0x7F_FFFF] {
                for sign in [0, 1] {
                    numbers.push(sign << 31 | exponent << 23 | fraction);
                }
            }
        }
        numbers
    }

    /// A small generator, so that the numbers are the same at each run.
    fn next(seed: &mut u64) -> u32 {
        *seed ^= *seed << 13;
        *seed ^= *seed >> 7;
        *seed ^= *seed << 17;
        (*seed >> 32) as u32
    }

    /// The second way: the digits of a number's amount, in twos, from 2^128 down to
    /// 2^-149; infinity is 2^128 itself.
    fn digits(number: u32) -> Vec<bool> {
        let exponent = bits(number, 30, 23);
        let fraction = bits(number, 22, 0);
        let mut digits = vec![false; 278];
        // The place of 2^power is 128 - power.
        let mut set = |power: i32| digits[(128 - power) as usize] = true;
        if exponent == 255 {
            set(128);
        } else {
            // Denormals have the exponent of the least other numbers and no leading 1.
            let power = exponent.max(1) as i32 - 127;
            if exponent > 0 {
                set(power);
            }
            for place in 0..23 {
                if bits(fraction, place, place) == 1 {
                    set(power - 23 + place as i32);
                }
            }
        }
        digits
    }

    fn is_less_by_digits(one: u32, other: u32) -> bool {
        let nan = |number: u32| number << 1 > 0xFF00_0000;
        if nan(one) || nan(other) {
            return false;
        }
        let negative = |number: u32| number >= 1 << 31;
        let (a, b) = (digits(one), digits(other));
        match (negative(one), negative(other)) {
            (false, false) => a < b,
            (true, true) => b < a,
            // Only two zeros of different signs are equal.
            (true, false) => a.contains(&true) || b.contains(&true),
            (false, true) => false,
        }
    }

    #[test]
    fn less_by_three_ways() {
        let mut seed = 0xF32;
        let mut numbers = all_classes();
        numbers.extend((0..150).map(|_| next(&mut seed)));
        for one in &numbers {
            for other in &numbers {
                let less = is_less(*one, *other);
                let asked = format!("{one:08X} < {other:08X}");
                assert_eq!(less, is_less_by_digits(*one, *other), "{asked}");
                let floats = f32::from_bits(*one) < f32::from_bits(*other);
                assert_eq!(less, floats, "{asked}");
            }
        }
    }

    #[test]
    fn r135_less_than_zero() {
        for number in [MINUS_ONE, MINUS_INFINITY, LEAST_NEGATIVE, 0xFF7F_FFFF] {
            assert!(is_less_than_zero(number), "{number:08X}");
            assert!(!is_at_least_zero(number), "{number:08X}");
        }
        for number in [ZERO, MINUS_ZERO, ONE, INFINITY, 1] {
            assert!(!is_less_than_zero(number), "{number:08X}");
            assert!(is_at_least_zero(number), "{number:08X}");
        }
        for number in [QUIET, SIGNALLING, MINUS_QUIET, MINUS_SIGNALLING, u32::MAX] {
            assert!(!is_less_than_zero(number), "{number:08X}");
            assert!(!is_at_least_zero(number), "{number:08X}");
        }
    }

    #[test]
    fn less_than_zero_as_one_stretch_of_patterns() {
        let mut seed = 0x2E40;
        let random = (0..100_000).map(|_| next(&mut seed));
        let edges = [
            0x8000_0000,
            0x8000_0001,
            0xFF80_0000,
            0xFF80_0001,
            0xFFFF_FFFF,
        ];
        for number in random.chain(edges).chain(all_classes()) {
            let stretch = 0x8000_0000 < number && number <= 0xFF80_0000;
            assert_eq!(is_less_than_zero(number), stretch, "{number:08X}");
        }
    }

    #[test]
    fn r139_maximum() {
        for (a, b, wanted) in [
            (ONE, ZERO, ONE),
            (ZERO, ONE, ONE),
            (MINUS_ONE, MINUS_INFINITY, MINUS_ONE),
            (INFINITY, ONE, INFINITY),
            // Equal ones give B, also where their bits differ.
            (ZERO, MINUS_ZERO, MINUS_ZERO),
            (MINUS_ZERO, ZERO, ZERO),
            (ONE, ONE, ONE),
            // So does any NaN, with all its bits.
            (QUIET, ONE, ONE),
            (ONE, QUIET, QUIET),
            (ONE, SIGNALLING, SIGNALLING),
            (INFINITY, MINUS_SIGNALLING, MINUS_SIGNALLING),
            (SIGNALLING, MINUS_INFINITY, MINUS_INFINITY),
            (SIGNALLING, QUIET, QUIET),
            (ONE, 0x7FA1_2345, 0x7FA1_2345),
            (LEAST_NEGATIVE, MINUS_ZERO, MINUS_ZERO),
            (1, ZERO, 1),
        ] {
            for channel in 0..4 {
                let (mut one, mut other) = ([MINUS_ONE; 4], [INFINITY; 4]);
                one[channel] = a;
                other[channel] = b;
                let mut result = [INFINITY; 4];
                result[channel] = wanted;
                assert_eq!(maximum(&one, &other), result, "{a:08X} {b:08X}");
            }
        }
    }

    #[test]
    fn r139_choice() {
        let (yes, no) = ([SIGNALLING, 1, MINUS_ZERO, u32::MAX], [QUIET, 2, ZERO, 7]);
        for third in [ZERO, MINUS_ZERO, ONE, INFINITY, 1] {
            assert_eq!(choice(&yes, &no, &[third; 4]), yes);
        }
        for third in [
            MINUS_ONE,
            MINUS_INFINITY,
            LEAST_NEGATIVE,
            QUIET,
            SIGNALLING,
            MINUS_QUIET,
            MINUS_SIGNALLING,
        ] {
            assert_eq!(choice(&yes, &no, &[third; 4]), no);
        }
        let third = [ONE, MINUS_ONE, MINUS_ZERO, QUIET];
        assert_eq!(choice(&yes, &no, &third), [yes[0], no[1], yes[2], no[3]]);
    }

    #[test]
    fn bits_are_copied_exactly() {
        let mut seed = 0xB175;
        for _ in 0..20_000 {
            let mut register = || [0; 4].map(|_: u32| next(&mut seed));
            let (a, b, c) = (register(), register(), register());
            let (most, chosen) = (maximum(&a, &b), choice(&a, &b, &c));
            for channel in 0..4 {
                let float = |number: u32| f32::from_bits(number);
                let (one, other) = (a[channel], b[channel]);
                let wanted = if float(other) < float(one) {
                    one
                } else {
                    other
                };
                assert_eq!(most[channel], wanted);
                let wanted = if float(c[channel]) >= 0.0 { one } else { other };
                assert_eq!(chosen[channel], wanted);
            }
        }
    }
}
