//! How large numbers are written in tables.

/// In groups of three digits, or as a program would read them.
#[derive(Clone, Copy, Debug, PartialEq, Eq)]
pub enum Digits {
    Grouped,
    Plain,
}

impl Digits {
    /// As the option `--plain` says.
    pub fn plain(plain: bool) -> Digits {
        if plain {
            Digits::Plain
        } else {
            Digits::Grouped
        }
    }

    pub fn of(self, number: u64) -> String {
        match self {
            Digits::Grouped => grouped(number),
            Digits::Plain => number.to_string(),
        }
    }
}

/// Digits in groups of three.
pub fn grouped(number: u64) -> String {
    let digits = number.to_string();
    let mut text = String::new();
    for (place, digit) in digits.chars().enumerate() {
        if place > 0 && (digits.len() - place) % 3 == 0 {
            text.push(',');
        }
        text.push(digit);
    }
    text
}

#[cfg(test)]
mod tests {
    use super::grouped;

    #[test]
    fn digits_stand_in_groups_of_three() {
        for (number, text) in [
            (0, "0"),
            (999, "999"),
            (1_000, "1,000"),
            (14_000_000, "14,000,000"),
            (u64::MAX, "18,446,744,073,709,551,615"),
        ] {
            assert_eq!(grouped(number), text);
        }
    }
}
