//! Numbers as a spreadsheet writes them: with a separator between thousands, or
//! without.

use crate::input::numbers;

/// Separators that can be nothing else: blanks, also those that keep a number on its
/// line, and apostrophes.
const SURE: [char; 6] = [' ', '\u{A0}', '\u{2009}', '\u{202F}', '\'', '’'];

/// A count, with separators where they stand between thousands. A comma stands there
/// in files whose values are parted by something else than semicolons, a dot in the
/// others: there the other one would be a decimal point.
pub fn count(text: &str, delimiter: u8) -> Result<u32, String> {
    let sign = if delimiter == b';' { '.' } else { ',' };
    let is_separator = |letter: char| letter == sign || SURE.contains(&letter);
    let separator = match text.chars().find(|letter| is_separator(*letter)) {
        Some(separator) => separator,
        None => return numbers::count(text),
    };
    let groups: Vec<&str> = text.split(separator).collect();
    let digits = |group: &&str| group.bytes().all(|byte| byte.is_ascii_digit());
    // 0.100 is a tenth, whatever stands between its digits.
    let first = (1..=3).contains(&groups[0].len()) && !groups[0].starts_with('0');
    let rest = groups[1..].iter().all(|group| group.len() == 3);
    if first && rest && groups.iter().all(digits) {
        numbers::count(&groups.concat())
    } else {
        Err(format!("{text:?} has no groups of three digits"))
    }
}

/// A count on a command line, as a file whose values commas part has it.
pub fn grouped(text: &str) -> Result<u32, String> {
    count(text, b',')
}

#[cfg(test)]
mod tests {
    use super::count;

    #[test]
    fn thousands_may_be_parted() {
        for text in [
            "14000000",
            "14,000,000",
            "14 000 000",
            "14\u{A0}000\u{A0}000",
            "14'000'000",
        ] {
            assert_eq!(count(text, b','), Ok(14_000_000), "{text}");
        }
        assert_eq!(count("14.000.000", b';'), Ok(14_000_000));
        for text in [
            "1,5",
            "14,0000",
            ",000",
            "1,000 000",
            "14.000",
            "1,",
            "-1,000",
            "0,100",
            "012,000",
            "",
        ] {
            assert!(count(text, b',').is_err(), "{text}");
        }
        for text in ["14,000", "14.0", "14.000,00", "0.100", "0.000"] {
            assert!(count(text, b';').is_err(), "{text}");
        }
    }
}
