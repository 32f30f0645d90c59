//! Numbers and pairs as a user writes them: counts in decimal, words and
//! addresses in hex, either way with 0x for hex.

/// A count: decimal, or hex with 0x.
pub fn count(text: &str) -> Result<u32, String> {
    match hex_prefix(text) {
        Some(digits) => in_base(text, digits, 16),
        None => in_base(text, text, 10),
    }
}

/// A count of up to 64 bits.
pub fn long_count(text: &str) -> Result<u64, String> {
    let (digits, base) = match hex_prefix(text) {
        Some(digits) => (digits, 16),
        None => (text, 10),
    };
    only_digits(text, digits, base)?;
    u64::from_str_radix(digits, base).map_err(|_| format!("{text} is over 64 bits"))
}

/// A word: hex, with or without 0x.
pub fn word(text: &str) -> Result<u32, String> {
    in_base(text, hex_prefix(text).unwrap_or(text), 16)
}

/// A pair of counts, "X,Y" or "X Y".
pub fn pair(text: &str) -> Result<(u32, u32), String> {
    let (x, y) = two(text).ok_or_else(|| format!("{text:?} is no pair X,Y"))?;
    Ok((count(x)?, count(y)?))
}

/// The two parts of "A,B" or "A B".
pub fn two(text: &str) -> Option<(&str, &str)> {
    let is_gap = |c: char| c == ',' || c.is_whitespace();
    let mut parts = text.split(is_gap).filter(|part| !part.is_empty());
    match (parts.next(), parts.next(), parts.next()) {
        (Some(first), Some(second), None) => Some((first, second)),
        _ => None,
    }
}

/// Four counts, "A,B,C,D", or parted by blanks.
pub fn four(text: &str) -> Result<[u32; 4], String> {
    let is_gap = |c: char| c == ',' || c.is_whitespace();
    let parts = text.split(is_gap).filter(|part| !part.is_empty());
    let list: Vec<u32> = parts.map(count).collect::<Result<_, _>>()?;
    <[u32; 4]>::try_from(list)
        .map_err(|list| format!("{text:?} has {} numbers, not four A,B,C,D", list.len()))
}

fn hex_prefix(text: &str) -> Option<&str> {
    text.strip_prefix("0x").or_else(|| text.strip_prefix("0X"))
}

fn in_base(text: &str, digits: &str, base: u32) -> Result<u32, String> {
    only_digits(text, digits, base)?;
    u32::from_str_radix(digits, base).map_err(|_| format!("{text} is over 32 bits"))
}

/// from_str_radix would take a sign.
fn only_digits(text: &str, digits: &str, base: u32) -> Result<(), String> {
    let kind = if base == 16 { "hex" } else { "decimal" };
    let is_number = |digits: &str| !digits.is_empty() && digits.chars().all(|c| c.is_digit(base));
    match digits.strip_prefix('-') {
        _ if is_number(digits) => Ok(()),
        Some(rest) if is_number(rest) => Err(format!("{text} is below 0, the least")),
        _ => Err(format!("{text:?} is no {kind} number")),
    }
}

#[cfg(test)]
mod tests {
    use super::{count, four, long_count, pair, word};

    #[test]
    fn counts_are_decimal_and_words_hex() {
        assert_eq!(count("100"), Ok(100));
        assert_eq!(count("0x64"), Ok(100));
        assert_eq!(word("100"), Ok(256));
        assert_eq!(word("0xFFFFFFFF"), Ok(u32::MAX));
    }

    #[test]
    fn what_is_no_number_is_named() {
        for text in ["", "+1", "-1", "0x", "1g", "0x1_0"] {
            assert!(count(text).is_err(), "{text}");
            assert!(word(text).is_err(), "{text}");
        }
        assert_eq!(count("A"), Err("\"A\" is no decimal number".into()));
        assert_eq!(count("-1"), Err("-1 is below 0, the least".into()));
        assert!(long_count("+4").is_err() && long_count("-4").is_err());
        assert_eq!(long_count("0x100000000"), Ok(1 << 32));
        assert_eq!(
            count("4294967296"),
            Err("4294967296 is over 32 bits".into())
        );
    }

    #[test]
    fn pairs_are_parted_by_a_comma_or_a_blank() {
        assert_eq!(pair("37,18"), Ok((37, 18)));
        assert_eq!(pair(" 37\t18 "), Ok((37, 18)));
        assert!(pair("37").is_err() && pair("1,2,3").is_err());
    }

    #[test]
    fn four_numbers_are_four() {
        assert_eq!(four("0,1,0x10, 3"), Ok([0, 1, 16, 3]));
        let three = "\"1,2,3\" has 3 numbers, not four A,B,C,D";
        assert_eq!(four("1,2,3"), Err(three.into()));
        assert!(four("").is_err() && four("1,2,3,4,5").is_err() && four("1,2,3,x").is_err());
    }
}
