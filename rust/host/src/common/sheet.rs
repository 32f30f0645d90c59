//! Cells of comma-separated values that a spreadsheet would run: what begins as a formula
//! does is written behind an apostrophe, which spreadsheets take for "this is text".

use std::borrow::Cow;

/// What a formula begins with, and what some spreadsheets pass over before one.
const RUN: [char; 6] = ['=', '+', '-', '@', '\t', '\r'];

/// Behind apostrophes, of which one more is written and one is taken away, so that text
/// that has some itself comes back too.
fn is_run(text: &str) -> bool {
    text.trim_start_matches('\'').starts_with(RUN)
}

/// A cell as it is written.
pub fn written(text: &str) -> Cow<'_, str> {
    if is_run(text) {
        Cow::Owned(format!("'{text}"))
    } else {
        Cow::Borrowed(text)
    }
}

/// A cell as it was meant.
pub fn read(cell: &str) -> &str {
    match cell.strip_prefix('\'') {
        Some(text) if is_run(text) => text,
        _ => cell,
    }
}

#[cfg(test)]
mod tests {
    use super::{read, written};

    #[test]
    fn no_cell_begins_as_a_formula_and_each_comes_back() {
        for text in [
            "=1+1", "+1", "-1", "@SUM(1)", "\t=1", "\r=1", "'=1", "''=1", "'", "''", "", "14",
            "'s-1", "a=1", "'14",
        ] {
            let cell = written(text);
            assert!(!cell.starts_with(super::RUN), "{text:?}");
            assert_eq!(read(&cell), text);
        }
        assert_eq!(written("14"), "14");
        assert_eq!(written("=1"), "'=1");
        assert_eq!(read("'14"), "'14");
    }
}
