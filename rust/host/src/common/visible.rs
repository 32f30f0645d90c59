//! Text from outside, shown so that a terminal does nothing by it: control
//! characters, and those that turn the direction of writing, stand as \u001b does,
//! which in JSON is the same character.

use std::fmt::Write as _;
use std::io::{self, Write};

/// Whether a terminal, or a reader's eye, could be led astray by it.
fn is_hostile(letter: char) -> bool {
    let turns = matches!(letter, '\u{200E}' | '\u{200F}' | '\u{202A}'..='\u{202E}' | '\u{2066}'..='\u{2069}');
    letter.is_control() || turns
}

/// A name or an argument on one line.
pub fn line(text: &str) -> String {
    shown(text, |_| false)
}

/// A text of several lines.
pub fn lines(text: &str) -> String {
    shown(text, |letter| letter == '\n')
}

fn shown(text: &str, stays: impl Fn(char) -> bool) -> String {
    let mut visible = String::with_capacity(text.len());
    for letter in text.chars() {
        if is_hostile(letter) && !stays(letter) {
            // Writing to a string can't fail.
            let _ = write!(visible, "\\u{:04x}", letter as u32);
        } else {
            visible.push(letter);
        }
    }
    visible
}

/// A writer of text that lets nothing else through.
pub struct Visible<W>(pub W);

impl<W: Write> Write for Visible<W> {
    fn write(&mut self, bytes: &[u8]) -> io::Result<usize> {
        let plain = |byte: &u8| matches!(byte, b' '..=b'~' | b'\n');
        if bytes.iter().all(plain) {
            self.0.write_all(bytes)?;
        } else {
            let text = String::from_utf8_lossy(bytes);
            self.0.write_all(lines(&text).as_bytes())?;
        }
        Ok(bytes.len())
    }

    fn flush(&mut self) -> io::Result<()> {
        self.0.flush()
    }
}

#[cfg(test)]
mod tests {
    use super::*;

    #[test]
    fn what_a_terminal_obeys_is_spelled_out() {
        assert_eq!(
            line("\u{1b}[31mred\u{7f}\u{9b}2J"),
            "\\u001b[31mred\\u007f\\u009b2J"
        );
        assert_eq!(line("a\nb\tc\r"), "a\\u000ab\\u0009c\\u000d");
        assert_eq!(line("\u{202E}gol.é"), "\\u202egol.é");
        assert_eq!(lines("a\nb\r\n"), "a\nb\\u000d\n");
    }

    #[test]
    fn the_writer_spells_it_out_too() {
        let mut written = Vec::new();
        let mut out = Visible(&mut written);
        writeln!(out, "é \u{1b}c").expect("it grows");
        assert_eq!(written, "é \\u001bc\n".as_bytes());
    }
}
