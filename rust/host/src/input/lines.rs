//! Lines of text read from an input, for lists and for `encode`.

use crate::common::failure::{Failure, Outcome};
use crate::input::looks::{self, Looks};
use crate::input::source::{Source, PIECE};

/// The most bytes of a line, its end not counted.
const LONGEST: usize = PIECE;

pub struct Lines {
    source: Source,
    /// Room for the longest line and its end.
    bytes: Vec<u8>,
    /// The part of `bytes` that is read and not handed out.
    start: usize,
    end: usize,
    /// Lines handed out so far, so also the number of the present one.
    number: u64,
}

impl Lines {
    pub fn new(source: Source) -> Lines {
        Lines {
            source,
            bytes: vec![0; LONGEST + 1],
            start: 0,
            end: 0,
            number: 0,
        }
    }

    /// The next line without its remark (from # on) and outer blanks, none at the
    /// input's end.
    pub fn next(&mut self) -> Outcome<Option<String>> {
        let length = match self.length()? {
            Some(length) => length,
            None => return Ok(None),
        };
        let line = &self.bytes[self.start..self.start + length];
        let text = String::from_utf8_lossy(line);
        let text = text.split('#').next().unwrap_or("").trim().to_string();
        // The line's end is passed too, except behind a last line that has none.
        self.start = (self.start + length + 1).min(self.end);
        self.number += 1;
        Ok(Some(text))
    }

    /// The length of the line at `start`, reading on where its end isn't there.
    fn length(&mut self) -> Outcome<Option<usize>> {
        let line_end = |bytes: &[u8]| bytes.iter().position(|byte| *byte == b'\n');
        if let Some(length) = line_end(&self.bytes[self.start..self.end]) {
            return Ok(Some(length));
        }
        self.bytes.copy_within(self.start..self.end, 0);
        self.end -= self.start;
        self.start = 0;
        self.end += self.source.fill(&mut self.bytes[self.end..])?;
        match line_end(&self.bytes[..self.end]) {
            Some(length) => Ok(Some(length)),
            None if self.end > LONGEST => {
                self.number += 1;
                Err(self.wrong(&format!("longer than {LONGEST} bytes")))
            }
            None if self.end == 0 => Ok(None),
            None => Ok(Some(self.end)),
        }
    }

    /// What to try where these are no lines for `encode`.
    pub fn hint(&self) -> Option<String> {
        looks::hint(self.source.begin(), Looks::Listing)
    }

    /// The text behind the input's name and the number of the line being read.
    pub fn place(&self, text: &str) -> String {
        format!("{}: line {}: {text}", self.source.name, self.number)
    }

    /// A failure of the line being read.
    pub fn wrong(&self, text: &str) -> Failure {
        Failure::Wrong(self.place(text))
    }
}
