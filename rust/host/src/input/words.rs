//! Words read from an input: little-endian binary, or hex text. In text, blanks,
//! line ends and commas part the words, 0x may stand before one, and # begins a
//! remark to the line's end.

use crate::common::failure::{Failure, Outcome};
use crate::input::looks::{self, Looks};
use crate::input::numbers;
use crate::input::source::{Source, PIECE};

pub struct Words {
    source: Source,
    /// Hex text, where there is any.
    text: Option<Text>,
    bytes: Vec<u8>,
    words: Vec<u32>,
    /// Words handed out so far.
    given: u64,
    /// How many of the input's words are wanted.
    most: u64,
    /// What failed behind the words handed out.
    failure: Option<Failure>,
}

/// Where the reading of hex text stands.
#[derive(Default)]
struct Text {
    token: String,
    remark: bool,
    /// Line ends passed so far.
    lines: u64,
}

/// No word has more characters: 0x and eight digits.
const LONGEST: usize = 10;

impl Words {
    pub fn new(source: Source, hex: bool) -> Words {
        Words {
            source,
            text: hex.then(Text::default),
            bytes: vec![0; PIECE],
            words: Vec::new(),
            given: 0,
            most: u64::MAX,
            failure: None,
        }
    }

    /// Only the first so many words of the input.
    pub fn first(self, most: u64) -> Words {
        Words { most, ..self }
    }

    pub fn name(&self) -> &str {
        &self.source.name
    }

    /// What to try where these are no words at all.
    pub fn hint(&self) -> Option<String> {
        let wanted = match self.text {
            Some(_) => Looks::Hex,
            None => Looks::Words,
        };
        looks::hint(self.source.begin(), wanted)
    }

    /// The next words, none at the input's end. Where the input fails, the words
    /// before that come first, and the failure with the next call.
    pub fn piece(&mut self) -> Outcome<&[u32]> {
        self.words.clear();
        if let Some(failure) = self.failure.take() {
            return Err(failure);
        }
        let wanted = self.most - self.given;
        while wanted > 0 && self.words.is_empty() {
            let count = self.source.fill(&mut self.bytes)?;
            match self.read(count) {
                Err(failure) if self.words.is_empty() => return Err(failure),
                result => self.failure = result.err(),
            }
            if count == 0 {
                break;
            }
        }
        let wanted = usize::try_from(wanted).unwrap_or(usize::MAX);
        self.words.truncate(wanted);
        self.given += self.words.len() as u64;
        Ok(&self.words)
    }

    /// The words of the first so many bytes of the room.
    fn read(&mut self, count: usize) -> Outcome {
        match &mut self.text {
            Some(text) => text.read(&self.source, &self.bytes[..count], &mut self.words),
            None => self.binary(count),
        }
    }

    /// The words of these bytes. Only the last bytes of the input can be less than
    /// a word; they are asked about once the words before them are handed out.
    fn binary(&mut self, count: usize) -> Outcome {
        let whole = self.bytes[..count].chunks_exact(4);
        let word = |bytes: &[u8]| u32::from_le_bytes([bytes[0], bytes[1], bytes[2], bytes[3]]);
        self.words.extend(whole.map(word));
        let rest = self.source.at() % 4;
        if self.words.is_empty() && rest != 0 {
            let (at, word) = (self.source.at(), self.given);
            let text = format!(
                "byte {at}: the input ends inside word {word}, of which it has {rest} of 4 bytes"
            );
            return Err(self.source.wrong(text));
        }
        Ok(())
    }

    /// All words, of an input that is known to have few.
    pub fn all(&mut self) -> Outcome<Vec<u32>> {
        let mut all = Vec::new();
        loop {
            match self.piece()? {
                [] => return Ok(all),
                piece => all.extend_from_slice(piece),
            }
        }
    }
}

impl Text {
    fn read(&mut self, source: &Source, bytes: &[u8], words: &mut Vec<u32>) -> Outcome {
        for byte in bytes {
            let gap = byte.is_ascii_whitespace() || matches!(byte, b',' | b'#');
            if !self.remark && !gap {
                self.token.push(char::from(*byte));
                if self.token.len() > LONGEST {
                    return Err(self.wrong(source, "has more than 8 digits"));
                }
                continue;
            }
            self.end_token(source, words)?;
            self.remark |= *byte == b'#';
            if *byte == b'\n' {
                self.remark = false;
                self.lines += 1;
            }
        }
        if bytes.is_empty() {
            self.end_token(source, words)?;
        }
        Ok(())
    }

    fn end_token(&mut self, source: &Source, words: &mut Vec<u32>) -> Outcome {
        if self.token.is_empty() {
            return Ok(());
        }
        match numbers::word(&self.token) {
            Ok(word) => words.push(word),
            Err(_) => return Err(self.wrong(source, "is no word of hex digits")),
        }
        self.token.clear();
        Ok(())
    }

    fn wrong(&self, source: &Source, what: &str) -> Failure {
        let line = self.lines + 1;
        source.wrong(format!("line {line}: {:?} {what}", self.token))
    }
}
