//! Inputs that gzip has packed, told by their first bytes.

use flate2::bufread::GzDecoder;
use std::cell::Cell;
use std::io::{self, BufRead, BufReader, Cursor, Read};
use std::rc::Rc;

/// How gzip's files begin: two bytes of its own and its one method. No log, no stream
/// of command words and no text begins so.
const MAGIC: [u8; 3] = [0x1F, 0x8B, 8];

/// The input from its begin on, unpacked where it is packed, and whether it is. Files
/// that gzip packed one by one and that stand behind each other are one.
pub fn unpacked(mut reader: Box<dyn Read>) -> (bool, Box<dyn Read>) {
    let mut begin = Vec::new();
    let limit = MAGIC.len() as u64;
    // What fails here fails again where the bytes are asked for.
    let _ = reader.by_ref().take(limit).read_to_end(&mut begin);
    let packed = begin == MAGIC;
    let whole = Cursor::new(begin).chain(reader);
    if packed {
        (true, Box::new(Members::new(Box::new(whole))))
    } else {
        (false, Box::new(whole))
    }
}

/// Packed files, one behind the other.
struct Members {
    /// None behind the last.
    decoder: Option<Member>,
}

type Member = GzDecoder<BufReader<Box<dyn Read>>>;

impl Members {
    fn new(whole: Box<dyn Read>) -> Members {
        let decoder = Some(GzDecoder::new(BufReader::new(whole)));
        Members { decoder }
    }
}

impl Read for Members {
    fn read(&mut self, room: &mut [u8]) -> io::Result<usize> {
        while let Some(decoder) = &mut self.decoder {
            let count = match decoder.read(room) {
                Err(error) => return Err(cut_or_damaged(decoder.get_mut(), error)),
                Ok(count) => count,
            };
            if count > 0 || room.is_empty() {
                return Ok(count);
            }
            let rest = self.decoder.take().map(Member::into_inner);
            self.decoder = rest.map(next_member).transpose()?.flatten();
        }
        Ok(0)
    }
}

/// The library calls a file that ends too early damaged, and so is one whose checksum, at its end, isn't that of what it packs.
fn cut_or_damaged(rest: &mut impl BufRead, error: io::Error) -> io::Error {
    let ended = matches!(rest.fill_buf(), Ok(bytes) if bytes.is_empty());
    let is_sum = error.to_string().contains("checksum");
    match error.kind() {
        io::ErrorKind::InvalidInput if ended && !is_sum => io::ErrorKind::UnexpectedEof.into(),
        _ => error,
    }
}

/// The packed file that begins there, none at the end. The library would take a few other bytes for one that is cut.
fn next_member(mut rest: BufReader<Box<dyn Read>>) -> io::Result<Option<Member>> {
    match rest.fill_buf()?.first() {
        None => Ok(None),
        Some(first) if *first == MAGIC[0] => Ok(Some(GzDecoder::new(rest))),
        Some(_) => Err(io::ErrorKind::InvalidData.into()),
    }
}

/// What is wrong with a packed input, and what to do about it.
pub fn failed(error: &io::Error) -> String {
    let cause = match error.kind() {
        io::ErrorKind::UnexpectedEof => "the packed file is cut",
        io::ErrorKind::InvalidData => {
            "it ends there, and bytes stand behind it that gzip didn't pack"
        }
        io::ErrorKind::InvalidInput => "the packed file is damaged",
        _ => return error.to_string(),
    };
    format!("{cause}\n  take another copy of the file; gzip -t says whether it is whole")
}

/// How many bytes have passed.
#[derive(Clone, Default)]
pub struct Counted(Rc<Cell<u64>>);

impl Counted {
    pub fn bytes(&self) -> u64 {
        self.0.get()
    }

    /// The same reader, counting.
    pub fn counting(&self, reader: Box<dyn Read>) -> impl Read {
        Counting {
            reader,
            count: self.clone(),
            ended: false,
        }
    }
}

struct Counting {
    reader: Box<dyn Read>,
    count: Counted,
    /// Whether the input has ended: a terminal would go on if it were asked again.
    ended: bool,
}

impl Read for Counting {
    fn read(&mut self, room: &mut [u8]) -> io::Result<usize> {
        if self.ended {
            return Ok(0);
        }
        let count = self.reader.read(room)?;
        self.ended = count == 0 && !room.is_empty();
        self.count.0.set(self.count.bytes() + count as u64);
        Ok(count)
    }
}
