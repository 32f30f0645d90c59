//! Records that are kept for later and not in memory: where they are many they stand in a temporary file that has no name,
//! so that nothing of it is left however the command ends.

use crate::common::visible;
use std::env;
use std::ffi::OsStr;
use std::fs::File;
use std::io::{self, Write};
use std::os::unix::ffi::OsStrExt;
use std::os::unix::fs::FileExt;
use std::path::PathBuf;

/// Bytes that are kept in memory. What fits needs no file.
const ROOM: usize = 1 << 19;

/// Bytes that are read at once: most records are shorter.
const PIECE: usize = 1 << 10;

/// Bytes that are read at once where all records are taken in their order.
const STRETCH: usize = 1 << 15;

/// A record begins with its length.
const HEAD: usize = 4;

/// What can be kept.
pub trait Stored: Sized {
    fn store(&self, to: &mut Vec<u8>);

    /// The value at the begin of these bytes, which are then those behind it.
    fn take(from: &mut &[u8]) -> Option<Self>;
}

pub struct Spool {
    room: usize,
    /// The records that were put last and aren't in the file.
    recent: Vec<u8>,
    file: Option<File>,
    /// Bytes in the file.
    written: u64,
}

impl Spool {
    pub fn new() -> Spool {
        Spool::with_room(ROOM)
    }

    pub fn with_room(room: usize) -> Spool {
        Spool {
            room,
            recent: Vec::new(),
            file: None,
            written: 0,
        }
    }

    /// Puts a record behind the others and answers where it begins.
    pub fn put(&mut self, value: &impl Stored) -> io::Result<u64> {
        if self.recent.len() >= self.room {
            self.write().map_err(named)?;
        }
        let begin = self.recent.len();
        self.recent.extend([0; HEAD]);
        value.store(&mut self.recent);
        let length = (self.recent.len() - begin - HEAD) as u32;
        self.recent[begin..begin + HEAD].copy_from_slice(&length.to_le_bytes());
        Ok(self.written + begin as u64)
    }

    fn write(&mut self) -> io::Result<()> {
        let mut file = match self.file.take() {
            Some(file) => file,
            None => tempfile::tempfile()?,
        };
        file.write_all(&self.recent)?;
        self.written += self.recent.len() as u64;
        self.recent.clear();
        self.file = Some(file);
        Ok(())
    }

    /// The record that begins there, and where the next one does.
    pub fn get<T: Stored>(&self, at: u64) -> io::Result<(T, u64)> {
        let (value, length) = match at.checked_sub(self.written) {
            Some(place) => read(self.recent.get(place as usize..).unwrap_or_default()),
            None => self.get_written(at).map_err(named)?,
        }
        .ok_or_else(|| named(damaged()))?;
        Ok((value, at + length as u64))
    }

    fn get_written<T: Stored>(&self, at: u64) -> io::Result<Option<(T, usize)>> {
        let file = self.file.as_ref().ok_or_else(damaged)?;
        let mut piece = [0; PIECE];
        let count = file.read_at(&mut piece, at)?;
        let piece = &piece[..count];
        match length(piece) {
            Some(length) if length > count => {
                let mut record = vec![0; length];
                file.read_exact_at(&mut record, at)?;
                Ok(read(&record))
            }
            _ => Ok(read(piece)),
        }
    }

    /// All records, in their order.
    pub fn all<T: Stored>(&self) -> impl Iterator<Item = io::Result<T>> + '_ {
        let end = self.written + self.recent.len() as u64;
        let (mut at, mut stretch) = (0, Stretch::default());
        std::iter::from_fn(move || {
            let next = (at < end).then(|| stretch.get(self, at))?;
            // Nothing is read behind what can't be.
            at = next.as_ref().map_or(end, |(_, behind)| *behind);
            Some(next.map(|(value, _)| value))
        })
    }
}

/// A part of the file that was read at once, for who takes one record after another.
#[derive(Default)]
struct Stretch {
    begin: u64,
    bytes: Vec<u8>,
}

impl Stretch {
    /// As [`Spool::get`], of a record that isn't before the last one.
    fn get<T: Stored>(&mut self, spool: &Spool, at: u64) -> io::Result<(T, u64)> {
        if let Some(found) = self.read(at) {
            return Ok(found);
        }
        if let Some(file) = spool.file.as_ref().filter(|_| at < spool.written) {
            self.begin = at;
            self.bytes.resize(STRETCH, 0);
            let count = file.read_at(&mut self.bytes, at).map_err(named)?;
            self.bytes.truncate(count);
        }
        // One that is longer than a stretch, or was put last, is taken by itself.
        self.read(at).map_or_else(|| spool.get(at), Ok)
    }

    /// The record that begins there, where it is whole in this stretch.
    fn read<T: Stored>(&self, at: u64) -> Option<(T, u64)> {
        let place = usize::try_from(at.checked_sub(self.begin)?).ok()?;
        let (value, length) = read(self.bytes.get(place..)?)?;
        Some((value, at + length as u64))
    }
}

/// The bytes of the record that these begin with, and its length's.
fn length(bytes: &[u8]) -> Option<usize> {
    let head = bytes.get(..HEAD)?.try_into().ok()?;
    Some(HEAD + u32::from_le_bytes(head) as usize)
}

/// The record that the bytes begin with, and how many it has.
fn read<T: Stored>(bytes: &[u8]) -> Option<(T, usize)> {
    let length = length(bytes)?;
    let mut record = bytes.get(HEAD..length)?;
    Some((T::take(&mut record)?, length))
}

fn damaged() -> io::Error {
    io::Error::new(io::ErrorKind::InvalidData, "isn't as it was written")
}

/// The failure with the place of the file, which has no name.
fn named(error: io::Error) -> io::Error {
    let folder = visible::line(&env::temp_dir().display().to_string());
    let text = format!(
        "a temporary file in {folder}: {error}\n  TMPDIR=FOLDER takes another folder for it"
    );
    io::Error::new(error.kind(), text)
}

impl Stored for u64 {
    fn store(&self, to: &mut Vec<u8>) {
        to.extend(self.to_le_bytes());
    }

    fn take(from: &mut &[u8]) -> Option<u64> {
        Some(u64::from_le_bytes(first(from, 8)?.try_into().ok()?))
    }
}

impl Stored for u32 {
    fn store(&self, to: &mut Vec<u8>) {
        to.extend(self.to_le_bytes());
    }

    fn take(from: &mut &[u8]) -> Option<u32> {
        Some(u32::from_le_bytes(first(from, 4)?.try_into().ok()?))
    }
}

impl Stored for bool {
    fn store(&self, to: &mut Vec<u8>) {
        to.push(u8::from(*self));
    }

    fn take(from: &mut &[u8]) -> Option<bool> {
        Some(first(from, 1)? == [1])
    }
}

impl<const LENGTH: usize> Stored for [u8; LENGTH] {
    fn store(&self, to: &mut Vec<u8>) {
        to.extend(self);
    }

    fn take(from: &mut &[u8]) -> Option<[u8; LENGTH]> {
        first(from, LENGTH)?.try_into().ok()
    }
}

impl Stored for String {
    fn store(&self, to: &mut Vec<u8>) {
        put_bytes(self.as_bytes(), to);
    }

    fn take(from: &mut &[u8]) -> Option<String> {
        String::from_utf8(bytes(from)?.to_vec()).ok()
    }
}

impl Stored for PathBuf {
    fn store(&self, to: &mut Vec<u8>) {
        put_bytes(self.as_os_str().as_bytes(), to);
    }

    fn take(from: &mut &[u8]) -> Option<PathBuf> {
        Some(OsStr::from_bytes(bytes(from)?).into())
    }
}

impl<T: Stored> Stored for Option<T> {
    fn store(&self, to: &mut Vec<u8>) {
        self.is_some().store(to);
        self.iter().for_each(|value| value.store(to));
    }

    fn take(from: &mut &[u8]) -> Option<Option<T>> {
        if bool::take(from)? {
            T::take(from).map(Some)
        } else {
            Some(None)
        }
    }
}

impl<T: Stored> Stored for Vec<T> {
    fn store(&self, to: &mut Vec<u8>) {
        (self.len() as u64).store(to);
        self.iter().for_each(|value| value.store(to));
    }

    fn take(from: &mut &[u8]) -> Option<Vec<T>> {
        let count = u64::take(from)?;
        (0..count).map(|_| T::take(from)).collect()
    }
}

fn put_bytes(bytes: &[u8], to: &mut Vec<u8>) {
    (bytes.len() as u64).store(to);
    to.extend(bytes);
}

fn bytes<'a>(from: &mut &'a [u8]) -> Option<&'a [u8]> {
    let length = u64::take(from)?;
    first(from, length as usize)
}

/// So many bytes from the begin.
fn first<'a>(from: &mut &'a [u8], count: usize) -> Option<&'a [u8]> {
    let taken = from.get(..count)?;
    *from = &from[count..];
    Some(taken)
}

#[cfg(test)]
mod tests {
    use super::*;

    type Record = (Vec<String>, Option<u64>, PathBuf);

    impl<A: Stored, B: Stored, C: Stored> Stored for (A, B, C) {
        fn store(&self, to: &mut Vec<u8>) {
            self.0.store(to);
            self.1.store(to);
            self.2.store(to);
        }

        fn take(from: &mut &[u8]) -> Option<(A, B, C)> {
            Some((A::take(from)?, B::take(from)?, C::take(from)?))
        }
    }

    fn record(place: u64) -> Record {
        let path = OsStr::from_bytes(b"not \xFF text").into();
        // Some are longer than a piece.
        let texts = vec!["é".repeat(place as usize % 9 * 100); 2];
        (texts, (place % 3 > 0).then_some(place), path)
    }

    /// In memory alone, in a file but for the last ones, and each by itself.
    #[test]
    fn records_come_back() {
        for room in [1 << 30, 10_000, 0] {
            let mut spool = Spool::with_room(room);
            let put = (0..1_000).map(|place| spool.put(&record(place)).expect("it is kept"));
            let places: Vec<u64> = put.collect();
            assert_eq!(spool.file.is_some(), room < 1 << 30);
            assert!(spool.recent.len() < room + 2_000);
            let all: io::Result<Vec<Record>> = spool.all().collect();
            assert!(all
                .expect("they are read")
                .into_iter()
                .eq((0..1_000).map(record)));
            for place in [999, 0, 500, 8] {
                let (value, _) = spool.get::<Record>(places[place]).expect("it is read");
                assert_eq!(value, record(place as u64));
            }
        }
    }

    #[test]
    fn what_is_no_record_is_told() {
        let mut spool = Spool::with_room(0);
        assert_eq!(spool.all::<u64>().count(), 0);
        for number in [1_u64, 2] {
            assert!(spool.put(&number).is_ok());
        }
        for at in [3, 12, 20, 1 << 40] {
            assert_eq!(spool.get::<u64>(at).is_ok(), at == 12, "{at}");
        }
        assert!(spool.get::<String>(0).is_err());
    }
}
