//! What `./bench --command` (tools/command-times) runs beside the command: a long log of frames, and the library alone over a log.

#[path = "../../host/src/bin/made/log.rs"]
mod made;

use egretfold::{Edition, Replay};
use made::{Log, CAMERAS, FRAME};
use std::fs::File;
use std::io::{self, Read, Write};

const DAYS: u32 = 30;
/// The bytes of a record.
const RECORD: usize = 5;
/// As much as the command reads at once (rust/host/src/input/source.rs).
const PIECE: usize = 1 << 16;

/// Writes a month's log of about so many bytes to standard output: two cameras, and as many frames every day.
pub fn write_log(bytes: &str) -> io::Result<()> {
    let bytes: usize = bytes
        .parse()
        .map_err(|wrong| io::Error::new(io::ErrorKind::InvalidInput, wrong))?;
    let frames = bytes / (RECORD * FRAME.len() * DAYS as usize);
    let day = Log::new().frames(frames).bytes;
    let mut out = io::stdout();
    out.write_all(&Log::new().words(&CAMERAS).bytes)?;
    for number in 0..DAYS {
        out.write_all(&Log::new().midnight(number).bytes)?;
        out.write_all(&day)?;
    }
    out.flush()
}

/// Replays a file, or standard input for "-", by the library alone, and prints the runs and the claimed elements.
pub fn replay(name: &str) -> io::Result<()> {
    let mut input: Box<dyn Read> = match name {
        "-" => Box::new(io::stdin()),
        name => Box::new(File::open(name)?),
    };
    let mut room = vec![0; PIECE];
    let mut replay = Replay::new(Edition::First);
    loop {
        match fill(&mut input, &mut room)? {
            0 => break,
            count => assert_eq!(replay.feed(&room[..count]).refusal, None, "the log is good"),
        }
    }
    let session = replay.session();
    println!("{} {}", session.runs(), session.claims());
    Ok(())
}

/// Fills the room as far as the input goes.
fn fill(input: &mut dyn Read, room: &mut [u8]) -> io::Result<usize> {
    let mut filled = 0;
    while filled < room.len() {
        match input.read(&mut room[filled..])? {
            0 => break,
            count => filled += count,
        }
    }
    Ok(filled)
}
