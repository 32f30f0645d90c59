//! Makes the logs in samples/, the streams with masked cameras, and a camera's memory
//! with its stream, so that what stands in them can be read here. From rust/:
//!
//!     cargo run -p host --bin make-samples
//!
//! With a folder as its argument it writes there.

#![forbid(unsafe_code)]

#[path = "made/log.rs"]
mod log;
#[path = "../score/station.rs"]
#[allow(dead_code)] // what it owes and its dates are for the score
mod station;

use egretfold::headers::{
    SET_COND_OUT_FMT, SET_COND_TEST, SET_CONSTF_FMT, SET_DOMAIN, SET_INST_FMT, SET_OUT_FMT,
    SET_OUT_MASK, START_PROGRAM, WAIT_FOR_IDLE,
};
use egretfold::{Layout, Rectangle};
use log::{Log, CAMERAS, FRAME};
use std::path::{Path, PathBuf};
use std::{env, fs, io};

/// What every start needs: document 01's whole stream up to its start. A start
/// then claims 96 x 18 elements.
#[rustfmt::skip]
const SETTINGS: [u32; 13] = [
    SET_INST_FMT, 0x1000, 0x0400_0010,
    SET_OUT_FMT, 0, 0x800, 0x0201_0064, 18,
    SET_DOMAIN, 0, 0, 95, 17,
];

/// Settings and a run before the first midnight; a start that the first midnight
/// cuts, and a domain that the last one does.
fn three_days() -> Log {
    Log::new()
        .words(&SETTINGS)
        .words(&[START_PROGRAM, 0, WAIT_FOR_IDLE, 0, START_PROGRAM])
        .midnight(101)
        .words(&[0, WAIT_FOR_IDLE, 0, START_PROGRAM, 0])
        .midnight(102)
        .words(&[START_PROGRAM, 0, WAIT_FOR_IDLE, 0, SET_DOMAIN, 0, 0])
        .midnight(103)
        .words(&[47, 17, START_PROGRAM, 0, START_PROGRAM, 0])
}

/// A word is refused on the second day, and the fourth midnight skips a day.
fn refused() -> Log {
    Log::new()
        .words(&SETTINGS)
        .midnight(101)
        .words(&[START_PROGRAM, 0, START_PROGRAM, 0])
        .midnight(102)
        .words(&[START_PROGRAM, 0, SET_OUT_FMT, 4, START_PROGRAM, 0])
        .midnight(103)
        .words(&[START_PROGRAM, 0])
        .midnight(105)
        .words(&[START_PROGRAM, 0])
}

/// A frame an hour.
const FRAMES: usize = 24;

/// Every channel of output 1, the second camera, masked off.
const SECOND_CAMERA_OFF: [u32; 2] = [SET_OUT_MASK, 0xFF0F];
/// Channel 3 of output 1 masked off.
const LAST_CHANNEL_OFF: [u32; 2] = [SET_OUT_MASK, 0xFF7F];
const ALL_ON: [u32; 2] = [SET_OUT_MASK, 0xFFFF];

/// Station 14's month. The cameras are set up before the first midnight, with a frame
/// that serves no day. From the ninth to the twelfth the log goes on without a frame. On
/// the evening of the 19th the second camera is masked off; on the 20th the cameras are
/// set up again, which leaves the mask as it is; the mask is taken away by a command that
/// the next midnight cuts. Three more midnights cut a start. The midnight behind the last day closes it.
fn station_14() -> Log {
    let mut log = Log::new().words(&CAMERAS).frames(1);
    // What a midnight cut off a command.
    let mut rest: &[u32] = &[];
    for date in 1..=station::DAYS {
        log = log.midnight(station::FIRST_DAY + date - 1).words(rest);
        let (day, cut): (Log, &[u32]) = match date {
            3 | 14 | 26 => (log.frames(FRAMES - 1).words(&FRAME[..1]), &FRAME[1..]),
            9..=12 => (log.words(&[WAIT_FOR_IDLE, 0].repeat(FRAMES)), &[]),
            19 => (log.frames(FRAMES).words(&SECOND_CAMERA_OFF), &[]),
            20 => {
                let again = log.words(&CAMERAS).frames(FRAMES);
                (again.words(&ALL_ON[..1]), &ALL_ON[1..])
            }
            _ => (log.frames(FRAMES), &[]),
        };
        (log, rest) = (day, cut);
    }
    log.midnight(station::FIRST_DAY + station::DAYS)
}

/// The month before, full: 31 days, with the set-up before its first midnight.
fn march() -> Log {
    let first = station::FIRST_DAY - 31;
    let mut log = Log::new().words(&CAMERAS);
    for day in first..station::FIRST_DAY {
        log = log.midnight(day).frames(FRAMES);
    }
    log
}

/// Station 14's month from its first midnight on: what is set was set in March.
fn april() -> Vec<u8> {
    let set_up = Log::new().words(&CAMERAS).frames(1).bytes.len();
    station_14().bytes.split_off(set_up)
}

/// The month after, full: 31 days, and the midnight that closes them.
fn full_month() -> Log {
    let first = station::FIRST_DAY + station::DAYS;
    let mut log = Log::new().words(&CAMERAS);
    for day in first..first + 31 {
        log = log.midnight(day).frames(FRAMES);
    }
    log.midnight(first + 31)
}

/// Station 15's April, full, a file a week: the first has the set-up.
fn station_15() -> Vec<Vec<u8>> {
    let mut log = Log::new().words(&CAMERAS);
    let mut weeks = Vec::new();
    for date in 1..=station::DAYS {
        log = log.midnight(station::FIRST_DAY + date - 1).frames(FRAMES);
        if date == station::DAYS {
            log = log.midnight(station::FIRST_DAY + date);
        }
        if date % 7 == 0 || date == station::DAYS {
            weeks.push(std::mem::take(&mut log.bytes));
        }
    }
    weeks
}

/// Station 14's June: from the 8th to the 14th the second camera's last channel is masked
/// off, by which edition 2 of the lease rule credits less and edition 1 as much as before.
fn june() -> Log {
    let first = station::FIRST_DAY + station::DAYS + 31;
    let mut log = Log::new().words(&CAMERAS);
    for date in 1..=30 {
        log = log.midnight(first + date - 1);
        log = match date {
            8 => log.words(&LAST_CHANNEL_OFF),
            15 => log.words(&ALL_ON),
            _ => log,
        };
        log = log.frames(FRAMES);
    }
    log.midnight(first + 30)
}

/// A February in which the station wasn't leased, with two frames to try it.
fn nothing_owed() -> Log {
    let first = station::FIRST_DAY - 59;
    let mut log = Log::new().words(&CAMERAS);
    for day in first..first + 28 {
        log = log.midnight(day);
        if day == first + 9 {
            log = log.frames(2);
        }
    }
    log.midnight(first + 28)
}

/// Station 14's month with one record lost on its way: the midnight of the 17th.
fn damaged() -> Vec<u8> {
    let lost = [&[2][..], &(station::FIRST_DAY + 16).to_le_bytes()].concat();
    let log = station_14().bytes;
    log.chunks(lost.len())
        .filter(|record| *record != lost)
        .collect::<Vec<_>>()
        .concat()
}

/// A frame in the morning and one in the evening.
const TWO_FRAMES: usize = 2;

/// Three months of two stations, a file a month, of which each goes on where the one before ended: April, May and June. A file
/// ends with the midnight that closes its last day, so that the next one begins inside a day.
/// Station 21 is set up in April, and from May 10 to 12 it is dark. A midnight cuts a start at April's end, so that the
/// last frame ends in May. Station 22 is set up in May; from June 20 on its second camera is masked off.
fn months() -> Vec<(String, Vec<u8>)> {
    const LENGTHS: [(&str, u32); 3] = [("april", 30), ("may", 31), ("june", 30)];
    let mut files = Vec::new();
    for (station, joins) in [(21, 0), (22, 1)] {
        let mut first = station::FIRST_DAY;
        let mut rest: &[u32] = &[];
        for (place, (month, days)) in LENGTHS.iter().enumerate() {
            let mut log = if place == joins {
                Log::new().words(&CAMERAS)
            } else {
                Log::new()
            };
            for date in 1..=*days {
                // April's and May's last midnights stand in the files before.
                if date > 1 || place == joins {
                    log = log.midnight(first + date - 1);
                }
                log = log.words(rest);
                rest = &[];
                log = match (station, place, date) {
                    (21, 1, 10..=12) => log.words(&[WAIT_FOR_IDLE, 0]),
                    (21, 0, 30) => {
                        rest = &FRAME[1..];
                        log.frames(TWO_FRAMES).words(&FRAME[..1])
                    }
                    (22, 2, 20) => log.words(&SECOND_CAMERA_OFF).frames(TWO_FRAMES),
                    _ => log.frames(TWO_FRAMES),
                };
            }
            first += days;
            log = log.midnight(first);
            if place >= joins {
                files.push((format!("{station}-{month}.log"), log.bytes));
            }
        }
    }
    files
}

/// Two cameras: output 0 of FLOAT32_1 and output 1 of FLOAT32_2. The second is
/// masked off and then set anew over the first one's bytes and too low for the
/// domain, which a silent output may; last the first is masked off too.
#[rustfmt::skip]
const MASKED: [u32; 20] = [
    SET_OUT_FMT, 1, 0x4000, 0x0300_0060, 18,
    START_PROGRAM, 0,
    // bits for channels 2 and 3 alone, which FLOAT32_2 doesn't have
    SET_OUT_MASK, 0xFFCF,
    SET_OUT_FMT, 1, 0x800, 0x0300_0060, 4,
    START_PROGRAM, 0,
    // and of output 0 for channels 1 to 3, which FLOAT32_1 doesn't have
    SET_OUT_MASK, 0xFFCE,
    START_PROGRAM, 0,
];

/// Two cameras: output 0 of FLOAT32_1 and output 1 of UINT8_4. At the first start both are
/// updated whole, at the second the last two channels of output 1 are masked off, at the
/// third all of them, with bits for the channels that output 0 doesn't have.
#[rustfmt::skip]
const CHANNELS: [u32; 15] = [
    SET_OUT_FMT, 1, 0x4000, 0x0100_0060, 18,
    START_PROGRAM, 0,
    SET_OUT_MASK, 0xFF3F,
    START_PROGRAM, 0,
    SET_OUT_MASK, 0xFF0F,
    START_PROGRAM, 0,
];

/// One camera of 64 x 32 pixels, UINT8_4 in tiles, and a conditional buffer of 64 x 24
/// numbers in tiles behind it; test 4, "at least".
#[rustfmt::skip]
const CAMERA: [u32; 21] = [
    SET_INST_FMT, 0x4000, 0x0400_0010,
    SET_OUT_FMT, 0, FRAME_OF_CAMERA.base, 0x0101_0040, FRAME_OF_CAMERA.height,
    SET_COND_OUT_FMT, DISTANCES.base, 0x0001_0040, DISTANCES.height,
    SET_COND_TEST, 4,
    SET_DOMAIN, 0, 0, 47, 19,
    START_PROGRAM, 0,
];

const FRAME_OF_CAMERA: Layout = Layout {
    base: 0x800,
    pitch: 64,
    height: 32,
    size: 4,
    tiled: true,
};

const DISTANCES: Layout = Layout {
    base: 0x2800,
    pitch: 64,
    height: 24,
    size: 2,
    tiled: true,
};

/// What stands where nothing was painted.
const UNPAINTED: u8 = 0xEE;

/// The camera's memory from its frame on: a frame whose red grows to the right and whose
/// green grows downwards, with a blue disc; and numbers that grow from the disc's middle
/// on. The last rows of the buffer's tiles belong to no pair.
fn camera() -> Vec<u8> {
    let from_the_middle = |x: u32, y: u32| {
        let (x, y) = (x.abs_diff(24), y.abs_diff(10));
        (x * x + 4 * y * y) as u16
    };
    let pixel = |x: u32, y: u32| {
        let blue = if from_the_middle(x, y) < 300 { 255 } else { 0 };
        vec![(4 * x) as u8, (8 * y) as u8, blue, 128]
    };
    let number = |x: u32, y: u32| from_the_middle(x, y).to_le_bytes().to_vec();
    let mut memory = vec![UNPAINTED; 12_288];
    paint(&FRAME_OF_CAMERA, &mut memory, pixel);
    paint(&DISTANCES, &mut memory, number);
    memory
}

/// Paints a window whole.
fn paint(window: &Layout, memory: &mut [u8], element: impl Fn(u32, u32) -> Vec<u8>) {
    let (columns, rows) = (window.pitch, window.height);
    let pairs = (0..rows).flat_map(|y| (0..columns).map(move |x| (x, y)));
    let room: Vec<u8> = pairs.flat_map(|(x, y)| element(x, y)).collect();
    let whole = Rectangle {
        x: 0,
        y: 0,
        columns,
        rows,
    };
    let painted = egretfold::paint(window, &whole, memory, FRAME_OF_CAMERA.base, &room);
    painted.expect("the memory covers the window");
}

/// Two lessees of which each runs: party 1 owns output 1, which lies over the bytes of party 0's
/// output 0. Its mask leaves its own output nothing, and then all again; party 0's output has its
/// channels all the while. Last party 1 names output 0.
#[rustfmt::skip]
const SECOND_LESSEE: [u32; 22] = [
    SET_INST_FMT, 0x2000, 0x0400_0010,
    SET_OUT_FMT, 1, 0x800, 0x0201_0064, 18,
    SET_DOMAIN, 0, 0, 47, 17,
    SET_OUT_MASK, 0,
    START_PROGRAM, 0,
    SET_OUT_MASK, 0x00F0,
    START_PROGRAM, 0,
    SET_OUT_FMT,
];
/// Both of which party 0 sends: a start before what is refused and one behind it.
const FIRST_STARTS: [u32; 4] = [START_PROGRAM, 0, START_PROGRAM, 0];

/// An intruder: party 1, which owns output 1 alone, sets float constants, which are party 0's. It is
/// stopped at that word, and nothing of what it sends then is taken: neither that output 0 be moved nor
/// that it be masked off.
#[rustfmt::skip]
const INTRUDER: [u32; 10] = [
    SET_CONSTF_FMT, 0x1000, 0x0400_0010,
    SET_OUT_FMT, 0, 0x8000, 0x0201_0064, 1,
    SET_OUT_MASK, 0,
];

/// Two parties' words, one of each in turn as long as both have any, and whose they are, in lines of
/// sixteen.
fn two_parties(zero: &[u32], one: &[u32]) -> (Vec<u8>, Vec<u8>) {
    let (mut words, mut parties) = (Vec::new(), String::new());
    for place in 0..zero.len().max(one.len()) {
        for (party, list) in [('0', zero), ('1', one)] {
            if let Some(word) = list.get(place) {
                words.push(*word);
                parties.push(party);
            }
        }
    }
    let digits: Vec<char> = parties.chars().collect();
    let lines: Vec<String> = digits
        .chunks(16)
        .map(|line| line.iter().collect())
        .collect();
    (stream(&words), (lines.join("\n") + "\n").into_bytes())
}

/// A stream's words, low byte first.
fn stream(words: &[u32]) -> Vec<u8> {
    words.iter().flat_map(|word| word.to_le_bytes()).collect()
}

/// The bytes of every file, by its name.
fn files() -> [(&'static str, Vec<u8>); 17] {
    let whole = [&SETTINGS[..], &FIRST_STARTS].concat();
    let second = [&SECOND_LESSEE[..], &[0]].concat();
    let (lessees, of_lessees) = two_parties(
        &[&[WAIT_FOR_IDLE, 0].repeat(4), &whole[..]].concat(),
        &second,
    );
    let (intruder, of_intruder) = two_parties(&whole, &INTRUDER);
    [
        ("station-14.log", station_14().bytes),
        ("station-14-march.log", march().bytes),
        ("station-14-april.log", april()),
        ("full-month.log", full_month().bytes),
        ("station-14-june.log", june().bytes),
        ("nothing-owed.log", nothing_owed().bytes),
        ("damaged.log", damaged()),
        ("three-days.log", three_days().bytes),
        ("refused.log", refused().bytes),
        ("masked.ctm", stream(&[&SETTINGS[..], &MASKED].concat())),
        ("lessees.ctm", lessees),
        ("lessees.parties", of_lessees),
        ("intruder.ctm", intruder),
        ("intruder.parties", of_intruder),
        ("channels.ctm", stream(&[&SETTINGS[..], &CHANNELS].concat())),
        ("camera.ctm", stream(&CAMERA)),
        ("camera.mem", camera()),
    ]
}

fn main() -> io::Result<()> {
    let samples = Path::new(env!("CARGO_MANIFEST_DIR")).join("../../samples");
    let folder = env::args_os().nth(1).map_or(samples, PathBuf::from);
    for (name, bytes) in files() {
        fs::write(folder.join(name), bytes)?;
    }
    let weeks = folder.join("station-15");
    fs::create_dir_all(&weeks)?;
    for (week, bytes) in (1..).zip(station_15()) {
        fs::write(weeks.join(format!("week-{week}.log")), bytes)?;
    }
    let folder = folder.join("months");
    fs::create_dir_all(&folder)?;
    for (name, bytes) in months() {
        fs::write(folder.join(name), bytes)?;
    }
    Ok(())
}
