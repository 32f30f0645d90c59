//! What is left tidy when the program is ended from outside, from the keyboard or by a signal: no bar on the terminal, and
//! no half file. The signals are blocked for all threads and one thread waits for them, so that nothing is done inside a
//! handler. A file that may grow no longer is told where it is written, as a full disk is.

use crate::input::progress;
use nix::sys::signal::{SigSet, Signal};
use std::collections::HashSet;
use std::fs;
use std::path::{Path, PathBuf};
use std::process;
use std::sync::{Mutex, PoisonError};
use std::thread;

/// Shells give this and the signal's number as the exit status of a program that a signal ended.
const BY_SIGNAL: i32 = 128;

/// Files that are half written.
static PARTS: Mutex<Option<HashSet<PathBuf>>> = Mutex::new(None);

/// From now on a signal leaves no bar and no half file. Asked for before any other thread begins.
pub fn prepare() {
    // Only told by the write that it is sent for.
    let mut too_long = SigSet::empty();
    too_long.add(Signal::SIGXFSZ);
    let _ = too_long.thread_block();
    let ignored = ignored();
    let mut signals = SigSet::empty();
    let ends = [Signal::SIGINT, Signal::SIGTERM, Signal::SIGHUP];
    for signal in ends
        .into_iter()
        .filter(|signal| ignored >> (*signal as u32 - 1) & 1 == 0)
    {
        signals.add(signal);
    }
    if signals.thread_block().is_ok() {
        let waiting = thread::Builder::new().spawn(move || wait(signals));
        if waiting.is_err() {
            // Where there can be no thread, a signal ends the program as ever.
            let _ = signals.thread_unblock();
        }
    }
}

/// The signals that are ignored, as `nohup` has it, a bit each; they stay so.
fn ignored() -> u64 {
    let status = fs::read_to_string("/proc/self/status").unwrap_or_default();
    let line = status.lines().find_map(|line| line.strip_prefix("SigIgn:"));
    line.and_then(|bits| u64::from_str_radix(bits.trim(), 16).ok())
        .unwrap_or(0)
}

fn wait(signals: SigSet) {
    if let Ok(signal) = signals.wait() {
        progress::clear();
        // Held to the end, so that no other part is begun meanwhile.
        let parts = PARTS.lock().unwrap_or_else(PoisonError::into_inner);
        for part in parts.iter().flatten() {
            let _ = fs::remove_file(part);
        }
        process::exit(BY_SIGNAL + signal as i32);
    }
}

/// Makes a file that is half written until it is forgotten here.
pub fn making<E>(make: impl FnOnce() -> Result<PathBuf, E>) -> Result<PathBuf, E> {
    // Held while it is made, so that a signal in between leaves none.
    let mut parts = PARTS.lock().unwrap_or_else(PoisonError::into_inner);
    let part = make()?;
    parts.get_or_insert_with(HashSet::new).insert(part.clone());
    Ok(part)
}

pub fn forget(part: &Path) {
    let mut parts = PARTS.lock().unwrap_or_else(PoisonError::into_inner);
    if let Some(parts) = parts.as_mut() {
        parts.remove(part);
    }
}
