//! How far a file is read, or a fleet's logs, on standard error, where that takes over a
//! second.

use console::Term;
use indicatif::{ProgressBar, ProgressDrawTarget, ProgressStyle};
use std::env;
use std::sync::atomic::{AtomicBool, Ordering};
use std::sync::{Mutex, PoisonError};
use std::time::{Duration, Instant};

/// What is read faster needs no bar.
const WAIT: Duration = Duration::from_secs(1);

const SHAPE: &str = "{bar:30} {bytes} of {total_bytes}, {eta} left";
const FLEET_SHAPE: &str = "{bar:10} {bytes} of {total_bytes}, {msg}, {eta} left";

/// The shapes' lines are shorter than this many columns; where a terminal has fewer,
/// the line would be broken and stay.
const COLUMNS: u16 = 72;

/// The bar that is shown.
static SHOWN: Mutex<Option<ProgressBar>> = Mutex::new(None);

/// Whether the terminal has other lines now, which a bar would cut.
static IN_THE_WAY: AtomicBool = AtomicBool::new(false);

/// The one bar for many files, where they are read side by side.
static TOGETHER: Mutex<Option<Together>> = Mutex::new(None);

struct Together {
    bar: Bar,
    bytes: u64,
    done: usize,
    stations: usize,
}

/// A bar for a file of this length; none where no length is known.
pub struct Bar {
    length: Option<u64>,
    shape: &'static str,
    begun: Instant,
    /// Bytes read.
    at: u64,
    shown: Option<ProgressBar>,
}

impl Bar {
    pub fn new(length: Option<u64>) -> Bar {
        Bar {
            length,
            shape: SHAPE,
            begun: Instant::now(),
            at: 0,
            shown: None,
        }
    }

    /// The file's length, where it is known.
    pub fn length(&self) -> Option<u64> {
        self.length
    }

    /// So many bytes are read.
    pub fn at(&mut self, bytes: u64) {
        let more = bytes - self.at;
        self.at = bytes;
        let mut together = TOGETHER.lock().unwrap_or_else(PoisonError::into_inner);
        match together.as_mut() {
            Some(together) => {
                together.bytes += more;
                together.show();
            }
            None => self.show(bytes),
        }
    }

    fn show(&mut self, bytes: u64) {
        match (&self.shown, self.length) {
            (Some(bar), _) => bar.set_position(bytes),
            (None, Some(length)) if self.begun.elapsed() > WAIT => {
                self.shown = show(length, self.shape);
            }
            _ => {}
        }
    }
}

impl Together {
    fn show(&mut self) {
        self.bar.show(self.bytes);
        if let Some(bar) = &self.bar.shown {
            bar.set_message(format!("{} of {} stations", self.done, self.stations));
        }
    }
}

/// From now on all files have one bar, over the bytes of so many stations' logs.
pub fn begin_together(bytes: u64, stations: usize) {
    let mut bar = Bar::new(Some(bytes));
    bar.shape = FLEET_SHAPE;
    let together = Together {
        bar,
        bytes: 0,
        done: 0,
        stations,
    };
    *TOGETHER.lock().unwrap_or_else(PoisonError::into_inner) = Some(together);
}

/// A station more is done.
pub fn station_done() {
    let mut together = TOGETHER.lock().unwrap_or_else(PoisonError::into_inner);
    if let Some(together) = together.as_mut() {
        together.done += 1;
        together.show();
    }
}

/// All stations are done.
pub fn end_together() {
    *TOGETHER.lock().unwrap_or_else(PoisonError::into_inner) = None;
}

impl Drop for Bar {
    fn drop(&mut self) {
        if self.shown.is_some() {
            clear();
        }
    }
}

fn show(length: u64, shape: &str) -> Option<ProgressBar> {
    let terminal = Term::stderr();
    let dumb = env::var_os("TERM").map_or(true, |term| term == "dumb");
    let narrow = terminal.size().1 < COLUMNS;
    if !terminal.is_term() || dumb || narrow || IN_THE_WAY.load(Ordering::Relaxed) {
        return None;
    }
    let bar = ProgressBar::with_draw_target(Some(length), ProgressDrawTarget::stderr());
    if let Ok(style) = ProgressStyle::with_template(shape) {
        bar.set_style(style);
    }
    let mut shown = SHOWN.lock().unwrap_or_else(PoisonError::into_inner);
    *shown = Some(bar.clone());
    Some(bar)
}

/// Takes the bar away.
pub fn clear() {
    let mut shown = SHOWN.lock().unwrap_or_else(PoisonError::into_inner);
    if let Some(bar) = shown.take() {
        bar.finish_and_clear();
    }
}

/// Takes the bar away for good, before lines of the answer come to the terminal.
pub fn make_way() {
    if !IN_THE_WAY.swap(true, Ordering::Relaxed) {
        clear();
    }
}
