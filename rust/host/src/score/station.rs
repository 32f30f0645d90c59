//! Station 14's lease line for its month in samples/, which `egretfold` with no
//! arguments scores and the program make-samples makes.

/// The number of its first day.
pub const FIRST_DAY: u32 = 101;

pub const DAYS: u32 = 30;

/// Elements owed a day.
pub const OWED: u32 = 14_000_000;

/// The first day's date.
pub const FROM: &str = "2026-04-01";
