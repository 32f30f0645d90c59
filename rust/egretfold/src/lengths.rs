//! How long the arrays are that hold a state or take a month, by the names that
//! include/egretfold.h has for them. `tools/declarations` holds them against the
//! product's source.

/// A session's own numbers.
pub const OWN: usize = 33;

/// A session's tallies.
pub const TALLIES: usize = 2;

/// A session's settings.
pub const SHARED: usize = 101;

/// A replay's own numbers.
pub const LOG: usize = 10;

/// What the tallies were at each midnight of a replay.
pub const MARKS: usize = 800;

/// The slots of a program's store.
pub const SLOTS: usize = 512;

/// A group's cells.
pub const CELLS: usize = 20;

/// The channels of a register.
pub const CHANNELS: usize = 4;

/// The most days that a lease line has.
pub const DAYS: usize = 31;

/// A growing fleet report's numbers.
pub const SUMS: usize = 8;
