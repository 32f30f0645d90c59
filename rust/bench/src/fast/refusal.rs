//! Document 01's refusal numbers, and those of a log.

/// What a call gives: its result, or the number of its refusal.
pub type Answer<T> = Result<T, u32>;

pub const STOPPED: u32 = 1;
pub const UNKNOWN_HEADER: u32 = 2;
pub const MALFORMED: u32 = 3;
pub const NUMBER: u32 = 4;
pub const DOMAIN_ORDER: u32 = 5;
pub const WINDOW: u32 = 6;
pub const NOT_READY: u32 = 7;
pub const DOMAIN_OUTSIDE: u32 = 8;
pub const SPANS_SHARED: u32 = 9;
pub const OUTSIDE: u32 = 10;
pub const ROOM: u32 = 11;
pub const NO_OWNER: u32 = 12;
pub const FLOW_WORD: u32 = 13;
pub const AT_LIMIT: u32 = 14;
pub const PAST_END: u32 = 15;
pub const ENDED: u32 = 16;
pub const FULL: u32 = 17;
pub const KIND: u32 = 18;
pub const DAY: u32 = 19;
pub const NOT_OWNED: u32 = 20;
pub const LEASE: u32 = 21;
pub const STATIONS: u32 = 22;
