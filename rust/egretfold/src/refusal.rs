//! Document 01's refusals, and those that document 02's requests added: each by
//! its name, with its number and its cause. `tools/declarations` holds names and
//! numbers against the product's source, and causes against the header's table.

use std::error::Error;
use std::fmt;

/// Makes the enum, its list and its causes from one table, so that none of them
/// can lack a line.
macro_rules! refusals {
    ($($name:ident = $number:literal, $cause:literal;)*) => {
        /// Why a call was refused. As a number it is document 01's.
        ///
        /// ```
        /// use egretfold::{translate, Layout, Refusal};
        ///
        /// let layout = Layout { base: 0, pitch: 100, height: 20, size: 4, tiled: true };
        /// let refusal = translate(&layout, 96, 0).unwrap_err();
        /// assert_eq!(refusal, Refusal::PairOutside);
        /// assert_eq!(refusal.number(), 10);
        /// assert_eq!(refusal.to_string(), "refused 10: a pair is outside its window");
        /// ```
        #[derive(Clone, Copy, Debug, PartialEq, Eq, PartialOrd, Ord, Hash)]
        #[non_exhaustive]
        #[repr(u32)]
        pub enum Refusal {
            $(#[doc = $cause] $name = $number,)*
        }

        impl Refusal {
            /// All of them, by their numbers.
            pub const ALL: &'static [Refusal] = &[$(Refusal::$name,)*];

            /// The table's words. (By reference, since `std::error::Error` has a method
            /// of the same name that would otherwise come first.)
            pub const fn cause(&self) -> &'static str {
                match self {
                    $(Refusal::$name => $cause,)*
                }
            }

            /// The refusal that has the number, if one has.
            #[inline]
            pub const fn with_number(number: u32) -> Option<Refusal> {
                match number {
                    $($number => Some(Refusal::$name),)*
                    _ => None,
                }
            }
        }
    };
}

refusals! {
    Stopped = 1, "the session is stopped";
    UnknownHeader = 2, "a header word stands in no line of the command table";
    Malformed = 3, "a reserved bit or code is set, a layout argument is malformed, or an edition is neither 1 nor 2; a conditional test on another format than UINT16_1";
    NumberTooHigh = 4, "input number over 15, output number over 3";
    DomainCrossed = 5, "i0 > i1 or j0 > j1";
    WindowRule = 6, "window rule broken";
    StartUnset = 7, "start without a domain, an instruction format or any output set; a conditional test without its buffer or its test set";
    DomainOutside = 8, "the domain is not inside every set output's window; silent outputs are passed over";
    SpansShared = 9, "spans of two set outputs share a byte; silent outputs are passed over";
    PairOutside = 10, "a pair is outside its window";
    WrongLength = 11, "room, element data, memory or registers of a wrong length or place";
    Unowned = 12, "no pair of the window owns the address";
    FlowField = 13, "flow word field, group size, mode or write mask not allowed; no such integer word, or one with reserved bits; in partial mode an op other than 0 or an A_OP";
    AtLimit = 14, "branch counter, return stack, open loops or aL at their limit, or a close that fits no open loop";
    PastEnd = 15, "a jump past the program's end, or a program of a wrong length";
    Ended = 16, "the program has already ended";
    WordLimit = 17, "the session has taken 1,000,000,000 words";
    RecordKind = 18, "the kind byte of a log's record is neither 1 nor 2";
    MidnightDay = 19, "a midnight's day isn't one more than the last, or it is the 401st midnight";
    NotOwned = 20, "a party's word names an input or output, or sets something of party 0's, that the party doesn't own";
    LeaseLine = 21, "a lease line out of its bounds";
    TooManyLogs = 22, "a report over more than 64 logs";
}

impl Refusal {
    /// Document 01's number, as the library returns it.
    #[inline]
    pub const fn number(self) -> u32 {
        self as u32
    }
}

impl From<Refusal> for u32 {
    #[inline]
    fn from(refusal: Refusal) -> u32 {
        refusal.number()
    }
}

impl From<Refusal> for u64 {
    #[inline]
    fn from(refusal: Refusal) -> u64 {
        refusal.number().into()
    }
}

impl fmt::Display for Refusal {
    fn fmt(&self, f: &mut fmt::Formatter) -> fmt::Result {
        write!(f, "refused {}: {}", self.number(), self.cause())
    }
}

impl Error for Refusal {}

#[cfg(test)]
mod tests {
    use super::Refusal;

    #[test]
    fn numbers_lead_to_refusals_and_back() {
        for &refusal in Refusal::ALL {
            assert_eq!(Refusal::with_number(refusal.number()), Some(refusal));
            assert!(!refusal.cause().is_empty());
        }
        let known = (0..100_000).filter(|&number| Refusal::with_number(number).is_some());
        assert_eq!(known.count(), Refusal::ALL.len());
    }
}
