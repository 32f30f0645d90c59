//! The time that a lease is over, by which months of several stations stand side by side: by its dates
//! where they are known, since stations count their days apart, else by its days' numbers.

use crate::score::civil::Date;
use crate::score::outline::Outline;
use std::fmt;

/// Dated ones come first.
#[derive(Clone, Copy, Debug, PartialEq, Eq, PartialOrd, Ord)]
pub enum Period {
    Dated { first: Date, last: Date },
    Numbered { first: u64, last: u64 },
}

/// The longest lease. A line that was refused may have any number of days.
const LONGEST: u32 = 31;

impl Period {
    pub fn of(month: &Outline) -> Period {
        let line = &month.line;
        let first = u64::from(line.first_day);
        let numbered = Period::Numbered {
            first,
            last: (first + u64::from(line.days)).saturating_sub(1).max(first),
        };
        let days = match line.days {
            0 => return numbered,
            days if days > LONGEST => return numbered,
            days => days,
        };
        let dated = month
            .from
            .and_then(|first| Some((first, first.after(days - 1)?)));
        match dated {
            Some((first, last)) => Period::Dated { first, last },
            None => numbered,
        }
    }
}

/// From one to a later one: "2026-04 to 2026-06".
pub fn span(first: Period, last: Period) -> String {
    match (first, last) {
        (Period::Numbered { first, .. }, Period::Numbered { last, .. }) => {
            Period::Numbered { first, last }.to_string()
        }
        _ => format!("{first} to {last}"),
    }
}

impl fmt::Display for Period {
    /// "2026-04" for a whole month of the calendar.
    fn fmt(&self, f: &mut fmt::Formatter) -> fmt::Result {
        match self {
            Period::Dated { first, last } => {
                let ends_month = last.next().map_or(true, |next| next.day == 1);
                if first.day == 1 && first.month == last.month && ends_month {
                    write!(f, "{:04}-{:02}", first.year, first.month)
                } else if first == last {
                    write!(f, "{first}")
                } else {
                    write!(f, "{first} to {last}")
                }
            }
            Period::Numbered { first, last } if first == last => write!(f, "day {first}"),
            Period::Numbered { first, last } => write!(f, "days {first} to {last}"),
        }
    }
}
