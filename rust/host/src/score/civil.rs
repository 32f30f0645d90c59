//! Dates of the civil (Gregorian) calendar, from 0001-01-01 to 9999-12-31.

use std::fmt;
use std::time::{SystemTime, UNIX_EPOCH};

const LAST_YEAR: u32 = 9999;

/// Monday first, as weeks are drawn.
pub const WEEKDAYS: [&str; 7] = ["Mon", "Tue", "Wed", "Thu", "Fri", "Sat", "Sun"];

pub const MONTHS: [&str; 12] = [
    "January",
    "February",
    "March",
    "April",
    "May",
    "June",
    "July",
    "August",
    "September",
    "October",
    "November",
    "December",
];

#[derive(Clone, Copy, Debug, PartialEq, Eq, PartialOrd, Ord, Hash)]
pub struct Date {
    pub year: u32,
    /// From 1 on, like the day.
    pub month: u32,
    pub day: u32,
}

/// Every fourth year, but of those that end a century only every fourth.
fn is_leap(year: u32) -> bool {
    year % 4 == 0 && (year % 100 != 0 || year % 400 == 0)
}

fn days_of_month(year: u32, month: u32) -> u32 {
    match month {
        2 if is_leap(year) => 29,
        2 => 28,
        4 | 6 | 9 | 11 => 30,
        _ => 31,
    }
}

impl Date {
    /// The date that YYYY-MM-DD names, or what is wrong with it.
    pub fn parse(text: &str) -> Result<Date, String> {
        let wrong = || format!("{text:?} is no date YYYY-MM-DD");
        let (year, month, day) = match text.split('-').collect::<Vec<_>>()[..] {
            [year, month, day] => (year, month, day),
            _ => return Err(wrong()),
        };
        let number = |part: &str, digits| {
            let plain = part.len() == digits && part.bytes().all(|byte| byte.is_ascii_digit());
            let number = part.parse().ok();
            number.filter(|_| plain).ok_or_else(wrong)
        };
        Date::of(number(year, 4)?, number(month, 2)?, number(day, 2)?)
    }

    /// The date of this moment, UTC.
    pub fn today() -> Date {
        let seconds = match SystemTime::now().duration_since(UNIX_EPOCH) {
            Ok(since) => since.as_secs(),
            // A clock that is set before 1970.
            Err(_) => 0,
        };
        Date::since_1970(seconds / (24 * 60 * 60))
    }

    /// The date so many days after 1970-01-01, or the last one.
    fn since_1970(days: u64) -> Date {
        let begin = Date {
            year: 1970,
            month: 1,
            day: 1,
        };
        let mut date = begin;
        for _ in 0..days {
            match date.next() {
                Some(next) => date = next,
                None => break,
            }
        }
        date
    }

    fn of(year: u32, month: u32, day: u32) -> Result<Date, String> {
        if year == 0 {
            return Err("years are 0001 to 9999".to_string());
        }
        if month == 0 || month > 12 {
            return Err(format!("there is no month {month}"));
        }
        let last = days_of_month(year, month);
        if day == 0 || day > last {
            let name = MONTHS[month as usize - 1];
            return Err(format!("{name} {year} has the days 1 to {last}, not {day}"));
        }
        Ok(Date { year, month, day })
    }

    /// The date after this one, none after 9999-12-31.
    pub fn next(self) -> Option<Date> {
        let Date { year, month, day } = self;
        if day < days_of_month(year, month) {
            let day = day + 1;
            return Some(Date { year, month, day });
        }
        let (year, month) = match month {
            12 => (year + 1, 1),
            _ => (year, month + 1),
        };
        let day = 1;
        (year <= LAST_YEAR).then_some(Date { year, month, day })
    }

    /// So many dates from this one on, itself the first; none where they go past
    /// 9999-12-31.
    pub fn run(self, count: u32) -> Option<Vec<Date>> {
        let dates: Vec<Date> = std::iter::successors(Some(self), |date| date.next())
            .take(count as usize)
            .collect();
        (dates.len() == count as usize).then_some(dates)
    }

    /// So many days after this one; none past 9999-12-31.
    pub fn after(self, days: u32) -> Option<Date> {
        std::iter::successors(Some(self), |date| date.next()).nth(days as usize)
    }

    /// Its place in `WEEKDAYS`. 0001-01-01 was a Monday by this calendar's rules.
    pub fn weekday(self) -> usize {
        self.number() as usize % 7
    }

    /// How many days after 0001-01-01 it is.
    pub fn number(self) -> u32 {
        let years = self.year - 1;
        let leap_days = years / 4 - years / 100 + years / 400;
        let months: u32 = (1..self.month).map(|m| days_of_month(self.year, m)).sum();
        365 * years + leap_days + months + (self.day - 1)
    }

    pub fn month_name(self) -> &'static str {
        MONTHS[self.month as usize - 1]
    }
}

impl fmt::Display for Date {
    fn fmt(&self, f: &mut fmt::Formatter) -> fmt::Result {
        write!(f, "{:04}-{:02}-{:02}", self.year, self.month, self.day)
    }
}

#[cfg(test)]
mod tests {
    use super::*;

    fn date(text: &str) -> Date {
        Date::parse(text).expect(text)
    }

    #[test]
    fn a_date_is_read_as_it_is_written() {
        for text in ["0001-01-01", "2026-04-09", "2024-02-29", "9999-12-31"] {
            assert_eq!(date(text).to_string(), text);
        }
    }

    #[test]
    fn what_is_no_date_is_told() {
        for text in [
            "",
            "2026",
            "2026-04",
            "2026-4-01",
            "2026-04-1",
            "26-04-01",
            "2026-04-01-01",
            "2026/04/01",
            "+026-04-01",
            "2026-04-0x",
            " 2026-04-01",
            "10000-01-01",
        ] {
            let due = format!("{text:?} is no date YYYY-MM-DD");
            assert_eq!(Date::parse(text), Err(due));
        }
        for (text, due) in [
            ("0000-01-01", "years are 0001 to 9999"),
            ("2026-00-01", "there is no month 0"),
            ("2026-13-01", "there is no month 13"),
            ("2026-04-00", "April 2026 has the days 1 to 30, not 0"),
            ("2026-04-31", "April 2026 has the days 1 to 30, not 31"),
            ("2026-02-29", "February 2026 has the days 1 to 28, not 29"),
            ("2024-02-30", "February 2024 has the days 1 to 29, not 30"),
        ] {
            assert_eq!(Date::parse(text), Err(due.to_string()));
        }
    }

    #[test]
    fn leap_years_are_every_fourth_but_for_most_centuries() {
        for (year, leap) in [
            (1900, false),
            (2000, true),
            (2023, false),
            (2024, true),
            (2100, false),
            (2400, true),
        ] {
            assert_eq!(is_leap(year), leap, "{year}");
        }
        let lengths: Vec<u32> = (1..=12).map(|month| days_of_month(2026, month)).collect();
        assert_eq!(lengths, [31, 28, 31, 30, 31, 30, 31, 31, 30, 31, 30, 31]);
    }

    #[test]
    fn known_weekdays() {
        for (text, name) in [
            ("1970-01-01", "Thu"),
            ("2000-02-29", "Tue"),
            ("2026-04-01", "Wed"),
            ("2100-03-01", "Mon"),
            ("9999-12-31", "Fri"),
        ] {
            assert_eq!(WEEKDAYS[date(text).weekday()], name, "{text}");
        }
    }

    /// Through the whole calendar: each date is after the one before, one weekday on,
    /// and 400 years are 146,097 days.
    #[test]
    fn days_follow_each_other() {
        let mut at = date("0001-01-01");
        let mut days = 1;
        while let Some(next) = at.next() {
            assert!(next > at);
            assert_eq!(next.weekday(), (at.weekday() + 1) % 7, "{next}");
            at = next;
            days += 1;
        }
        assert_eq!(at, date("9999-12-31"));
        assert_eq!(days, 25 * 146_097 - 366);
    }

    #[test]
    fn days_since_1970_are_dates() {
        for (days, text) in [
            (0, "1970-01-01"),
            (59, "1970-03-01"),
            (11_016, "2000-02-29"),
            (20_575, "2026-05-02"),
            (u64::MAX >> 20, "9999-12-31"),
        ] {
            assert_eq!(Date::since_1970(days), date(text));
        }
    }

    #[test]
    fn a_run_of_dates_ends_with_the_calendar() {
        let run = date("2026-02-27").run(3).expect("three dates");
        assert_eq!(run, ["2026-02-27", "2026-02-28", "2026-03-01"].map(date));
        assert_eq!(date("9999-12-31").run(1), Some(vec![date("9999-12-31")]));
        assert!(date("9999-12-01").run(31).is_some());
        assert_eq!(date("9999-12-02").run(31), None);
    }
}
