//! Dates: as given, or today's.

use genie_dos::Date;
use std::time::{SystemTime, UNIX_EPOCH};

/// `1983-10-09`. Whether the directory can hold it is for the library to say, but it counts years from 1980.
pub fn parse(typed: &str) -> Option<Date> {
    let mut parts = typed.split('-').map(|part| match part.bytes().all(|b| b.is_ascii_digit()) {
        true => part.parse().ok(),
        false => None,
    });
    let date = Date::new(parts.next()??, parts.next()??, parts.next()??);
    (parts.next().is_none() && date.year >= Date::FIRST_YEAR).then_some(date)
}

/// Whether the directory could hold a date that the calendar does not have. Month and day 0 are a date that is not stated.
pub fn is_no_day(date: Date) -> bool {
    let Date { year, month, day } = date;
    let held = month <= 15 && day <= 31;
    let stated = (month, day) != (0, 0);
    held && stated && !((1..=12).contains(&month) && (1..=months(year)[month - 1]).contains(&day))
}

/// A date that is not stated, as the directory holds it.
pub const NONE: Date = Date::new(Date::FIRST_YEAR, 0, 0);

/// Today by the host's clock, in UTC.
pub fn today() -> Date {
    let since = SystemTime::now().duration_since(UNIX_EPOCH).unwrap_or_default();
    from_seconds(since.as_secs())
}

/// Seconds in a day.
const DAY: u64 = 86_400;

/// The day, in UTC, so many seconds after 1970 began.
pub fn from_seconds(seconds: u64) -> Date {
    from_days(seconds / DAY)
}

/// A file's time for a date of the directory: noon of that day in UTC, so that it is that day nearly everywhere; in seconds after
/// 1970 began. None for a date that is not stated, or that the calendar does not have.
pub fn seconds(date: Date) -> Option<u64> {
    let Date { year, month, day } = date;
    if !(1..=12).contains(&month) || !(1..=months(year)[month - 1]).contains(&day) {
        return None;
    }
    let before: usize = (1970..year).map(|year| 365 + leap(year)).sum();
    let days = before + months(year)[..month - 1].iter().sum::<usize>() + day - 1;
    Some(days as u64 * DAY + DAY / 2)
}

/// The date a number of days after 1 January 1970.
fn from_days(days: u64) -> Date {
    let mut left = days as usize;
    let mut year = 1970;
    while left >= 365 + leap(year) {
        left -= 365 + leap(year);
        year += 1;
    }
    let months = months(year);
    let mut month = 0;
    while left >= months[month] {
        left -= months[month];
        month += 1;
    }
    Date::new(year, month + 1, left + 1)
}

/// Days of each month.
fn months(year: usize) -> [usize; 12] {
    [31, 28 + leap(year), 31, 30, 31, 30, 31, 31, 30, 31, 30, 31]
}

fn leap(year: usize) -> usize {
    usize::from(year % 4 == 0 && year % 100 != 0 || year % 400 == 0)
}

/// The nearest date that the directory can hold: the same day of its first or last year, or the day before if that
/// year has no 29 February.
pub fn clamped(date: Date) -> Date {
    let year = date.year.clamp(Date::FIRST_YEAR, Date::LAST_YEAR);
    let no_such_day = date.month == 2 && date.day == 29 && leap(year) == 0;
    Date { year, day: date.day - usize::from(no_such_day), ..date }
}

#[cfg(test)]
mod tests {
    use super::*;

    #[test]
    fn typed_dates() {
        assert_eq!(parse("1983-10-09"), Some(Date::new(1983, 10, 9)));
        assert_eq!(parse("1996-13-32"), Some(Date::new(1996, 13, 32)));
        for wrong in
            ["", "1983", "1983-10", "1983-10-09-1", "1979-12-31", "1983-+1-09", "09.10.1983", "1983--9", "x-1-1"]
        {
            assert_eq!(parse(wrong), None, "{wrong}");
        }
    }

    #[test]
    fn days_that_are_none() {
        for (date, none) in [
            ("1983-02-28", false),
            ("1983-02-29", true),
            ("1983-02-31", true),
            ("1984-02-29", false),
            ("1983-04-31", true),
            ("1983-12-31", false),
            ("1983-13-01", true),
            ("1983-00-09", true),
            ("1983-10-00", true),
            ("1983-00-00", false),
            // The directory cannot hold these: the library says so.
            ("1983-16-01", false),
            ("1983-10-32", false),
        ] {
            assert_eq!(is_no_day(parse(date).unwrap()), none, "{date}");
        }
    }

    #[test]
    fn days_of_the_calendar() {
        assert_eq!(from_days(0), Date::new(1970, 1, 1));
        assert_eq!(from_days(59), Date::new(1970, 3, 1));
        assert_eq!(from_days(789), Date::new(1972, 2, 29));
        assert_eq!(from_days(5_030), Date::new(1983, 10, 10));
        assert_eq!(from_days(11_016), Date::new(2000, 2, 29));
        assert_eq!(from_days(20_772), Date::new(2026, 11, 15));
        assert_eq!(from_days(47_541), Date::new(2100, 3, 1));
    }

    #[test]
    fn noon_of_a_day() {
        for days in 3653..9497 {
            let date = from_days(days);
            assert_eq!(seconds(date), Some(days * DAY + DAY / 2), "{date}");
            assert_eq!(from_seconds(days * DAY + DAY / 2), date);
        }
        assert_eq!((from_days(3653), from_days(9496)), (Date::new(1980, 1, 2), Date::new(1996, 1, 1)));
        for none in [NONE, Date::new(1983, 2, 29), Date::new(1983, 13, 1), Date::new(1983, 10, 0)] {
            assert_eq!(seconds(none), None, "{none}");
        }
    }

    #[test]
    fn years_are_clamped() {
        assert_eq!(clamped(Date::new(2026, 11, 15)), Date::new(1995, 11, 15));
        assert_eq!(clamped(Date::new(1970, 1, 1)), Date::new(1980, 1, 1));
        assert_eq!(clamped(Date::new(1988, 2, 29)), Date::new(1988, 2, 29));
        assert_eq!(clamped(Date::new(2028, 2, 29)), Date::new(1995, 2, 28));
    }
}
