//! Between the directory's dates and the host's times.

use genie_dos::Date;

const DAY: i64 = 86_400;

/// Noon, UTC, of a date: it is that day in nearly every time zone. 0, the first of January 1970, where the calendar has no such day.
pub fn time_of(date: Date) -> i64 {
    let Date { year, month, day, .. } = date;
    match (month, day) {
        (1..=12, 1..) if day <= days_of(year, month) => days_before(year, month, day) * DAY + DAY / 2,
        _ => 0,
    }
}

/// Whether a time, UTC, is on that date.
pub fn is_on(time: i64, date: Date) -> bool {
    match time_of(date) {
        0 => false,
        noon => time.div_euclid(DAY) == noon.div_euclid(DAY),
    }
}

/// Days from 1 January 1970.
fn days_before(year: usize, month: usize, day: usize) -> i64 {
    let years: i64 = (1970..year).map(|year| 337 + days_of(year, 2) as i64).sum();
    let months: i64 = (1..month).map(|month| days_of(year, month) as i64).sum();
    years + months + day as i64 - 1
}

fn days_of(year: usize, month: usize) -> usize {
    match month {
        2 if year % 4 == 0 && year % 100 != 0 || year % 400 == 0 => 29,
        2 => 28,
        4 | 6 | 9 | 11 => 30,
        _ => 31,
    }
}

#[cfg(test)]
mod tests {
    use super::*;

    #[test]
    fn days() {
        assert_eq!(time_of(Date::new(1983, 10, 10)), 5_030 * DAY + DAY / 2);
        assert_eq!(time_of(Date::new(1980, 2, 29)), 3_711 * DAY + DAY / 2);
        assert_eq!(time_of(Date::new(1995, 12, 31)), 9_495 * DAY + DAY / 2);
        for none in [(1983, 2, 29), (1983, 0, 9), (1983, 13, 1), (1983, 4, 31), (1983, 10, 0), (1980, 0, 0)] {
            assert_eq!(time_of(Date::new(none.0, none.1, none.2)), 0, "{none:?}");
        }
        let tenth = Date::new(1983, 10, 10);
        assert!(is_on(5_030 * DAY, tenth) && is_on(5_031 * DAY - 1, tenth) && !is_on(5_031 * DAY, tenth));
        assert!(!is_on(0, Date::new(1980, 0, 0)));
    }
}
