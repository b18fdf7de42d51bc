//! Days, counted from 1 January 2000 on, and dates.

/// The year of day 0.
const FIRST_YEAR: u16 = 2000;

/// The day that a date such as `2026-11-15` names, or its number in days since
/// 1 January 2000, from 0 to 65535.
pub fn day(text: &str) -> Option<u16> {
    match text.split('-').collect::<Vec<_>>()[..] {
        [number] => digits(number),
        [year, month, day] if [year.len(), month.len(), day.len()] == [4, 2, 2] => {
            day_of(digits(year)?, digits(month)?, digits(day)?)
        }
        _ => None,
    }
}

/// A day as it is printed: `2026-11-15 (day 9815)`.
pub fn date(day: u16) -> String {
    let (mut year, mut rest) = (FIRST_YEAR, day);
    while rest >= days_of(year) {
        rest -= days_of(year);
        year += 1;
    }
    let mut month = 1;
    for length in months(year) {
        if rest < length {
            break;
        }
        rest -= length;
        month += 1;
    }
    format!("{year}-{month:02}-{:02} (day {day})", rest + 1)
}

fn digits(text: &str) -> Option<u16> {
    let all = text.bytes().all(|byte| byte.is_ascii_digit());
    text.parse().ok().filter(|_| all)
}

fn day_of(year: u16, month: u16, day: u16) -> Option<u16> {
    let months = months(year);
    let before = usize::from(month.checked_sub(1)?);
    if year < FIRST_YEAR || !(1..=*months.get(before)?).contains(&day) {
        return None;
    }
    let years: u32 = (FIRST_YEAR..year)
        .map(|year| u32::from(days_of(year)))
        .sum();
    let in_year = months[..before].iter().sum::<u16>() + day - 1;
    u16::try_from(years + u32::from(in_year)).ok()
}

fn is_leap(year: u16) -> bool {
    year.is_multiple_of(4) && (!year.is_multiple_of(100) || year.is_multiple_of(400))
}

fn days_of(year: u16) -> u16 {
    365 + u16::from(is_leap(year))
}

/// The days of each month.
fn months(year: u16) -> [u16; 12] {
    let february = 28 + u16::from(is_leap(year));
    [31, february, 31, 30, 31, 30, 31, 31, 30, 31, 30, 31]
}

#[cfg(test)]
mod tests {
    use super::{date, day};

    #[test]
    fn dates_and_their_days() {
        for (text, due) in [
            ("2000-01-01", 0),
            ("2000-01-31", 30),
            ("2000-02-29", 59),
            ("2000-03-01", 60),
            ("2000-12-31", 365),
            ("2001-01-01", 366),
            ("2004-02-29", 1_520),
            ("2026-11-15", 9_815),
            ("2026-12-01", 9_831),
            ("2100-02-28", 36_583),
            ("2100-03-01", 36_584),
            ("2179-06-06", 65_535),
        ] {
            assert_eq!(day(text), Some(due), "{text}");
            assert_eq!(date(due), format!("{text} (day {due})"));
            assert_eq!(day(&due.to_string()), Some(due));
        }
    }

    /// Each day's date names it, and no date comes twice.
    #[test]
    fn every_day() {
        let mut last = String::new();
        for number in 0..=u16::MAX {
            let told = date(number);
            let (text, _) = told.split_once(' ').expect("its number behind it");
            assert_eq!(day(text), Some(number));
            assert!(*text > *last, "{text} behind {last}");
            last = text.to_string();
        }
    }

    #[test]
    fn no_days() {
        for text in [
            "",
            "-",
            "-1",
            "+1",
            "1 ",
            "65536",
            "99999999999",
            "20261115",
            "1999-12-31",
            "0000-01-01",
            "2179-06-07",
            "2180-01-01",
            "9999-12-31",
            "2026-00-01",
            "2026-13-01",
            "2026-11-00",
            "2026-11-31",
            "2026-02-29",
            "2100-02-29",
            "2026-2-01",
            "2026-02-1",
            "26-02-01",
            "02026-02-01",
            "2026-02",
            "2026-02-01-",
            "2026-+2-01",
            "2026- 2-01",
            "2026/02/01",
            "today",
        ] {
            assert_eq!(day(text), None, "{text}");
        }
    }
}
