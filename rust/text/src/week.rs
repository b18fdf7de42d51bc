//! Minutes of the week, and the stretches of it in which a role is open.

use crate::line::{shown, At, Flaw};
use std::fmt;

const DAYS: [&str; 7] = ["Mon", "Tue", "Wed", "Thu", "Fri", "Sat", "Sun"];

/// The minutes of a day.
const DAY: u16 = 24 * 60;

/// A stretch of some days: `Mon-Fri 07:00-15:00`. It ends on the next day where it ends
/// before it begins.
#[derive(Clone, Copy, Debug, PartialEq, Eq)]
pub struct Stretch {
    /// The first day and the last, from 0 on Monday; over the week's end if need be.
    days: [u16; 2],
    /// Where it begins and ends, in minutes of the day.
    times: [u16; 2],
}

impl Stretch {
    /// The stretch that two words say, `Mon-Fri` and `07:00-15:00`.
    pub fn of(days: (&str, At), times: (&str, At)) -> Result<Stretch, Flaw> {
        let flaw = |at| move |what| Flaw { at, what };
        Ok(Stretch {
            days: days_of(days.0).map_err(flaw(days.1))?,
            times: times_of(times.0).map_err(flaw(times.1))?,
        })
    }

    /// The rows of a table of hours: one for each day, and two where it goes over midnight,
    /// also over that of the week's end.
    pub fn rows(self, role: u16) -> impl Iterator<Item = [u16; 3]> {
        let [first, last] = self.days;
        let count = (last + 7 - first) % 7;
        let days = (0..=count).map(move |more| (first + more) % 7);
        days.flat_map(move |day| of_day(role, day, self.times))
    }
}

impl fmt::Display for Stretch {
    fn fmt(&self, f: &mut fmt::Formatter) -> fmt::Result {
        let [first, last] = self.days;
        f.write_str(DAYS[usize::from(first)])?;
        if first != last {
            write!(f, "-{}", DAYS[usize::from(last)])?;
        }
        let [begin, end] = self.times.map(time_told);
        write!(f, " {begin}-{end}")
    }
}

/// The row of a day, and one of the next if the stretch goes over midnight.
fn of_day(role: u16, day: u16, [begin, end]: [u16; 2]) -> Vec<[u16; 3]> {
    let at = |day: u16, minute: u16| DAY * day + minute;
    if begin < end {
        return vec![[role, at(day, begin), at(day, end)]];
    }
    let mut rows = vec![[role, at(day, begin), at(day, DAY)]];
    if end > 0 {
        let next = (day + 1) % 7;
        rows.push([role, at(next, 0), at(next, end)]);
    }
    rows
}

/// The first and the last of some days.
fn days_of(text: &str) -> Result<[u16; 2], String> {
    let (first, last) = text.split_once('-').unwrap_or((text, text));
    let known = |name: &str| {
        let what = || {
            format!(
                "'{}' isn't one of the days {}",
                shown(name),
                DAYS.join(", ")
            )
        };
        day(name).ok_or_else(what)
    };
    Ok([known(first)?, known(last)?])
}

/// Where a stretch of a day begins and ends.
fn times_of(text: &str) -> Result<[u16; 2], String> {
    let times = text.split_once('-').and_then(|(begin, end)| {
        let begin = time(begin).filter(|begin| *begin < DAY)?;
        Some([begin, time(end)?])
    });
    match times {
        None => Err(format!(
            "'{}' isn't a stretch such as 07:00-15:00",
            shown(text)
        )),
        Some([begin, end]) if begin == end => Err(format!("'{}' ends as it begins", shown(text))),
        Some(times) => Ok(times),
    }
}

/// The minute of the week that a day and a time, such as `Mon 07:30`, name.
pub fn minute(text: &str) -> Option<u16> {
    let mut words = text.split_whitespace();
    let (name, clock) = (words.next()?, words.next()?);
    let time = time(clock).filter(|time| *time < DAY)?;
    let day = day(name)?;
    words.next().is_none().then_some(DAY * day + time)
}

/// A minute of the week as a day and a time.
pub fn clock(minute: u16) -> String {
    let name = DAYS.get(usize::from(minute / DAY)).unwrap_or(&"?");
    format!("{name} {}", time_told(minute % DAY))
}

/// A minute of the day: `07:30`.
fn time_told(time: u16) -> String {
    format!("{:02}:{:02}", time / 60, time % 60)
}

/// The day of this name, from 0.
fn day(name: &str) -> Option<u16> {
    let at = DAYS.iter().position(|day| day.eq_ignore_ascii_case(name))?;
    Some(at as u16)
}

/// The minute of the day, up to 24:00.
fn time(text: &str) -> Option<u16> {
    let (hours, minutes) = text.split_once(':')?;
    let whole = (1..=2).contains(&hours.len()) && minutes.len() == 2;
    let [hours, minutes] = [hours, minutes].map(number);
    let time = 60 * hours? + minutes.filter(|minutes| *minutes < 60)?;
    (whole && time <= DAY).then_some(time)
}

/// A number of at most two digits.
fn number(text: &str) -> Option<u16> {
    let digits = text.len() <= 2 && text.bytes().all(|byte| byte.is_ascii_digit());
    text.parse().ok().filter(|_| digits)
}

#[cfg(test)]
mod tests {
    use super::*;

    fn stretch(text: &str) -> Result<Stretch, String> {
        let (days, times) = text.split_once(' ').expect("two words");
        let at = At::default();
        Stretch::of((days, at), (times, at)).map_err(|flaw| flaw.what)
    }

    fn rows(text: &str) -> Vec<[u16; 3]> {
        stretch(text).expect("a stretch").rows(2).collect()
    }

    #[test]
    fn days_and_times() {
        let weekdays = [0, 1, 2, 3, 4].map(|day| [2, 1_440 * day + 420, 1_440 * day + 900]);
        assert_eq!(rows("Mon-Fri 07:00-15:00"), weekdays);
        for (text, due) in [
            ("sun 0:00-24:00", &[[2, 8_640, 10_080]][..]),
            ("Sat 23:59-24:00", &[[2, 8_639, 8_640]]),
            ("Sun-Mon 00:00-00:01", &[[2, 8_640, 8_641], [2, 0, 1]]),
            ("Mon 22:00-06:00", &[[2, 1_320, 1_440], [2, 1_440, 1_800]]),
            ("Sun 22:00-06:00", &[[2, 9_960, 10_080], [2, 0, 360]]),
            ("Sun 22:00-00:00", &[[2, 9_960, 10_080]]),
            ("Sun 22:00-24:00", &[[2, 9_960, 10_080]]),
        ] {
            assert_eq!(rows(text), due, "{text}");
        }
        assert_eq!(rows("Mon-Sun 22:00-06:00").len(), 14);
    }

    /// What is written is read again as the same.
    #[test]
    fn written_and_read_again() {
        for (text, due) in [
            ("mon-FRI 7:00-15:00", "Mon-Fri 07:00-15:00"),
            ("Sat-Sat 0:00-24:00", "Sat 00:00-24:00"),
            ("Sun-Mon 22:30-00:00", "Sun-Mon 22:30-00:00"),
        ] {
            let found = stretch(text).expect("a stretch");
            assert_eq!(found.to_string(), due);
            assert_eq!(stretch(due), Ok(found));
        }
    }

    #[test]
    fn words_that_are_no_stretch() {
        let days = "isn't one of the days Mon, Tue, Wed, Thu, Fri, Sat, Sun";
        let times = "isn't a stretch such as 07:00-15:00";
        for (text, what) in [
            ("Mo 1:00-2:00", format!("'Mo' {days}")),
            ("Mon- 1:00-2:00", format!("'' {days}")),
            ("Mon-Fri-Sun 1:00-2:00", format!("'Fri-Sun' {days}")),
            ("Mon 1:00", format!("'1:00' {times}")),
            ("Mon 1:60-2:00", format!("'1:60-2:00' {times}")),
            ("Mon 1:0-2:00", format!("'1:0-2:00' {times}")),
            ("Mon 24:00-2:00", format!("'24:00-2:00' {times}")),
            ("Mon 1:00-24:01", format!("'1:00-24:01' {times}")),
            ("Mon 001:00-2:00", format!("'001:00-2:00' {times}")),
            ("Mon +1:00-2:00", format!("'+1:00-2:00' {times}")),
            (
                "Mon 1:00-01:00",
                "'1:00-01:00' ends as it begins".to_string(),
            ),
        ] {
            assert_eq!(stretch(text), Err(what), "{text}");
        }
    }

    #[test]
    fn minutes_of_the_week() {
        for (text, due) in [
            ("Mon 00:00", Some(0)),
            ("Mon 07:30", Some(450)),
            (" tue  7:30 ", Some(1_890)),
            ("Sun 23:59", Some(10_079)),
            ("Sun 24:00", None),
            ("Mon", None),
            ("07:30", None),
            ("Mon 7", None),
            ("Mon 07:30 x", None),
            ("Monday 07:30", None),
            ("", None),
        ] {
            assert_eq!(minute(text), due, "{text}");
        }
        assert_eq!(clock(450), "Mon 07:30");
        assert_eq!(clock(10_079), "Sun 23:59");
        for minute in 0..10_080 {
            assert_eq!(super::minute(&clock(minute)), Some(minute));
        }
    }
}
