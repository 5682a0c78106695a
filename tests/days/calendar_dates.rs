//! The dates of order 11 of 02, by walking: from 1 January 2000, a Saturday, one day
//! after the other to the end of 2099. Nothing is divided; the number of a date is its
//! digits, read.

use std::collections::BTreeMap;
use std::sync::OnceLock;

/// Monday is 0.
pub const WEEKDAYS: [&str; 7] =
    ["Monday", "Tuesday", "Wednesday", "Thursday", "Friday", "Saturday", "Sunday"];
const SATURDAY: usize = 5;

const FIRST_YEAR: u32 = 2000;
const LAST_YEAR: u32 = 2099;

const FEBRUARY: u32 = 2;
const DECEMBER: u32 = 12;

/// Thirty days have April, June, September and November.
const OF_THIRTY: [u32; 4] = [4, 6, 9, 11];

/// A date as year, month and day.
#[derive(Clone, Copy, Debug, PartialEq, Eq, PartialOrd, Ord)]
pub struct Date {
    pub year: u32,
    pub month: u32,
    pub day: u32,
}

impl Date {
    /// The digits of year, month and day in a row.
    pub fn number(self) -> u32 {
        let Date { year, month, day } = self;
        format!("{year:04}{month:02}{day:02}").parse().expect("eight digits")
    }
}

/// Where the walk stands.
struct Walk {
    date: Date,
    weekday: usize,
    /// Years since the last one that had a 29 February; of the first year itself none.
    since_leap: usize,
}

impl Walk {
    fn is_last_of_month(&self) -> bool {
        let Date { month, day, .. } = self.date;
        match month {
            FEBRUARY if self.since_leap == 0 => day == 29,
            FEBRUARY => day == 28,
            month if OF_THIRTY.contains(&month) => day == 30,
            _ => day == 31,
        }
    }

    fn step(&mut self) {
        let Date { year, month, day } = self.date;
        self.weekday = if self.weekday == 6 { 0 } else { self.weekday + 1 };
        self.date = match self.is_last_of_month() {
            false => Date { year, month, day: day + 1 },
            true if month < DECEMBER => Date { year, month: month + 1, day: 1 },
            true => {
                self.since_leap = if self.since_leap == 3 { 0 } else { self.since_leap + 1 };
                Date { year: year + 1, month: 1, day: 1 }
            }
        };
    }
}

/// All dates with their weekdays, in order.
pub fn century() -> &'static [(Date, usize)] {
    static CENTURY: OnceLock<Vec<(Date, usize)>> = OnceLock::new();
    CENTURY.get_or_init(|| {
        // 2000 is among the years of the Gregorian calendar that have a 29 February.
        let date = Date { year: FIRST_YEAR, month: 1, day: 1 };
        let mut walk = Walk { date, weekday: SATURDAY, since_leap: 0 };
        let mut dates = Vec::new();
        while walk.date.year <= LAST_YEAR {
            dates.push((walk.date, walk.weekday));
            walk.step();
        }
        dates
    })
}

/// The weekday of a number, Monday first; nothing where it is no date of the century.
pub fn weekday_of(number: u32) -> Option<usize> {
    static WEEKDAY: OnceLock<BTreeMap<u32, usize>> = OnceLock::new();
    let numbered = |&(date, weekday): &(Date, usize)| (date.number(), weekday);
    WEEKDAY.get_or_init(|| century().iter().map(numbered).collect()).get(&number).copied()
}
