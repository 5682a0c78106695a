//! Calendars, dates and trains worked out by hand from order 11 of 02.

use crate::calendar::Asked;

/// What is asked, and what has to come of it: the number of used slots, and the window,
/// or the number of a refusal.
pub struct KnownWindow {
    pub name: &'static str,
    pub hours: &'static [u32],
    pub length: u32,
    pub closed: &'static [u32],
    pub date: u32,
    pub train: [u32; 2],
    pub slots: Result<u32, usize>,
    pub window: Result<[u32; 2], usize>,
}

impl KnownWindow {
    pub fn asked(&self) -> Asked {
        let (hours, closed) = (self.hours.to_vec(), self.closed.to_vec());
        Asked { hours, length: self.length, closed, date: self.date, train: self.train }
    }
}

/// With slots of an hour: Monday 6:00 to 14:00, eight that end at closing; Tuesday 6:00 to
/// 15:00, nine; Wednesday 6:00 to 13:59, a minute short of eight; Thursday 6:00 to 14:01;
/// Friday 8:00 to 13:00, five; Saturday 8:00 to 12:00, four; Sunday 10:00 to 10:00, none.
const YARD: &[u32] = &[
    360, 840, // Monday
    360, 900, // Tuesday
    360, 839, // Wednesday
    360, 841, // Thursday
    480, 780, // Friday
    480, 720, // Saturday
    600, 600, // Sunday
];

/// The same, but on Sunday it closes before it opens.
const BACKWARD: &[u32] = &[360, 840, 360, 900, 360, 839, 360, 841, 480, 780, 480, 720, 600, 599];

/// Open as long as can be said.
const ALWAYS: &[u32] = &[0, 1439, 0, 1439, 0, 1439, 0, 1439, 0, 1439, 0, 1439, 0, 1439];

/// On Sunday it closes at a minute that there isn't.
const MIDNIGHT: &[u32] = &[360, 840, 360, 900, 360, 839, 360, 841, 480, 780, 480, 720, 600, 1440];

const THIRTEEN: &[u32] = &[360, 840, 360, 900, 360, 839, 360, 841, 480, 780, 480, 720, 600];

/// The first 32 days of 2026, and one more.
const MANY: [u32; 33] = [
    20260101, 20260102, 20260103, 20260104, 20260105, 20260106, 20260107, 20260108, 20260109,
    20260110, 20260111, 20260112, 20260113, 20260114, 20260115, 20260116, 20260117, 20260118,
    20260119, 20260120, 20260121, 20260122, 20260123, 20260124, 20260125, 20260126, 20260127,
    20260128, 20260129, 20260130, 20260131, 20260201, 20260202,
];
const THIRTY_TWO: &[u32] = MANY.split_at(32).0;

/// 1 January 2000 is a Saturday, and the 60th day of that year, 29 February, a Tuesday.
/// The rest of the century's first year has 366 - 60 = 306 days, 43 weeks and 5 days, so
/// 31 December 2000 is a Sunday. 2026 begins 26 years and 7 days of 29 February after
/// 2000: 33 days, 4 weeks and 5 days, behind a Saturday is a Thursday. 6 July is the 187th
/// day, 26 weeks and 4 days behind 1 January: a Monday. 2099 begins 99 years and 25 days
/// of 29 February after 2000: 124 days, 17 weeks and 5 days, a Thursday; so does 2099 end.
#[rustfmt::skip]
pub const KNOWN_WINDOWS: [KnownWindow; 27] = [
    KnownWindow { name: "Monday, the whole day", hours: YARD, length: 60, closed: &[], date: 20260706, train: [0, 1439], slots: Ok(8), window: Ok([1, 8]) },
    KnownWindow { name: "Tuesday, a ninth slot fits", hours: YARD, length: 60, closed: &[], date: 20260707, train: [0, 1439], slots: Ok(8), window: Ok([1, 8]) },
    KnownWindow { name: "Tuesday, only the ninth is in time", hours: YARD, length: 60, closed: &[], date: 20260707, train: [781, 1439], slots: Ok(8), window: Err(24) },
    KnownWindow { name: "Wednesday, a minute short of eight", hours: YARD, length: 60, closed: &[], date: 20260708, train: [0, 1439], slots: Ok(7), window: Ok([1, 7]) },
    KnownWindow { name: "Thursday, at a start and at an end", hours: YARD, length: 60, closed: &[], date: 20260709, train: [420, 600], slots: Ok(8), window: Ok([2, 4]) },
    KnownWindow { name: "Thursday, a minute after a start", hours: YARD, length: 60, closed: &[], date: 20260709, train: [421, 600], slots: Ok(8), window: Ok([3, 4]) },
    KnownWindow { name: "Thursday, a minute before an end", hours: YARD, length: 60, closed: &[], date: 20260709, train: [420, 599], slots: Ok(8), window: Ok([2, 3]) },
    KnownWindow { name: "Friday, just one slot", hours: YARD, length: 60, closed: &[], date: 20260710, train: [720, 780], slots: Ok(5), window: Ok([5, 5]) },
    KnownWindow { name: "Friday, shorter than a slot", hours: YARD, length: 60, closed: &[], date: 20260710, train: [550, 590], slots: Ok(5), window: Err(24) },
    KnownWindow { name: "Friday, away before it arrives", hours: YARD, length: 60, closed: &[], date: 20260710, train: [700, 500], slots: Ok(5), window: Err(24) },
    KnownWindow { name: "Saturday, the first of all dates", hours: YARD, length: 60, closed: &[], date: 20000101, train: [480, 719], slots: Ok(4), window: Ok([1, 3]) },
    KnownWindow { name: "Sunday, closing as it opens", hours: YARD, length: 60, closed: &[], date: 20001231, train: [0, 1439], slots: Ok(0), window: Err(24) },
    KnownWindow { name: "Sunday, closing before it opens", hours: BACKWARD, length: 1, closed: &[], date: 20001231, train: [0, 1439], slots: Ok(0), window: Err(24) },
    KnownWindow { name: "29 February 2000, a Tuesday", hours: YARD, length: 180, closed: &[], date: 20000229, train: [361, 900], slots: Ok(3), window: Ok([2, 3]) },
    KnownWindow { name: "the last of all dates, a Thursday", hours: YARD, length: 481, closed: &[20991230], date: 20991231, train: [360, 841], slots: Ok(1), window: Ok([1, 1]) },
    KnownWindow { name: "a closed date, named twice", hours: YARD, length: 60, closed: &[20260706, 20260101, 20260706], date: 20260706, train: [0, 1439], slots: Ok(0), window: Err(24) },
    KnownWindow { name: "the 32nd of the closed dates", hours: YARD, length: 60, closed: THIRTY_TWO, date: 20260201, train: [0, 1439], slots: Ok(0), window: Err(24) },
    KnownWindow { name: "a 33rd closed date", hours: YARD, length: 60, closed: &MANY, date: 20260706, train: [0, 1439], slots: Err(23), window: Err(23) },
    KnownWindow { name: "slots of a minute", hours: ALWAYS, length: 1, closed: &[], date: 20260706, train: [3, 7], slots: Ok(8), window: Ok([4, 7]) },
    KnownWindow { name: "the longest slot that there is room for", hours: ALWAYS, length: 1439, closed: &[], date: 20260706, train: [0, 1439], slots: Ok(1), window: Ok([1, 1]) },
    KnownWindow { name: "a slot longer than any opening", hours: ALWAYS, length: 1440, closed: &[], date: 20260706, train: [0, 1439], slots: Ok(0), window: Err(24) },
    KnownWindow { name: "a slot length of 1441", hours: ALWAYS, length: 1441, closed: &[], date: 20260706, train: [0, 1439], slots: Err(23), window: Err(23) },
    KnownWindow { name: "29 February of a common year", hours: YARD, length: 60, closed: &[], date: 20260229, train: [0, 1439], slots: Err(23), window: Err(23) },
    KnownWindow { name: "31 April among the closed dates", hours: YARD, length: 60, closed: &[20260101, 20260431], date: 20260706, train: [700, 500], slots: Err(23), window: Err(23) },
    KnownWindow { name: "a minute of another weekday", hours: MIDNIGHT, length: 60, closed: &[20260706], date: 20260706, train: [0, 1439], slots: Err(23), window: Err(23) },
    KnownWindow { name: "departure at midnight", hours: YARD, length: 60, closed: &[], date: 20260706, train: [0, 1440], slots: Ok(8), window: Err(23) },
    KnownWindow { name: "thirteen hours, and no date", hours: THIRTEEN, length: 0, closed: &[0], date: 20260229, train: [0, 1440], slots: Err(10), window: Err(10) },
];
