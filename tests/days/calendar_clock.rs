//! The calendar of the C library, a third opinion on which dates there are and on which
//! weekday each of them falls.

use crate::calendar_dates::Date;
use crate::sys::{gmtime_r, timegm, Tm};

/// Numbers like dates, good and bad, around and in the century.
pub fn triples() -> impl Iterator<Item = Date> {
    let days = |year, month| (0..=32).map(move |day| Date { year, month, day });
    let months = move |year| (0..=13).flat_map(move |month| days(year, month));
    (1998..=2101).flat_map(months)
}

/// The weekday, Monday first, of a date of the years 2000 to 2099; nothing where the C
/// library makes another date of it.
pub fn weekday_by_clock(date: Date) -> Option<usize> {
    let [year, month, day] = [date.year, date.month, date.day].map(|number| number as i32);
    let mut asked = Tm { year: year - 1900, month: month - 1, day, hour: 12, ..Tm::default() };
    let mut given = Tm::default();
    // Both are lent whole, and neither is kept.
    let found = unsafe {
        let seconds = timegm(&mut asked);
        !gmtime_r(&seconds, &mut given).is_null()
    };
    let same = [given.year + 1900, given.month + 1, given.day] == [year, month, day];
    let weekday = if given.weekday == 0 { 6 } else { given.weekday as usize - 1 };
    (found && same && (2000..=2099).contains(&year)).then_some(weekday)
}
