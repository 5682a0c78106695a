//! Mistakes about dates, weekdays and closed dates (order 11). Each is a stand-in that
//! makes it.

use crate::calendar::{Asked, Fault, MOST_CLOSED};
use crate::calendar_dates::weekday_of;
use crate::calendar_standin::{hour, StandIn, Weekday, SOUND};

pub type Miscalendar = (&'static str, StandIn);

// ---------------------------------------------------------------------------
// Dates, as one computes them
// ---------------------------------------------------------------------------

const fn dating(weekday: Weekday) -> StandIn {
    StandIn { weekday, ..SOUND }
}

/// Year, month and day of a number.
fn parts(number: u32) -> [u32; 3] {
    [number / 10_000, number / 100 % 100, number % 100]
}

fn is_leap(year: u32) -> bool {
    year % 4 == 0 && (year % 100 != 0 || year % 400 == 0)
}

/// The days of a month, in years that have a 29 February by some rule.
fn days_in(month: u32, leap: bool) -> u32 {
    match month {
        2 => 28 + u32::from(leap),
        4 | 6 | 9 | 11 => 30,
        _ => 31,
    }
}

fn gregorian(year: u32, month: u32) -> u32 {
    days_in(month, is_leap(year))
}

/// The weekday of a day behind which so many lie since 1 January 2000.
fn behind(days: u32) -> Option<usize> {
    Some((5 + days as usize) % 7)
}

/// The days before a date, by the days of each month.
fn days_before([year, month, day]: [u32; 3], days: fn(u32, u32) -> u32) -> u32 {
    let years: u32 =
        (2000..year).map(|year| (1..=12).map(|month| days(year, month)).sum::<u32>()).sum();
    years + (1..month).map(|month| days(year, month)).sum::<u32>() + day - 1
}

/// The days before a date in its year.
fn day_of_year([year, month, day]: [u32; 3]) -> u32 {
    days_before([year, month, day], gregorian) - days_before([year, 1, 1], gregorian)
}

/// Dates and weekdays by the days of each month.
fn by_months(number: u32, days: fn(u32, u32) -> u32) -> Option<usize> {
    let [year, month, day] = parts(number);
    let good = (2000..=2099).contains(&year)
        && (1..=12).contains(&month)
        && (1..=days(year, month)).contains(&day);
    good.then(|| behind(days_before([year, month, day], days))).flatten()
}

/// The real dates, and others that are taken for the day so many behind 1 January 2000.
fn also(number: u32, taken: fn([u32; 3]) -> bool) -> Option<usize> {
    let [year, month, day] = parts(number);
    let carried = || {
        // Day 0 of a month is the last of the month before.
        let days = days_before([year.clamp(2000, 2110), month.clamp(1, 13), day + 1], gregorian);
        behind(days + 6)
    };
    weekday_of(number).or_else(|| taken([year, month, day]).then(carried).flatten())
}

/// Another weekday for some dates.
fn moved(number: u32, days: fn([u32; 3]) -> usize) -> Option<usize> {
    weekday_of(number).map(|weekday| (weekday + days(parts(number))) % 7)
}

#[rustfmt::skip]
pub const MISDATED: [Miscalendar; 58] = [
    ("no leap years", dating(|number| by_months(number, |_, month| days_in(month, false)))),
    ("leap years only", dating(|number| by_months(number, |_, month| days_in(month, true)))),
    ("2000 no leap year", dating(|number| by_months(number, |year, month| days_in(month, year % 4 == 0 && year % 100 != 0)))),
    ("leap years by 400 alone", dating(|number| by_months(number, |year, month| days_in(month, year % 400 == 0)))),
    ("leap years a year late", dating(|number| by_months(number, |year, month| days_in(month, year % 4 == 1)))),
    ("leap years a year early", dating(|number| by_months(number, |year, month| days_in(month, year % 4 == 3)))),
    ("even years are leap years", dating(|number| by_months(number, |year, month| days_in(month, year % 2 == 0)))),
    ("every eighth year a leap year", dating(|number| by_months(number, |year, month| days_in(month, year % 8 == 0)))),
    ("2096 no leap year", dating(|number| by_months(number, |year, month| days_in(month, is_leap(year) && year != 2096)))),
    ("leap years counted from 2001", dating(|number| by_months(number, |year, month| days_in(month, year > 2000 && is_leap(year))))),
    ("29 days in every February, weekdays right", dating(|number| also(number, |[_, month, day]| [month, day] == [2, 29]))),
    ("30 February of a leap year taken", dating(|number| also(number, |[year, month, day]| is_leap(year) && [month, day] == [2, 30]))),
    ("30 February taken", dating(|number| also(number, |[_, month, day]| [month, day] == [2, 30]))),
    ("29 February no date", dating(|number| weekday_of(number).filter(|_| number % 10_000 != 229))),
    ("29 February 2000 no date", dating(|number| weekday_of(number).filter(|_| number != 20000229))),
    ("31 April taken", dating(|number| also(number, |[_, month, day]| [month, day] == [4, 31]))),
    ("31 June taken", dating(|number| also(number, |[_, month, day]| [month, day] == [6, 31]))),
    ("31 September taken", dating(|number| also(number, |[_, month, day]| [month, day] == [9, 31]))),
    ("31 November taken", dating(|number| also(number, |[_, month, day]| [month, day] == [11, 31]))),
    ("31 days in each month", dating(|number| also(number, |[_, month, day]| (1..=12).contains(&month) && (29..=31).contains(&day)))),
    ("April counted with 31 days", dating(|number| by_months(number, |year, month| if month == 4 { 31 } else { gregorian(year, month) }))),
    ("August counted with 30 days", dating(|number| by_months(number, |year, month| if month == 8 { 30 } else { gregorian(year, month) }))),
    ("31 and 30 days in turn", dating(|number| by_months(number, |year, month| if month == 2 { gregorian(year, 2) } else { 30 + month % 2 }))),
    ("December counted with 30 days", dating(|number| by_months(number, |year, month| if month == 12 { 30 } else { gregorian(year, month) }))),
    ("the 31st no date", dating(|number| weekday_of(number).filter(|_| number % 100 != 31))),
    ("the 32nd taken", dating(|number| also(number, |[_, month, day]| (1..=12).contains(&month) && day == 32))),
    ("day 0 taken", dating(|number| also(number, |[_, month, day]| (1..=12).contains(&month) && day == 0))),
    ("month 0 taken", dating(|number| also(number, |[_, month, day]| month == 0 && (1..=31).contains(&day)))),
    ("month 13 taken", dating(|number| also(number, |[_, month, day]| month == 13 && (1..=31).contains(&day)))),
    ("December no month", dating(|number| weekday_of(number).filter(|_| parts(number)[1] != 12))),
    ("any number between the first and the last date", dating(|number| also(number, |[year, _, _]| (2000..=2099).contains(&year)))),
    ("1999 taken", dating(|number| also(number, |[year, month, day]| year == 1999 && (1..=12).contains(&month) && (1..=28).contains(&day)))),
    ("2100 taken", dating(|number| also(number, |[year, month, day]| year == 2100 && (1..=12).contains(&month) && (1..=28).contains(&day)))),
    ("every year after 2000 taken", dating(|number| also(number, |[year, month, day]| year > 2099 && (1..=12).contains(&month) && (1..=28).contains(&day)))),
    ("every year before 2099 taken", dating(|number| also(number, |[year, month, day]| year < 2000 && (1..=12).contains(&month) && (1..=28).contains(&day)))),
    ("only the last digits of the year", dating(|number| weekday_of(20_000_000 + number % 1_000_000))),
    ("1 January 2000 no date", dating(|number| weekday_of(number).filter(|_| number > 20000101))),
    ("31 December 2099 no date", dating(|number| weekday_of(number).filter(|_| number < 20991231))),
    ("the year 2099 left out", dating(|number| weekday_of(number).filter(|_| number < 20990000))),
    ("the year in 16 bits", dating(|number| weekday_of(number % 655_360_000))),
    ("the number in 31 bits", dating(|number| weekday_of(number & 0x7FFF_FFFF))),
    ("the number in 28 bits", dating(|number| weekday_of(number & 0x0FFF_FFFF))),
    ("the number in 25 bits", dating(|number| weekday_of(number & 0x01FF_FFFF))),
    ("the number in 16 bits", dating(|number| weekday_of(number & 0xFFFF))),
    ("the number as a short float", dating(|number| weekday_of(number as f32 as u32))),
    ("day, month and year the other way", dating(|number| weekday_of(number % 10_000 * 10_000 + number / 10_000 % 100 * 100 + number / 1_000_000).or(weekday_of(number)))),
    ("the first day a Sunday", dating(|number| moved(number, |_| 1))),
    ("the first day a Friday", dating(|number| moved(number, |_| 6))),
    ("every year begins on a Saturday", dating(|number| weekday_of(number).and_then(|_| behind(day_of_year(parts(number)))))),
    ("years of 365 days", dating(|number| moved(number, |[year, _, _]| (7 - (year as usize - 1997) / 4 % 7) % 7))),
    ("the leap day counted from January on", dating(|number| moved(number, |[year, month, _]| usize::from(is_leap(year) && month < 3)))),
    ("the leap day counted the year after", dating(|number| moved(number, |[year, month, _]| if is_leap(year) && month > 2 { 6 } else { 0 }))),
    ("the leap day counted from April on", dating(|number| moved(number, |[year, month, _]| if is_leap(year) && month == 3 { 6 } else { 0 }))),
    ("months of 30 days for the weekday", dating(|number| moved(number, |[year, month, _]| { let days: u32 = (1..month).map(|month| gregorian(year, month)).sum(); ((700 + 30 * (month - 1)) - days) as usize % 7 }))),
    ("weekdays from Sunday", StandIn { hours_on: |hours, weekday| [2, 3].map(|place| hour(hours, (2 * weekday + place) % 14)), ..SOUND }),
    ("weekdays from Saturday", StandIn { hours_on: |hours, weekday| [4, 5].map(|place| hour(hours, (2 * weekday + place) % 14)), ..SOUND }),
    ("weekdays from Tuesday", StandIn { hours_on: |hours, weekday| [12, 13].map(|place| hour(hours, (2 * weekday + place) % 14)), ..SOUND }),
    ("weekdays backwards", StandIn { hours_on: |hours, weekday| [0, 1].map(|place| hour(hours, 2 * (6 - weekday) + place)), ..SOUND }),
];

// ---------------------------------------------------------------------------
// Closed dates
// ---------------------------------------------------------------------------

const fn closing(is_closed: fn(&Asked) -> bool) -> StandIn {
    StandIn { is_closed, window_is_closed: is_closed, ..SOUND }
}

const fn minding(minds: fn(&Asked, Fault) -> bool) -> StandIn {
    StandIn { minds, ..SOUND }
}

const fn objecting(objects: fn(&Asked) -> bool) -> StandIn {
    StandIn { objects, ..SOUND }
}

const fn altering(alter: fn(&mut Asked)) -> StandIn {
    StandIn { alter, ..SOUND }
}

fn any(asked: &Asked, like: fn(u32, u32) -> bool) -> bool {
    asked.closed.iter().any(|&closed| like(closed, asked.date))
}

fn times(asked: &Asked) -> usize {
    asked.closed.iter().filter(|&&closed| closed == asked.date).count()
}

/// Only dates of some places are looked at for 23.
fn minds_closed(fault: Fault, looked_at: impl Fn(usize) -> bool) -> bool {
    match fault {
        Fault::Closed(place) => looked_at(place),
        _ => true,
    }
}

#[rustfmt::skip]
pub const MISCLOSED: [Miscalendar; 44] = [
    ("closed dates ignored", closing(|_| false)),
    ("closed dates ignored for windows", StandIn { window_is_closed: |_| false, ..SOUND }),
    ("closed dates ignored for the number of slots", StandIn { is_closed: |_| false, ..SOUND }),
    ("only the first closed date", closing(|asked| asked.closed.first() == Some(&asked.date))),
    ("only the last closed date", closing(|asked| asked.closed.last() == Some(&asked.date))),
    ("the first closed date left out", closing(|asked| asked.closed.iter().skip(1).any(|closed| *closed == asked.date))),
    ("the last closed date left out", closing(|asked| asked.closed.iter().rev().skip(1).any(|closed| *closed == asked.date))),
    ("31 closed dates looked at", closing(|asked| asked.closed.iter().take(31).any(|closed| *closed == asked.date))),
    ("16 closed dates looked at", closing(|asked| asked.closed.iter().take(16).any(|closed| *closed == asked.date))),
    ("closed every year", closing(|asked| any(asked, |closed, date| closed % 10_000 == date % 10_000))),
    ("closed on that day of each month", closing(|asked| any(asked, |closed, date| parts(closed)[2] == parts(date)[2] && parts(closed)[0] == parts(date)[0]))),
    ("closed the whole month", closing(|asked| any(asked, |closed, date| closed / 100 == date / 100))),
    ("closed the whole year", closing(|asked| any(asked, |closed, date| closed / 10_000 == date / 10_000))),
    ("closed by the weekday", closing(|asked| any(asked, |closed, date| weekday_of(closed) == weekday_of(date) && closed.abs_diff(date) < 60))),
    ("closed the day after too", closing(|asked| any(asked, |closed, date| closed == date || closed + 1 == date))),
    ("closed the day before too", closing(|asked| any(asked, |closed, date| closed == date || closed == date + 1))),
    ("closed dates in 16 bits", closing(|asked| any(asked, |closed, date| closed & 0xFFFF == date & 0xFFFF))),
    ("closed dates in 8 bits", closing(|asked| any(asked, |closed, date| closed & 0xFF == date & 0xFF))),
    ("day and month exchanged", closing(|asked| any(asked, |closed, date| { let [year, month, day] = parts(closed); closed == date || [year, day, month] == parts(date) }))),
    ("closed from the first to the last", closing(|asked| matches!(asked.closed[..], [first, .., last] if first <= asked.date && asked.date <= last) || times(asked) > 0)),
    ("closed twice is open", closing(|asked| times(asked) % 2 == 1)),
    ("closed where it is named twice only", closing(|asked| times(asked) > 1)),
    ("open but on closed dates", closing(|asked| times(asked) == 0 && !asked.closed.is_empty())),
    ("closed dates taken for rising", closing(|asked| asked.closed.binary_search(&asked.date).is_ok())),
    ("a later closed date ends the list", closing(|asked| asked.closed.iter().take_while(|&&closed| closed <= asked.date).any(|&closed| closed == asked.date))),
    ("a date behind the closed ones", StandIn { closed: |closed| closed.words_beyond(1), ..SOUND }),
    ("32 closed dates whatever their number", StandIn { closed: |closed| if closed.length() < MOST_CLOSED { closed.words_beyond(MOST_CLOSED - closed.length()) } else { closed.words() }, ..SOUND }),
    ("33 closed dates taken", minding(|asked, fault| fault != Fault::TooManyClosed || asked.closed.len() > 33)),
    ("any number of closed dates taken", minding(|_, fault| fault != Fault::TooManyClosed)),
    ("closed dates past the 32nd passed over", altering(|asked| asked.closed.truncate(MOST_CLOSED))),
    ("32 closed dates too many", objecting(|asked| asked.closed.len() >= MOST_CLOSED)),
    ("31 closed dates too many", objecting(|asked| asked.closed.len() >= MOST_CLOSED - 1)),
    ("like closed dates counted once", altering(|asked| { asked.closed.sort(); asked.closed.dedup() })),
    ("the number of closed dates in 8 bits", altering(|asked| { let count = asked.closed.len() & 0xFF; asked.closed.truncate(count) })),
    ("the number of closed dates in 16 bits", altering(|asked| { let count = asked.closed.len() & 0xFFFF; asked.closed.truncate(count) })),
    ("closed dates have to rise", objecting(|asked| asked.closed.windows(2).any(|pair| pair[0] >= pair[1]))),
    ("a date named twice refused", objecting(|asked| asked.closed.iter().enumerate().any(|(place, closed)| asked.closed[..place].contains(closed)))),
    ("a closed date gets 23", objecting(|asked| times(asked) > 0)),
    ("closed dates not held to the calendar", minding(|_, fault| !matches!(fault, Fault::Closed(_)))),
    ("only the first closed date held to the calendar", minding(|_, fault| minds_closed(fault, |place| place == 0))),
    ("the last closed date not held to the calendar", minding(|asked, fault| minds_closed(fault, |place| place + 1 < asked.closed.len()))),
    ("closed dates held to the calendar up to the date", minding(|asked, fault| minds_closed(fault, |place| !asked.closed[..place].contains(&asked.date)))),
    ("0 is no closed date and harmless", minding(|asked, fault| minds_closed(fault, |place| asked.closed[place] != 0))),
    ("closed dates by their ends only", StandIn { closed_weekday: Some(|number| (20000101..=20991231).contains(&number).then_some(0)), ..SOUND }),
];

/// What no call can tell: by these rules the same comes of everything.
#[rustfmt::skip]
pub const UNTOLD: [Miscalendar; 3] = [
    ("leap years without the centuries", dating(|number| by_months(number, |year, month| days_in(month, year % 4 == 0)))),
    ("dates by counting", dating(|number| by_months(number, gregorian))),
    ("weekdays of the Julian calendar from 2000 on", dating(|number| weekday_of(number).and_then(|_| { let before = parts(number)[0] - 2000; behind(day_of_year(parts(number)) + 365 * before + before.div_ceil(4)) }))),
];
