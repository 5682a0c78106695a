//! Mode calendar: opening hours, dates and trains through the two functions of the
//! library.

use crate::calendar::{Asked, HOURS, MOST_CLOSED};
use crate::calendar_calls::{compare_both, compare_slots, CalendarCase};
use crate::calendar_clock::{triples, weekday_by_clock};
use crate::calendar_dates::{century, weekday_of, Date};
use crate::calendar_draw::draw_asked;
use crate::calendar_functions::{Functions, Library, Memory};
use crate::calendar_known::KNOWN_WINDOWS;
use crate::calendar_seen::{note_case, required_calendars};
use crate::calendar_special::{known_asked, special_asked, NamedAsked};
use crate::draw::Random;
use crate::groups::{Tests, MOST_DIFFERENCES};
use crate::header;
use crate::lent::Marks;
use crate::seen::{require_all, Seen};
use crate::threads::at_once;
use std::time::Instant;

const DRAWN: usize = 12_000;
const DRAWN_SEED: u64 = 61_000_000;

/// Asked by threads at once.
const AT_ONCE: usize = 2000;

const LEAST_SEEN: usize = 20;

/// Calendars and trains drawn each by a seed of its own.
pub fn drawn_asked() -> impl Iterator<Item = NamedAsked> {
    (DRAWN_SEED..).map(|seed| (format!("seed {seed}"), draw_asked(&mut Random(seed))))
}

/// The sizes and dates of the header are those of order 11.
fn check_sizes(tests: &mut Tests) {
    let ends = [century().first(), century().last()];
    let [first, last] = ends.map(|end| end.expect("a date").0.number() as usize);
    let sizes = [
        ("YARD_HOURS", header::HOURS, HOURS),
        ("YARD_MOST_CLOSED_DATES", header::MOST_CLOSED_DATES, MOST_CLOSED),
        ("YARD_FIRST_DATE", header::FIRST_DATE, first),
        ("YARD_LAST_DATE", header::LAST_DATE, last),
    ];
    for (name, size, wanted) in sizes {
        tests.check(size == wanted, &format!("{name} is {size}, not {wanted}"));
    }
}

/// What was worked out by hand, straight against the library.
fn check_known(tests: &mut Tests) {
    for (index, known) in KNOWN_WINDOWS.iter().enumerate() {
        let slots = known.slots.map_or_else(|refusal| (refusal, 0), |slots| (0, slots));
        let window = known.window.map_or_else(|refusal| (refusal, [0; 2]), |window| (0, window));
        let case = CalendarCase {
            index,
            which: known.name.to_string(),
            asked: known.asked(),
            slots,
            window,
        };
        let compared = compare_both(&Library, &case);
        tests.check(compared.is_ok(), &format!("{}: {compared:?}", known.name));
    }
}

// ---------------------------------------------------------------------------
// Every date
// ---------------------------------------------------------------------------

/// Monday has one slot of an hour, Sunday seven.
const COUNTING: [u32; HOURS] =
    [600, 660, 600, 720, 600, 780, 600, 840, 600, 900, 600, 960, 600, 1020];

/// A Monday.
const LEAP_DAY: u32 = 20440229;

fn counting(date: u32, closed: Vec<u32>) -> Asked {
    Asked { hours: COUNTING.to_vec(), length: 60, closed, date, train: [600, 1439] }
}

/// A number like a date as the date, and as the closed date of another one.
pub fn triple_asked(date: Date) -> [NamedAsked; 2] {
    let number = date.number();
    let closed = counting(LEAP_DAY, vec![number]);
    [(format!("{number}"), counting(number, Vec::new())), (format!("{number} closed"), closed)]
}

/// The same with what has to come of it, by the C library alone.
fn triple_cases(index: usize, date: Date) -> [CalendarCase; 2] {
    let [(which, asked), (which_closed, asked_closed)] = triple_asked(date);
    let given = |slots: u32| match slots {
        0 => ((0, 0), (24, [0; 2])),
        slots => ((0, slots), (0, [1, slots])),
    };
    let bad = ((23, 0), (23, [0; 2]));
    let weekday = weekday_by_clock(date);
    let (slots, window) = weekday.map_or(bad, |weekday| given(weekday as u32 + 1));
    let as_date = CalendarCase { index, which, asked, slots, window };
    let open = u32::from(date.number() != LEAP_DAY);
    let (slots, window) = weekday.map_or(bad, |_| given(open));
    let index = index + 1;
    [as_date, CalendarCase { index, which: which_closed, asked: asked_closed, slots, window }]
}

/// Years around the century, and months and days of two digits.
const YEARS: std::ops::RangeInclusive<u32> = 1998..=2101;
const NUMBERS: u32 = 10_000;

/// Every number of a year as a date, real or not, by the walked calendar.
fn compare_year(by: &dyn Functions, year: u32) -> Result<(), String> {
    let marks = Marks::of(year as usize);
    let mut asked = counting(LEAP_DAY, Vec::new());
    let mut memory = Memory::of(&asked, marks);
    for number in year * NUMBERS..(year + 1) * NUMBERS {
        asked.date = number;
        let wanted = weekday_of(number).map_or((23, 0), |weekday| (0, weekday as u32 + 1));
        compare_slots(by, &asked, &mut memory, wanted)
            .map_err(|what| format!("{number}: {what}"))?;
        memory.undo();
    }
    Ok(())
}

// ---------------------------------------------------------------------------
// The mode
// ---------------------------------------------------------------------------

/// The running test.
struct Run {
    tests: Tests<'static>,
    seen: Seen,
    index: usize,
    started: Instant,
}

impl Run {
    /// Several calls of both functions for each calendar and train.
    fn group(&mut self, name: &str, all: impl Iterator<Item = NamedAsked>) {
        let (mut count, before) = (0, self.tests.passed);
        for named in all {
            if self.tests.stopped() {
                break;
            }
            let case = CalendarCase::new(self.index, named);
            self.index += 1;
            count += 1;
            note_case(&mut self.seen, &case);
            match compare_both(&Library, &case) {
                Ok(calls) => self.tests.passed += calls,
                Err(what) => self.differs(name, &case, &what),
            }
        }
        self.told(name, count, before);
    }

    fn differs(&mut self, group: &str, case: &CalendarCase, what: &str) {
        let CalendarCase { which, asked, .. } = case;
        let some = |all: &[u32]| all.iter().take(64).copied().collect::<Vec<u32>>();
        let (hours, closed) = (some(&asked.hours), some(&asked.closed));
        let Asked { length, date, train, .. } = asked;
        let asked = format!(
            "hours {hours:?}, slots of {length}, closed {closed:?}, date {date}, train {train:?}"
        );
        self.tests.fail(&format!("group {group}, {which}\n  {asked}\n  {what}"));
    }

    /// Each number like a date counts once.
    fn triples(&mut self) {
        let (mut count, before) = (0, self.tests.passed);
        for date in triples() {
            if self.tests.stopped() {
                break;
            }
            count += 1;
            let mut compared = Ok(());
            for case in triple_cases(count, date) {
                if let Err(what) = compare_both(&Library, &case) {
                    compared = Err((case, what));
                }
            }
            match compared {
                Ok(()) => self.tests.passed += 1,
                Err((case, what)) => self.differs("clock", &case, &what),
            }
        }
        self.told("clock", count, before);
    }

    /// Each year counts once.
    fn years(&mut self) {
        let before = self.tests.passed;
        for year in YEARS {
            let compared = compare_year(&Library, year);
            self.tests.check(compared.is_ok(), &format!("year {year}: {compared:?}"));
        }
        self.told("years", YEARS.count(), before);
    }

    fn told(&self, name: &str, count: usize, before: usize) {
        let (compared, spent) = (self.tests.passed - before, self.started.elapsed().as_secs_f32());
        println!("{name:<8} {count:>6} asked, {compared:>6} comparisons, {spent:>4.1} s so far");
    }
}

/// By yard.h the functions keep no state: each thread asks the same, beginning at a place
/// of its own.
fn compare_threads(tests: &mut Tests) {
    let numbered = drawn_asked().take(AT_ONCE).enumerate();
    let cases: Vec<CalendarCase> =
        numbered.map(|(index, named)| CalendarCase::new(index, named)).collect();
    at_once(tests, |index| {
        for case in cases.iter().cycle().skip(index * AT_ONCE / 4).take(AT_ONCE) {
            compare_both(&Library, case).map_err(|what| format!("{}: {what}", case.which))?;
        }
        Ok(())
    });
}

pub fn calendar_of_dates() -> bool {
    let (tests, started) = (Tests::new(""), Instant::now());
    let mut run = Run { tests, seen: Seen::default(), index: 0, started };
    check_sizes(&mut run.tests);
    check_known(&mut run.tests);
    run.group("known", known_asked());
    run.group("drawn", drawn_asked().take(DRAWN));
    run.group("special", special_asked().into_iter());
    run.triples();
    run.years();
    if run.tests.stopped() {
        println!("stopped after {MOST_DIFFERENCES} differences");
        return run.tests.finish();
    }
    require_all(&mut run.tests, &run.seen, &required_calendars(), LEAST_SEEN);
    compare_threads(&mut run.tests);
    run.tests.finish()
}
