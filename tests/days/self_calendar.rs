//! Mode self, its part on opening hours and dates (order 11): what was worked out by hand,
//! the walked calendar held to the C library's, slots held to a quotient, and that what
//! mode calendar asks tells each mistake.

use crate::calendar::{slots_between, slots_reply, used, window_reply, Slot};
use crate::calendar_calls::{compare_both, CalendarCase};
use crate::calendar_clock::{triples, weekday_by_clock};
use crate::calendar_dates::{century, weekday_of};
use crate::calendar_known::KNOWN_WINDOWS;
use crate::calendar_run::{drawn_asked, triple_asked};
use crate::calendar_special::{known_asked, special_asked, NO_DATES};
use crate::calendar_standin::{StandIn, SOUND};
use crate::groups::Tests;
use crate::miscalendar::{Miscalendar, MISCLOSED, MISDATED, UNTOLD};
use crate::miscalendar_checks::{MISCHECKED, MISJUDGED, MISWRITTEN};
use crate::miscalendar_days::{MISSLOTTED, MISWINDOWED};

/// Of what is asked so much has to tell a mistake; of what is at a limit there is little.
const LEAST_ASKED: usize = 5;

const DRAWN: usize = 2000;

fn check_known(tests: &mut Tests) {
    for known in &KNOWN_WINDOWS {
        let slots = known.slots.map_or_else(|refusal| (refusal, 0), |slots| (0, slots));
        let window = known.window.map_or_else(|refusal| (refusal, [0; 2]), |window| (0, window));
        let found = (slots_reply(&known.asked()), window_reply(&known.asked()));
        let what = format!("{}: {found:?}, by hand {slots:?} and {window:?}", known.name);
        tests.check(found == (slots, window), &what);
    }
}

/// 25 of a hundred years have a 29 February; the C library has the same dates.
fn check_dates(tests: &mut Tests) {
    let count = century().len();
    tests.check(count == 36_525, &format!("a century of {count} days"));
    let ends = [20000101, 20000229, 20991231].map(weekday_of);
    tests.check(ends == [Some(5), Some(1), Some(3)], &format!("weekdays {ends:?}"));
    let date = NO_DATES.into_iter().find(|&number| weekday_of(number).is_some());
    tests.check(date.is_none(), &format!("{date:?} is a date"));
    let apart = triples().find(|date| weekday_of(date.number()) != weekday_by_clock(*date));
    tests.check(apart.is_none(), &format!("{apart:?} isn't the same to the C library"));
}

/// As many slots as the quotient says, each as long as a slot, the first from opening on,
/// each where the one before ends.
fn is_even(opening: u32, closing: u32, length: u32) -> bool {
    let slots = slots_between(opening, closing, length);
    let follows = |(place, slot): (u32, &Slot)| {
        slot.start == opening + place * length && slot.end == slot.start + length
    };
    slots.len() as u32 == closing.saturating_sub(opening) / length && (0..).zip(&slots).all(follows)
}

/// Slots by a quotient (S5 of the settled points); a window lies in the slots of its date.
fn check_slots(tests: &mut Tests, cases: &[CalendarCase]) {
    for opening in [0, 1, 333, 1438, 1439] {
        for length in [1, 2, 3, 59, 60, 90, 180, 719, 1438, 1439, 1440] {
            let odd = (0..1440).find(|&closing| !is_even(opening, closing, length));
            tests.check(odd.is_none(), &format!("{opening} to {odd:?}, slots of {length}"));
        }
    }
    let holds = |case: &CalendarCase| {
        let [first, last] = case.window.1;
        let count = used(&case.asked).len() as u32;
        1 <= first && first <= last && last <= count && count == case.slots.1 && count <= 8
    };
    let odd = cases.iter().find(|case| case.window.0 == 0 && !holds(case));
    tests.check(
        odd.is_none(),
        &format!("a window beyond the slots: {:?}", odd.map(|case| &case.which)),
    );
}

/// Whether a call tells.
fn tells(case: &CalendarCase, by: &StandIn) -> bool {
    compare_both(by, case).is_err()
}

fn check_mistakes(tests: &mut Tests, cases: &[CalendarCase]) {
    let passes = |by: &StandIn| !cases.iter().any(|case| tells(case, by));
    tests.check(passes(&SOUND), "calendar: a stand-in without a mistake is told");
    for (name, by) in &UNTOLD {
        tests.check(passes(by), &format!("calendar, {name}: told, and can't be"));
    }
    let lists: [&[Miscalendar]; 7] =
        [&MISDATED, &MISCLOSED, &MISSLOTTED, &MISWINDOWED, &MISJUDGED, &MISCHECKED, &MISWRITTEN];
    for (name, by) in lists.concat() {
        let told = cases.iter().filter(|case| tells(case, &by)).take(LEAST_ASKED).count();
        let what = format!("calendar, {name}: told {told} times, {LEAST_ASKED} are needed");
        tests.check(told >= LEAST_ASKED, &what);
    }
}

pub fn check_calendar(tests: &mut Tests) {
    check_known(tests);
    check_dates(tests);
    let asked = known_asked().chain(drawn_asked().take(DRAWN)).chain(special_asked());
    // The dates last: few mistakes need them.
    let asked = asked.chain(triples().flat_map(triple_asked));
    let cases: Vec<CalendarCase> =
        asked.enumerate().map(|(index, named)| CalendarCase::new(index, named)).collect();
    check_slots(tests, &cases);
    check_mistakes(tests, &cases);
}
