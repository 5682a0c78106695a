//! What has to be seen of calendars, dates and trains, for what was seen too seldom has
//! not been tested.

use crate::calendar::{
    faults, first_and_last, fitting, used, Asked, Fault, Slot, HOURS, MOST_CLOSED, MOST_USED,
};
use crate::calendar_calls::CalendarCase;
use crate::calendar_dates::{weekday_of, WEEKDAYS};
use crate::seen::Seen;

/// Of faults: the one fault of all.
const ALONE: [&str; 17] = [
    "only the date is none",
    "only an opening minute of the weekday is bad",
    "only an opening minute of another weekday is bad",
    "only a closing minute of the weekday is bad",
    "only a closing minute of another weekday is bad",
    "only the first of several closed dates is none",
    "only a closed date between others is none",
    "only the last of several closed dates is none",
    "only the one closed date is none",
    "only the 32nd closed date is none",
    "only closed dates are too many",
    "only the slot length is 0",
    "only the slot length is 1441",
    "only the slot length is greater",
    "only arrival is bad",
    "only departure is bad",
    "only a minute is 1440",
];

/// Of several reasons.
const TOGETHER: [&str; 8] = [
    "23, and the date is closed",
    "23, and the weekday has no slot",
    "23, and departure is before arrival",
    "23 for two reasons",
    "10, and nothing else",
    "10, and a fault",
    "10, and the date is closed",
    "bad numbers beyond the hours, and no refusal",
];

/// Of slots on good dates.
const SLOTS: [&str; 10] = [
    "no slots, since closed",
    "no slots, closing as it opens",
    "no slots, closing before it opens",
    "no slots, open a minute less than one takes",
    "the last slot ends at closing",
    "closing a minute before the end of one more",
    "exactly eight fit",
    "exactly nine fit",
    "more than nine fit",
    "eight, the eighth ends at closing",
];

/// Of closed dates.
const CLOSED: [&str; 8] = [
    "closed, the first of several",
    "closed, the last of several",
    "closed, the 32nd",
    "closed, the only one",
    "closed twice",
    "not closed, 32 others are",
    "not closed, the day before is",
    "not closed, the day after is",
];

/// Of trains.
const TRAINS: [&str; 18] = [
    "arrival at the start of the first slot held",
    "arrival a minute after the start of a slot not held",
    "arrival a minute before the start of the first slot held",
    "departure at the end of the last slot held",
    "departure a minute before the end of a slot not held",
    "departure a minute after the end of the last slot held",
    "arrival before opening",
    "departure after closing",
    "24, arrival after the last start",
    "24, departure before the first end",
    "24, first above last",
    "24, departure before arrival",
    "24, arrival is departure",
    "24 though a ninth slot would do",
    "a window that a ninth slot would lengthen",
    "24 on a closed date",
    "24 on a weekday without slots",
    "24, a minute short of a slot",
];

/// Of dates.
const DATES: [&str; 5] = [
    "29 February",
    "1 March of a leap year",
    "1 March of a common year",
    "28 February of a leap year",
    "28 February of a common year",
];

/// Hours lent.
const LENT: [usize; 17] = [0, 1, 2, 3, 4, 5, 6, 7, 8, 9, 10, 11, 12, 13, 14, 15, 16];

fn lent(hours: usize) -> String {
    format!("{hours} hours lent")
}

fn given(slots: u32) -> String {
    format!("{slots} slots")
}

fn held([first, last]: [u32; 2]) -> String {
    format!("window {first} to {last}")
}

fn on(weekday: usize, window: bool) -> String {
    format!("{}, {}", WEEKDAYS[weekday], if window { "a window" } else { "24" })
}

fn first_of(month: u32) -> String {
    format!("the first of month {month}")
}

fn last_of(month: u32) -> String {
    format!("the last of month {month}")
}

fn year_of(year: u32) -> String {
    format!("year {year}")
}

pub fn required_calendars() -> Vec<String> {
    let lists: [&[&str]; 6] = [&ALONE, &TOGETHER, &SLOTS, &CLOSED, &TRAINS, &DATES];
    let mut required: Vec<String> = lists.concat().into_iter().map(str::to_string).collect();
    required.extend(LENT.map(lent));
    required.extend((0..=MOST_USED as u32).map(given));
    let windows = (1..=8).flat_map(|first| (first..=8).map(move |last| [first, last]));
    required.extend(windows.map(held));
    required.extend((0..7).flat_map(|weekday| [true, false].map(|window| on(weekday, window))));
    required.extend((1..=12).flat_map(|month| [first_of(month), last_of(month)]));
    required.extend((2000..=2099).map(year_of));
    required
}

fn note_list<const N: usize>(seen: &mut Seen, names: [&str; N], holds: [bool; N]) {
    names.into_iter().zip(holds).for_each(|(name, holds)| seen.note_if(holds, name));
}

/// What is given for the one fault.
fn note_alone(seen: &mut Seen, asked: &Asked, fault: Fault) {
    let is_own = |weekday: usize| weekday_of(asked.date) == Some(weekday);
    let (closed, [arrival, departure]) = (asked.closed.len(), asked.train);
    let minute = match fault {
        Fault::Opening(weekday) => asked.hours[2 * weekday],
        Fault::Closing(weekday) => asked.hours[2 * weekday + 1],
        Fault::Arrival => arrival,
        Fault::Departure => departure,
        _ => 0,
    };
    let between = |place: usize| place > 0 && place + 1 < closed;
    let kinds = [
        fault == Fault::Date,
        matches!(fault, Fault::Opening(weekday) if is_own(weekday)),
        matches!(fault, Fault::Opening(weekday) if !is_own(weekday)),
        matches!(fault, Fault::Closing(weekday) if is_own(weekday)),
        matches!(fault, Fault::Closing(weekday) if !is_own(weekday)),
        closed > 1 && fault == Fault::Closed(0),
        matches!(fault, Fault::Closed(place) if between(place)),
        matches!(fault, Fault::Closed(place) if closed > 1 && place + 1 == closed),
        closed == 1 && fault == Fault::Closed(0),
        fault == Fault::Closed(MOST_CLOSED - 1),
        fault == Fault::TooManyClosed,
        fault == Fault::Length && asked.length == 0,
        fault == Fault::Length && asked.length == 1441,
        fault == Fault::Length && asked.length > 1441,
        fault == Fault::Arrival,
        fault == Fault::Departure,
        minute == 1440,
    ];
    note_list(seen, ALONE, kinds);
}

/// Opening and closing of the date.
fn today(asked: &Asked) -> Option<[u32; 2]> {
    let weekday = weekday_of(asked.date)?;
    Some([*asked.hours.get(2 * weekday)?, *asked.hours.get(2 * weekday + 1)?])
}

fn note_together(seen: &mut Seen, case: &CalendarCase, faults: &[Fault]) {
    let (asked, refusal) = (&case.asked, case.window.0);
    let is_closed = asked.closed.contains(&asked.date);
    let backward = today(asked).is_some_and(|[opening, closing]| closing <= opening);
    let beyond = || asked.hours[HOURS..].iter().any(|&number| number > 1439);
    let kinds = [
        refusal == 23 && is_closed,
        refusal == 23 && backward,
        refusal == 23 && asked.train[1] < asked.train[0],
        refusal == 23 && faults.len() > 1,
        refusal == 10 && faults.is_empty(),
        refusal == 10 && !faults.is_empty(),
        refusal == 10 && is_closed,
        refusal == 0 && beyond(),
    ];
    note_list(seen, TOGETHER, kinds);
}

fn note_slots(seen: &mut Seen, asked: &Asked) {
    let [opening, closing] = today(asked).expect("the hours of a date");
    let (is_closed, fitting) = (asked.closed.contains(&asked.date), fitting(asked));
    let count = if is_closed { 0 } else { fitting.len() };
    let at_closing = fitting.last().is_some_and(|slot| slot.end == closing);
    let nearly = fitting.last().is_some_and(|slot| slot.end + asked.length == closing + 1);
    let kinds = [
        is_closed && closing > opening,
        !is_closed && closing == opening,
        !is_closed && closing < opening,
        !is_closed && count == 0 && opening + asked.length == closing + 1,
        at_closing,
        nearly,
        count == 8,
        count == 9,
        count > 9,
        count == 8 && at_closing,
    ];
    note_list(seen, SLOTS, kinds);
}

fn note_closed(seen: &mut Seen, Asked { closed, date, .. }: &Asked) {
    let places: Vec<usize> = (0..closed.len()).filter(|&place| closed[place] == *date).collect();
    let (once, several) = (places.len() == 1, closed.len() > 1);
    let kinds = [
        once && several && places == [0],
        once && several && places == [closed.len() - 1],
        once && places == [MOST_CLOSED - 1],
        once && !several,
        places.len() == 2,
        places.is_empty() && closed.len() == MOST_CLOSED,
        places.is_empty() && closed.contains(&(date - 1)),
        places.is_empty() && closed.contains(&(date + 1)),
    ];
    note_list(seen, CLOSED, kinds);
}

fn note_train(seen: &mut Seen, case: &CalendarCase) {
    let asked = &case.asked;
    let ([arrival, departure], slots, fitting) = (asked.train, used(asked), fitting(asked));
    let [opening, closing] = today(asked).expect("the hours of a date");
    let (refusal, [first, last]) = case.window;
    let slot = |number: u32| slots.get(number.checked_sub(1)? as usize).copied();
    let starts = |number: u32, minute: u32| slot(number).is_some_and(|slot| slot.start == minute);
    let ends = |number: u32, minute: u32| slot(number).is_some_and(|slot| slot.end == minute);
    let (given, none) = (refusal == 0, refusal == 24);
    let without = none && slots.is_empty();
    let is_closed = asked.closed.contains(&asked.date);
    let [earliest, latest] = first_and_last(&slots, asked.train);
    // Who counts the ninth.
    let fits = |slot: &Slot| slot.start >= arrival && slot.end <= departure;
    let ninth = fitting.get(MOST_USED).is_some_and(fits);
    let kinds = [
        given && starts(first, arrival),
        given && first > 1 && starts(first - 1, arrival.max(1) - 1),
        given && starts(first, arrival + 1),
        given && ends(last, departure),
        given && ends(last + 1, departure + 1),
        given && ends(last, departure.max(1) - 1),
        given && arrival < opening,
        given && departure > closing,
        none && !slots.is_empty() && earliest.is_none(),
        none && !slots.is_empty() && latest.is_none(),
        none && earliest.is_some() && latest.is_some() && arrival < departure,
        none && !slots.is_empty() && departure < arrival,
        none && !slots.is_empty() && departure == arrival,
        none && ninth,
        given && ninth,
        without && is_closed,
        without && !is_closed,
        none && !slots.is_empty() && arrival + asked.length == departure + 1,
    ];
    note_list(seen, TRAINS, kinds);
    if given {
        seen.note(&held([first, last]));
    }
    if !slots.is_empty() {
        let weekday = weekday_of(asked.date).expect("a date");
        seen.note(&on(weekday, given));
    }
}

fn note_date(seen: &mut Seen, date: u32) {
    let digits = format!("{date:08}");
    let [year, month, day] = [&digits[..4], &digits[4..6], &digits[6..]]
        .map(|digits| digits.parse::<u32>().expect("digits"));
    let is_leap = weekday_of(year * 10_000 + 229).is_some();
    let kinds = [
        (month, day) == (2, 29),
        (month, day) == (3, 1) && is_leap,
        (month, day) == (3, 1) && !is_leap,
        (month, day) == (2, 28) && is_leap,
        (month, day) == (2, 28) && !is_leap,
    ];
    note_list(seen, DATES, kinds);
    seen.note_if(day == 1, &first_of(month));
    seen.note_if(weekday_of(date + 1).is_none(), &last_of(month));
    seen.note(&year_of(year));
}

pub fn note_case(seen: &mut Seen, case: &CalendarCase) {
    let asked = &case.asked;
    let faults = faults(asked);
    seen.note_if(LENT.contains(&asked.hours.len()), &lent(asked.hours.len()));
    note_together(seen, case, &faults);
    if asked.hours.len() < HOURS {
        return;
    }
    if let [fault] = faults[..] {
        note_alone(seen, asked, fault);
    }
    if case.slots.0 == 0 {
        seen.note(&given(case.slots.1));
        note_slots(seen, asked);
        note_closed(seen, asked);
        note_date(seen, asked.date);
    }
    if matches!(case.window.0, 0 | 24) {
        note_train(seen, case);
    }
}
