//! Mistakes in what the functions of opening hours and dates look at, in which order, and
//! in what they write (order 11), each as a stand-in that makes it.

use crate::calendar::{Asked, Fault, HOURS, LAST_MINUTE};
use crate::calendar_dates::weekday_of;
use crate::calendar_functions::Memory;
use crate::calendar_standin::{checked, hour, Found, StandIn, SOUND};
use crate::lent::Lent;
use crate::miscalendar::Miscalendar;
use crate::moving_standin::put;

// ---------------------------------------------------------------------------
// What is looked at
// ---------------------------------------------------------------------------

const fn minding(minds: fn(&Asked, Fault) -> bool) -> StandIn {
    StandIn { minds, ..SOUND }
}

const fn objecting(objects: fn(&Asked) -> bool) -> StandIn {
    StandIn { objects, ..SOUND }
}

const fn altering(alter: fn(&mut Asked)) -> StandIn {
    StandIn { alter, ..SOUND }
}

/// The weekday whose hour is bad.
fn weekday_at(fault: Fault) -> Option<usize> {
    match fault {
        Fault::Opening(weekday) | Fault::Closing(weekday) => Some(weekday),
        _ => None,
    }
}

fn opening_at(asked: &Asked, fault: Fault) -> Option<[u32; 2]> {
    weekday_at(fault).map(|weekday| [0, 1].map(|place| hour(&asked.hours, 2 * weekday + place)))
}

fn is_closed(asked: &Asked) -> bool {
    asked.closed.contains(&asked.date)
}

/// Whether the date is open for a time.
fn is_open(asked: &Asked) -> bool {
    let weekday = weekday_of(asked.date).unwrap_or_default();
    let [opening, closing] = [0, 1].map(|place| hour(&asked.hours, 2 * weekday + place));
    opening < closing && !is_closed(asked)
}

#[rustfmt::skip]
pub const MISJUDGED: [Miscalendar; 44] = [
    ("minutes of the date's weekday only", minding(|asked, fault| weekday_at(fault).is_none_or(|weekday| weekday_of(asked.date) == Some(weekday)))),
    ("minutes of other weekdays only", minding(|asked, fault| weekday_at(fault).is_none_or(|weekday| weekday_of(asked.date) != Some(weekday)))),
    ("minutes up to the date's weekday", minding(|asked, fault| weekday_at(fault).is_none_or(|weekday| weekday_of(asked.date).is_none_or(|today| weekday <= today)))),
    ("minutes not looked at", minding(|_, fault| weekday_at(fault).is_none())),
    ("opening minutes only", minding(|_, fault| !matches!(fault, Fault::Closing(_)))),
    ("closing minutes only", minding(|_, fault| !matches!(fault, Fault::Opening(_)))),
    ("minutes of Sunday not looked at", minding(|_, fault| weekday_at(fault) != Some(6))),
    ("minutes of Monday not looked at", minding(|_, fault| weekday_at(fault) != Some(0))),
    ("seven hours looked at", minding(|_, fault| !matches!(fault, Fault::Closing(3..)) && weekday_at(fault).is_none_or(|weekday| weekday < 4))),
    ("the closing of Sunday not looked at", minding(|_, fault| fault != Fault::Closing(6))),
    ("minutes of weekdays that open only", minding(|asked, fault| opening_at(asked, fault).is_none_or(|[opening, closing]| opening < closing))),
    ("closing at 1440 taken", minding(|asked, fault| !matches!(fault, Fault::Closing(_)) || opening_at(asked, fault).is_some_and(|hours| hours[1] != 1440))),
    ("opening at 1440 taken", minding(|asked, fault| !matches!(fault, Fault::Opening(_)) || opening_at(asked, fault).is_some_and(|hours| hours[0] != 1440))),
    ("arrival at 1440 taken", minding(|asked, fault| fault != Fault::Arrival || asked.train[0] != 1440)),
    ("departure at 1440 taken", minding(|asked, fault| fault != Fault::Departure || asked.train[1] != 1440)),
    ("arrival not looked at", minding(|_, fault| fault != Fault::Arrival)),
    ("departure not looked at", minding(|_, fault| fault != Fault::Departure)),
    ("hours up to 2359", minding(|asked, fault| opening_at(asked, fault).is_none_or(|hours| hours.iter().any(|&minute| minute > 2359)))),
    ("1439 refused for closing", objecting(|asked| (0..7).any(|weekday| hour(&asked.hours, 2 * weekday + 1) == LAST_MINUTE))),
    ("1439 refused for opening", objecting(|asked| (0..7).any(|weekday| hour(&asked.hours, 2 * weekday) == LAST_MINUTE))),
    ("0 refused for opening", objecting(|asked| (0..7).any(|weekday| hour(&asked.hours, 2 * weekday) == 0))),
    ("closing before opening refused", objecting(|asked| (0..7).any(|weekday| hour(&asked.hours, 2 * weekday + 1) < hour(&asked.hours, 2 * weekday)))),
    ("closing as it opens refused", objecting(|asked| (0..7).any(|weekday| hour(&asked.hours, 2 * weekday + 1) == hour(&asked.hours, 2 * weekday)))),
    ("hours in 16 bits", altering(|asked| asked.hours.iter_mut().for_each(|minute| *minute &= 0xFFFF))),
    ("hours in 8 bits", altering(|asked| asked.hours.iter_mut().for_each(|minute| *minute &= 0xFF))),
    ("hours in 31 bits", altering(|asked| asked.hours.iter_mut().for_each(|minute| *minute &= 0x7FFF_FFFF))),
    ("hours modulo a day", altering(|asked| asked.hours.iter_mut().for_each(|minute| *minute %= 1440))),
    ("the train's minutes in 16 bits", altering(|asked| asked.train = asked.train.map(|minute| minute & 0xFFFF))),
    ("the train's minutes in 31 bits", altering(|asked| asked.train = asked.train.map(|minute| minute & 0x7FFF_FFFF))),
    ("the train's minutes modulo a day", altering(|asked| asked.train = asked.train.map(|minute| minute % 1440))),
    ("the train's minutes cut at 1439", altering(|asked| asked.train = asked.train.map(|minute| minute.min(LAST_MINUTE)))),
    ("the train's minutes looked at for the slots", objecting(|asked| asked.train.iter().any(|&minute| minute > LAST_MINUTE))),
    ("slots of 0 minutes taken", minding(|asked, fault| fault != Fault::Length || asked.length != 0)),
    ("slots of 1441 minutes taken", minding(|asked, fault| fault != Fault::Length || asked.length != 1441)),
    ("slots of any length taken", minding(|asked, fault| fault != Fault::Length || asked.length == 0)),
    ("slots of 1440 minutes refused", objecting(|asked| asked.length == 1440)),
    ("slots of a minute refused", objecting(|asked| asked.length == 1)),
    ("slots in 16 bits", altering(|asked| asked.length &= 0xFFFF)),
    ("slots in 31 bits", altering(|asked| asked.length &= 0x7FFF_FFFF)),
    ("slots in 8 bits", altering(|asked| asked.length &= 0xFF)),
    ("nothing else looked at on a closed date", minding(|asked, fault| fault == Fault::Date || !is_closed(asked) || asked.closed.len() > 32)),
    ("the length not looked at on a closed date", minding(|asked, fault| fault != Fault::Length || !is_closed(asked))),
    ("the length not looked at where nothing is open", minding(|asked, fault| fault != Fault::Length || is_open(asked))),
    ("departure before arrival gets 23", objecting(|asked| asked.train[1] < asked.train[0])),
];

// ---------------------------------------------------------------------------
// Order, hours lent
// ---------------------------------------------------------------------------

const fn window_checking(window_checks: fn(Found) -> u64) -> StandIn {
    StandIn { window_checks, ..SOUND }
}

const fn checking(checks: fn(Found) -> u64) -> StandIn {
    StandIn { checks, ..SOUND }
}

/// Reads on where hours are missing.
const fn suffice(short: fn(usize) -> bool) -> StandIn {
    StandIn { short, hours: |hours| hours.words_beyond(HOURS), ..SOUND }
}

#[rustfmt::skip]
pub const MISCHECKED: [Miscalendar; 22] = [
    ("24 before 23", window_checking(|found| if found.none && !found.short { 24 } else { checked(found, 24) })),
    ("24 before 10", window_checking(|found| if found.none { 24 } else { checked(found, 24) })),
    ("23 before 10", StandIn { checks: |found| if found.bad { 23 } else { checked(found, 0) }, window_checks: |found| if found.bad { 23 } else { checked(found, 24) }, ..SOUND }),
    ("23 for 24", window_checking(|found| checked(found, 23))),
    ("24 for 23", window_checking(|found| match checked(found, 24) { 23 => 24, returned => returned })),
    ("3 for 23", window_checking(|found| match checked(found, 24) { 23 => 3, returned => returned })),
    ("5 for 24", window_checking(|found| checked(found, 5))),
    ("9 for 24", window_checking(|found| checked(found, 9))),
    ("0 and zeros for 24", window_checking(|found| checked(found, 0))),
    ("23 for 10", StandIn { checks: |found| if found.short { 23 } else { checked(found, 0) }, ..SOUND }),
    ("24 where a date has no slots", checking(|found| checked(found, 24))),
    ("23 where a date has no slots", checking(|found| checked(found, 23))),
    ("3 for 23 of slots", checking(|found| match checked(found, 0) { 23 => 3, returned => returned })),
    ("0 slots for 23", checking(|found| match checked(found, 0) { 23 => 0, returned => returned })),
    ("13 hours suffice", suffice(|hours| hours < 13)),
    ("12 hours suffice", suffice(|hours| hours < 12)),
    ("seven hours suffice", suffice(|hours| hours < 7)),
    ("any hours suffice", suffice(|_| false)),
    ("15 hours asked for", StandIn { short: |hours| hours < 15, ..SOUND }),
    ("exactly 14 hours asked for", StandIn { short: |hours| hours != HOURS, ..SOUND }),
    ("the number of hours in 8 bits", StandIn { short: |hours| hours & 0xFF < HOURS, ..SOUND }),
    ("the number of hours in 16 bits", StandIn { short: |hours| hours & 0xFFFF < HOURS, ..SOUND }),
];

// ---------------------------------------------------------------------------
// Memory
// ---------------------------------------------------------------------------

const fn touching(touch: fn(u64, &mut Memory)) -> StandIn {
    StandIn { touch, ..SOUND }
}

const fn touching_window(touch_window: fn(u64, &mut Memory)) -> StandIn {
    StandIn { touch_window, ..SOUND }
}

/// Leaves a number as it was after some refusals.
fn keep(after: &[u64], returned: u64, memory: &mut Memory) {
    if after.contains(&returned) {
        let Memory { slots, first, last, .. } = memory;
        [slots, first, last].into_iter().for_each(Lent::undo);
    }
}

/// Only the low bits of what was written are.
fn low_bits(memory: &mut Memory, bits: u32) {
    let Memory { slots, first, last, .. } = memory;
    for number in [slots, first, last] {
        let written = number.words()[0];
        number.undo();
        let low = written & !(u32::MAX << bits);
        let high = number.words()[0] & (u32::MAX << bits);
        put(number, 0, &[high | low]);
    }
}

#[rustfmt::skip]
pub const MISWRITTEN: [Miscalendar; 26] = [
    ("slots kept after 10", touching(|returned, memory| keep(&[10], returned, memory))),
    ("slots kept after 23", touching(|returned, memory| keep(&[23], returned, memory))),
    ("slots kept where there are none", touching(|returned, memory| if returned == 0 && memory.slots.words()[0] == 0 { memory.slots.undo() })),
    ("the window kept after 10", touching_window(|returned, memory| keep(&[10], returned, memory))),
    ("the window kept after 23", touching_window(|returned, memory| keep(&[23], returned, memory))),
    ("the window kept after 24", touching_window(|returned, memory| keep(&[24], returned, memory))),
    ("last kept after a refusal", touching_window(|returned, memory| if returned > 0 { memory.last.undo() })),
    ("first kept after a refusal", touching_window(|returned, memory| if returned > 0 { memory.first.undo() })),
    ("first 1 after 24", touching_window(|returned, memory| if returned == 24 { put(&mut memory.first, 0, &[1]) })),
    ("the refusal for the slots", touching(|returned, memory| if returned > 0 { put(&mut memory.slots, 0, &[returned as u32]) })),
    ("slots in 16 bits written", touching(|_, memory| low_bits(memory, 16))),
    ("the window in 16 bits written", touching_window(|_, memory| low_bits(memory, 16))),
    ("the window in 8 bits written", touching_window(|_, memory| low_bits(memory, 8))),
    ("slots in 64 bits written", touching(|_, memory| put(&mut memory.slots, 1, &[0]))),
    ("first in 64 bits written", touching_window(|_, memory| put(&mut memory.first, 1, &[0]))),
    ("last in 64 bits written", touching_window(|_, memory| put(&mut memory.last, 1, &[0]))),
    ("last behind first", touching_window(|_, memory| { let last = memory.last.words()[0]; put(&mut memory.first, 1, &[last]) })),
    ("closed dates put in order", StandIn { touch: |_, memory| sort_closed(memory), touch_window: |_, memory| sort_closed(memory), ..SOUND }),
    ("an hour changed", touching(|_, memory| if memory.hours.length() > 0 { let hour = memory.hours.words()[0]; put(&mut memory.hours, 0, &[hour ^ 1]) })),
    ("an hour cut at 1439", touching_window(|_, memory| for place in 0..memory.hours.length().min(HOURS) { let hour = memory.hours.words()[place]; put(&mut memory.hours, place, &[hour.min(LAST_MINUTE)]) })),
    ("missing hours written", touching_window(|returned, memory| if returned == 10 { let place = memory.hours.length(); put(&mut memory.hours, place, &[7]) })),
    ("hours beyond cleared", touching(|_, memory| if memory.hours.length() > HOURS { put(&mut memory.hours, HOURS, &[0]) })),
    ("a closed date forgotten", touching(|_, memory| if memory.closed.length() > 0 { put(&mut memory.closed, 0, &[0]) })),
    ("a closed date added", touching_window(|returned, memory| if returned == 24 { let place = memory.closed.length(); put(&mut memory.closed, place, &[0]) })),
    ("hours beyond looked at", StandIn { objects: |asked| asked.hours.iter().any(|&minute| minute > LAST_MINUTE), ..SOUND }),
    ("a word behind the hours looked at", StandIn { hours: |hours| hours.words_beyond(1), objects: |asked| asked.hours[asked.hours.len() - 1] > LAST_MINUTE, ..SOUND }),
];

fn sort_closed(memory: &mut Memory) {
    let mut closed = memory.closed.words().to_vec();
    closed.sort();
    put(&mut memory.closed, 0, &closed);
}
