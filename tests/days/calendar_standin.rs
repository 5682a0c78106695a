//! A stand-in of the two functions of opening hours and dates, by rules of the caller's
//! choice. Mode self gives it mistakes, and the comparison has to tell them.

use crate::calendar::{
    first_and_last, Asked, Fault, Slot, HOURS, LAST_MINUTE, MOST_CLOSED, MOST_LENGTH, MOST_USED,
    NO_SLOT, OUT_OF_RANGE, SHORT,
};
use crate::calendar_dates::weekday_of;
use crate::calendar_functions::{Functions, Memory};
use crate::lent::Lent;
use crate::moving_standin::put;

/// What a call found out.
#[derive(Clone, Copy)]
pub struct Found {
    /// Hours are too few; something is out of range; the train has no slot.
    pub short: bool,
    pub bad: bool,
    pub none: bool,
}

/// The weekday of a number, Monday first, or that it is no date.
pub type Weekday = fn(u32) -> Option<usize>;

#[derive(Clone, Copy)]
pub struct StandIn {
    /// What is read of the memory.
    pub hours: fn(&Lent<u32>) -> &[u32],
    pub closed: fn(&Lent<u32>) -> &[u32],
    /// Changes what was read, before anything is looked at.
    pub alter: fn(&mut Asked),
    /// Whether so many hours are too few.
    pub short: fn(usize) -> bool,
    pub weekday: Weekday,
    /// Another calendar for the closed dates.
    pub closed_weekday: Option<Weekday>,
    /// Whether something out of range is minded, and other reasons for 23.
    pub minds: fn(&Asked, Fault) -> bool,
    pub objects: fn(&Asked) -> bool,
    /// Whether the date is closed, to yard_slots_on and to yard_window.
    pub is_closed: fn(&Asked) -> bool,
    pub window_is_closed: fn(&Asked) -> bool,
    pub hours_on: fn(&[u32], usize) -> [u32; 2],
    /// The used slots between two minutes, and those that a window is found among.
    pub slots: fn([u32; 2], u32) -> Vec<Slot>,
    pub window_slots: fn([u32; 2], u32) -> Vec<Slot>,
    pub window: fn(&[Slot], [u32; 2]) -> Option<[u32; 2]>,
    /// What yard_slots_on returns, which is told that there is no slot, and yard_window.
    pub checks: fn(Found) -> u64,
    pub window_checks: fn(Found) -> u64,
    /// Write on after the call has written; they know what is returned.
    pub touch: fn(u64, &mut Memory),
    pub touch_window: fn(u64, &mut Memory),
}

pub const SOUND: StandIn = StandIn {
    hours: |hours| hours.words(),
    closed: |closed| closed.words(),
    alter: |_| {},
    short: |hours| hours < HOURS,
    weekday: weekday_of,
    closed_weekday: None,
    minds: |_, _| true,
    objects: |_| false,
    is_closed: |asked| asked.closed.contains(&asked.date),
    window_is_closed: |asked| asked.closed.contains(&asked.date),
    hours_on: |hours, weekday| [2 * weekday, 2 * weekday + 1].map(|place| hour(hours, place)),
    slots: used_slots,
    window_slots: used_slots,
    window: from_first_to_last,
    checks: |found| checked(found, 0),
    window_checks: |found| checked(found, NO_SLOT),
    touch: |_, _| {},
    touch_window: |_, _| {},
};

/// 10 before 23 before what is returned where there is no slot.
pub fn checked(found: Found, no_slot: usize) -> u64 {
    let refusal = match found {
        Found { short: true, .. } => SHORT,
        Found { bad: true, .. } => OUT_OF_RANGE,
        Found { none: true, .. } => no_slot,
        _ => 0,
    };
    refusal as u64
}

/// Who takes too few hours for enough finds 0 beyond them.
pub fn hour(hours: &[u32], place: usize) -> u32 {
    hours.get(place).copied().unwrap_or_default()
}

/// Slots by adding up their length, so many at most. Mistakes let in any numbers.
pub fn some_slots([opening, closing]: [u32; 2], length: u32, most: usize) -> Vec<Slot> {
    let ends = (0..most as u64).map(|slot| {
        let start = u64::from(opening) + slot * u64::from(length);
        (start, start + u64::from(length))
    });
    let fitting = ends.take_while(|(_, end)| *end <= u64::from(closing));
    fitting.map(|(start, end)| Slot { start: start as u32, end: end as u32 }).collect()
}

pub fn used_slots(hours: [u32; 2], length: u32) -> Vec<Slot> {
    some_slots(hours, length, MOST_USED)
}

/// The window by the words of the order. Mistakes let in slots of any kind.
pub fn from_first_to_last(slots: &[Slot], train: [u32; 2]) -> Option<[u32; 2]> {
    let [first, last] = first_and_last(slots, train);
    let (first, last) = (first?, last?);
    (first <= last).then_some([first as u32, last as u32])
}

impl StandIn {
    /// What is out of range, by its own calendar, and minded.
    fn is_bad(&self, asked: &Asked, train: bool) -> bool {
        let minds = |holds: bool, fault: Fault| holds && (self.minds)(asked, fault);
        let closed_weekday = self.closed_weekday.unwrap_or(self.weekday);
        let is_great = |place: usize| hour(&asked.hours, place) > LAST_MINUTE;
        let mut closed = asked.closed.iter().enumerate();
        minds((self.weekday)(asked.date).is_none(), Fault::Date)
            || (0..7).any(|weekday| minds(is_great(2 * weekday), Fault::Opening(weekday)))
            || (0..7).any(|weekday| minds(is_great(2 * weekday + 1), Fault::Closing(weekday)))
            || minds(asked.closed.len() > MOST_CLOSED, Fault::TooManyClosed)
            || closed
                .any(|(place, &date)| minds(closed_weekday(date).is_none(), Fault::Closed(place)))
            || minds(asked.length == 0 || asked.length > MOST_LENGTH, Fault::Length)
            || train && minds(asked.train[0] > LAST_MINUTE, Fault::Arrival)
            || train && minds(asked.train[1] > LAST_MINUTE, Fault::Departure)
            || (self.objects)(asked)
    }

    /// The slots of an open date.
    fn slots_of(&self, asked: &Asked, slots: fn([u32; 2], u32) -> Vec<Slot>) -> Vec<Slot> {
        let weekday = (self.weekday)(asked.date);
        let hours = weekday.map(|weekday| (self.hours_on)(&asked.hours, weekday));
        hours.map_or(Vec::new(), |hours| slots(hours, asked.length))
    }

    /// What yard_slots_on gives for so many hours lent.
    pub fn answer_slots(&self, lent: usize, mut asked: Asked) -> (u64, u32) {
        (self.alter)(&mut asked);
        let (short, bad) = ((self.short)(lent), self.is_bad(&asked, false));
        let slots = match (self.is_closed)(&asked) {
            true => 0,
            false => self.slots_of(&asked, self.slots).len() as u32,
        };
        let returned = (self.checks)(Found { short, bad, none: slots == 0 });
        (returned, if returned == 0 { slots } else { 0 })
    }

    /// What yard_window gives.
    pub fn answer_window(&self, lent: usize, mut asked: Asked) -> (u64, [u32; 2]) {
        (self.alter)(&mut asked);
        let (short, bad) = ((self.short)(lent), self.is_bad(&asked, true));
        let slots = match (self.window_is_closed)(&asked) {
            true => Vec::new(),
            false => self.slots_of(&asked, self.window_slots),
        };
        let window = (self.window)(&slots, asked.train);
        let returned = (self.window_checks)(Found { short, bad, none: window.is_none() });
        (returned, window.filter(|_| returned == 0).unwrap_or_default())
    }

    fn read(&self, asked: &Asked, memory: &Memory) -> Asked {
        let hours = (self.hours)(&memory.hours).to_vec();
        let closed = (self.closed)(&memory.closed).to_vec();
        Asked { hours, closed, ..*asked }
    }
}

impl Functions for StandIn {
    fn slots_on(&self, asked: &Asked, memory: &mut Memory) -> u64 {
        let asked = self.read(asked, memory);
        let (returned, slots) = self.answer_slots(memory.hours.length(), asked);
        put(&mut memory.slots, 0, &[slots]);
        (self.touch)(returned, memory);
        returned
    }

    fn window(&self, asked: &Asked, memory: &mut Memory) -> u64 {
        let asked = self.read(asked, memory);
        let (returned, [first, last]) = self.answer_window(memory.hours.length(), asked);
        put(&mut memory.first, 0, &[first]);
        put(&mut memory.last, 0, &[last]);
        (self.touch_window)(returned, memory);
        returned
    }
}
