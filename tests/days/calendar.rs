//! Order 11 of 02, opening hours and dates: what yard_slots_on and yard_window have to
//! give. Slots are a list, found by going through the open minutes one by one; a window
//! is what is left of that list. Dates stand in calendar_dates.rs.

use crate::calendar_dates::weekday_of;
use crate::plan::broken;

/// Opening and closing minute of each weekday, Monday first.
pub const HOURS: usize = 14;

pub const MOST_CLOSED: usize = 32;
pub const LAST_MINUTE: u32 = 1439;
pub const MOST_LENGTH: u32 = 1440;
pub const MOST_USED: usize = 8;

/// The numbers of the refusals.
pub const SHORT: usize = 10;
pub const OUT_OF_RANGE: usize = 23;
pub const NO_SLOT: usize = 24;

/// What is asked: a calendar, a date, and a train's arrival and departure minute.
#[derive(Clone, Debug, PartialEq)]
pub struct Asked {
    pub hours: Vec<u32>,
    pub length: u32,
    pub closed: Vec<u32>,
    pub date: u32,
    pub train: [u32; 2],
}

// ---------------------------------------------------------------------------
// What gets 23
// ---------------------------------------------------------------------------

/// Something that is out of range.
#[derive(Clone, Copy, Debug, PartialEq)]
pub enum Fault {
    Date,
    Opening(usize),
    Closing(usize),
    Closed(usize),
    TooManyClosed,
    Length,
    Arrival,
    Departure,
}

impl Fault {
    /// yard_slots_on is not asked about a train.
    pub fn is_of_train(self) -> bool {
        matches!(self, Fault::Arrival | Fault::Departure)
    }
}

/// All faults of a calendar, a date and a train. Fewer hours than 14 get 10 instead.
pub fn faults(asked: &Asked) -> Vec<Fault> {
    let mut faults = Vec::new();
    let mut note = |holds: bool, fault: Fault| faults.extend(holds.then_some(fault));
    note(weekday_of(asked.date).is_none(), Fault::Date);
    for (weekday, hours) in asked.hours.chunks(2).take(7).enumerate() {
        note(hours[0] > LAST_MINUTE, Fault::Opening(weekday));
        note(hours.get(1).is_some_and(|&minute| minute > LAST_MINUTE), Fault::Closing(weekday));
    }
    for (place, &closed) in asked.closed.iter().enumerate() {
        note(weekday_of(closed).is_none(), Fault::Closed(place));
    }
    note(asked.closed.len() > MOST_CLOSED, Fault::TooManyClosed);
    note(asked.length == 0 || asked.length > MOST_LENGTH, Fault::Length);
    let [arrival, departure] = asked.train;
    note(arrival > LAST_MINUTE, Fault::Arrival);
    note(departure > LAST_MINUTE, Fault::Departure);
    faults
}

// ---------------------------------------------------------------------------
// Slots and windows
// ---------------------------------------------------------------------------

/// The minutes at which a slot starts and ends.
#[derive(Clone, Copy, Debug, PartialEq)]
pub struct Slot {
    pub start: u32,
    pub end: u32,
}

/// All slots between two minutes, more than eight among them: whenever as many minutes
/// are over as a slot has, one has ended.
pub fn slots_between(opening: u32, closing: u32, length: u32) -> Vec<Slot> {
    let (mut slots, mut start, mut held) = (Vec::new(), opening, 0);
    for minute in opening..closing {
        held += 1;
        if held == length {
            slots.push(Slot { start, end: minute + 1 });
            (start, held) = (minute + 1, 0);
        }
    }
    slots
}

/// The slots that the date has room for; none on a closed date.
pub fn fitting(asked: &Asked) -> Vec<Slot> {
    let weekday = weekday_of(asked.date).expect("a date");
    let (opening, closing) = (asked.hours[2 * weekday], asked.hours[2 * weekday + 1]);
    if asked.closed.contains(&asked.date) || closing <= opening {
        return Vec::new();
    }
    slots_between(opening, closing, asked.length)
}

/// The slots used: the first eight.
pub fn used(asked: &Asked) -> Vec<Slot> {
    fitting(asked).into_iter().take(MOST_USED).collect()
}

/// Earliest slot starting at or after a minute and latest ending at or before one, each
/// by itself.
pub fn first_and_last(slots: &[Slot], train: [u32; 2]) -> [Option<usize>; 2] {
    let first = slots.iter().position(|slot| slot.start >= train[0]);
    let last = slots.iter().rposition(|slot| slot.end <= train[1]);
    [first, last].map(|place| place.map(|place| place + 1))
}

/// The window: the numbers of the slots that neither start before arrival nor end after
/// departure. It stops where these are not those from first to last.
pub fn window(slots: &[Slot], train: [u32; 2]) -> Option<[u32; 2]> {
    let within = |slot: &Slot| slot.start >= train[0] && slot.end <= train[1];
    let numbered = (1..).zip(slots);
    let held: Vec<usize> =
        numbered.filter(|(_, slot)| within(slot)).map(|(number, _)| number).collect();
    let by_ends = match first_and_last(slots, train) {
        [Some(first), Some(last)] => (first..=last).collect(),
        _ => Vec::new(),
    };
    if held != by_ends {
        broken(&format!("{slots:?} and {train:?}: {held:?}, but {by_ends:?} by first and last"));
    }
    Some([*held.first()? as u32, *held.last()? as u32])
}

// ---------------------------------------------------------------------------
// The two functions
// ---------------------------------------------------------------------------

/// What yard_slots_on returns, and the number of slots it gives.
pub fn slots_reply(asked: &Asked) -> (usize, u32) {
    if asked.hours.len() < HOURS {
        return (SHORT, 0);
    }
    match faults(asked).iter().any(|fault| !fault.is_of_train()) {
        true => (OUT_OF_RANGE, 0),
        false => (0, used(asked).len() as u32),
    }
}

/// What yard_window returns, and the first and last slot it gives.
pub fn window_reply(asked: &Asked) -> (usize, [u32; 2]) {
    if asked.hours.len() < HOURS {
        return (SHORT, [0; 2]);
    }
    if !faults(asked).is_empty() {
        return (OUT_OF_RANGE, [0; 2]);
    }
    match window(&used(asked), asked.train) {
        None => (NO_SLOT, [0; 2]),
        Some(window) => (0, window),
    }
}
