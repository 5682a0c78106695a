//! Mistakes about the slots of a day and the window of a train (order 11), each as a
//! stand-in that makes it.

use crate::calendar::{first_and_last, Slot, LAST_MINUTE, MOST_USED};
use crate::calendar_standin::{
    from_first_to_last as window, hour, some_slots, used_slots, StandIn, SOUND,
};
use crate::miscalendar::Miscalendar;

// ---------------------------------------------------------------------------
// Slots
// ---------------------------------------------------------------------------

type Slots = fn([u32; 2], u32) -> Vec<Slot>;

const fn parting(slots: Slots) -> StandIn {
    StandIn { slots, window_slots: slots, ..SOUND }
}

const fn opening(hours_on: fn(&[u32], usize) -> [u32; 2]) -> StandIn {
    StandIn { hours_on, ..SOUND }
}

/// More than any day has.
const ALL: usize = 1500;

/// The hours of a weekday, or of another one.
fn pair(hours: &[u32], weekday: usize) -> [u32; 2] {
    [hour(hours, 2 * weekday), hour(hours, 2 * weekday + 1)]
}

#[rustfmt::skip]
pub const MISSLOTTED: [Miscalendar; 32] = [
    ("a slot that ends at closing dropped", parting(|[opening, closing], length| used_slots([opening, closing.max(1) - 1], length))),
    ("a slot that ends a minute late counted", parting(|[opening, closing], length| if closing > opening { used_slots([opening, closing.saturating_add(1)], length) } else { Vec::new() })),
    ("a slot that starts before closing counted", parting(|[opening, closing], length| if closing > opening { used_slots([opening, closing.saturating_add(length.max(1) - 1)], length) } else { Vec::new() })),
    ("rounded to the nearest number of slots", parting(|[opening, closing], length| if closing > opening { used_slots([opening, closing.saturating_add(length / 2)], length) } else { Vec::new() })),
    ("nine slots used", parting(|hours, length| some_slots(hours, length, 9))),
    ("seven slots used", parting(|hours, length| some_slots(hours, length, 7))),
    ("twelve slots used", parting(|hours, length| some_slots(hours, length, 12))),
    ("all slots used", parting(|hours, length| some_slots(hours, length, ALL))),
    ("the last eight used", parting(|hours, length| { let slots = some_slots(hours, length, ALL); slots[slots.len().max(MOST_USED) - MOST_USED..].to_vec() })),
    ("none used where nine fit", parting(|hours, length| some_slots(hours, length, if some_slots(hours, length, 9).len() == 9 { 0 } else { 8 }))),
    ("none used where eight fit", parting(|hours, length| some_slots(hours, length, if used_slots(hours, length).len() == 8 { 0 } else { 8 }))),
    ("the number of slots in three bits", parting(|hours, length| { let slots = used_slots(hours, length); let count = slots.len() % 8; slots[..count].to_vec() })),
    ("the first slot left out", parting(|hours, length| used_slots(hours, length).into_iter().skip(1).collect())),
    ("the last slot left out", parting(|hours, length| { let mut slots = used_slots(hours, length); slots.pop(); slots })),
    ("slots from midnight on", parting(|hours, length| some_slots([0, hours[1]], length, ALL).into_iter().filter(|slot| slot.start >= hours[0]).take(MOST_USED).collect())),
    ("slots counted from closing", parting(|[opening, closing], length| { let slots = used_slots([opening, closing], length); let late = slots.last().map_or(0, |slot| closing - slot.end); slots.into_iter().map(|slot| Slot { start: slot.start + late, end: slot.end + late }).collect() })),
    ("a minute between slots", parting(|hours, length| spaced(hours, length, 1))),
    ("slots share a minute", parting(|hours, length| some_slots([hours[0], hours[1]], length.max(2) - 1, MOST_USED).into_iter().map(|slot| Slot { end: slot.start + length, ..slot }).filter(|slot| slot.end <= hours[1]).collect())),
    ("slots a minute longer", parting(|hours, length| used_slots(hours, length.saturating_add(1)))),
    ("slots a minute shorter", parting(|hours, length| used_slots(hours, length.max(2) - 1))),
    ("slots of an hour", parting(|hours, _| used_slots(hours, 60))),
    ("open over midnight", parting(|[opening, closing], length| used_slots([opening, if closing < opening { closing + 1440 } else { closing }], length))),
    ("opening and closing the same is a whole day", parting(|[opening, closing], length| used_slots([opening, if closing == opening { opening + 1440 } else { closing }], length))),
    ("opening and closing in any order", parting(|[opening, closing], length| used_slots([opening.min(closing), opening.max(closing)], length))),
    ("closing at 1439 is midnight", parting(|[opening, closing], length| used_slots([opening, if closing == LAST_MINUTE { 1440 } else { closing }], length))),
    ("opening at 0 is closed", parting(|hours, length| if hours[0] == 0 { Vec::new() } else { used_slots(hours, length) })),
    ("hours by columns", opening(|hours, weekday| [hour(hours, weekday), hour(hours, 7 + weekday)])),
    ("closing before opening in the hours", opening(|hours, weekday| { let [opening, closing] = pair(hours, weekday); [closing, opening] })),
    ("closing of the day before", opening(|hours, weekday| [hour(hours, 2 * weekday), hour(hours, (2 * weekday + 13) % 14)])),
    ("the hours of Monday every day", opening(|hours, _| pair(hours, 0))),
    ("no slots on Sundays", opening(|hours, weekday| if weekday == 6 { [0, 0] } else { pair(hours, weekday) })),
    ("the hours of Saturday on Sundays", opening(|hours, weekday| pair(hours, weekday.min(5)))),
];

/// Slots with minutes between them.
fn spaced([opening, closing]: [u32; 2], length: u32, between: u32) -> Vec<Slot> {
    let slots = some_slots([opening, closing], length.saturating_add(between), ALL);
    let next = slots.last().map_or(opening, |slot| slot.end);
    let whole = slots.into_iter().map(|slot| Slot { end: slot.end - between, ..slot });
    whole.chain(some_slots([next, closing], length, 1)).take(MOST_USED).collect()
}

// ---------------------------------------------------------------------------
// Windows
// ---------------------------------------------------------------------------

const fn holding(window: fn(&[Slot], [u32; 2]) -> Option<[u32; 2]>) -> StandIn {
    StandIn { window, ..SOUND }
}

/// The window from the first slot of one kind to the last of another.
fn from_to(
    slots: &[Slot],
    first: impl Fn(&Slot) -> bool,
    last: impl Fn(&Slot) -> bool,
) -> Option<[u32; 2]> {
    let first = slots.iter().position(first)?;
    let last = slots.iter().rposition(last)?;
    (first <= last).then_some([first as u32 + 1, last as u32 + 1])
}

/// Earliest and latest, with something else made of their places.
fn of_ends(
    slots: &[Slot],
    train: [u32; 2],
    of: fn(Option<u32>, Option<u32>, u32) -> Option<[u32; 2]>,
) -> Option<[u32; 2]> {
    let [first, last] = first_and_last(slots, train).map(|place| place.map(|place| place as u32));
    of(first, last, slots.len() as u32)
}

#[rustfmt::skip]
pub const MISWINDOWED: [Miscalendar; 33] = [
    ("first only after arrival", holding(|slots, [arrival, departure]| from_to(slots, |slot| slot.start > arrival, |slot| slot.end <= departure))),
    ("last only before departure", holding(|slots, [arrival, departure]| from_to(slots, |slot| slot.start >= arrival, |slot| slot.end < departure))),
    ("both strictly", holding(|slots, [arrival, departure]| from_to(slots, |slot| slot.start > arrival, |slot| slot.end < departure))),
    ("a minute's delay forgiven", holding(|slots, [arrival, departure]| from_to(slots, |slot| slot.start + 1 >= arrival, |slot| slot.end <= departure))),
    ("a minute after departure forgiven", holding(|slots, [arrival, departure]| from_to(slots, |slot| slot.start >= arrival, |slot| slot.end <= departure + 1))),
    ("first by its end", holding(|slots, [arrival, departure]| from_to(slots, |slot| slot.end >= arrival, |slot| slot.end <= departure))),
    ("first the slot of arrival", holding(|slots, [arrival, departure]| from_to(slots, |slot| slot.end > arrival, |slot| slot.end <= departure))),
    ("last by its start", holding(|slots, [arrival, departure]| from_to(slots, |slot| slot.start >= arrival, |slot| slot.start <= departure))),
    ("last the slot of departure", holding(|slots, [arrival, departure]| from_to(slots, |slot| slot.start >= arrival, |slot| slot.start < departure))),
    ("each slot that the train is there for a part of", holding(|slots, [arrival, departure]| from_to(slots, |slot| slot.end > arrival, |slot| slot.start < departure))),
    ("first by departure, last by arrival", holding(|slots, [arrival, departure]| window(slots, [departure, arrival]))),
    ("arrival and departure in any order", holding(|slots, [arrival, departure]| window(slots, [arrival.min(departure), arrival.max(departure)]))),
    ("departure before arrival is the day after", holding(|slots, [arrival, departure]| window(slots, [arrival, if departure < arrival { departure + 1440 } else { departure }]))),
    ("first above last given", holding(|slots, train| of_ends(slots, train, |first, last, _| Some([first?, last?])))),
    ("first above last exchanged", holding(|slots, train| of_ends(slots, train, |first, last, _| Some([first?.min(last?), first?.max(last?)])))),
    ("first above last is first alone", holding(|slots, train| of_ends(slots, train, |first, last, _| Some([first?, first?.max(last?)])))),
    ("first above last by two or more only", holding(|slots, train| of_ends(slots, train, |first, last, _| Some([first?, last?]).filter(|[first, last]| *first <= last + 1)))),
    ("first 1 where there is none", holding(|slots, train| of_ends(slots, train, |first, last, _| Some([first.unwrap_or(1), last?]).filter(|[first, last]| first <= last)))),
    ("last the last of all where there is none", holding(|slots, train| of_ends(slots, train, |first, last, count| Some([first?, last.unwrap_or(count)])))),
    ("no window of a single slot", holding(|slots, train| window(slots, train).filter(|[first, last]| first < last))),
    ("no window of all slots", holding(|slots, train| window(slots, train).filter(|[first, last]| *first > 1 || (*last as usize) < slots.len()))),
    ("slots counted from 0", holding(|slots, train| window(slots, train).map(|[first, last]| [first - 1, last - 1]))),
    ("last beyond the window", holding(|slots, train| window(slots, train).map(|[first, last]| [first, last + 1]))),
    ("the number of slots for last", holding(|slots, train| window(slots, train).map(|[first, last]| [first, last - first + 1]))),
    ("first and last exchanged", holding(|slots, train| window(slots, train).map(|[first, last]| [last, first]))),
    ("last the last of all", holding(|slots, train| window(slots, train).map(|[first, _]| [first, slots.len() as u32]))),
    ("first the first of all", holding(|slots, train| window(slots, train).map(|[_, last]| [1, last]))),
    ("first alone", holding(|slots, train| window(slots, train).map(|[first, _]| [first, first]))),
    ("no window before opening", holding(|slots, train| window(slots, train).filter(|_| slots[0].start <= train[0]))),
    ("no window after the last slot", holding(|slots, train| window(slots, train).filter(|_| slots[slots.len() - 1].end >= train[1]))),
    ("a window among nine slots", StandIn { window_slots: |hours, length| some_slots(hours, length, 9), ..SOUND }),
    ("a window among all slots", StandIn { window_slots: |hours, length| some_slots(hours, length, ALL), ..SOUND }),
    ("a window among all slots, cut to eight", StandIn { window_slots: |hours, length| some_slots(hours, length, ALL), window: |slots, train| window(slots, train).map(|window| window.map(|slot| slot.min(8))), ..SOUND }),
];
