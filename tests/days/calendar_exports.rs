//! The functions of opening hours and dates on top of this program's own calendar, for
//! building with `--cfg calendar_standin` where the library hasn't them. They prove
//! nothing; they let the mode run.

use crate::calendar::Asked;
use crate::calendar_standin::SOUND;
use std::slice::from_raw_parts;

/// # Safety
/// As yard.h asks.
pub unsafe extern "C" fn yard_slots_on(
    hours: *const u32,
    hours_length: usize,
    slot_minutes: u32,
    closed: *const u32,
    closed_length: usize,
    date: u32,
    slots: *mut u32,
) -> u64 {
    let hours = unsafe { from_raw_parts(hours, hours_length) }.to_vec();
    let closed = unsafe { from_raw_parts(closed, closed_length) }.to_vec();
    let asked = Asked { hours, length: slot_minutes, closed, date, train: [0; 2] };
    let (returned, given) = SOUND.answer_slots(hours_length, asked);
    unsafe { *slots = given };
    returned
}

/// # Safety
/// As yard.h asks.
pub unsafe extern "C" fn yard_window(
    hours: *const u32,
    hours_length: usize,
    slot_minutes: u32,
    closed: *const u32,
    closed_length: usize,
    date: u32,
    arrival: u32,
    departure: u32,
    first: *mut u32,
    last: *mut u32,
) -> u64 {
    let hours = unsafe { from_raw_parts(hours, hours_length) }.to_vec();
    let closed = unsafe { from_raw_parts(closed, closed_length) }.to_vec();
    let asked = Asked { hours, length: slot_minutes, closed, date, train: [arrival, departure] };
    let (returned, given) = SOUND.answer_window(hours_length, asked);
    unsafe { [*first, *last] = given };
    returned
}
