//! The comparison of the two functions of opening hours and dates with what they have to
//! return and leave in lent memory (order 11 of 02, include/yard.h).

use crate::calendar::{slots_reply, window_reply, Asked};
use crate::calendar_functions::{Functions, Memory};
use crate::lent::{returned, Marks};

/// Something asked with what the two functions have to say, found once for all calls.
pub struct CalendarCase {
    /// The running number, by which marks take turns.
    pub index: usize,
    pub which: String,
    pub asked: Asked,
    pub slots: (usize, u32),
    pub window: (usize, [u32; 2]),
}

impl CalendarCase {
    pub fn new(index: usize, (which, asked): (String, Asked)) -> CalendarCase {
        let (slots, window) = (slots_reply(&asked), window_reply(&asked));
        CalendarCase { index, which, asked, slots, window }
    }
}

/// Nothing has changed but the numbers given, and they are these.
pub fn compare_slots(
    by: &dyn Functions,
    asked: &Asked,
    memory: &mut Memory,
    (refusal, slots): (usize, u32),
) -> Result<(), String> {
    let got = by.slots_on(asked, memory);
    let compared = returned(got, refusal).and_then(|()| memory.slots.holds(&[slots]));
    let compared = compared.and_then(|()| memory.hours.kept()).and_then(|()| memory.closed.kept());
    let compared = compared.and_then(|()| memory.first.kept()).and_then(|()| memory.last.kept());
    compared.map_err(|what| format!("yard_slots_on: {what}"))
}

pub fn compare_window(
    by: &dyn Functions,
    asked: &Asked,
    memory: &mut Memory,
    (refusal, [first, last]): (usize, [u32; 2]),
) -> Result<(), String> {
    let got = by.window(asked, memory);
    let compared = returned(got, refusal).and_then(|()| memory.first.holds(&[first]));
    let compared = compared.and_then(|()| memory.last.holds(&[last]));
    let compared = compared.and_then(|()| memory.hours.kept()).and_then(|()| memory.closed.kept());
    let compared = compared.and_then(|()| memory.slots.kept());
    compared.map_err(|what| format!("yard_window: {what}"))
}

/// Both functions, each in two kinds of marked memory, of which one holds no zeros. How
/// many calls were compared.
pub fn compare_both(by: &dyn Functions, case: &CalendarCase) -> Result<usize, String> {
    for turn in [case.index, case.index + 1] {
        let mut memory = Memory::of(&case.asked, Marks::of(turn));
        compare_slots(by, &case.asked, &mut memory, case.slots)?;
        memory.undo();
        compare_window(by, &case.asked, &mut memory, case.window)?;
    }
    Ok(4)
}
