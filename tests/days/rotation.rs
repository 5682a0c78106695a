//! What is not tried on every text. Planning a day of many trains takes its
//! time, and each way to lend memory to a call plans it again: on such days
//! the ways take turns. Very long memory is lent seldom.

use crate::case::Case;
use crate::model::{MOST_SLOTS, MOST_TRAINS};

/// Days of so many trains are planned a few times only.
const MANY_TRAINS: usize = 11;

/// A prime, so that the turns of `chosen` come here as well.
const SELDOM: usize = 11;

/// Whether the way of this number is tried on a text.
pub fn chosen(case: &Case, way: usize, ways: usize) -> bool {
    match &case.read {
        Ok(day) if day.trains.len() >= MANY_TRAINS => case.index % ways == way,
        _ => true,
    }
}

/// Whether very long memory is lent.
pub fn seldom(case: &Case) -> bool {
    case.index % SELDOM == 0
}

/// The trains and slots by which memory is lent: those of the day, or any where
/// the text has none.
pub fn supposed(case: &Case) -> (usize, usize) {
    match &case.read {
        Ok(day) => (day.trains.len(), day.slots),
        Err(_) => (1 + case.index % MOST_TRAINS, 1 + case.index % MOST_SLOTS),
    }
}
