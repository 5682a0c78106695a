//! Valuing any bytes as a row of slots (01, The calls): refusals 11, 12, 13 and
//! by order 4 of 02 17, in this order, or the model's four numbers.

use crate::case::Outcome;
use crate::model::{value, within_windows, Day};
use crate::plan::{allowed, broken};
use crate::sets;

/// The positions, counted from 0, whose slot lies outside their window; where
/// there are fewer slots than trains or more, of those that have both.
pub fn outside(day: &Day, slots: &[u8]) -> Vec<usize> {
    let inside = |k: usize| {
        let slot = usize::from(slots[k]);
        day.trains[k].first <= slot && slot <= day.trains[k].last
    };
    (0..slots.len().min(day.trains.len())).filter(|&k| !inside(k)).collect()
}

/// The slots of the day that hold more trains than there are tracks.
pub fn overfull(day: &Day, slots: &[u8]) -> Vec<usize> {
    (1..=day.slots).filter(|&slot| load(day, slots, slot) > day.tracks).collect()
}

/// How many trains a slot holds.
pub fn load(day: &Day, slots: &[u8], slot: usize) -> usize {
    slots.iter().take(day.trains.len()).filter(|&&held| usize::from(held) == slot).count()
}

pub fn assignment(slots: &[u8]) -> Vec<usize> {
    slots.iter().map(|&slot| usize::from(slot)).collect()
}

/// The groups whose trains are not all in one slot.
pub fn parted(day: &Day, slots: &[u8]) -> Vec<usize> {
    sets::parted(day, &assignment(slots))
}

/// The refusal of a row of slots by one rule, if it breaks it.
pub type Check = fn(&Day, &[u8]) -> Option<Outcome>;

const CHECKS: [Check; 4] = [check_length, check_windows, check_tracks, check_groups];

pub fn check_length(day: &Day, slots: &[u8]) -> Option<Outcome> {
    (slots.len() != day.trains.len()).then(|| Outcome::carrying(11, 0))
}

pub fn check_windows(day: &Day, slots: &[u8]) -> Option<Outcome> {
    outside(day, slots).first().map(|position| Outcome::carrying(12, position + 1))
}

pub fn check_tracks(day: &Day, slots: &[u8]) -> Option<Outcome> {
    overfull(day, slots).first().map(|&slot| Outcome::carrying(13, slot))
}

pub fn check_groups(day: &Day, slots: &[u8]) -> Option<Outcome> {
    parted(day, slots).first().map(|&group| Outcome::carrying(17, group))
}

/// By the checks in the order given.
pub fn valued_by(day: &Day, slots: &[u8], checks: &[Check]) -> Outcome {
    let refused = checks.iter().find_map(|check| check(day, slots));
    refused.unwrap_or_else(|| Outcome::value(value(day, &assignment(slots))))
}

pub fn valued(day: &Day, slots: &[u8]) -> Outcome {
    let outcome = valued_by(day, slots, &CHECKS);
    let assignment = assignment(slots);
    let sound = || within_windows(day, &assignment) && allowed(day, &assignment);
    if outcome.refusal == 0 && !sound() {
        broken(&format!("{day:?} and {slots:?} are valued, yet not allowed"));
    }
    outcome
}
