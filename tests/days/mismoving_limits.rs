//! Mistakes in which trains, slots and boxes a moving day takes: 3, 18, 19, 20, 5
//! and 6.

use crate::case::Outcome;
use crate::header::MOST_TRAINS;
use crate::mismoving_checks::{instead, Checks};
use crate::model::{MOST_BOXES, MOST_TRAIN_NUMBER};
use crate::moving_call::Asked;
use crate::moving_rules::{
    addable, beyond_limits, both_listed, cancellable, open_window, refuse_if, within_limits, Given,
};

#[rustfmt::skip]
pub const MISLIMITS: [(&str, Checks); 36] = [
    ("3: numbers up to 65535", |asked| instead(asked, "3", |given| numbers_between(given, 1, 65535))),
    ("3: number 0 passes", |asked| instead(asked, "3", |given| numbers_between(given, 0, MOST_TRAIN_NUMBER))),
    ("3: number 100000 passes", |asked| instead(asked, "3", |given| numbers_between(given, 1, MOST_TRAIN_NUMBER + 1))),
    ("3: any number above 0 passes", |asked| instead(asked, "3", |given| numbers_between(given, 1, usize::MAX))),
    ("3: from not asked", |asked| instead(asked, "3", |given| limits_but(given, 1, None))),
    ("3: first above T gets 5", |asked| instead(asked, "3", |given| limits_but(given, 1, Some(5)))),
    ("3: last above T gets 5", |asked| instead(asked, "3", |given| limits_but(given, 2, Some(5)))),
    ("3: 256 boxes pass", |asked| instead(asked, "3", |given| boxes_up_to(given, 256))),
    ("3: 255 boxes get it", |asked| instead(asked, "3", |given| boxes_up_to(given, MOST_BOXES - 1))),
    ("3: no boxes get it", |asked| instead(asked, "3", no_boxes)),
    ("18: a served train is cancelled", |asked| instead(asked, "18", |given| not_cancellable(given, [true, false, true]))),
    ("18: the only train is cancelled", |asked| instead(asked, "18", |given| not_cancellable(given, [true, true, false]))),
    ("18: an unlisted train is cancelled", |asked| instead(asked, "18", |given| not_cancellable(given, [false, true, true]))),
    ("18: the only unserved train can't be cancelled", |asked| instead(asked, "18", only_unserved)),
    ("18: an unlisted train gets 6", |asked| instead(asked, "18", unlisted_gets_6)),
    ("18: served is the slot that closes next", |asked| instead(asked, "18", next_served)),
    ("18: served without the last closed slot", |asked| instead(asked, "18", last_unserved)),
    ("18: from not looked up", |asked| instead(asked, "18", |given| set_by(given, |given, to, _| given.unlisted(to)))),
    ("18: to not looked up", |asked| instead(asked, "18", |given| set_by(given, |given, _, from| given.unlisted(from)))),
    ("18: boxes to a served train", |asked| instead(asked, "18", |given| set_or(given, |given, to, _| given.is_served(to)))),
    ("18: boxes from a served train", |asked| instead(asked, "18", |given| set_or(given, |given, _, from| given.is_served(from)))),
    ("18: to equals from", |asked| instead(asked, "18", |given| set_or(given, |_, to, from| to == from))),
    ("19: a listed number passes", |asked| instead(asked, "19", |given| full_from(given, MOST_TRAINS))),
    ("19: a listed number gets 4", |asked| instead(asked, "19", listed_gets_4)),
    ("19: a thirteenth train passes", |asked| instead(asked, "19", |given| add_by(given, |given, train| given.position(train).is_some()))),
    ("19: a twelfth train", |asked| instead(asked, "19", |given| addable(given).or_else(|| full_from(given, MOST_TRAINS - 1)))),
    ("20: one slot more is closed", |asked| instead(asked, "20", |_| None)),
    ("20: the last slot", |asked| instead(asked, "20", last_slot)),
    ("20: no train waits", |asked| instead(asked, "20", nobody_waits)),
    ("5: a closed first slot passes", |asked| instead(asked, "5", |given| window_by(given, |_, first, last| first > last))),
    ("5: only where last is closed too", |asked| instead(asked, "5", |given| window_by(given, |closed, first, last| first > last || last <= closed))),
    ("5: first above last gets 16", |asked| instead(asked, "5", |given| window_by(given, |closed, first, _| first <= closed))),
    ("5: first in the first open slot", |asked| instead(asked, "5", |given| window_by(given, |closed, first, last| first > last || first <= closed + 1))),
    ("5: the last closed slot passes", |asked| instead(asked, "5", |given| window_by(given, |closed, first, last| first > last || first < closed))),
    ("5: a closed first slot gets 3", |asked| instead(asked, "5", |given| open_window(given).map(|_| Outcome::carrying(3, 0)))),
    ("6: to equals from passes", |asked| instead(asked, "6", |_| None)),
];

fn numbers_between(given: &Given, least: usize, most: usize) -> Option<Outcome> {
    let beyond = |number: u32| (number as usize) < least || number as usize > most;
    let [_, two, three] = beyond_limits(given);
    let broken = match given.call.asked {
        Asked::Cancel(train) => beyond(train),
        Asked::Add(train, ..) => beyond(train) || two || three,
        Asked::SetBoxes(to, from, _) => beyond(to) || beyond(from) || three,
        _ => false,
    };
    refuse_if(broken, 3)
}

/// One of the values gets something else: of set boxes nothing, of add, where
/// it is the only one beyond its limits, what is given.
fn limits_but(given: &Given, place: usize, other: Option<usize>) -> Option<Outcome> {
    let mut beyond = beyond_limits(given);
    let add = matches!(given.call.asked, Asked::Add(..));
    if add != other.is_some() {
        return within_limits(given);
    }
    let hit = std::mem::replace(&mut beyond[place], false);
    match other {
        Some(refusal) if hit && !beyond.contains(&true) => Some(Outcome::carrying(refusal, 0)),
        _ => refuse_if(beyond.contains(&true), 3),
    }
}

fn boxes_up_to(given: &Given, most: usize) -> Option<Outcome> {
    let [one, two, three] = beyond_limits(given);
    let three = match given.call.asked {
        Asked::SetBoxes(_, _, boxes) => boxes as usize > most,
        _ => three,
    };
    refuse_if(one || two || three, 3)
}

fn no_boxes(given: &Given) -> Option<Outcome> {
    let none = matches!(given.call.asked, Asked::SetBoxes(_, _, 0));
    within_limits(given).or_else(|| refuse_if(none, 3))
}

/// 18 of cancel by some of its causes: not listed, served, the only one.
fn not_cancellable(given: &Given, causes: [bool; 3]) -> Option<Outcome> {
    let Asked::Cancel(train) = given.call.asked else { return both_listed(given) };
    let only = given.day_is(|day| day.trains.len() == 1);
    let found = [given.unlisted(train), given.is_served(train), only];
    refuse_if(found.iter().zip(causes).any(|(found, cause)| *found && cause), 18)
}

fn only_unserved(given: &Given) -> Option<Outcome> {
    let state = &given.call.state;
    let waiting = state.row.iter().filter(|&&slot| u32::from(slot) > state.closed).count();
    let cancel = matches!(given.call.asked, Asked::Cancel(_));
    cancellable(given)
        .or_else(|| both_listed(given))
        .or_else(|| refuse_if(cancel && waiting == 1, 18))
}

fn unlisted_gets_6(given: &Given) -> Option<Outcome> {
    both_listed(given).map(|_| Outcome::carrying(6, 0)).or_else(|| cancellable(given))
}

/// A cancelled train is refused by its slot and the closed slots.
fn served_by(given: &Given, served: fn(u32, u32) -> bool) -> Option<Outcome> {
    let state = &given.call.state;
    let Asked::Cancel(train) = given.call.asked else { return both_listed(given) };
    let slot = given.position(train).and_then(|k| state.row.get(k));
    let served = slot.is_some_and(|&slot| served(u32::from(slot), state.closed));
    not_cancellable(given, [true, false, true]).or_else(|| refuse_if(served, 18))
}

fn next_served(given: &Given) -> Option<Outcome> {
    served_by(given, |slot, closed| slot <= closed + 1)
}

fn last_unserved(given: &Given) -> Option<Outcome> {
    served_by(given, |slot, closed| slot < closed)
}

fn set_by(given: &Given, refused: fn(&Given, u32, u32) -> bool) -> Option<Outcome> {
    let Asked::SetBoxes(to, from, _) = given.call.asked else { return cancellable(given) };
    refuse_if(refused(given, to, from), 18)
}

fn add_by(given: &Given, refused: fn(&Given, u32) -> bool) -> Option<Outcome> {
    let Asked::Add(train, ..) = given.call.asked else { return None };
    refuse_if(refused(given, train), 19)
}

fn listed_gets_4(given: &Given) -> Option<Outcome> {
    let Asked::Add(train, ..) = given.call.asked else { return None };
    refuse_if(given.position(train).is_some(), 4).or_else(|| addable(given))
}

fn nobody_waits(given: &Given) -> Option<Outcome> {
    let state = &given.call.state;
    let all_closed = given.day_is(|day| state.closed as usize >= day.slots);
    let waiting = state.row.iter().any(|&slot| u32::from(slot) > state.closed);
    refuse_if(all_closed || !waiting, 20)
}

fn window_by(given: &Given, refused: fn(u32, u32, u32) -> bool) -> Option<Outcome> {
    let Asked::Add(_, first, last) = given.call.asked else { return None };
    refuse_if(refused(given.call.state.closed, first, last), 5)
}

/// 18 of set boxes for something else besides.
fn set_or(given: &Given, refused: fn(&Given, u32, u32) -> bool) -> Option<Outcome> {
    both_listed(given).or_else(|| set_by(given, refused))
}

/// 19 of add on a day of so many trains.
fn full_from(given: &Given, trains: usize) -> Option<Outcome> {
    let add = matches!(given.call.asked, Asked::Add(..));
    refuse_if(add && given.day_is(|day| day.trains.len() >= trains), 19)
}

fn last_slot(given: &Given) -> Option<Outcome> {
    let closed = given.call.state.closed as usize;
    refuse_if(given.day_is(|day| closed + 1 >= day.slots), 20)
}
