//! Mistakes in planning a moving day: which rows are looked at, which of them is
//! taken, and what 9 and 16 say.

use crate::account::{Account, Slots};
use crate::account_plan::Replanned;
use crate::mismoving::{planned_in, refused_in};
use crate::misorderings::{try_all, MISORDERINGS};
use crate::model::{rank, value, Day, Train, MOST_SLOTS};
use crate::moving_call::Asked;
use crate::moving_rules::Replan;
use crate::plan::{best, best_by, first_by, overbooked, Interval, SEARCH};
use crate::sets::ungrouped;

#[rustfmt::skip]
pub const MISPLANS: [(&str, Replan); 36] = [
    ("every slot is open again", |a, _, _| planned_in(a, &a.day())),
    ("served trains change closed slots", |a, _, _| planned_by(a, in_closed_or_open)),
    ("served trains take open slots", |a, _, _| planned_by(a, |a, train| (train.first.max(first_open(a, train)), train.last))),
    ("all trains take open slots where they can", |a, _, _| planned_by(a, open_where_it_can)),
    ("closed slots are used", |a, _, _| planned_by(a, |a, train| unless_served(a, train, train.first))),
    ("the last closed slot is used", |a, _, _| planned_by(a, |a, train| unless_served(a, train, train.first.max(a.closed)))),
    ("the first open slot isn't used", |a, _, _| planned_by(a, |a, train| unless_served(a, train, train.first.max(a.closed + 2).min(train.last)))),
    ("begin leaves slot 1 out", begun_later),
    ("set boxes keeps the plan", |a, asked, old| if matches!(asked, Asked::SetBoxes(..)) { kept(a, old) } else { right(a) }),
    ("cancel keeps the plan of the others", |a, asked, old| if matches!(asked, Asked::Cancel(_)) { kept(a, old) } else { right(a) }),
    ("add keeps the others where it can", |a, asked, old| if matches!(asked, Asked::Add(..)) { others_kept(a, old) } else { right(a) }),
    ("the old plan stays where it is as cheap", as_cheap),
    ("groups are not kept", |a, _, _| planned_in(a, &ungrouped(&a.bound_day()))),
    ("tracks and groups are not looked at", |a, _, _| any_row(a)),
    ("01's order alone", |a, _, _| ordered(a, "01's order alone: masks before revisits")),
    ("revisits before cost", |a, _, _| ordered(a, "revisits before cost")),
    ("revisits ignored", |a, _, _| ordered(a, "revisits ignored")),
    ("the sum ignored", |a, _, _| ordered(a, "the sum ignored: masks before it")),
    ("the sum before the revisits", |a, _, _| ordered(a, "the sum before the revisits")),
    ("the larger sum first", |a, _, _| ordered(a, "the larger sum first")),
    ("the smaller mask first", |a, _, _| ordered(a, "the smaller mask first")),
    ("masks from the highest slot down", |a, _, _| ordered(a, "masks from the highest slot down")),
    ("masks with the added train behind all", added_last),
    ("the cost of the day without weights", |a, _, _| planned_in(a, &Account { weights: (1, 1), ..a.clone() }.bound_day())),
    ("9: stretches of open slots only", |a, _, _| refused_by(a, |a| stretch(&a.bound_day(), |found| found.first > a.closed))),
    ("9: served trains by their windows", |a, _, _| refused_by(a, |a| stretch(&bounded(a, served_as_written), |_| true))),
    ("9: other windows not cut", |a, _, _| refused_by(a, |a| stretch(&bounded(a, |a, train| unless_served(a, train, train.first)), |_| true))),
    ("9: windows as they are written", |a, _, _| refused_by(a, |a| stretch(&a.day(), |_| true))),
    ("9: served trains not counted", |a, _, _| refused_by(a, |a| stretch(&without_served(a), |_| true))),
    ("9: the added train not counted", |a, asked, _| refused_by(a, |a| stretch(&a.bound_day(), |_| true)).less(matches!(asked, Asked::Add(..)))),
    ("9: the whole day", |a, _, _| refused_by(a, |a| Some(whole(a)))),
    ("9: the last stretch", |a, _, _| refused_by(a, |a| overbooked(&a.bound_day()).last().copied())),
    ("9: the smallest last slot first", |a, _, _| refused_by(a, |a| least(a, |found| (found.last, found.first)))),
    ("9: the largest last slot", |a, _, _| refused_by(a, |a| least(a, |found| (found.first, MOST_SLOTS - found.last)))),
    ("16 for 9", |a, _, _| refused_by(a, |_| None)),
    ("9 for 16", never_unkept),
];

impl Replanned {
    /// A train fewer bound inside.
    fn less(self, fewer: bool) -> Replanned {
        match self {
            Replanned::Overbooked(found) if fewer => {
                Replanned::Overbooked(Interval { bound: found.bound - 1, ..found })
            }
            found => found,
        }
    }
}

/// As the papers say.
fn right(a: &Account) -> Replanned {
    planned_in(a, &a.bound_day())
}

fn served(a: &Account, train: &Train) -> bool {
    a.served.contains_key(&train.number)
}

fn first_open(a: &Account, train: &Train) -> usize {
    if served(a, train) {
        1
    } else {
        a.closed + 1
    }
}

type Bounds = fn(&Account, &Train) -> (usize, usize);

/// The day with other windows.
fn bounded(a: &Account, bounds: Bounds) -> Day {
    let mut day = a.day();
    for train in &mut day.trains {
        (train.first, train.last) = bounds(a, train);
    }
    day
}

fn planned_by(a: &Account, bounds: Bounds) -> Replanned {
    planned_in(a, &bounded(a, bounds))
}

/// The plan there was, as far as its trains are left.
fn kept(a: &Account, old: &Slots) -> Replanned {
    let mut plan = old.clone();
    plan.retain(|number, _| a.trains.contains_key(number));
    if plan.len() == a.trains.len() {
        Replanned::Plan(plan)
    } else {
        right(a)
    }
}

/// The best among rows in which all trains that had a slot keep it; if there is
/// none, the best of all.
fn others_kept(a: &Account, old: &Slots) -> Replanned {
    let mut day = a.bound_day();
    for train in &mut day.trains {
        if let Some(&slot) = old.get(&train.number) {
            (train.first, train.last) = (slot, slot);
        }
    }
    best(&day).map_or_else(|| right(a), |plan| Replanned::Plan(a.by_number(&plan.assignment)))
}

fn as_cheap(a: &Account, _: &Asked, old: &Slots) -> Replanned {
    let cost = |plan: &Slots| value(&a.day(), &plan.values().copied().collect::<Vec<_>>()).cost;
    match (right(a), kept(a, old)) {
        (Replanned::Plan(new), Replanned::Plan(old)) if cost(&new) < cost(&old) => {
            Replanned::Plan(new)
        }
        (Replanned::Plan(_), kept) => kept,
        (found, _) => found,
    }
}

/// The plan by a mistake in the order of plans.
fn ordered(a: &Account, name: &str) -> Replanned {
    let day = a.bound_day();
    let all = try_all(&day);
    let misorder = MISORDERINGS.iter().find(|(found, _)| *found == name).expect("its name").1;
    if all.is_empty() {
        refused_in(&day)
    } else {
        Replanned::Plan(a.by_number(&misorder(&day, &all)))
    }
}

/// Set numbers as if the added train stood at the last position.
fn added_last(a: &Account, asked: &Asked, _: &Slots) -> Replanned {
    let Asked::Add(train, ..) = *asked else { return right(a) };
    let number = train as usize;
    let day = a.bound_day();
    let place = day.trains.iter().position(|train| train.number == number).unwrap_or(0);
    let ranked = |assignment: &[usize]| {
        let mut last = assignment.to_vec();
        let slot = last.remove(place);
        last.push(slot);
        (rank(&day, assignment), rank(&day, &last).masks)
    };
    let found = first_by(&day, SEARCH, |assignment| {
        let (own, masks) = ranked(assignment);
        (own.cost, own.revisits, own.sum, masks)
    });
    found.map_or_else(|| refused_in(&day), |assignment| Replanned::Plan(a.by_number(&assignment)))
}

/// The plan, or the stretch that a mistake names where there is none.
fn refused_by(a: &Account, stretch: impl Fn(&Account) -> Option<Interval>) -> Replanned {
    match right(a) {
        Replanned::Overbooked(_) => stretch(a).map_or(Replanned::Unkept, Replanned::Overbooked),
        found => found,
    }
}

fn stretch(day: &Day, such: impl Fn(&Interval) -> bool) -> Option<Interval> {
    overbooked(day).into_iter().find(|found| such(found))
}

fn without_served(a: &Account) -> Day {
    let mut day = a.bound_day();
    day.trains.retain(|train| !served(a, train));
    day
}

fn whole(a: &Account) -> Interval {
    Interval { first: 1, last: a.slots, bound: a.trains.len() }
}

/// A served train in closed slots of its window, another in open ones.
fn in_closed_or_open(a: &Account, train: &Train) -> (usize, usize) {
    let last = if served(a, train) { train.last.min(a.closed) } else { train.last };
    (train.first.max(first_open(a, train)), last)
}

fn open_where_it_can(a: &Account, train: &Train) -> (usize, usize) {
    match train.last > a.closed {
        true => (train.first.max(a.closed + 1), train.last),
        false => a.bounds(train.number),
    }
}

/// A served train in its slot, another from this slot on.
fn unless_served(a: &Account, train: &Train, first: usize) -> (usize, usize) {
    match served(a, train) {
        true => a.bounds(train.number),
        false => (first, train.last),
    }
}

fn served_as_written(a: &Account, train: &Train) -> (usize, usize) {
    match served(a, train) {
        true => (train.first, train.last),
        false => a.bounds(train.number),
    }
}

fn begun_later(a: &Account, asked: &Asked, _: &Slots) -> Replanned {
    match asked {
        Asked::Begin => planned_by(a, |_, train| (train.first.max(2).min(train.last), train.last)),
        _ => right(a),
    }
}

/// The best of all rows within the bounds, allowed or not.
fn any_row(a: &Account) -> Replanned {
    let found = best_by(&a.bound_day(), |_, _| true);
    found.map_or(Replanned::Unkept, |plan| Replanned::Plan(a.by_number(&plan.assignment)))
}

fn least(a: &Account, key: fn(&Interval) -> (usize, usize)) -> Option<Interval> {
    overbooked(&a.bound_day()).into_iter().min_by_key(key)
}

fn never_unkept(a: &Account, _: &Asked, _: &Slots) -> Replanned {
    match right(a) {
        Replanned::Unkept => Replanned::Overbooked(whole(a)),
        found => found,
    }
}
