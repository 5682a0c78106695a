//! Mistakes in how a call of a moving day changes the day: what cancelling and
//! adding do to the other trains, and which boxes are set.

use crate::account::{Account, Slots};
use crate::model::{Boxes, Day};
use crate::moving_call::Asked;
use crate::moving_rules::{change, Change};
use std::collections::BTreeSet;

#[rustfmt::skip]
pub const MISEDITS: [(&str, Change); 40] = [
    ("cancel: groups stay at their positions", |a, asked, plan| stay(a, asked, plan, true, [true, false, false])),
    ("cancel: boxes stay at their positions", |a, asked, plan| stay(a, asked, plan, true, [false, true, true])),
    ("cancel: received boxes stay at their positions", |a, asked, plan| stay(a, asked, plan, true, [false, true, false])),
    ("cancel: sent boxes stay at their positions", |a, asked, plan| stay(a, asked, plan, true, [false, false, true])),
    ("add: groups stay at their positions", |a, asked, plan| stay(a, asked, plan, false, [true, false, false])),
    ("add: boxes stay at their positions", |a, asked, plan| stay(a, asked, plan, false, [false, true, true])),
    ("add: received boxes stay at their positions", |a, asked, plan| stay(a, asked, plan, false, [false, true, false])),
    ("add: sent boxes stay at their positions", |a, asked, plan| stay(a, asked, plan, false, [false, false, true])),
    ("cancel: its boxes go to the next train", |a, asked, plan| inherit(a, asked, plan, true, true)),
    ("cancel: what it received goes to the next train", |a, asked, plan| inherit(a, asked, plan, true, false)),
    ("cancel: what it sent comes from the next train", |a, asked, plan| inherit(a, asked, plan, false, true)),
    ("cancel: its group goes to the next train", group_inherited),
    ("cancel: its boxes stay listed", boxes_listed),
    ("cancel: all boxes go", |a, asked, plan| after(a, asked, plan, is_cancel, |a, _| a.boxes.clear())),
    ("cancel: its whole group goes", whole_group),
    ("cancel: a group of one is no group", |a, asked, plan| after(a, asked, plan, is_cancel, |a, _| alone_leave(a))),
    ("cancel: the group is dissolved", group_dissolved),
    ("cancel: group numbers close up", |a, asked, plan| after(a, asked, plan, is_cancel, |a, _| close_up(a))),
    ("add: with the group of the train before", |a, asked, plan| after(a, asked, plan, is_add, |a, number| join(a, number))),
    ("add: its window is its first slot", |a, asked, plan| after(a, asked, plan, is_add, |a, number| window(a, number, |first, _, _| (first, first)))),
    ("add: its window is its last slot", |a, asked, plan| after(a, asked, plan, is_add, |a, number| window(a, number, |_, last, _| (last, last)))),
    ("add: its window reaches to the end", |a, asked, plan| after(a, asked, plan, is_add, |a, number| window(a, number, |first, _, slots| (first, slots)))),
    ("add: its window begins with the day", |a, asked, plan| after(a, asked, plan, is_add, |a, number| window(a, number, |_, last, _| (1, last)))),
    ("add: one box from the train before", |a, asked, plan| after(a, asked, plan, is_add, one_box)),
    ("windows are stored cut to the open slots", |a, asked, plan| after(a, asked, plan, Asked::changes, |a, _| store_cut(a, false))),
    ("served trains' windows are stored as their slots", |a, asked, plan| after(a, asked, plan, Asked::changes, |a, _| store_cut(a, true))),
    ("a change opens all slots", |a, asked, plan| after(a, asked, plan, Asked::changes, |a, _| (a.closed, a.served) = (0, Slots::new()))),
    ("a change closes a slot", |a, asked, plan| after(a, asked, plan, Asked::changes, |a, _| a.closed = (a.closed + 1).min(a.slots - 1).max(a.closed))),
    ("a change adds a track", |a, asked, plan| after(a, asked, plan, Asked::changes, |a, _| a.tracks += 1)),
    ("a change exchanges the weights", |a, asked, plan| after(a, asked, plan, Asked::changes, |a, _| a.weights = (a.weights.1, a.weights.0))),
    ("set boxes: the other way round", |a, asked, _| set(a, asked, |a, to, from, boxes| a.set_boxes(from, to, boxes))),
    ("set boxes: both ways", |a, asked, _| set(a, asked, |a, to, from, boxes| { a.set_boxes(from, to, boxes); a.set_boxes(to, from, boxes) })),
    ("set boxes: added to those there", |a, asked, _| set(a, asked, |a, to, from, boxes| a.set_boxes(to, from, (now(a, to, from) + boxes).min(255)))),
    ("set boxes: the greater number stays", |a, asked, _| set(a, asked, |a, to, from, boxes| a.set_boxes(to, from, now(a, to, from).max(boxes)))),
    ("set boxes: 0 leaves the pair", |a, asked, _| set(a, asked, |a, to, from, boxes| a.set_boxes(to, from, if boxes == 0 { now(a, to, from) } else { boxes }))),
    ("set boxes: 0 is listed", |a, asked, _| set(a, asked, |a, to, from, boxes| { a.boxes.insert((to, from), boxes); })),
    ("set boxes: a new pair isn't listed", |a, asked, _| set(a, asked, |a, to, from, boxes| if now(a, to, from) > 0 { a.set_boxes(to, from, boxes) })),
    ("set boxes: in 7 bits", |a, asked, _| set(a, asked, |a, to, from, boxes| a.set_boxes(to, from, boxes % 128))),
    ("close: two slots", |a, asked, plan| after(a, asked, plan, |asked| *asked == Asked::Close, |a, _| a.closed += 1)),
    ("close: up to the next slot with trains", up_to_trains),
];

/// The papers' change, and then something else where the call is such.
fn after(
    a: &mut Account,
    asked: &Asked,
    plan: &Slots,
    such: fn(&Asked) -> bool,
    and: fn(&mut Account, usize),
) {
    change(a, asked, plan);
    if such(asked) {
        and(a, named(asked));
    }
}

/// The train that is cancelled or added.
fn named(asked: &Asked) -> usize {
    match *asked {
        Asked::Cancel(train) | Asked::Add(train, ..) => train as usize,
        _ => 0,
    }
}

fn is_cancel(asked: &Asked) -> bool {
    matches!(asked, Asked::Cancel(_))
}

fn is_add(asked: &Asked) -> bool {
    matches!(asked, Asked::Add(..))
}

/// The groups, the rows or the columns of the boxes stay at their positions
/// while the trains move up or down.
fn stay(a: &mut Account, asked: &Asked, plan: &Slots, cancel: bool, what: [bool; 3]) {
    let old = a.day();
    change(a, asked, plan);
    if if cancel { !is_cancel(asked) } else { !is_add(asked) } {
        return;
    }
    let mut new = a.day();
    let n = new.trains.len();
    let was = |k: usize| old.trains.iter().position(|train| train.number == new.trains[k].number);
    let from = |moves: bool, k: usize| if moves { was(k) } else { Some(k) };
    let boxes = |i: usize, j: usize| {
        let (i, j) = (from(!what[1], i), from(!what[2], j));
        i.zip(j).map_or(0, |(i, j)| old.boxes[i][j])
    };
    let mut moved: Boxes = new.boxes;
    for (i, row) in moved.iter_mut().enumerate().take(n) {
        for (j, cell) in row.iter_mut().enumerate().take(n) {
            *cell = if i == j { 0 } else { boxes(i, j) };
        }
    }
    if what[0] {
        for (k, train) in new.trains.iter_mut().enumerate() {
            train.group = old.trains.get(k).map_or(0, |train| train.group);
        }
    } else {
        new.boxes = moved;
    }
    replace_day(a, &new);
}

/// The account's trains and boxes from a day.
fn replace_day(a: &mut Account, day: &Day) {
    let other = Account::begun(day);
    (a.trains, a.boxes) = (other.trains, other.boxes);
}

/// What the cancelled train received or sent is listed under the next train.
fn inherit(a: &mut Account, asked: &Asked, plan: &Slots, received: bool, sent: bool) {
    let old = a.boxes.clone();
    change(a, asked, plan);
    let Asked::Cancel(train) = *asked else { return };
    let number = train as usize;
    let Some((&next, _)) = a.trains.range(number..).next() else { return };
    for ((to, from), boxes) in old {
        match (to == number, from == number) {
            (true, _) if received && from != next => a.boxes.insert((next, from), boxes),
            (_, true) if sent && to != next => a.boxes.insert((to, next), boxes),
            _ => None,
        };
    }
}

fn group_inherited(a: &mut Account, asked: &Asked, plan: &Slots) {
    let group = a.trains.get(&named(asked)).map_or(0, |listed| listed.group);
    change(a, asked, plan);
    if let (true, Some((_, next))) = (is_cancel(asked), a.trains.range_mut(named(asked)..).next()) {
        next.group = group;
    }
}

fn boxes_listed(a: &mut Account, asked: &Asked, plan: &Slots) {
    let old = a.boxes.clone();
    change(a, asked, plan);
    a.boxes = if is_cancel(asked) { old } else { a.boxes.clone() };
}

/// The others of the group go too, as far as one train is left.
fn whole_group(a: &mut Account, asked: &Asked, plan: &Slots) {
    let group = a.trains.get(&named(asked)).map_or(0, |listed| listed.group);
    change(a, asked, plan);
    let members = a.trains.iter().filter(|(_, listed)| listed.group == group);
    let members: Vec<usize> = members.map(|(number, _)| *number).collect();
    if is_cancel(asked) && group > 0 && members.len() < a.trains.len() {
        members.into_iter().for_each(|number| a.cancel(number));
    }
}

fn group_dissolved(a: &mut Account, asked: &Asked, plan: &Slots) {
    let group = a.trains.get(&named(asked)).map_or(0, |listed| listed.group);
    change(a, asked, plan);
    for listed in a.trains.values_mut().filter(|listed| is_cancel(asked) && listed.group == group) {
        listed.group = 0;
    }
}

fn alone_leave(a: &mut Account) {
    let counted = a.clone();
    a.trains
        .values_mut()
        .filter(|listed| counted.members(listed.group) == 1)
        .for_each(|listed| listed.group = 0);
}

fn close_up(a: &mut Account) {
    let used: BTreeSet<usize> = a.trains.values().map(|listed| listed.group).collect();
    let place = |group: usize| used.iter().filter(|used| (1..=group).contains(*used)).count();
    a.trains.values_mut().for_each(|listed| listed.group = place(listed.group));
}

fn join(a: &mut Account, number: usize) {
    let before = a.trains.range(..number).next_back().map_or(0, |(_, listed)| listed.group);
    a.trains.get_mut(&number).into_iter().for_each(|listed| listed.group = before);
}

fn window(a: &mut Account, number: usize, other: fn(usize, usize, usize) -> (usize, usize)) {
    let slots = a.slots;
    if let Some(listed) = a.trains.get_mut(&number) {
        (listed.first, listed.last) = other(listed.first, listed.last, slots);
    }
}

fn one_box(a: &mut Account, number: usize) {
    let before = a.trains.range(..number).next_back().map(|(before, _)| *before);
    before.into_iter().for_each(|before| a.set_boxes(number, before, 1));
}

fn store_cut(a: &mut Account, served: bool) {
    let account = a.clone();
    for (number, listed) in &mut a.trains {
        if account.served.contains_key(number) == served {
            (listed.first, listed.last) = account.bounds(*number);
        }
    }
}

fn now(a: &Account, to: usize, from: usize) -> usize {
    a.boxes.get(&(to, from)).copied().unwrap_or_default()
}

fn set(a: &mut Account, asked: &Asked, other: fn(&mut Account, usize, usize, usize)) {
    match *asked {
        Asked::SetBoxes(to, from, boxes) => other(a, to as usize, from as usize, boxes as usize),
        Asked::Close => {}
        _ => change(a, asked, &Slots::new()),
    }
    // Of close the number of closed slots alone is told.
    a.closed += usize::from(*asked == Asked::Close);
}

fn up_to_trains(a: &mut Account, asked: &Asked, plan: &Slots) {
    change(a, asked, plan);
    let waiting = plan.values().filter(|slot| **slot >= a.closed).min();
    a.closed = if *asked == Asked::Close { *waiting.unwrap_or(&a.closed) } else { a.closed };
}
