//! Rows of slots to be valued: allowed ones, and ones with one fault or
//! several at once. They are bytes, for the call takes any.

use crate::draw::Random;
use crate::library::complete;
use crate::model::{within_tracks, within_windows, Day, Train};
use crate::procedures::first_come;
use crate::sets::{has_groups, singly, units};
use crate::valuing::load;

/// Slots of which each train takes any in its window.
fn in_windows(random: &mut Random, day: &Day) -> Vec<usize> {
    day.trains.iter().map(|train| random.between(train.first, train.last)).collect()
}

/// Each train that can be is in one of the crowded slots.
fn crowded(random: &mut Random, day: &Day, crowded: &[usize]) -> Vec<usize> {
    let mut slot = |train: &Train| {
        let held = |slot: &usize| train.first <= *slot && *slot <= train.last;
        let slots: Vec<usize> = crowded.iter().copied().filter(held).collect();
        let any = random.between(train.first, train.last);
        if slots.is_empty() {
            any
        } else {
            random.pick(&slots)
        }
    };
    day.trains.iter().map(&mut slot).collect()
}

/// Some steps away from an allowed one, in each of which the trains of a unit
/// go to another slot within windows and tracks. Where each group is a unit it
/// is allowed too.
fn wandered(random: &mut Random, day: &Day, allowed: &[usize], units: &[Vec<usize>]) -> Vec<usize> {
    let mut assignment = allowed.to_vec();
    for _ in 0..2 * allowed.len() {
        let unit = &units[random.below(units.len())];
        let train = &day.trains[unit[0]];
        let slot = random.between(train.first, train.last);
        let mut next = assignment.clone();
        unit.iter().for_each(|&position| next[position] = slot);
        if within_windows(day, &next) && within_tracks(day, &next) {
            assignment = next;
        }
    }
    assignment
}

/// One train moved within its window to a slot that is full already.
fn one_too_many(random: &mut Random, day: &Day, allowed: &[usize]) -> Option<Vec<usize>> {
    let slots = bytes(allowed);
    let full = |slot: usize| load(day, &slots, slot) == day.tracks;
    let mut moves = Vec::new();
    for (position, train) in day.trains.iter().enumerate() {
        let others = (train.first..=train.last).filter(|&slot| slot != allowed[position]);
        moves.extend(others.filter(|&slot| full(slot)).map(|slot| (position, slot)));
    }
    if moves.is_empty() {
        return None;
    }
    let (position, slot) = random.pick(&moves);
    let mut assignment = allowed.to_vec();
    assignment[position] = slot;
    Some(assignment)
}

fn bytes(assignment: &[usize]) -> Vec<u8> {
    assignment.iter().map(|&slot| slot as u8).collect()
}

/// Slots outside a train's window: below all, above all, beside it, and ones
/// that a careless look at their low bits takes for a slot inside.
fn outside_slots(random: &mut Random, day: &Day, train: &Train) -> Vec<usize> {
    let any = random.between(train.first, train.last);
    let low_bits_inside = any + random.pick(&[8, 16, 32, 64, 128]);
    let mut slots = vec![0, day.slots + 1, 255, low_bits_inside];
    slots.extend((1..train.first).last());
    slots.extend((train.last + 1..=day.slots).next());
    slots
}

fn with_slot(row: &[u8], position: usize, slot: usize) -> Vec<u8> {
    let mut row = row.to_vec();
    row[position] = slot as u8;
    row
}

/// The row with slots outside at up to so many positions.
fn with_outside(random: &mut Random, day: &Day, row: &[u8], positions: usize) -> Vec<u8> {
    let mut row = row.to_vec();
    for _ in 0..positions {
        let position = random.below(row.len());
        let slots = outside_slots(random, day, &day.trains[position]);
        row = with_slot(&row, position, random.pick(&slots));
    }
    row
}

/// The row with each kind of slot outside at one position, and with one at the
/// last position.
fn with_each_outside(random: &mut Random, day: &Day, row: &[u8]) -> Vec<Vec<u8>> {
    let position = random.below(row.len());
    let slots = outside_slots(random, day, &day.trains[position]);
    let mut rows: Vec<_> = slots.iter().map(|&slot| with_slot(row, position, slot)).collect();
    rows.push(with_slot(row, row.len() - 1, day.slots + 1));
    rows
}

/// The row without its end, or with slots behind it that look like the others.
fn of_length(random: &mut Random, day: &Day, row: &[u8], length: usize) -> Vec<u8> {
    let mut row = row.to_vec();
    while row.len() < length {
        row.push(random.between(1, day.slots) as u8);
    }
    row.truncate(length);
    row
}

/// Rows of another length than the day's: none, one slot fewer or more, and
/// some more, also so many that the low bits of the length are right.
fn of_wrong_length(random: &mut Random, day: &Day, row: &[u8], very_long: bool) -> Vec<Vec<u8>> {
    let n = day.trains.len();
    let longer = n + random.between(2, 40);
    let mut lengths = vec![0, n - 1, n + 1, longer, n + 256];
    if very_long {
        lengths.push(n + 65536);
    }
    lengths.into_iter().map(|length| of_length(random, day, row, length)).collect()
}

/// The best assignment, or where the groups can't be kept one that is allowed
/// but for them, if first come finds it.
fn start(day: &Day, plan: Option<&[usize]>) -> Option<Vec<usize>> {
    let found = || Some(complete(&first_come(day))).filter(|found| found.len() == day.trains.len());
    plan.map(<[usize]>::to_vec).or_else(found)
}

/// Within the windows: allowed, parting groups, overfull. The first is allowed,
/// if any is; the last is overfull, if one can be.
fn inside(random: &mut Random, day: &Day, plan: Option<&[usize]>) -> Vec<Vec<usize>> {
    let mut inside = Vec::new();
    if let Some(start) = start(day, plan) {
        inside.push(start.clone());
        for _ in 0..4 {
            inside.push(wandered(random, day, &start, &units(day)));
        }
        if has_groups(day) {
            for _ in 0..4 {
                inside.push(wandered(random, day, &start, &singly(day)));
            }
        }
        inside.extend(one_too_many(random, day, &start));
    }
    inside.push(in_windows(random, day));
    let (slot, other) = (random.between(1, day.slots), random.between(1, day.slots));
    inside.push(crowded(random, day, &[slot]));
    inside.push(crowded(random, day, &[slot, other]));
    inside
}

/// Rows for a day; `plan` is its best assignment, where it has one.
pub fn trials(
    random: &mut Random,
    day: &Day,
    plan: Option<&[usize]>,
    very_long: bool,
) -> Vec<Vec<u8>> {
    let inside = inside(random, day, plan);
    let mut rows: Vec<Vec<u8>> = inside.iter().map(|assignment| bytes(assignment)).collect();
    let (first, last) = (rows[0].clone(), rows[rows.len() - 1].clone());
    // One fault: a slot outside, or the length.
    rows.extend(with_each_outside(random, day, &first));
    rows.extend(of_wrong_length(random, day, &first, very_long));
    // Several: slots outside, also in an overfull row, and the length besides.
    rows.push(with_outside(random, day, &first, 3));
    let faulty = with_outside(random, day, &last, 1);
    rows.extend(of_wrong_length(random, day, &faulty, false));
    rows.extend(of_wrong_length(random, day, &last, false));
    rows.push(faulty);
    // The same where groups are parted, but no slot need be overfull.
    if has_groups(day) {
        let parting = bytes(&wandered(random, day, &inside[0], &singly(day)));
        rows.push(with_outside(random, day, &parting, 1));
        rows.extend(of_wrong_length(random, day, &parting, false));
    }
    rows.push(day.trains.iter().map(|_| random.byte()).collect());
    rows
}

/// Rows for a text that is no day file: any will do.
pub fn trials_unread(random: &mut Random) -> Vec<Vec<u8>> {
    let length = random.below(20);
    let any = (0..length).map(|_| random.byte()).collect();
    vec![Vec::new(), vec![1], vec![1; 4], vec![2; 12], any]
}
