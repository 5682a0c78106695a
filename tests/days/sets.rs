//! The groups of trains of order 4 (document 02): in a plan all members share
//! one slot.

use crate::model::{Day, Train, MOST_GROUP};

/// The positions of a group's trains, counted from 0 here.
pub fn members(day: &Day, group: usize) -> Vec<usize> {
    members_of(&day.trains, group)
}

pub fn members_of(trains: &[Train], group: usize) -> Vec<usize> {
    (0..trains.len()).filter(|&k| trains[k].group == group).collect()
}

/// The numbers of the groups that have members, rising.
pub fn groups(day: &Day) -> Vec<usize> {
    groups_of(&day.trains)
}

pub fn groups_of(trains: &[Train]) -> Vec<usize> {
    (1..=MOST_GROUP).filter(|&group| !members_of(trains, group).is_empty()).collect()
}

pub fn has_groups(day: &Day) -> bool {
    day.trains.iter().any(|train| train.group > 0)
}

/// Whether these trains don't all share one slot; where there are fewer slots
/// than trains, those of them that have one.
pub fn apart(assignment: &[usize], positions: &[usize]) -> bool {
    let mut slots = positions.iter().filter_map(|&k| assignment.get(k));
    let first = slots.next();
    slots.any(|slot| Some(slot) != first)
}

/// The groups that an assignment parts, rising.
pub fn parted(day: &Day, assignment: &[usize]) -> Vec<usize> {
    groups(day).into_iter().filter(|&group| apart(assignment, &members(day, group))).collect()
}

/// Whether it parts none, found in one pass: each assignment tried is asked.
pub fn keeps_groups(day: &Day, assignment: &[usize]) -> bool {
    let mut slots = [0; MOST_GROUP + 1];
    for (train, &slot) in day.trains.iter().zip(assignment) {
        let shared = &mut slots[train.group];
        if train.group > 0 && *shared > 0 && *shared != slot {
            return false;
        }
        *shared = slot;
    }
    true
}

/// The trains that move together: each group's, and each other train alone.
pub fn units(day: &Day) -> Vec<Vec<usize>> {
    let alone = members(day, 0).into_iter().map(|k| vec![k]);
    let together = groups(day).into_iter().map(|group| members(day, group));
    together.chain(alone).collect()
}

/// Each train alone, whatever the groups.
pub fn singly(day: &Day) -> Vec<Vec<usize>> {
    (0..day.trains.len()).map(|k| vec![k]).collect()
}

/// The day without its groups.
pub fn ungrouped(day: &Day) -> Day {
    let mut day = day.clone();
    for train in &mut day.trains {
        train.group = 0;
    }
    day
}
