//! Mistakes in trying the assignments of a day whose groups move as units. Each
//! has to visit other assignments on some of the drawn days than trying each one
//! within the windows does, for else this program could make it unseen.

use crate::model::{within_tracks, within_windows, Day};
use crate::plan::{allowed, Search, SEARCH};
use crate::sets::{groups, keeps_groups, members, singly};

type Units = Vec<Vec<usize>>;

pub const MISSTEPS: [(&str, Search); 12] = [
    ("trains in no group are one unit", Search { units: alone_together, ..SEARCH }),
    ("all groups are one unit", Search { units: groups_together, ..SEARCH }),
    ("groups neither moved nor kept", Search { units: singly, allowed: within_tracks, ..SEARCH }),
    ("only a unit's first window looked at", Search { allowed, ..SEARCH }),
    ("tracks not looked at", Search { allowed: but_tracks, ..SEARCH }),
    ("the last unit stays", Search { step: last_stays, ..SEARCH }),
    ("only the last unit moves", Search { step: last_alone, ..SEARCH }),
    ("only a unit's first train moves", Search { step: first_alone, ..SEARCH }),
    ("a unit's last slot left out", Search { step: last_left_out, ..SEARCH }),
    ("a unit stays in its last slot", Search { step: not_put_back, ..SEARCH }),
    ("trains put back singly", Search { step: put_back_singly, ..SEARCH }),
    ("each second assignment passed over", Search { step: twice, ..SEARCH }),
];

/// By their first positions, as they have to be.
fn in_order(mut units: Units) -> Units {
    units.retain(|unit| !unit.is_empty());
    units.sort();
    units
}

fn alone_together(day: &Day) -> Units {
    let units = groups(day).into_iter().map(|group| members(day, group));
    in_order(units.chain([members(day, 0)]).collect())
}

fn groups_together(day: &Day) -> Units {
    let grouped = |&position: &usize| day.trains[position].group > 0;
    let alone = members(day, 0).into_iter().map(|position| vec![position]);
    in_order(alone.chain([(0..day.trains.len()).filter(grouped).collect()]).collect())
}

fn but_tracks(day: &Day, assignment: &[usize]) -> bool {
    within_windows(day, assignment) && keeps_groups(day, assignment)
}

fn last_stays(day: &Day, units: &[Vec<usize>], assignment: &mut [usize]) -> bool {
    (SEARCH.step)(day, &units[..units.len() - 1], assignment)
}

fn last_alone(day: &Day, units: &[Vec<usize>], assignment: &mut [usize]) -> bool {
    (SEARCH.step)(day, &units[units.len() - 1..], assignment)
}

fn first_alone(day: &Day, units: &[Vec<usize>], assignment: &mut [usize]) -> bool {
    let firsts: Units = units.iter().map(|unit| vec![unit[0]]).collect();
    (SEARCH.step)(day, &firsts, assignment)
}

fn last_left_out(day: &Day, units: &[Vec<usize>], assignment: &mut [usize]) -> bool {
    let mut shorter = day.clone();
    for train in &mut shorter.trains {
        train.last = train.first.max(train.last - 1);
    }
    (SEARCH.step)(&shorter, units, assignment)
}

/// The last unit that can go on does so, and those after it stay.
fn not_put_back(day: &Day, units: &[Vec<usize>], assignment: &mut [usize]) -> bool {
    let next = |unit: &&Vec<usize>| assignment[unit[0]] < day.trains[unit[0]].last;
    let next = units.iter().rev().find(next);
    next.into_iter().flatten().for_each(|&position| assignment[position] += 1);
    next.is_some()
}

/// Each train of a unit that begins anew takes its own first slot.
fn put_back_singly(day: &Day, units: &[Vec<usize>], assignment: &mut [usize]) -> bool {
    let full = |unit: &&Vec<usize>| assignment[unit[0]] == day.trains[unit[0]].last;
    let put_back: Vec<&Vec<usize>> = units.iter().rev().take_while(full).collect();
    let more = (SEARCH.step)(day, units, assignment);
    for &position in put_back.into_iter().flatten() {
        assignment[position] = day.trains[position].first;
    }
    more
}

fn twice(day: &Day, units: &[Vec<usize>], assignment: &mut [usize]) -> bool {
    (SEARCH.step)(day, units, assignment) && (SEARCH.step)(day, units, assignment)
}
