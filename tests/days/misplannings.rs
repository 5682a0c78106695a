//! Mistakes in planning a day with groups (order 4). Each has to answer
//! otherwise than the paper on some of the days that are planned, for else a
//! library that makes it would pass.

use crate::model::{within_tracks, Day, MOST_GROUP};
use crate::plan::{allowed, best, best_by, first_overbooked, plan, Allowed, Answer, Interval};
use crate::sets::{apart, groups, keeps_groups, members, parted, ungrouped};

type Misplan = fn(&Day) -> Answer;

pub const MISPLANNINGS: [(&str, Misplan); 14] = [
    ("groups ignored", ignored),
    ("a group kept only where positions are neighbours", neighbours),
    ("only the lowest group kept", only_lowest),
    ("the highest group number not kept", highest_left_out),
    ("trains in no group kept together", alone_together),
    ("a group's slot holds no other train", slot_alone),
    ("a group takes one track", one_track),
    ("a group of one gets 16", one_refused),
    ("a group of more than three gets 16", four_refused),
    ("the plan without groups gets 16 where it parts one", planned_before),
    ("16 where a stretch is overbooked", unkept_first),
    ("9 with the whole day for 16", never_unkept),
    ("windows cut to the group's common part for 9", windows_cut),
    ("a group's window is that of its first train", first_window),
];

/// Where no assignment is allowed: 9 if an interval is overbooked, else 16.
fn refused(day: &Day) -> Answer {
    first_overbooked(day).map_or(Answer::Unkept, Answer::Overbooked)
}

fn planned_by(day: &Day, allowed: Allowed) -> Answer {
    best_by(day, allowed).map_or_else(|| refused(day), Answer::Plan)
}

fn ignored(day: &Day) -> Answer {
    planned_by(day, within_tracks)
}

fn neighbours(day: &Day) -> Answer {
    planned_by(day, |day, assignment| {
        let grouped = |k: usize| day.trains[k].group > 0;
        let bound = |k: usize| grouped(k) && day.trains[k].group == day.trains[k + 1].group;
        let kept = |k: usize| !bound(k) || assignment[k] == assignment[k + 1];
        within_tracks(day, assignment) && (0..assignment.len() - 1).all(kept)
    })
}

fn only_lowest(day: &Day) -> Answer {
    planned_by(day, |day, assignment| {
        let parted = parted(day, assignment);
        let kept = groups(day).first().is_none_or(|lowest| !parted.contains(lowest));
        within_tracks(day, assignment) && kept
    })
}

fn highest_left_out(day: &Day) -> Answer {
    planned_by(day, |day, assignment| {
        let kept = parted(day, assignment).iter().all(|&group| group == MOST_GROUP);
        within_tracks(day, assignment) && kept
    })
}

fn alone_together(day: &Day) -> Answer {
    planned_by(day, |day, assignment| {
        allowed(day, assignment) && !apart(assignment, &members(day, 0))
    })
}

fn slot_alone(day: &Day) -> Answer {
    planned_by(day, |day, assignment| {
        let same = |k: usize, l: usize| day.trains[k].group == day.trains[l].group;
        let alone = |k: usize| {
            let others = (0..assignment.len()).filter(|&l| assignment[l] == assignment[k]);
            day.trains[k].group == 0 || others.into_iter().all(|l| same(k, l))
        };
        allowed(day, assignment) && (0..assignment.len()).all(alone)
    })
}

fn one_track(day: &Day) -> Answer {
    planned_by(day, |day, assignment| {
        let counted = |k: &usize| (0..*k).all(|l| day.trains[l].group != day.trains[*k].group);
        let counted = |k: &usize| day.trains[*k].group == 0 || counted(k);
        let slots: Vec<usize> =
            (0..assignment.len()).filter(counted).map(|k| assignment[k]).collect();
        within_tracks(day, &slots) && keeps_groups(day, assignment)
    })
}

/// 16 where a group has a size like this.
fn refused_size(day: &Day, wrong: fn(usize) -> bool) -> Answer {
    let refused_one = groups(day).into_iter().any(|group| wrong(members(day, group).len()));
    if refused_one {
        refused(day)
    } else {
        plan(day)
    }
}

fn one_refused(day: &Day) -> Answer {
    refused_size(day, |size| size == 1)
}

fn four_refused(day: &Day) -> Answer {
    refused_size(day, |size| size > 3)
}

fn planned_before(day: &Day) -> Answer {
    match best(&ungrouped(day)) {
        Some(plan) if keeps_groups(day, &plan.assignment) => Answer::Plan(plan),
        _ => refused(day),
    }
}

/// The first and the last slot that a group's windows have in common, the first
/// above the last where there is none.
fn common(day: &Day, group: usize) -> (usize, usize) {
    let trains = || members(day, group).into_iter().map(|k| &day.trains[k]);
    let first = trains().map(|train| train.first).max().expect("a member");
    let last = trains().map(|train| train.last).min().expect("a member");
    (first, last)
}

fn unkept_first(day: &Day) -> Answer {
    let impossible = |group: usize| {
        let (first, last) = common(day, group);
        members(day, group).len() > day.tracks || first > last
    };
    match groups(day).into_iter().any(impossible) {
        true => Answer::Unkept,
        false => plan(day),
    }
}

fn never_unkept(day: &Day) -> Answer {
    let whole = Interval { first: 1, last: day.slots, bound: day.trains.len() };
    match plan(day) {
        Answer::Unkept => Answer::Overbooked(whole),
        answer => answer,
    }
}

fn windows_cut(day: &Day) -> Answer {
    let mut cut = day.clone();
    for train in cut.trains.iter_mut().filter(|train| train.group > 0) {
        (train.first, train.last) = common(day, train.group);
    }
    match plan(day) {
        Answer::Plan(plan) => Answer::Plan(plan),
        _ => refused(&cut),
    }
}

/// Members follow the first one whatever their own windows.
fn first_window(day: &Day) -> Answer {
    let mut same = day.clone();
    for train in same.trains.iter_mut().filter(|train| train.group > 0) {
        let first = &day.trains[members(day, train.group)[0]];
        (train.first, train.last) = (first.first, first.last);
    }
    match first_overbooked(day) {
        Some(interval) => Answer::Overbooked(interval),
        None => planned_by(&same, allowed),
    }
}
