//! Mistakes in step (2) of the myopic procedure. Each has to answer otherwise
//! than the paper on some of the days that are run, for else a library that
//! makes it would pass.

use crate::procedures::{Point, Select, Set};
use std::cmp::Reverse;

pub const MISREADINGS: [(&str, Select); 11] = [
    ("boxes from earlier slots left out (Table 2)", earlier_left_out),
    ("boxes from the current slot counted", current_counted),
    ("only boxes from earlier slots counted", only_earlier),
    ("a revisit counted for each missing supplier", each_missing),
    ("a train whose window has passed leaves POS", passed_leave),
    ("boxes from a train whose window has passed left out", passed_boxes_left_out),
    ("POS holds only trains that may be chosen", only_candidates),
    ("windows ignored", windows_ignored),
    ("highest position on a tie", highest_on_tie),
    ("a train may not come after its group's slot", group_passed_left_out),
    ("trains of a group in the slot come first", group_first),
];

/// The candidate of least increase, the increase being misread.
fn least(point: &Point, increase: impl Fn(usize) -> usize) -> Option<usize> {
    point.candidates().into_iter().min_by_key(|&i| increase(i))
}

fn revisits(missing: &Set) -> usize {
    missing.len().min(1)
}

/// As Table 2 of the source, which 01 names: only waiting suppliers' boxes.
pub fn earlier_left_out(point: &Point) -> Option<usize> {
    least(point, |i| {
        let missing = point.missing(i);
        point.weighed(i, revisits(&missing), &missing)
    })
}

fn current_counted(point: &Point) -> Option<usize> {
    least(point, |i| point.weighed(i, revisits(&point.missing(i)), &point.suppliers(i)))
}

fn only_earlier(point: &Point) -> Option<usize> {
    least(point, |i| {
        let missing = point.missing(i);
        point.weighed(i, revisits(&missing), &(&point.outside(i) - &missing))
    })
}

fn each_missing(point: &Point) -> Option<usize> {
    least(point, |i| point.weighed(i, point.missing(i).len(), &point.outside(i)))
}

/// The trains without a slot whose window has passed.
fn passed(point: &Point) -> Set {
    point.pos.iter().copied().filter(|&j| point.day.trains[j].last < point.t).collect()
}

pub fn passed_leave(point: &Point) -> Option<usize> {
    let passed = passed(point);
    least(point, |i| {
        let missing = &point.missing(i) - &passed;
        point.weighed(i, revisits(&missing), &point.outside(i))
    })
}

pub fn passed_boxes_left_out(point: &Point) -> Option<usize> {
    let passed = passed(point);
    least(point, |i| point.weighed(i, revisits(&point.missing(i)), &(&point.outside(i) - &passed)))
}

fn only_candidates(point: &Point) -> Option<usize> {
    let candidates = point.candidates();
    least(point, |i| {
        let missing = &point.missing(i) & &candidates;
        point.weighed(i, revisits(&missing), &point.outside(i))
    })
}

fn windows_ignored(point: &Point) -> Option<usize> {
    point.pos.iter().copied().min_by_key(|&i| point.increase(i))
}

fn highest_on_tie(point: &Point) -> Option<usize> {
    point.candidates().into_iter().min_by_key(|&i| (point.increase(i), Reverse(i)))
}

/// Whether train i is in a group that has one of these trains.
fn grouped_with(point: &Point, i: usize, trains: &Set) -> bool {
    let group = |j: usize| point.day.trains[j].group;
    group(i) > 0 && trains.iter().any(|&j| group(j) == group(i))
}

pub fn group_passed_left_out(point: &Point) -> Option<usize> {
    let all: Set = (0..point.day.trains.len()).collect();
    let earlier = &(&all - &point.pos) - &point.in_t;
    let mut candidates = point.candidates();
    candidates.retain(|&i| !grouped_with(point, i, &earlier));
    candidates.into_iter().min_by_key(|&i| point.increase(i))
}

pub fn group_first(point: &Point) -> Option<usize> {
    let candidates = point.candidates().into_iter();
    candidates.min_by_key(|&i| (!grouped_with(point, i, &point.in_t), point.increase(i)))
}
