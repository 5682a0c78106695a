//! What has to be seen of the days of mode fewest, for else order 8 of 02 says
//! little about them.

use crate::fewest::{fewest, Counts};
use crate::fewest_weights::{sum, WEIGHTS};
use crate::model::{Day, MOST_TRAINS};
use crate::seen::Seen;
use crate::sets::{has_groups, ungrouped};
use std::collections::BTreeSet;

pub const DAYS: [&str; 21] = [
    "all allowed rows have the same counts",
    "no boxes, and several slots to choose from",
    "boxes one way",
    "boxes in a cycle",
    "a sum of 2^8 or more",
    "a sum of 2^15 or more",
    "twelve trains",
    "each window one or two slots",
    "windows of five slots or more",
    "groups of several trains",
    "groups: without them other counts are fewest",
    "no row without a revisit",
    "rows without a revisit, and others",
    "rows of the fewest revisits differ in split moves",
    "the fewest split moves come with more revisits",
    "weights 1 and 1 give other counts",
    "a revisit less for ten boxes or more",
    "a revisit less for half of all boxes or more",
    "a revisit less for all boxes but one",
    "several revisits less than with the fewest split moves",
    "windows: one slot wider, and other counts are fewest",
];

/// The fewest split moves, and the fewest revisits beside them.
pub fn by_split_moves(all: &BTreeSet<Counts>) -> Counts {
    *all.iter().min_by_key(|counts| counts.splits).expect("a row")
}

/// What is cheapest where both weights are 1, and the fewest revisits beside it.
pub fn by_sum_of_both(all: &BTreeSet<Counts>) -> Counts {
    *all.iter().min_by_key(|counts| counts.revisits + counts.splits).expect("a row")
}

/// Whether some train supplies itself by way of others: those that nobody who is
/// left supplies are taken out again and again.
fn in_cycle(day: &Day) -> bool {
    let mut left: Vec<usize> = (0..day.trains.len()).collect();
    loop {
        let supplied = |to: usize| left.iter().any(|&from| day.boxes[to][from] > 0);
        let kept: Vec<usize> = left.iter().copied().filter(|&to| supplied(to)).collect();
        if kept.len() == left.len() {
            return !left.is_empty();
        }
        left = kept;
    }
}

/// The day with each window one slot wider on both sides, as far as there are slots.
pub fn widened(day: &Day) -> Day {
    let mut day = day.clone();
    for train in &mut day.trains {
        train.first = train.first.max(2) - 1;
        train.last = (train.last + 1).min(day.slots);
    }
    day
}

/// Days of no more rows are gone through once more with wider windows.
const WIDENED_MOST: usize = 2000;

/// Which of `DAYS` a day is, by the counts that its allowed rows have.
fn kinds(day: &Day, all: &BTreeSet<Counts>, least: Counts) -> [bool; DAYS.len()] {
    let (sum, n) = (sum(day), day.trains.len());
    let width = |k: usize| day.trains[k].last + 1 - day.trains[k].first;
    let together = |k: usize| (0..k).any(|l| day.trains[l].group == day.trains[k].group);
    let by_splits = by_split_moves(all);
    let dearer = |boxes: usize| {
        let saves = |counts: &Counts| counts.splits + boxes <= least.splits;
        all.iter().any(|counts| counts.revisits > least.revisits && saves(counts))
    };
    let all_but_one = [Counts { revisits: 0, splits: sum }, Counts { revisits: 1, splits: 1 }];
    let wider = widened(day);
    [
        all.len() == 1 && sum > 0,
        sum == 0 && (0..n).any(|k| width(k) > 1),
        sum > 0 && !in_cycle(day),
        in_cycle(day),
        sum >= 1 << 8,
        sum >= 1 << 15,
        n == MOST_TRAINS,
        (0..n).all(|k| width(k) <= 2),
        (0..n).any(|k| width(k) >= 5),
        (0..n).any(|k| day.trains[k].group > 0 && together(k)),
        has_groups(day) && fewest(&ungrouped(day)) != Some(least),
        least.revisits > 0,
        least.revisits == 0 && all.iter().any(|counts| counts.revisits > 0),
        all.iter().any(|counts| counts.revisits == least.revisits && *counts != least),
        by_splits.revisits > least.revisits,
        by_sum_of_both(all) != least,
        dearer(10),
        sum > 0 && dearer(sum.div_ceil(2)),
        sum > 1 && all_but_one.iter().all(|counts| all.contains(counts)) && all.len() == 2,
        by_splits.revisits > least.revisits + 1,
        wider.assignments() <= WIDENED_MOST && fewest(&wider) != Some(least),
    ]
}

pub fn note_day(seen: &mut Seen, day: &Day, all: &BTreeSet<Counts>) {
    if let Some(least) = all.first() {
        let found = kinds(day, all, *least).into_iter().zip(DAYS);
        found.for_each(|(holds, what)| seen.note_if(holds, what));
    }
}

/// A plan of the library or of the program, with these weights.
pub fn planned(by: &str, weights: &str) -> String {
    format!("{by}, {weights}")
}

/// A day without an allowed row.
pub fn refused(by: &str, refusal: usize) -> String {
    format!("{by}, refused with {refusal}")
}

pub const LIBRARY: &str = "yard_plan";
pub const PROGRAM: &str = "yard-plan";

pub fn required_days() -> Vec<String> {
    let mut required: Vec<String> = DAYS.map(str::to_string).to_vec();
    for by in [LIBRARY, PROGRAM] {
        required.extend(WEIGHTS.map(|(weights, _)| planned(by, weights)));
        required.extend([9, 16].map(|refusal| refused(by, refusal)));
    }
    required
}
