//! Days on which it shows if what a slot costs is summed in too few bits (order
//! 3 of 02).

use crate::draw::{draw_heavy, Random};
use crate::model::{rank, revisiting, split_moves_to, weighed, Day, Rank, MOST_SLOTS};
use crate::plan::{best, first_by, SEARCH};
use std::ops::RangeInclusive;

/// The widths that a day can show. A slot costs less than 2^30: of 12 trains
/// its k receive from the 12 - k others, and at the greatest weights and boxes
/// that is most for 6 trains that all revisit, 602,004,510.
pub const SHOWN_BITS: RangeInclusive<u32> = 16..=29;

/// What each slot costs: the revisits of its trains and the boxes that they
/// receive from other slots, weighed.
pub fn slot_costs(day: &Day, assignment: &[usize]) -> [usize; MOST_SLOTS] {
    let mut costs = [0; MOST_SLOTS];
    for (i, slot) in assignment.iter().enumerate() {
        let revisits = usize::from(revisiting(day, assignment, i));
        let splits = split_moves_to(day, assignment, i);
        costs[slot - 1] += weighed(day, revisits, splits);
    }
    costs
}

/// The plan of one who keeps only the low bits of what a slot costs.
fn plan_cut(day: &Day, bits: u32) -> Option<Vec<usize>> {
    let low = |cost: &usize| cost % (1 << bits);
    first_by(day, SEARCH, |assignment| {
        let cost = slot_costs(day, assignment).iter().map(low).sum();
        Rank { cost, ..rank(day, assignment) }
    })
}

/// A day whose plan would be another one.
pub fn draw_shown(random: &mut Random, bits: u32) -> Day {
    loop {
        let day = draw_heavy(random, bits);
        if plan_cut(&day, bits) != best(&day).map(|plan| plan.assignment) {
            return day;
        }
    }
}
