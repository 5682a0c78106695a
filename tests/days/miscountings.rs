//! Mistakes about direct moves (order 6 of 02): in counting them, in their place
//! among the numbers, in what they weigh, and in whose they are. Each has to give
//! other numbers than the papers on some of the plans, of the valued assignments
//! and of the baselines' ones, for else a library that makes it would pass.
//!
//! Boxes taken the other way round don't show here: both ways of a pair are
//! counted alike. Nor do boxes from a train to itself, for there are none; but a
//! train that counts as one of its own suppliers does.

use crate::library::complete;
use crate::misorderings::{as_before, try_all};
use crate::misvaluings::{supplied, Misvalue};
use crate::model::{value, Day, Value};
use crate::plan::best;
use crate::procedures::{first_come, myopic, Slots};
use crate::sets::ungrouped;

pub const MISCOUNTINGS: [(&str, Misvalue); 37] = [
    ("direct: no move at all", none),
    ("direct: both ways of a pair counted once", larger_way),
    ("direct: only boxes to the lower position", to_lower),
    ("direct: only boxes to the higher position", to_higher),
    ("direct: each box for both of its trains", twice),
    ("direct: a train counted with itself", with_itself),
    ("direct: one for each pair, not for each box", pairs),
    ("direct: neighbouring slots taken for the same", neighbouring_slots),
    ("direct: only neighbouring positions", neighbouring_positions),
    ("direct: only trains next to each other in their slot", next_in_slot),
    ("direct: only with the first train of a slot", with_first),
    ("direct: only slots of two trains", slots_of_two),
    ("direct: slot 1 left out", first_left_out),
    ("direct: the last slot left out", last_left_out),
    ("direct: the last train left out", last_train_left_out),
    ("direct: only boxes within groups", within_groups),
    ("direct: boxes within groups left out", groups_left_out),
    ("direct: split moves in their place", splits_for_direct),
    ("direct: all boxes", all),
    ("direct: all boxes but those from later slots", less_later),
    ("direct: all boxes but those from earlier slots", less_earlier),
    ("direct: all boxes less a box for each pair apart", less_pairs),
    ("direct: all boxes less the cost", less_cost),
    ("direct: weighed", weighed),
    ("direct: in 8 bits", cut::<8>),
    ("direct: in 10 bits", cut::<10>),
    ("direct: in 12 bits", cut::<12>),
    ("direct: in 14 bits", cut::<14>),
    ("direct: in 15 bits", cut::<15>),
    ("direct: 255 at most", at_most::<255>),
    ("direct: 32,767 at most", at_most::<32_767>),
    ("direct: before the split moves", before_splits),
    ("direct: after the cost", after_cost),
    ("direct: before the revisits", before_revisits),
    ("direct: added to the split moves", in_splits),
    ("direct: as dear as split moves", in_cost),
    ("direct: taken off the cost", off_cost),
];

/// The value with other direct moves.
fn with_direct(day: &Day, assignment: &[usize], direct: impl Fn(&Value) -> usize) -> Value {
    let value = value(day, assignment);
    Value { direct: direct(&value), ..value }
}

/// The boxes of the pairs that are counted, the first receiving from the second.
fn boxes_of(day: &Day, counted: impl Fn(usize, usize) -> bool) -> usize {
    supplied(day).filter(|&(i, j)| counted(i, j)).map(|(i, j)| day.boxes[i][j]).sum()
}

/// Of the pairs in one slot only those that are counted.
fn beside(day: &Day, assignment: &[usize], counted: impl Fn(usize, usize) -> bool) -> Value {
    let counted = |i: usize, j: usize| assignment[i] == assignment[j] && counted(i, j);
    with_direct(day, assignment, |_| boxes_of(day, counted))
}

fn none(day: &Day, assignment: &[usize]) -> Value {
    with_direct(day, assignment, |_| 0)
}

/// The larger of a pair's two numbers of boxes.
fn larger_way(day: &Day, assignment: &[usize]) -> Value {
    beside(day, assignment, |i, j| (day.boxes[i][j], j) > (day.boxes[j][i], i))
}

fn to_lower(day: &Day, assignment: &[usize]) -> Value {
    beside(day, assignment, |i, j| i < j)
}

fn to_higher(day: &Day, assignment: &[usize]) -> Value {
    beside(day, assignment, |i, j| i > j)
}

fn twice(day: &Day, assignment: &[usize]) -> Value {
    with_direct(day, assignment, |value| 2 * value.direct)
}

fn with_itself(day: &Day, assignment: &[usize]) -> Value {
    with_direct(day, assignment, |value| value.direct + assignment.len())
}

fn pairs(day: &Day, assignment: &[usize]) -> Value {
    let beside = |&(i, j): &(usize, usize)| assignment[i] == assignment[j];
    with_direct(day, assignment, |_| supplied(day).filter(beside).count())
}

fn neighbouring_slots(day: &Day, assignment: &[usize]) -> Value {
    let counted = |i: usize, j: usize| assignment[i].abs_diff(assignment[j]) <= 1;
    with_direct(day, assignment, |_| boxes_of(day, counted))
}

fn neighbouring_positions(day: &Day, assignment: &[usize]) -> Value {
    beside(day, assignment, |i, j| i.abs_diff(j) == 1)
}

/// The positions of the trains in the slot of this one.
fn mates(assignment: &[usize], i: usize) -> Vec<usize> {
    (0..assignment.len()).filter(|&k| assignment[k] == assignment[i]).collect()
}

fn next_in_slot(day: &Day, assignment: &[usize]) -> Value {
    let place = |i: usize| mates(assignment, i).iter().position(|&k| k == i).expect("itself");
    beside(day, assignment, |i, j| place(i).abs_diff(place(j)) == 1)
}

fn with_first(day: &Day, assignment: &[usize]) -> Value {
    beside(day, assignment, |i, j| mates(assignment, i)[0] == i.min(j))
}

fn slots_of_two(day: &Day, assignment: &[usize]) -> Value {
    beside(day, assignment, |i, _| mates(assignment, i).len() == 2)
}

fn first_left_out(day: &Day, assignment: &[usize]) -> Value {
    beside(day, assignment, |i, _| assignment[i] > 1)
}

fn last_left_out(day: &Day, assignment: &[usize]) -> Value {
    beside(day, assignment, |i, _| assignment[i] < day.slots)
}

fn last_train_left_out(day: &Day, assignment: &[usize]) -> Value {
    beside(day, assignment, |i, j| i.max(j) + 1 < assignment.len())
}

/// Whether two trains are in the same group.
fn grouped(day: &Day, i: usize, j: usize) -> bool {
    day.trains[i].group > 0 && day.trains[i].group == day.trains[j].group
}

fn within_groups(day: &Day, assignment: &[usize]) -> Value {
    beside(day, assignment, |i, j| grouped(day, i, j))
}

fn groups_left_out(day: &Day, assignment: &[usize]) -> Value {
    beside(day, assignment, |i, j| !grouped(day, i, j))
}

fn splits_for_direct(day: &Day, assignment: &[usize]) -> Value {
    with_direct(day, assignment, |value| value.splits)
}

fn all(day: &Day, assignment: &[usize]) -> Value {
    with_direct(day, assignment, |_| boxes_of(day, |_, _| true))
}

fn less_later(day: &Day, assignment: &[usize]) -> Value {
    with_direct(day, assignment, |_| boxes_of(day, |i, j| assignment[j] <= assignment[i]))
}

fn less_earlier(day: &Day, assignment: &[usize]) -> Value {
    with_direct(day, assignment, |_| boxes_of(day, |i, j| assignment[j] >= assignment[i]))
}

fn less_pairs(day: &Day, assignment: &[usize]) -> Value {
    let apart = supplied(day).filter(|&(i, j)| assignment[i] != assignment[j]).count();
    with_direct(day, assignment, |_| boxes_of(day, |_, _| true) - apart)
}

fn less_cost(day: &Day, assignment: &[usize]) -> Value {
    let all = boxes_of(day, |_, _| true);
    with_direct(day, assignment, |value| all.saturating_sub(value.cost))
}

fn weighed(day: &Day, assignment: &[usize]) -> Value {
    with_direct(day, assignment, |value| day.split_weight * value.direct)
}

/// The greatest number, 33,660, needs 16 bits.
fn cut<const BITS: u32>(day: &Day, assignment: &[usize]) -> Value {
    with_direct(day, assignment, |value| value.direct % (1 << BITS))
}

fn at_most<const MOST: usize>(day: &Day, assignment: &[usize]) -> Value {
    with_direct(day, assignment, |value| value.direct.min(MOST))
}

fn before_splits(day: &Day, assignment: &[usize]) -> Value {
    let value = value(day, assignment);
    Value { splits: value.direct, direct: value.splits, ..value }
}

fn after_cost(day: &Day, assignment: &[usize]) -> Value {
    let value = value(day, assignment);
    Value { direct: value.cost, cost: value.direct, ..value }
}

fn before_revisits(day: &Day, assignment: &[usize]) -> Value {
    let Value { revisits, splits, direct, cost } = value(day, assignment);
    Value { revisits: direct, splits: revisits, direct: splits, cost }
}

fn in_splits(day: &Day, assignment: &[usize]) -> Value {
    let value = value(day, assignment);
    Value { splits: value.splits + value.direct, ..value }
}

fn in_cost(day: &Day, assignment: &[usize]) -> Value {
    let value = value(day, assignment);
    Value { cost: value.cost + day.split_weight * value.direct, ..value }
}

fn off_cost(day: &Day, assignment: &[usize]) -> Value {
    let value = value(day, assignment);
    Value { cost: value.cost.saturating_sub(day.split_weight * value.direct), ..value }
}

/// Another assignment than the plan of a day that has one.
type Other = fn(&Day) -> Option<Vec<usize>>;

/// Whose direct moves might stand beside the plan by mistake.
pub const OTHERS: [(&str, Other); 4] = [
    ("direct: those of first come", of_first_come),
    ("direct: those of the myopic procedure", of_myopic),
    ("direct: those of the plan without groups", without_groups),
    ("direct: those of the plan by 01's order alone", of_former_order),
];

/// The direct moves that would stand beside the plan, if any.
pub fn direct_of(day: &Day, other: Other) -> Option<usize> {
    other(day).map(|assignment| value(day, &assignment).direct)
}

fn if_complete(slots: &Slots) -> Option<Vec<usize>> {
    slots.iter().all(Option::is_some).then(|| complete(slots))
}

fn of_first_come(day: &Day) -> Option<Vec<usize>> {
    if_complete(&first_come(day))
}

fn of_myopic(day: &Day) -> Option<Vec<usize>> {
    if_complete(&myopic(day))
}

fn without_groups(day: &Day) -> Option<Vec<usize>> {
    best(&ungrouped(day)).map(|plan| plan.assignment)
}

fn of_former_order(day: &Day) -> Option<Vec<usize>> {
    Some(as_before(day, &try_all(day)))
}
