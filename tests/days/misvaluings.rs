//! Mistakes in the revisits, split moves and cost of an allowed assignment; those
//! about direct moves stand in miscountings.rs. Each has to give other numbers
//! than the model on some of the assignments that are valued, for else a
//! library that makes it would pass.

use crate::model::{value, weighed, Day, Value};

pub type Misvalue = fn(&Day, &[usize]) -> Value;

pub const MISVALUINGS: [(&str, Misvalue); 8] = [
    ("boxes the other way round (section 3.2)", transposed),
    ("boxes from later slots left out", only_earlier),
    ("boxes from earlier slots left out", only_later),
    ("a split move for each pair, not for each box", pairs),
    ("a revisit for each later supplier", each_supplier),
    ("a revisit for a supplier in the same slot", same_slot),
    ("a revisit for an earlier supplier", earlier_supplier),
    ("weights exchanged", weights_exchanged),
];

/// The value with other revisits and split moves, and what they cost.
fn counted(day: &Day, value: Value, revisits: usize, splits: usize) -> Value {
    Value { revisits, splits, cost: weighed(day, revisits, splits), ..value }
}

/// Each train with each of its suppliers, by position.
pub fn supplied(day: &Day) -> impl Iterator<Item = (usize, usize)> + '_ {
    let n = day.trains.len();
    let pairs = (0..n).flat_map(move |i| (0..n).map(move |j| (i, j)));
    pairs.filter(|&(i, j)| day.boxes[i][j] > 0)
}

fn transposed(day: &Day, assignment: &[usize]) -> Value {
    let mut other = day.clone();
    for (i, j) in supplied(day) {
        (other.boxes[i][j], other.boxes[j][i]) = (day.boxes[j][i], day.boxes[i][j]);
    }
    value(&other, assignment)
}

fn with_splits(day: &Day, assignment: &[usize], splits: usize) -> Value {
    let value = value(day, assignment);
    counted(day, value, value.revisits, splits)
}

fn with_revisits(day: &Day, assignment: &[usize], revisits: usize) -> Value {
    let value = value(day, assignment);
    counted(day, value, revisits, value.splits)
}

/// The boxes of the pairs that are counted.
fn splits_by(day: &Day, assignment: &[usize], counted: fn(usize, usize) -> bool) -> Value {
    let counted = |&(i, j): &(usize, usize)| counted(assignment[i], assignment[j]);
    let splits = supplied(day).filter(counted).map(|(i, j)| day.boxes[i][j]).sum();
    with_splits(day, assignment, splits)
}

fn only_earlier(day: &Day, assignment: &[usize]) -> Value {
    splits_by(day, assignment, |own, supplier| supplier < own)
}

fn only_later(day: &Day, assignment: &[usize]) -> Value {
    splits_by(day, assignment, |own, supplier| supplier > own)
}

fn pairs(day: &Day, assignment: &[usize]) -> Value {
    let splits = supplied(day).filter(|&(i, j)| assignment[i] != assignment[j]).count();
    with_splits(day, assignment, splits)
}

/// The trains with a supplier that counts.
fn revisits_by(day: &Day, assignment: &[usize], counts: fn(usize, usize) -> bool) -> Value {
    let revisits =
        |i: &usize| supplied(day).any(|(k, j)| k == *i && counts(assignment[k], assignment[j]));
    let revisits = (0..assignment.len()).filter(revisits).count();
    with_revisits(day, assignment, revisits)
}

fn each_supplier(day: &Day, assignment: &[usize]) -> Value {
    let revisits = supplied(day).filter(|&(i, j)| assignment[j] > assignment[i]).count();
    with_revisits(day, assignment, revisits)
}

fn same_slot(day: &Day, assignment: &[usize]) -> Value {
    revisits_by(day, assignment, |own, supplier| supplier >= own)
}

fn earlier_supplier(day: &Day, assignment: &[usize]) -> Value {
    revisits_by(day, assignment, |own, supplier| supplier < own)
}

fn weights_exchanged(day: &Day, assignment: &[usize]) -> Value {
    let value = value(day, assignment);
    let cost = day.split_weight * value.revisits + day.revisit_weight * value.splits;
    Value { cost, ..value }
}
