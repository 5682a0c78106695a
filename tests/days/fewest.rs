//! The fewest revisits of all allowed rows of a day, and the fewest split moves of
//! the rows that share them (order 8 of 02). No weight is looked at.
//!
//! It is a path of its own, not that of plan.rs: train after train takes a slot
//! that its window, the tracks and its group leave it, and a move is counted as
//! soon as both its trains have theirs. Mode self holds the two paths together.

use crate::model::{value, within_windows, Day};
use crate::plan::allowed;
use std::collections::BTreeSet;

/// Revisits and split moves of a row. Of two the lesser one has fewer revisits or,
/// with as many, fewer split moves: what order 8 speaks of is the least.
#[derive(Clone, Copy, Debug, PartialEq, Eq, PartialOrd, Ord)]
pub struct Counts {
    pub revisits: usize,
    pub splits: usize,
}

// ---------------------------------------------------------------------------
// All allowed rows
// ---------------------------------------------------------------------------

/// Who receives, who supplies, and how many boxes.
type Move = (usize, usize, usize);

/// A row on its way: the first trains have their slots.
struct Rows<'a, Visit> {
    day: &'a Day,
    /// By position, the moves between a train and those before it.
    moves: Vec<Vec<Move>>,
    slots: Vec<usize>,
    visit: Visit,
}

/// The moves between a train and those before it.
fn moves_back(day: &Day, position: usize) -> Vec<Move> {
    let both = |other: usize| [(position, other), (other, position)];
    let moves = (0..position).flat_map(both).map(|(to, from)| (to, from, day.boxes[to][from]));
    moves.filter(|(_, _, boxes)| *boxes > 0).collect()
}

impl<Visit: FnMut(&[usize], Counts)> Rows<'_, Visit> {
    /// Whether the next train may take this slot beside those before it.
    fn is_left(&self, slot: usize) -> bool {
        let group = self.day.trains[self.slots.len()].group;
        let mut held = 0;
        for (train, &other) in self.day.trains.iter().zip(&self.slots) {
            held += usize::from(other == slot);
            if group > 0 && train.group == group && other != slot {
                return false;
            }
        }
        held < self.day.tracks
    }

    /// Goes on with the next train. Of those before it some come back, as bits by
    /// position, and so many boxes are split.
    fn go_on(&mut self, back: u32, splits: usize) {
        let (day, next) = (self.day, self.slots.len());
        let Some(train) = day.trains.get(next) else {
            let revisits = back.count_ones() as usize;
            (self.visit)(&self.slots, Counts { revisits, splits });
            return;
        };
        for slot in train.first..=train.last {
            if !self.is_left(slot) {
                continue;
            }
            self.slots.push(slot);
            let (mut back, mut splits) = (back, splits);
            for &(to, from, boxes) in &self.moves[next] {
                if self.slots[from] > self.slots[to] {
                    back |= 1 << to;
                }
                if self.slots[from] != self.slots[to] {
                    splits += boxes;
                }
            }
            self.go_on(back, splits);
            self.slots.pop();
        }
    }
}

/// Visits each allowed row with its counts.
pub fn each_row(day: &Day, visit: impl FnMut(&[usize], Counts)) {
    let moves = (0..day.trains.len()).map(|position| moves_back(day, position)).collect();
    Rows { day, moves, slots: Vec::new(), visit }.go_on(0, 0);
}

/// The counts that allowed rows have, the least first.
pub fn all_counts(day: &Day) -> BTreeSet<Counts> {
    let mut all = BTreeSet::new();
    each_row(day, |_, counts| {
        all.insert(counts);
    });
    all
}

/// What order 8 promises; nothing where no row is allowed.
pub fn fewest(day: &Day) -> Option<Counts> {
    all_counts(day).first().copied()
}

// ---------------------------------------------------------------------------
// Holding a plan to them
// ---------------------------------------------------------------------------

/// A plan as it is told: the slot of each train, and the counts beside them.
#[derive(Clone, Debug)]
pub struct Told {
    pub slots: Vec<usize>,
    pub counts: Counts,
}

/// The counts of a row, by the model.
pub fn counted(day: &Day, slots: &[usize]) -> Counts {
    let value = value(day, slots);
    Counts { revisits: value.revisits, splits: value.splits }
}

/// A plan is an allowed row, and both what is told of it and what is counted again
/// from its slots are the fewest.
pub fn hold(day: &Day, fewest: Counts, told: &Told) -> Result<(), String> {
    let Told { slots, counts } = told;
    let whole = slots.len() == day.trains.len();
    if !(whole && within_windows(day, slots) && allowed(day, slots)) {
        return Err(format!("{slots:?} is not allowed"));
    }
    for (counts, how) in [(*counts, "told"), (counted(day, slots), "counted again")] {
        if counts != fewest {
            return Err(format!("{slots:?} with {counts:?}, {how}, but {fewest:?} are fewest"));
        }
    }
    Ok(())
}
