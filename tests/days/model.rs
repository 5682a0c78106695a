//! The day, and the valuing and the order of assignments (01, The model; the
//! order by order 5 of 02, direct moves by order 6).

use std::cmp::Reverse;

// ---------------------------------------------------------------------------
// The day (01, The model; train numbers by order 2 of 02, groups by order 4)
// ---------------------------------------------------------------------------

pub const MOST_TRAINS: usize = 12;
pub const MOST_TRACKS: usize = 12;
pub const MOST_SLOTS: usize = 8;
pub const MOST_WEIGHT: usize = 65535;
pub const MOST_TRAIN_NUMBER: usize = 99_999;
pub const MOST_BOXES: usize = 255;
pub const MOST_GROUP: usize = 12;

/// The program reads no more of its input, and their reading decides.
pub const MOST_BYTES_READ: usize = 4096;

/// The greatest accepted file, and the greatest without groups.
pub const MOST_BYTES_ACCEPTED: usize = 2437;
pub const MOST_BYTES_UNGROUPED: usize = 2317;

/// The greatest plan file.
pub const MOST_BYTES_PRINTED: usize = 161;

#[derive(Clone, Debug, PartialEq)]
pub struct Train {
    pub number: usize,
    pub first: usize,
    pub last: usize,
    /// The group's number, 0 where the train is in none.
    pub group: usize,
}

/// `boxes[i][j]` is A(i, j): what position i receives from position j.
pub type Boxes = [[usize; MOST_TRAINS]; MOST_TRAINS];

#[derive(Clone, Debug, PartialEq)]
pub struct Day {
    pub tracks: usize,
    pub slots: usize,
    pub revisit_weight: usize,
    pub split_weight: usize,
    pub trains: Vec<Train>,
    pub boxes: Boxes,
}

impl Day {
    /// How many assignments lie within the windows; on a day without groups each
    /// of them is tried.
    pub fn assignments(&self) -> usize {
        self.trains.iter().map(|train| train.last - train.first + 1).product()
    }
}

// ---------------------------------------------------------------------------
// Valuing an assignment (01, The model; direct moves by order 6 of 02)
// ---------------------------------------------------------------------------

/// The numbers of an assignment, in the order of the plan file's names line and
/// of yard.h: revisits, split moves, direct moves, cost.
pub type Numbers = [usize; 4];

/// How many they are.
pub const NUMBERS: usize = 4;

#[derive(Clone, Copy, Debug, PartialEq)]
pub struct Value {
    pub revisits: usize,
    pub splits: usize,
    pub direct: usize,
    pub cost: usize,
}

impl Value {
    pub fn numbers(&self) -> Numbers {
        [self.revisits, self.splits, self.direct, self.cost]
    }
}

/// Whether train i has at least one supplier in a later slot.
pub fn revisiting(day: &Day, assignment: &[usize], i: usize) -> bool {
    (0..assignment.len()).any(|j| day.boxes[i][j] > 0 && assignment[j] > assignment[i])
}

/// Each revisiting train counts one, however many such suppliers it has.
fn revisits(day: &Day, assignment: &[usize]) -> usize {
    (0..assignment.len()).filter(|&i| revisiting(day, assignment, i)).count()
}

/// The boxes of train i from trains of other slots, earlier or later.
pub fn split_moves_to(day: &Day, assignment: &[usize], i: usize) -> usize {
    let apart = |j: &usize| assignment[*j] != assignment[i];
    (0..assignment.len()).filter(apart).map(|j| day.boxes[i][j]).sum()
}

fn split_moves(day: &Day, assignment: &[usize]) -> usize {
    (0..assignment.len()).map(|i| split_moves_to(day, assignment, i)).sum()
}

/// The boxes between trains of the same slot, counted as such, and not as what
/// the split moves leave of all boxes.
fn direct_moves(day: &Day, assignment: &[usize]) -> usize {
    let n = assignment.len();
    let beside = move |i: usize| (0..n).filter(move |&j| assignment[j] == assignment[i]);
    (0..n).flat_map(|i| beside(i).map(move |j| day.boxes[i][j])).sum()
}

/// Only the weights bring revisits and split moves into one cost. Direct moves
/// have no part in it.
pub fn weighed(day: &Day, revisits: usize, splits: usize) -> usize {
    day.revisit_weight * revisits + day.split_weight * splits
}

pub fn value(day: &Day, assignment: &[usize]) -> Value {
    let revisits = revisits(day, assignment);
    let splits = split_moves(day, assignment);
    let direct = direct_moves(day, assignment);
    Value { revisits, splits, direct, cost: weighed(day, revisits, splits) }
}

pub fn within_windows(day: &Day, assignment: &[usize]) -> bool {
    let within = |(train, &slot): (&Train, &usize)| train.first <= slot && slot <= train.last;
    day.trains.iter().zip(assignment).all(within)
}

pub fn within_tracks(day: &Day, assignment: &[usize]) -> bool {
    let mut loads = [0; MOST_SLOTS + 1];
    for &slot in assignment {
        loads[slot] += 1;
    }
    loads.iter().all(|&load| load <= day.tracks)
}

// ---------------------------------------------------------------------------
// The order of assignments (order 5 of 02, and 01's set numbers)
// ---------------------------------------------------------------------------

/// The sum of slot numbers over all trains: a slot counts once for each train
/// that it holds.
fn slot_sum(assignment: &[usize]) -> usize {
    assignment.iter().sum()
}

/// 01's set numbers: slot s, counted from 0 here, adds 2^k for each train
/// position k, counted from 0 here, that it holds.
fn slot_masks(assignment: &[usize]) -> [usize; MOST_SLOTS] {
    let mut masks = [0; MOST_SLOTS];
    for (position, slot) in assignment.iter().enumerate() {
        masks[slot - 1] += 1 << position;
    }
    masks
}

/// What decides which of two assignments comes first: the smaller cost; where
/// it is equal the fewer revisits, then the smaller sum of slot numbers, and
/// only then the larger mask at the lowest slot where the masks differ. Ranks
/// compare in just this way, by one field after the other, and so do arrays.
#[derive(Clone, Copy, Debug, PartialEq, Eq, PartialOrd, Ord)]
pub struct Rank {
    pub cost: usize,
    pub revisits: usize,
    pub sum: usize,
    pub masks: Reverse<[usize; MOST_SLOTS]>,
}

/// Direct moves aren't asked for: order 6 shows them and leaves the order of
/// plans as it is.
pub fn rank(day: &Day, assignment: &[usize]) -> Rank {
    let revisits = revisits(day, assignment);
    let cost = weighed(day, revisits, split_moves(day, assignment));
    let masks = Reverse(slot_masks(assignment));
    Rank { cost, revisits, sum: slot_sum(assignment), masks }
}
