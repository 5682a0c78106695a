//! The two baselines of order 1 (document 02), written from the papers: first
//! come, and the myopic procedure of source 000, section 4.2, equation (11).

use crate::model::{Day, Train, MOST_SLOTS};
use std::collections::BTreeSet;

// By order 4 only their result is judged: neither looks at the groups.

/// The slot of each train by position, or none where it is left without one.
pub type Slots = Vec<Option<usize>>;

// ---------------------------------------------------------------------------
// First come (order 1)
// ---------------------------------------------------------------------------

/// Trains in file order each take the earliest slot in their window with a
/// track free. One that finds none stays without a slot; the others go on.
pub fn first_come(day: &Day) -> Slots {
    let mut loads = [0; MOST_SLOTS + 1];
    let take = |train: &Train| {
        let slot = (train.first..=train.last).find(|&slot| loads[slot] < day.tracks)?;
        loads[slot] += 1;
        Some(slot)
    };
    day.trains.iter().map(take).collect()
}

// ---------------------------------------------------------------------------
// The myopic procedure (section 4.2; order 1 brings the windows in)
// ---------------------------------------------------------------------------

/// Trains by position, counted from 0 here.
pub type Set = BTreeSet<usize>;

/// A decision point of the procedure, its names as in the source.
pub struct Point<'a> {
    pub day: &'a Day,
    /// The current slot.
    pub t: usize,
    /// The trains not yet scheduled. Only the selected train leaves the set,
    /// so one whose window has passed stays in it.
    pub pos: Set,
    /// The trains already scheduled in slot t.
    pub in_t: Set,
}

impl Point<'_> {
    /// I.
    fn all(&self) -> Set {
        (0..self.day.trains.len()).collect()
    }

    /// L_i.
    pub fn suppliers(&self, i: usize) -> Set {
        self.all().into_iter().filter(|&j| self.day.boxes[i][j] > 0).collect()
    }

    /// L_i \ {I \ POS}: the suppliers that have no slot yet.
    pub fn missing(&self, i: usize) -> Set {
        &self.suppliers(i) - &(&self.all() - &self.pos)
    }

    /// L_i \ IN_t: the suppliers outside the current slot, be they in earlier
    /// slots or without one.
    pub fn outside(&self, i: usize) -> Set {
        &self.suppliers(i) - &self.in_t
    }

    /// The trains that may be chosen: of POS, with slot t in their window.
    pub fn candidates(&self) -> Set {
        let holds = |train: &Train| train.first <= self.t && self.t <= train.last;
        self.pos.iter().copied().filter(|&i| holds(&self.day.trains[i])).collect()
    }

    /// The sum of (11), given its count of revisits and the suppliers whose
    /// boxes to train i it adds up.
    pub fn weighed(&self, i: usize, revisits: usize, counted: &Set) -> usize {
        let boxes: usize = counted.iter().map(|&j| self.day.boxes[i][j]).sum();
        self.day.revisit_weight * revisits + self.day.split_weight * boxes
    }

    /// What (11) minimizes, for train i.
    pub fn increase(&self, i: usize) -> usize {
        self.weighed(i, self.missing(i).len().min(1), &self.outside(i))
    }
}

/// Step (2): which train comes next, if any can.
pub type Select = fn(&Point) -> Option<usize>;

/// By (11). A set is walked from its lowest position upwards, and of equal
/// ones the first is taken.
fn select(point: &Point) -> Option<usize> {
    point.candidates().into_iter().min_by_key(|&i| point.increase(i))
}

pub fn myopic(day: &Day) -> Slots {
    myopic_by(day, select)
}

/// Steps (0) to (4), with a step (2) of the caller's choice.
pub fn myopic_by(day: &Day, select: Select) -> Slots {
    let n = day.trains.len();
    let mut slots = vec![None; n];
    // (0) No train is scheduled.
    let mut point = Point { day, t: 0, pos: (0..n).collect(), in_t: Set::new() };
    for t in 1..=day.slots {
        // (1) The next slot begins, with no train in it.
        point.t = t;
        point.in_t.clear();
        for _track in 1..=day.tracks {
            // (2) Where no train can be chosen, the slot ends, tracks free or
            // not.
            let Some(selected) = select(&point) else { break };
            // (3) The selected train goes from one set to the other.
            point.in_t.insert(selected);
            point.pos.remove(&selected);
            slots[selected] = Some(t);
        }
        // (4) All tracks of the slot have had their turn.
    }
    slots
}
