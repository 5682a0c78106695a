//! Long days (order 9 of 02): their limits, reading, writing and valuing.

use crate::case::Outcome;
use crate::day_file::{read_rows, write_rows, Form, Limits, Refusal, Rows};
use crate::model::{Train, Value, MOST_WEIGHT};
use crate::plan::Interval;

pub const LONG_TRAINS: usize = 36;
pub const LONG_TRACKS: usize = 4;
pub const LONG_SLOTS: usize = 12;

/// yard-long reads no more of its input, and their reading decides.
pub const LONG_BYTES_READ: usize = 32_768;

/// The greatest accepted file and the greatest plan file.
pub const LONG_BYTES_ACCEPTED: usize = 20_677;
pub const LONG_BYTES_PRINTED: usize = 367;

/// The widths that are not refused, and that of yard-long.
pub const MOST_WIDTH: usize = 64;
pub const USUAL_WIDTH: usize = 30;

pub const LONG_LIMITS: [Limits; 5] =
    [(1, LONG_TRAINS), (1, LONG_TRACKS), (1, LONG_SLOTS), (0, MOST_WEIGHT), (0, MOST_WEIGHT)];

#[derive(Clone, Debug, PartialEq)]
pub struct LongDay {
    pub tracks: usize,
    pub slots: usize,
    pub revisit_weight: usize,
    pub split_weight: usize,
    pub trains: Vec<Train>,
    /// `boxes[i][j]` is A(i, j): what position i receives from position j.
    pub boxes: Vec<Vec<usize>>,
}

// ---------------------------------------------------------------------------
// Reading and writing: the same form with other limits, and no groups
// ---------------------------------------------------------------------------

pub fn read_long(text: &[u8]) -> Result<LongDay, Refusal> {
    read_long_by(text, &Form { head: LONG_LIMITS, groups: None })
}

/// With limits of the caller's choice.
pub fn read_long_by(text: &[u8], form: &Form) -> Result<LongDay, Refusal> {
    let Rows { head, trains, moves } = read_rows(text, form)?;
    let mut boxes = vec![vec![0; trains.len()]; trains.len()];
    for [to, from, number] in moves {
        boxes[to][from] = number;
    }
    Ok(LongDay {
        tracks: head[1],
        slots: head[2],
        revisit_weight: head[3],
        split_weight: head[4],
        trains,
        boxes,
    })
}

pub fn write_long(day: &LongDay) -> Vec<u8> {
    let head = [day.tracks, day.slots, day.revisit_weight, day.split_weight];
    write_rows(head, &day.trains, |to, from| day.boxes[to][from]).into_bytes()
}

// ---------------------------------------------------------------------------
// Valuing (01, The model; order 13 leaves it as it is for long days)
// ---------------------------------------------------------------------------

impl LongDay {
    pub fn positions(&self) -> std::ops::Range<usize> {
        0..self.trains.len()
    }

    /// All pairs of a train and one of its suppliers, with the boxes.
    pub fn supplies(&self) -> impl Iterator<Item = (usize, usize, usize)> + '_ {
        let pair = move |i: usize| self.positions().map(move |j| (i, j, self.boxes[i][j]));
        self.positions().flat_map(pair).filter(|(_, _, boxes)| *boxes > 0)
    }

    pub fn weighed(&self, revisits: usize, splits: usize) -> usize {
        self.revisit_weight * revisits + self.split_weight * splits
    }

    /// The model's numbers of a row.
    pub fn value(&self, row: &[usize]) -> Value {
        let late = |i: usize| self.supplies().any(|(to, from, _)| to == i && row[from] > row[i]);
        let revisits = self.positions().filter(|&i| late(i)).count();
        let boxes_if = |same: bool| {
            let counted = self.supplies().filter(|(i, j, _)| (row[*i] == row[*j]) == same);
            counted.map(|(_, _, boxes)| boxes).sum()
        };
        let (splits, direct) = (boxes_if(false), boxes_if(true));
        Value { revisits, splits, direct, cost: self.weighed(revisits, splits) }
    }

    /// How many trains a slot holds in a row.
    pub fn load(&self, row: &[usize], slot: usize) -> usize {
        row.iter().filter(|&&held| held == slot).count()
    }

    pub fn within_window(&self, position: usize, slot: usize) -> bool {
        let Train { first, last, .. } = self.trains[position];
        first <= slot && slot <= last
    }

    pub fn allows(&self, row: &[usize]) -> bool {
        let within = self.positions().all(|k| self.within_window(k, row[k]));
        within && (1..=self.slots).all(|slot| self.load(row, slot) <= self.tracks)
    }

    /// Valuing any bytes as a row: 11, 12 and 13 in this order, or the numbers.
    pub fn valued(&self, slots: &[u8]) -> Outcome {
        let row: Vec<usize> = slots.iter().map(|&slot| usize::from(slot)).collect();
        if row.len() != self.trains.len() {
            return Outcome::carrying(11, 0);
        }
        if let Some(outside) = self.positions().find(|&k| !self.within_window(k, row[k])) {
            return Outcome::carrying(12, outside + 1);
        }
        let overfull = |slot: &usize| self.load(&row, *slot) > self.tracks;
        match (1..=self.slots).find(overfull) {
            Some(slot) => Outcome::carrying(13, slot),
            None => Outcome::value(self.value(&row)),
        }
    }

    /// The overbooked stretch with the smallest first slot and for it the smallest
    /// last slot.
    pub fn overbooked(&self) -> Option<Interval> {
        let stretches =
            (1..=self.slots).flat_map(|first| (first..=self.slots).map(move |last| (first, last)));
        let bound = |(first, last): (usize, usize)| {
            let inside = |train: &&Train| first <= train.first && train.last <= last;
            Interval { first, last, bound: self.trains.iter().filter(inside).count() }
        };
        let full = |stretch: &Interval| self.tracks * (stretch.last - stretch.first + 1);
        stretches.map(bound).find(|stretch| stretch.bound > full(stretch))
    }
}

// ---------------------------------------------------------------------------
// The lower figure (order 9)
// ---------------------------------------------------------------------------

/// "That figure adds w1 for each train with a supplier whose first slot is after
/// its own last slot."
pub fn sure_revisits(day: &LongDay) -> usize {
    let comes_back = |i: usize| {
        let after = |j: usize| day.trains[j].first > day.trains[i].last;
        day.supplies().any(|(to, from, _)| to == i && after(from))
    };
    day.positions().filter(|&i| comes_back(i)).count()
}

/// "It adds w2 times, for each train, its incoming boxes less its G - 1 largest
/// supplies": what train i receives without so many of its largest supplies.
pub fn sure_splits_of(day: &LongDay, i: usize, largest: usize) -> usize {
    let mut supplies = day.boxes[i].clone();
    supplies.sort_unstable_by(|one, other| other.cmp(one));
    supplies.iter().skip(largest).sum()
}

pub fn lower_figure(day: &LongDay) -> usize {
    let splits = |i: usize| sure_splits_of(day, i, day.tracks - 1);
    day.weighed(sure_revisits(day), day.positions().map(splits).sum())
}
