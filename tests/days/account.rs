//! The plain account of a moving day (order 7 of 02): the day as it was edited,
//! the number of closed slots, and the slots of the trains that are served.
//!
//! Trains are known by their numbers here, and boxes by pairs of numbers. No
//! train has a position, so none has to move up or down for another.

use crate::day_file::{GROUP_NAMES, HEAD_NAMES, MOVE_NAMES, TRAIN_NAMES};
use crate::model::{Day, Train, MOST_TRAINS};
use std::collections::BTreeMap;

#[derive(Clone, Copy, Debug, PartialEq)]
pub struct Listed {
    pub first: usize,
    pub last: usize,
    /// 0 where the train is in none.
    pub group: usize,
}

/// Slots by train number.
pub type Slots = BTreeMap<usize, usize>;

#[derive(Clone, Debug, PartialEq)]
pub struct Account {
    pub tracks: usize,
    pub slots: usize,
    /// Of a revisit and of a split move.
    pub weights: (usize, usize),
    pub trains: BTreeMap<usize, Listed>,
    /// By the numbers of the train that receives and of its supplier; a pair
    /// without boxes is not listed.
    pub boxes: BTreeMap<(usize, usize), usize>,
    pub closed: usize,
    pub served: Slots,
}

impl Account {
    /// The account of a day with every slot open.
    pub fn begun(day: &Day) -> Account {
        let number = |k: usize| day.trains[k].number;
        let listed = |train: &Train| {
            let Train { number, first, last, group } = *train;
            (number, Listed { first, last, group })
        };
        let pairs = (0..MOST_TRAINS).flat_map(|to| (0..MOST_TRAINS).map(move |from| (to, from)));
        let moves = pairs.filter(|&(to, from)| day.boxes[to][from] > 0);
        Account {
            tracks: day.tracks,
            slots: day.slots,
            weights: (day.revisit_weight, day.split_weight),
            trains: day.trains.iter().map(listed).collect(),
            boxes: moves
                .map(|(to, from)| ((number(to), number(from)), day.boxes[to][from]))
                .collect(),
            closed: 0,
            served: Slots::new(),
        }
    }

    /// The account of a state that was given, with its plan: a train is served
    /// when its planned slot is closed.
    pub fn given(day: &Day, closed: usize, row: &[u8]) -> (Account, Slots) {
        let mut account = Account::begun(day);
        let slots = row.iter().map(|&slot| usize::from(slot));
        let plan: Slots = account.trains.keys().copied().zip(slots).collect();
        account.closed = closed;
        account.served = plan.clone();
        account.served.retain(|_, slot| *slot <= closed);
        (account, plan)
    }

    // -----------------------------------------------------------------------
    // The four calls after begin
    // -----------------------------------------------------------------------

    /// The trains planned in the first open slot are served.
    pub fn close(&mut self, plan: &Slots) {
        self.closed += 1;
        let now = plan.iter().filter(|(_, slot)| **slot == self.closed);
        self.served.extend(now);
    }

    /// The train leaves with its boxes and its place in a group.
    pub fn cancel(&mut self, number: usize) {
        self.trains.remove(&number);
        self.served.remove(&number);
        self.boxes.retain(|&(to, from), _| to != number && from != number);
    }

    pub fn add(&mut self, number: usize, first: usize, last: usize) {
        self.trains.insert(number, Listed { first, last, group: 0 });
    }

    pub fn set_boxes(&mut self, to: usize, from: usize, boxes: usize) {
        self.boxes.remove(&(to, from));
        if boxes > 0 {
            self.boxes.insert((to, from), boxes);
        }
    }

    // -----------------------------------------------------------------------
    // What the account is written as
    // -----------------------------------------------------------------------

    /// The day, for the planner, which has positions.
    pub fn day(&self) -> Day {
        let numbers: Vec<usize> = self.trains.keys().copied().collect();
        let mut day = Day {
            tracks: self.tracks,
            slots: self.slots,
            revisit_weight: self.weights.0,
            split_weight: self.weights.1,
            trains: Vec::new(),
            boxes: [[0; MOST_TRAINS]; MOST_TRAINS],
        };
        for (&number, &Listed { first, last, group }) in &self.trains {
            day.trains.push(Train { number, first, last, group });
        }
        // A thirteenth train, which only a mistake would list, has no boxes.
        let place = |number| numbers.iter().take(MOST_TRAINS).position(|listed| *listed == number);
        for (&(to, from), &boxes) in &self.boxes {
            if let (Some(to), Some(from)) = (place(to), place(from)) {
                day.boxes[to][from] = boxes;
            }
        }
        day
    }

    /// The day file. The maps have the order that its sections ask for.
    pub fn text(&self) -> Vec<u8> {
        let (n, (revisit, split)) = (self.trains.len(), self.weights);
        let mut lines = vec![HEAD_NAMES.to_string()];
        lines.push(format!("{n} {} {} {revisit} {split}", self.tracks, self.slots));
        lines.push(TRAIN_NAMES.to_string());
        for (number, Listed { first, last, .. }) in &self.trains {
            lines.push(format!("{number} {first} {last}"));
        }
        lines.push(MOVE_NAMES.to_string());
        for ((to, from), boxes) in &self.boxes {
            lines.push(format!("{to} {from} {boxes}"));
        }
        let grouped = self.trains.iter().filter(|(_, listed)| listed.group > 0);
        let mut pairs: Vec<(usize, usize)> =
            grouped.map(|(&number, listed)| (listed.group, number)).collect();
        pairs.sort_unstable();
        if !pairs.is_empty() {
            lines.push(GROUP_NAMES.to_string());
        }
        lines.extend(pairs.iter().map(|(group, number)| format!("{group} {number}")));
        (lines.join("\n") + "\n").into_bytes()
    }

    /// How many trains a group has.
    pub fn members(&self, group: usize) -> usize {
        self.trains.values().filter(|listed| listed.group == group).count()
    }
}

/// The plan as a row: the slots by rising train numbers.
pub fn row(plan: &Slots) -> Vec<u8> {
    plan.values().map(|&slot| slot as u8).collect()
}
