//! Mode below: a search, no test. Order 8 of 02 speaks of the sum of all boxes for
//! the revisit weight; what if it is less? Small days are gone through one by one,
//! and many others are drawn.

use crate::day_file::write_day;
use crate::draw::Random;
use crate::draw_fewest::KINDS;
use crate::fewest::Told;
use crate::fewest_weights::{sum, weighed_by};
use crate::misweighings::{all_rows, first, Row, MISTAKEN_MOST};
use crate::model::{value, Day, Train, MOST_TRAINS};
use crate::plan::best;

const MOST_SMALL: usize = 3;
const DRAWN_DAYS: u64 = 100_000;
const SEED: u64 = 30_000_000;

/// Two rows of a day that answer a question by yes.
type Asks = fn(&Day, &[Row]) -> Option<[Row; 2]>;

/// The revisit weight for a sum, the split weight being 1.
type Weigh = fn(usize) -> Option<usize>;

struct Question {
    asked: &'static str,
    weigh: Weigh,
    asks: Asks,
    days: usize,
    found: usize,
    smallest: Option<(Day, [Row; 2])>,
}

const fn question(asked: &'static str, weigh: Weigh, asks: Asks) -> Question {
    Question { asked, weigh, asks, days: 0, found: 0, smallest: None }
}

const QUESTIONS: [Question; 5] = [
    question("the sum less 1: the plan hasn't the fewest", less_one, missed),
    question("the sum less 2: the plan hasn't the fewest", less_two, missed),
    question("the same, the weight not 0", |sum| not_zero(less_two(sum)), missed),
    question("the sum less 1: rows of least cost differ in revisits", less_one, equally_cheap),
    question("the same, the weight not 0", |sum| not_zero(less_one(sum)), equally_cheap),
];

fn less_one(sum: usize) -> Option<usize> {
    sum.checked_sub(1)
}

fn less_two(sum: usize) -> Option<usize> {
    sum.checked_sub(2)
}

fn not_zero(weight: Option<usize>) -> Option<usize> {
    weight.filter(|&weight| weight > 0)
}

/// The plan by order 5 and, where its counts are other ones, a row of the fewest.
fn missed(day: &Day, rows: &[Row]) -> Option<[Row; 2]> {
    let fewest = first(rows, |row| row.counts)?;
    let plan = best(day)?.assignment;
    let plan = rows.iter().find(|row| row.slots == plan)?;
    (plan.counts != fewest.counts).then(|| [plan.clone(), fewest])
}

/// Two rows of least cost that differ in revisits.
fn equally_cheap(day: &Day, rows: &[Row]) -> Option<[Row; 2]> {
    let cost = |row: &Row| value(day, &row.slots).cost;
    let cheapest = first(rows, |row| (cost(row), row.counts.revisits))?;
    let same = |row: &&Row| cost(row) == cost(&cheapest) && row.counts != cheapest.counts;
    rows.iter().find(same).map(|row| [row.clone(), cheapest.clone()])
}

/// What makes a day a small one.
fn size(day: &Day) -> [usize; 5] {
    let widths = day.trains.iter().map(|train| train.last - train.first).sum();
    [day.trains.len(), sum(day), day.slots, day.tracks, widths]
}

impl Question {
    fn ask(&mut self, day: &Day, rows: &[Row]) {
        let Some(weight) = (self.weigh)(sum(day)) else { return };
        let day = weighed_by(day, (weight, 1));
        self.days += 1;
        let Some(pair) = (self.asks)(&day, rows) else { return };
        self.found += 1;
        if self.smallest.as_ref().is_none_or(|(smallest, _)| size(&day) < size(smallest)) {
            self.smallest = Some((day, pair));
        }
    }

    fn print(&self) {
        println!("{}: {} of {} days", self.asked, self.found, self.days);
        let Some((day, rows)) = &self.smallest else { return };
        print!("{}", String::from_utf8_lossy(&write_day(day)));
        for Told { slots, counts } in rows {
            let cost = value(day, slots).cost;
            println!("  {slots:?}: {} revisits, {} splits, {cost}", counts.revisits, counts.splits);
        }
    }
}

/// All lists of this length with each item from 0 up to, but without, `count`.
pub fn each_list(length: usize, count: usize, visit: &mut dyn FnMut(&[usize])) {
    for index in 0..count.pow(length as u32) {
        let list: Vec<usize> =
            (0..length).map(|place| index / count.pow(place as u32) % count).collect();
        visit(&list);
    }
}

/// All windows of so many trains in so many slots.
pub fn each_timetable(n: usize, slots: usize, visit: &mut dyn FnMut(&[Train])) {
    let windows = (1..=slots).flat_map(|first| (first..=slots).map(move |last| (first, last)));
    let windows: Vec<(usize, usize)> = windows.collect();
    each_list(n, windows.len(), &mut |list| {
        let train = |(number, &window): (usize, &usize)| {
            let (first, last) = windows[window];
            Train { number, first, last, group: 0 }
        };
        let trains: Vec<Train> = (1..).zip(list).map(train).collect();
        visit(&trains);
    });
}

/// All days of so many trains with at most three slots and tracks and so many boxes
/// for a pair and in all.
fn each_day(n: usize, (most, most_in_all): (usize, usize), visit: &mut dyn FnMut(&Day)) {
    let mut pairs: Vec<(usize, usize)> = (0..n * n).map(|pair| (pair / n, pair % n)).collect();
    pairs.retain(|(to, from)| to != from);
    let mut all_boxes = Vec::new();
    each_list(pairs.len(), most + 1, &mut |list| {
        let mut boxes = [[0; MOST_TRAINS]; MOST_TRAINS];
        pairs.iter().zip(list).for_each(|(&(to, from), &number)| boxes[to][from] = number);
        if (1..=most_in_all).contains(&list.iter().sum()) {
            all_boxes.push(boxes);
        }
    });
    for slots in 1..=MOST_SMALL {
        each_timetable(n, slots, &mut |trains| {
            for tracks in 1..=MOST_SMALL {
                let (revisit_weight, split_weight, trains) = (0, 1, trains.to_vec());
                let boxes = all_boxes[0];
                let mut day = Day { tracks, slots, revisit_weight, split_weight, trains, boxes };
                for boxes in &all_boxes {
                    day.boxes = *boxes;
                    visit(&day);
                }
            }
        });
    }
}

pub fn below() -> bool {
    let mut questions = QUESTIONS;
    let mut ask = |day: &Day| {
        let rows = all_rows(day);
        questions.iter_mut().for_each(|question| question.ask(day, &rows));
    };
    let everything = usize::MAX;
    for (n, boxes) in [(2, (3, everything)), (3, (3, everything)), (4, (1, 3))] {
        each_day(n, boxes, &mut ask);
        println!("all days of {n} trains");
    }
    for seed in SEED..SEED + DRAWN_DAYS {
        let day = (KINDS[seed as usize % KINDS.len()].draw)(&mut Random(seed));
        if day.assignments() <= MISTAKEN_MOST {
            ask(&day);
        }
    }
    questions.iter().for_each(Question::print);
    true
}
