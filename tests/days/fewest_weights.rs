//! The weights with which order 8 of 02 speaks of a plan: that of a revisit is the
//! sum of all boxes or more, that of a split move 1; or both as many times that.

use crate::draw::Random;
use crate::model::{Day, MOST_WEIGHT};

/// Of a revisit and of a split move.
pub type Weights = (usize, usize);

/// Weights for a day of so many boxes, where there are such.
type Weigh = fn(&mut Random, usize) -> Option<Weights>;

pub const WEIGHTS: [(&str, Weigh); 6] = [
    ("the sum and 1", |_, sum| Some((sum, 1))),
    ("the sum + 1 and 1", |_, sum| Some((sum + 1, 1))),
    ("the sum or more and 1", |random, sum| Some((random.between(sum, MOST_WEIGHT), 1))),
    ("65535 and 1", |_, _| Some((MOST_WEIGHT, 1))),
    ("times 2 or more", |random, sum| {
        times(sum).map(|most| multiple(sum, random.between(2, most)))
    }),
    ("times as many as can be", |_, sum| times(sum).map(|most| multiple(sum, most))),
];

/// How many times the sum is a weight still, where it is more than once.
fn times(sum: usize) -> Option<usize> {
    Some(MOST_WEIGHT / sum.max(1)).filter(|&most| most > 1)
}

fn multiple(sum: usize, times: usize) -> Weights {
    (times * sum, times)
}

/// The sum of all boxes.
pub fn sum(day: &Day) -> usize {
    day.boxes.iter().flatten().sum()
}

/// The day with other weights.
pub fn weighed_by(day: &Day, (revisit_weight, split_weight): Weights) -> Day {
    Day { revisit_weight, split_weight, ..day.clone() }
}
