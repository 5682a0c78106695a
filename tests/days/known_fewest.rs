//! Days worked out by hand for order 8 of 02: with the sum of all boxes and 1 for
//! the weights, with more, and with less, where it no longer holds.

use crate::day_file::GROUP_NAMES;
use crate::known::{known, Known, KnownDay, P1_MOVES, P1_TRAINS, P6_TRAINS, TWO};
use crate::known_sets::grouped;

/// Trains 2 and 3 fill slot 2. Beside train 1 train 4 comes back for a box from train
/// 2, behind slot 2 all boxes are split.
const BEFORE_OR_BEHIND: &[&str] = &["1 1 1", "2 2 2", "3 2 2", "4 1 3"];
const FIVE_AND_ONE: &[&str] = &["4 1 5", "4 2 1"];

/// Revisits and split moves of P1's rows are 1, 7 and 2, 7; 1, 10 and 2, 10; 1, 15
/// twice. Where train 4 is bound to slot 2, 1, 7 is not among them.
#[rustfmt::skip]
pub const FEWEST_DAYS: [KnownDay; 9] = [
    known("P1, the sum and 1", "4 2 2 16 1", P1_TRAINS, P1_MOVES, Known::Best(&[2, 1, 2, 1], [1, 7, 9, 23])),
    known("P6, the sum and 1", "4 2 2 16 1", P6_TRAINS, P1_MOVES, Known::Best(&[1, 1, 2, 2], [1, 10, 6, 26])),
    known("P6, 65535 and 1", "4 2 2 65535 1", P6_TRAINS, P1_MOVES, Known::Best(&[1, 1, 2, 2], [1, 10, 6, 65545])),
    known("P6, the sum and 1, both 4095 times", "4 2 2 65520 4095", P6_TRAINS, P1_MOVES, Known::Best(&[1, 1, 2, 2], [1, 10, 6, 106_470])),
    grouped("P1, trains 1 and 2 a group, the sum and 1", "4 2 2 16 1", P1_TRAINS, P1_MOVES, &[GROUP_NAMES, "1 1", "1 2"], Known::Best(&[1, 1, 2, 2], [1, 10, 6, 26])),
    known("no boxes, the sum and 1", "2 1 2 0 1", TWO, &[], Known::Best(&[2, 1], [0, 0, 0, 0])),
    known("a revisit less for five boxes, the sum and 1", "4 2 3 6 1", BEFORE_OR_BEHIND, FIVE_AND_ONE, Known::Best(&[1, 2, 2, 3], [0, 6, 0, 6])),
    known("the same, both rows of one cost", "4 2 3 5 1", BEFORE_OR_BEHIND, FIVE_AND_ONE, Known::Best(&[1, 2, 2, 3], [0, 6, 0, 6])),
    known("the same, the sum less 2", "4 2 3 4 1", BEFORE_OR_BEHIND, FIVE_AND_ONE, Known::Best(&[1, 2, 2, 1], [1, 1, 5, 5])),
];
