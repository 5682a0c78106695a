//! Days worked out by hand on which plans cost the same, or on which another
//! plan would come first if cost weren't asked first (order 5 of 02).

use crate::day_file::GROUP_NAMES;
use crate::known::{known, Known, KnownDay, P1_MOVES, P1_TRAINS, TWO};
use crate::known_sets::{grouped, THREE};

pub struct TiedDay {
    pub day: KnownDay,
    /// The other allowed assignments that cost as much as the plan, in their order.
    pub others: &'static [&'static [usize]],
}

pub const fn tied(day: KnownDay, others: &'static [&'static [usize]]) -> TiedDay {
    TiedDay { day, others }
}

/// Trains 1 and 4 fill slot 2. Train 2 goes before or after it: before it comes
/// back for a box from train 1, after it is parted from train 3.
const BEFORE_OR_AFTER: &[&str] = &["1 2 2", "2 1 3", "3 1 1", "4 2 2"];
const FROM_ONE_AND_THREE: &[&str] = &["2 1 1", "2 3 1"];

/// The same the other way round: after slot 2 train 2 makes train 1 come back,
/// before it is parted from train 3.
const AFTER_OR_BEFORE: &[&str] = &["1 2 2", "2 1 3", "3 3 3", "4 2 2"];
const TO_ONE_AND_THREE: &[&str] = &["1 2 1", "3 2 1"];

/// Seven trains bound to slot 1, and a ninth that supplies all others.
const EIGHT_SUPPLIED: &[&str] =
    &["1 1 1", "2 1 1", "3 1 1", "4 1 1", "5 1 1", "6 1 1", "7 1 1", "8 1 2", "9 2 2"];
const FROM_NINE: &[&str] =
    &["1 9 1", "2 9 1", "3 9 1", "4 9 1", "5 9 1", "6 9 1", "7 9 1", "8 9 1"];

/// Nine trains bound to slot 1 receive a box each from train 10, which has a
/// choice, and train 11 in slot 2 receives ten.
const NINE_SUPPLIED: &[&str] = &[
    "1 1 1", "2 1 1", "3 1 1", "4 1 1", "5 1 1", "6 1 1", "7 1 1", "8 1 1", "9 1 1", "10 1 2",
    "11 2 2",
];
const FROM_TEN: &[&str] = &[
    "1 10 1", "2 10 1", "3 10 1", "4 10 1", "5 10 1", "6 10 1", "7 10 1", "8 10 1", "9 10 1",
    "11 10 10",
];

const SEVEN_LATE: &[&str] =
    &["1 8 8", "2 8 8", "3 8 8", "4 8 8", "5 8 8", "6 8 8", "7 8 8", "8 7 8"];

/// Trains 1 to 3 are a group; 6 to 8 leave slot 3 one place, for train 4 or 5.
const ONE_PLACE_LEFT: &[&str] =
    &["1 1 2", "2 1 2", "3 1 2", "4 2 3", "5 3 4", "6 3 3", "7 3 3", "8 3 3"];

/// The comments say what decides: revisits, sums and masks of the assignments in
/// their order, the mask being that of the lowest slot where they differ.
#[rustfmt::skip]
pub const TIED_DAYS: [TiedDay; 26] = [
    // Revisits 0, 1; sums 5, 3 and masks 0, 2 speak for the second.
    tied(known("revisits before sum and masks", "2 1 3 0 0", &["1 2 2", "2 1 3"], &["2 1 1"], Known::Best(&[2, 3], [0, 1, 0, 0])), &[&[2, 1]]),
    // Revisits 0, 1, split moves 2, 1; sums 8, 6 and masks 4, 6 speak for the second.
    tied(known("a revisit as dear as a box", "4 2 3 1 1", BEFORE_OR_AFTER, FROM_ONE_AND_THREE, Known::Best(&[2, 3, 1, 2], [0, 2, 0, 2])), &[&[2, 1, 1, 2]]),
    tied(known("a revisit as dear as a box, the greatest weights", "4 2 3 65535 65535", BEFORE_OR_AFTER, FROM_ONE_AND_THREE, Known::Best(&[2, 3, 1, 2], [0, 2, 0, 131070])), &[&[2, 1, 1, 2]]),
    tied(known("a revisit as dear as two boxes", "4 2 3 2 1", BEFORE_OR_AFTER, &["2 1 1", "2 3 2"], Known::Best(&[2, 3, 1, 2], [0, 3, 0, 3])), &[&[2, 1, 1, 2]]),
    // 2 1 3 2 has no revisit, sum 8 to 10 and mask 2 to 0, but costs 2, and then 4.
    tied(known("cost before revisits, weight 0", "4 2 3 0 1", AFTER_OR_BEFORE, TO_ONE_AND_THREE, Known::Best(&[2, 3, 3, 2], [1, 1, 1, 1])), &[]),
    tied(known("cost before revisits", "4 2 3 1 2", AFTER_OR_BEFORE, TO_ONE_AND_THREE, Known::Best(&[2, 3, 3, 2], [1, 1, 1, 3])), &[]),
    // 1 .. 1 1 2 has no revisit, sum 12 to 13 and mask 1023 to 511, but costs 10.
    tied(known("one box before nine revisits", "11 10 2 0 1", NINE_SUPPLIED, FROM_TEN, Known::Best(&[1, 1, 1, 1, 1, 1, 1, 1, 1, 2, 2], [9, 9, 10, 9])), &[]),
    tied(known("the same, a revisit as dear as a box", "4 2 3 1 1", AFTER_OR_BEFORE, TO_ONE_AND_THREE, Known::Best(&[2, 1, 3, 2], [0, 2, 0, 2])), &[&[2, 3, 3, 2]]),
    // Revisits 0, 1; one split move and sum 3 each, masks 1, 2.
    tied(known("weights 0 and 1", "2 1 2 0 1", TWO, &["9 3 1"], Known::Best(&[1, 2], [0, 1, 0, 1])), &[&[2, 1]]),
    // Revisits 7, 8; sums 11, 10 and masks 127, 255 speak for the second.
    tied(known("seven and eight revisits", "9 8 2 0 0", EIGHT_SUPPLIED, FROM_NINE, Known::Best(&[1, 1, 1, 1, 1, 1, 1, 2, 2], [7, 7, 1, 0])), &[&[1, 1, 1, 1, 1, 1, 1, 1, 2]]),
    // One revisit each, for 2, 2, 1 and 1 suppliers; masks of slot 1 are 4, 4, 2, 1, of slot 2 2, 1.
    tied(known("one revisit for several suppliers", "3 1 3 0 0", &["1 1 3", "2 1 3", "3 1 2"], &["3 1 1", "3 2 1"], Known::Best(&[3, 2, 1], [1, 2, 0, 0])), &[&[2, 3, 1], &[3, 1, 2], &[1, 3, 2]]),
    // Sums 4, 5; masks 3, 4 speak for the second.
    tied(known("the sum before masks", "3 2 2 1 1", THREE, &["1 2 1"], Known::Best(&[1, 1, 2], [0, 0, 1, 0])), &[&[2, 2, 1]]),
    // Revisits 0, 0, 1, 1, 1, 1; sums 4, 5, 4, 4, 5, 5; masks 3, 4, 6, 5, 2, 1.
    tied(known("each key in turn", "3 2 2 0 0", THREE, &["1 2 1", "2 1 1"], Known::Best(&[1, 1, 2], [0, 0, 2, 0])), &[&[2, 2, 1], &[2, 1, 1], &[1, 2, 1], &[2, 1, 2], &[1, 2, 2]]),
    tied(known("boxes both ways, weights 1 and 0", "3 2 2 1 0", THREE, &["1 2 1", "2 1 1"], Known::Best(&[1, 1, 2], [0, 0, 2, 0])), &[&[2, 2, 1]]),
    // Sums 4, 5; split moves 5, 0 would speak for the second.
    tied(known("split moves don't count, weights 1 and 0", "3 2 2 1 0", &["1 1 2", "2 1 2", "3 1 1"], &["2 1 5"], Known::Best(&[1, 2, 1], [0, 5, 0, 0])), &[&[2, 2, 1]]),
    // The same, then one with a revisit, which has sum 4 and mask 6.
    tied(known("split moves don't count, weights 0 and 0", "3 2 2 0 0", &["1 1 2", "2 1 2", "3 1 1"], &["2 1 5"], Known::Best(&[1, 2, 1], [0, 5, 0, 0])), &[&[2, 2, 1], &[2, 1, 1]]),
    // Sums 3, 4; slots in use 2, 1.
    tied(known("not the fewest slots", "2 2 2 1 1", &["1 1 2", "2 2 2"], &[], Known::Best(&[1, 2], [0, 0, 0, 0])), &[&[2, 2]]),
    // Sums 63, 64.
    tied(known("sums of 63 and 64", "8 8 8 1 1", SEVEN_LATE, &[], Known::Best(&[8, 8, 8, 8, 8, 8, 8, 7], [0, 0, 0, 0])), &[&[8; 8]]),
    // Train 4 is with train 1 or with train 6. Sums 19, 20, 21, 22; last slots 4, 3, 4, 4; slots in use 3, 2, 3, 3, their own sums 8, 5, 9, 9.
    tied(grouped("not the earliest end", "8 4 4 1 1", ONE_PLACE_LEFT, &["4 1 1", "6 4 1"], &[GROUP_NAMES, "1 1", "1 2", "1 3"], Known::Best(&[1, 1, 1, 3, 4, 3, 3, 3], [0, 1, 1, 1])), &[&[2, 2, 2, 2, 3, 3, 3, 3], &[2, 2, 2, 2, 4, 3, 3, 3], &[2, 2, 2, 3, 4, 3, 3, 3]]),
    // Masks of slot 1 are 4, 4, 2, 2, 1, 1, of slot 2 2, 1, 4, 1, 4, 2.
    tied(known("masks alone", "3 1 3 0 0", &["1 1 3", "2 1 3", "3 1 3"], &[], Known::Best(&[3, 2, 1], [0, 0, 0, 0])), &[&[2, 3, 1], &[3, 1, 2], &[2, 1, 3], &[1, 3, 2], &[1, 2, 3]]),
    tied(known("masks alike at slot 1", "4 1 4 1 1", &["1 2 3", "2 2 3", "3 1 1", "4 4 4"], &[], Known::Best(&[3, 2, 1, 4], [0, 0, 0, 0])), &[&[2, 3, 1, 4]]),
    // Train 3 is with train 5 or with train 4. Sums 9, 9, 11; masks 20 of two trains, 19 of three.
    tied(grouped("fewer trains, a larger mask", "5 3 3 1 1", &["1 1 2", "2 1 2", "3 1 3", "4 3 3", "5 1 1"], &["3 5 1", "4 3 1"], &[GROUP_NAMES, "7 1", "7 2"], Known::Best(&[2, 2, 1, 3, 1], [0, 1, 1, 1])), &[&[1, 1, 3, 3, 1], &[2, 2, 3, 3, 1]]),
    // Revisits 1, 2; masks 3, 12 speak for the second.
    tied(grouped("P5, trains 1 and 2 a group", "4 2 2 0 0", P1_TRAINS, P1_MOVES, &[GROUP_NAMES, "1 1", "1 2"], Known::Best(&[1, 1, 2, 2], [1, 10, 6, 0])), &[&[2, 2, 1, 1]]),
    // One revisit and sum 6 each; masks 9, 6.
    tied(grouped("P5, trains 1 and 4 a group", "4 2 2 0 0", P1_TRAINS, P1_MOVES, &[GROUP_NAMES, "1 1", "1 4"], Known::Best(&[1, 2, 2, 1], [1, 15, 1, 0])), &[&[2, 1, 1, 2]]),
    // Sums 4, 5, each member being counted; masks 3, 4.
    tied(grouped("each member in the sum", "3 2 2 1 1", THREE, &[], &[GROUP_NAMES, "1 1", "1 2"], Known::Best(&[1, 1, 2], [0, 0, 0, 0])), &[&[2, 2, 1]]),
    // Revisits 0, 1; sums 5, 4 speak for the second.
    tied(grouped("a group after its supplier", "3 2 2 0 1", THREE, &["1 3 1"], &[GROUP_NAMES, "1 1", "1 2", "2 3"], Known::Best(&[2, 2, 1], [0, 1, 0, 1])), &[&[1, 1, 2]]),
];
