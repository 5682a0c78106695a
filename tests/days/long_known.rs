//! Long days worked out by hand: those of 01 with two tracks or fewer at several
//! widths, days on which the order of the partial plans, a discard or a count shows,
//! and the greatest ones.

use crate::known::{day_text, P1_HEAD, P1_MOVES, P1_TRAINS, P6_TRAINS};
use crate::long_day::{write_long, LongDay, LONG_SLOTS, LONG_TRACKS, LONG_TRAINS};
use crate::model::{Train, MOST_BOXES, MOST_TRAIN_NUMBER, MOST_WEIGHT};

/// What a width gives: the row with its six numbers, or a refusal with what it
/// carries.
#[derive(Debug)]
pub enum KnownPlan {
    Row(&'static [usize], [usize; 6]),
    Refused(usize, [usize; 3]),
}

use KnownPlan::{Refused, Row};

pub struct KnownLong {
    pub name: &'static str,
    head: &'static str,
    trains: &'static [&'static str],
    moves: &'static [&'static str],
    pub plans: &'static [(u32, KnownPlan)],
}

impl KnownLong {
    pub fn text(&self) -> Vec<u8> {
        day_text(self.head, self.trains, self.moves)
    }
}

const fn known(
    name: &'static str,
    head: &'static str,
    trains: &'static [&'static str],
    moves: &'static [&'static str],
    plans: &'static [(u32, KnownPlan)],
) -> KnownLong {
    KnownLong { name, head, trains, moves, plans }
}

const P11_MOVES: &[&str] = &["1 2 1", "2 1 1"];

/// P1: after slot 1 two trains are served, for two places remain. (10) gives the six
/// pairs 2 (trains 1 and 2), 8, 8, 9, 2 (2 and 4), 11 with weights 1; of the two of
/// cost 2 the set number of 2 and 4 is the larger. P6: 2 (1 and 2), 8 (1 and 3), 9,
/// and at width 1 the cheapest beginning is not that of the best row. P12: nobody, 1,
/// 2 and both cost 0, 2, 2 and 0 after slot 1. P13: after slot 1 the trains cost 2, 0
/// and 0; nobody is discarded, since three trains don't fit two places.
#[rustfmt::skip]
pub const KNOWN_LONG: [KnownLong; 39] = [
    known("one train, two slots: the empty beginning has the smaller sum", "1 1 2 1 1", &["1 1 2"], &[],
        &[(1, Row(&[2], [0, 0, 0, 0, 1, 0])), (2, Row(&[1], [0, 0, 0, 0, 0, 0])), (64, Row(&[1], [0, 0, 0, 0, 0, 0])),
          (0, Refused(21, [0; 3])), (65, Refused(21, [0; 3])), (u32::MAX, Refused(21, [0; 3]))]),
    known("one train, one slot: what is discarded isn't counted", "1 1 1 1 1", &["1 1 1"], &[],
        &[(1, Row(&[1], [0, 0, 0, 0, 0, 0])), (30, Row(&[1], [0, 0, 0, 0, 0, 0]))]),
    known("three slots, width 1: two empty beginnings", "1 1 3 1 1", &["1 1 3"], &[],
        &[(1, Row(&[3], [0, 0, 0, 0, 2, 0])), (2, Row(&[1], [0, 0, 0, 0, 0, 0]))]),
    known("P1", P1_HEAD, P1_TRAINS, P1_MOVES,
        &[(1, Row(&[2, 1, 2, 1], [1, 7, 9, 8, 1, 4])), (5, Row(&[2, 1, 2, 1], [1, 7, 9, 8, 1, 4])),
          (6, Row(&[2, 1, 2, 1], [1, 7, 9, 8, 0, 4])), (30, Row(&[2, 1, 2, 1], [1, 7, 9, 8, 0, 4]))]),
    known("P4", "4 2 2 0 1", P1_TRAINS, P1_MOVES,
        &[(1, Row(&[2, 1, 2, 1], [1, 7, 9, 7, 1, 4])), (30, Row(&[2, 1, 2, 1], [1, 7, 9, 7, 0, 4]))]),
    known("P5", "4 2 2 0 0", P1_TRAINS, P1_MOVES,
        &[(1, Row(&[2, 1, 2, 1], [1, 7, 9, 0, 1, 0])), (30, Row(&[2, 1, 2, 1], [1, 7, 9, 0, 0, 0]))]),
    known("P6", P1_HEAD, P6_TRAINS, P1_MOVES,
        &[(1, Row(&[1, 1, 2, 2], [1, 10, 6, 11, 1, 4])), (2, Row(&[1, 2, 1, 2], [2, 7, 9, 9, 1, 4])),
          (3, Row(&[1, 2, 1, 2], [2, 7, 9, 9, 0, 4])), (64, Row(&[1, 2, 1, 2], [2, 7, 9, 9, 0, 4]))]),
    known("P7", "4 2 2 4 1", P6_TRAINS, P1_MOVES,
        &[(1, Row(&[1, 1, 2, 2], [1, 10, 6, 14, 1, 4])), (3, Row(&[1, 1, 2, 2], [1, 10, 6, 14, 0, 4]))]),
    known("P8", "1 1 1 1 1", &["1 1 1"], &[], &[(1, Row(&[1], [0, 0, 0, 0, 0, 0]))]),
    known("P9", "3 2 2 1 1", &["1 1 1", "2 1 1", "3 1 1"], &[],
        &[(1, Refused(9, [1, 1, 3])), (30, Refused(9, [1, 1, 3])), (0, Refused(21, [0; 3]))]),
    known("P10", "3 1 2 1 1", &["1 1 2", "2 1 2", "3 1 2"], &[], &[(1, Refused(9, [1, 2, 3])), (64, Refused(9, [1, 2, 3]))]),
    known("P11", "2 1 2 1 1", &["1 1 2", "2 1 2"], P11_MOVES,
        &[(1, Row(&[2, 1], [1, 2, 0, 3, 1, 2])), (2, Row(&[2, 1], [1, 2, 0, 3, 0, 2]))]),
    known("P12", "2 2 2 1 1", &["1 1 2", "2 1 2"], P11_MOVES,
        &[(1, Row(&[2, 2], [0, 0, 2, 0, 1, 0])), (2, Row(&[1, 1], [0, 0, 2, 0, 1, 0])),
          (3, Row(&[1, 1], [0, 0, 2, 0, 1, 0])), (4, Row(&[1, 1], [0, 0, 2, 0, 0, 0]))]),
    known("P13", "3 1 3 1 1", &["1 1 3", "2 1 3", "3 1 3"], &["1 2 1"],
        &[(1, Row(&[3, 2, 1], [0, 1, 0, 1, 2, 1])), (2, Row(&[3, 2, 1], [0, 1, 0, 1, 2, 1])),
          (3, Row(&[3, 2, 1], [0, 1, 0, 1, 0, 1]))]),
    // Without the discard the empty beginning would stay, and leave nothing at width 1.
    known("a last slot passes", "1 1 2 1 1", &["1 1 1"], &[], &[(1, Row(&[1], [0, 0, 0, 0, 0, 0]))]),
    known("a last slot passes, a later train waits", "2 2 3 1 1", &["1 1 1", "2 2 3"], &[],
        &[(1, Row(&[1, 3], [0, 0, 0, 0, 1, 0])), (2, Row(&[1, 2], [0, 0, 0, 0, 0, 0]))]),
    // Uncut, the windows 1..2 would not be bound inside 2..2.
    known("windows are cut", "2 1 2 1 1", &["1 1 2", "2 1 2"], &[],
        &[(1, Row(&[2, 1], [0, 0, 0, 0, 1, 0])), (2, Row(&[2, 1], [0, 0, 0, 0, 0, 0]))]),
    known("exactly as many as the stretch holds stay", "3 1 3 1 1", &["1 1 3", "2 2 3", "3 2 3"], &[],
        &[(1, Row(&[1, 3, 2], [0, 0, 0, 0, 1, 0])), (2, Row(&[1, 3, 2], [0, 0, 0, 0, 0, 0]))]),
    // Nobody in slot 1 leaves two trains for 2..2, and three places for three trains in all.
    known("a stretch inside the rest", "3 1 4 1 1", &["1 1 2", "2 1 2", "3 1 4"], &[],
        &[(1, Row(&[2, 1, 4], [0, 0, 0, 0, 2, 0])), (2, Row(&[2, 1, 3], [0, 0, 0, 0, 0, 0]))]),
    // Both cost nothing after slot 1; the waiting supplier's box counts at once.
    known("boxes of waiting suppliers count", "2 1 3 0 1", &["1 1 3", "2 1 3"], &["1 2 5"],
        &[(1, Row(&[3, 2], [0, 5, 0, 5, 2, 5])), (2, Row(&[2, 1], [0, 5, 0, 5, 2, 5])), (3, Row(&[2, 1], [0, 5, 0, 5, 0, 5]))]),
    known("a revisit more comes later at equal cost", "3 1 3 0 0", &["1 1 3", "2 1 3", "3 1 3"], &["3 1 1"],
        &[(1, Row(&[2, 1, 3], [0, 1, 0, 0, 2, 0])), (3, Row(&[2, 1, 3], [0, 1, 0, 0, 0, 0]))]),
    known("the larger set number stays at the cut", "2 1 2 1 1", &["5 1 2", "7 1 2"], &[], &[(1, Row(&[2, 1], [0, 0, 0, 0, 1, 0]))]),
    // After slot 2 trains 1 and 2 are covered twice; 2 before 1 saves the revisit.
    known("merged: the cheaper stays", "3 1 3 1 1", &["1 1 2", "2 1 2", "3 3 3"], &["1 2 4"],
        &[(1, Row(&[2, 1, 3], [0, 4, 0, 4, 1, 4])), (2, Row(&[2, 1, 3], [0, 4, 0, 4, 0, 4]))]),
    known("merged: at equal cost the larger set number", "3 1 3 1 1", &["1 1 2", "2 1 2", "3 3 3"], &[],
        &[(2, Row(&[2, 1, 3], [0, 0, 0, 0, 0, 0]))]),
    known("the lower figure is reached by both its parts", "2 1 2 10 1", &["1 1 1", "2 2 2"], &["1 2 3"],
        &[(1, Row(&[1, 2], [1, 3, 0, 13, 0, 13]))]),
    known("first equal to last is no sure revisit", "2 1 3 10 1", &["1 1 2", "2 2 3"], &["1 2 3"],
        &[(1, Row(&[2, 3], [1, 3, 0, 13, 1, 3])), (2, Row(&[1, 2], [1, 3, 0, 13, 0, 3]))]),
    known("two late suppliers are one sure revisit", "3 2 2 10 1", &["1 1 1", "2 2 2", "3 2 2"], &["1 2 3", "1 3 4"],
        &[(1, Row(&[1, 2, 2], [1, 7, 0, 17, 0, 13]))]),
    known("with G suppliers one is counted", "3 2 3 0 1", &["1 1 1", "2 1 1", "3 3 3"], &["1 2 4", "1 3 9"],
        &[(1, Row(&[1, 1, 3], [1, 9, 4, 9, 0, 4]))]),
    known("fewer suppliers than G count nothing", "3 3 1 1 1", &["1 1 1", "2 1 1", "3 1 1"], &["1 2 4", "1 3 9"],
        &[(1, Row(&[1, 1, 1], [0, 0, 13, 0, 0, 0]))]),
    known("four tracks", "4 4 2 1 1", &["1 1 2", "2 1 2", "3 1 2", "4 1 2"], &["1 2 1", "2 3 1", "3 4 1", "4 1 1"],
        &[(1, Row(&[2, 2, 2, 2], [0, 0, 4, 0, 1, 0])), (2, Row(&[1, 1, 1, 1], [0, 0, 4, 0, 1, 0])), (16, Row(&[1, 1, 1, 1], [0, 0, 4, 0, 0, 0]))]),
    // At width 2 the train that supplies goes first and alone, for its sum is the second smallest; at
    // width 1 the empty beginning leaves trains 3 and 4 together, and at width 3 train 2 goes first.
    known("a greater width costs more", "4 2 3 0 1", &["1 1 3", "2 1 3", "3 1 3", "4 1 3"], &["4 3 1"],
        &[(1, Row(&[3, 3, 2, 2], [0, 0, 1, 0, 2, 0])), (2, Row(&[3, 2, 1, 3], [0, 1, 0, 1, 2, 0])), (3, Row(&[2, 1, 3, 3], [0, 0, 1, 0, 2, 0]))]),
    // After slot 3 trains 1 and 2 (sum 2) stay beside nobody, and not train 3 (sum 3).
    known("two trains before one, by the sum", "3 2 5 1 1", &["1 1 5", "2 1 5", "3 3 5"], &["1 2 1", "2 1 1"],
        &[(2, Row(&[1, 1, 5], [0, 0, 2, 0, 4, 0])), (64, Row(&[1, 1, 3], [0, 0, 2, 0, 0, 0]))]),
    // After slot 2 trains 1 and 2 in slot 1, and train 3 in slot 2, have the same sum.
    known("set numbers slot by slot, whatever is covered", "3 2 4 1 1", &["1 1 4", "2 1 4", "3 2 4"], &["1 2 1", "2 1 1"],
        &[(2, Row(&[1, 1, 4], [0, 0, 2, 0, 3, 0])), (64, Row(&[1, 1, 2], [0, 0, 2, 0, 0, 0]))]),
    // Trains 1 and 3 cost one revisit each in slot 1, though train 3 waits for two suppliers.
    known("two missing suppliers are one revisit", "3 1 3 1 0", &["1 1 3", "2 2 3", "3 1 3"], &["1 2 1", "3 1 1", "3 2 1"],
        &[(1, Row(&[3, 2, 1], [1, 3, 0, 1, 2, 0]))]),
    // 2..2 is overbooked too, and shorter.
    known("9 has the smallest first slot", "5 1 4 1 1", &["1 1 4", "2 2 2", "3 1 4", "4 2 2", "5 1 4"], &[],
        &[(1, Refused(9, [1, 4, 5])), (64, Refused(9, [1, 4, 5]))]),
    known("twelve slots", "1 1 12 1 1", &["99999 1 12"], &[],
        &[(1, Row(&[12], [0, 0, 0, 0, 11, 0])), (2, Row(&[1], [0, 0, 0, 0, 0, 0]))]),
    known("five tracks", "1 5 1 1 1", &["1 1 1"], &[], &[(1, Refused(3, [2, 0, 0])), (0, Refused(3, [2, 0, 0]))]),
    known("thirteen slots", "1 1 13 1 1", &["1 1 1"], &[], &[(1, Refused(3, [2, 0, 0]))]),
    known("no groups", "1 1 1 1 1", &["1 1 1"], &["group train", "1 1"], &[(1, Refused(2, [6, 0, 0])), (99, Refused(2, [6, 0, 0]))]),
];

// ---------------------------------------------------------------------------
// The greatest days
// ---------------------------------------------------------------------------

/// 36 trains of the greatest numbers with these windows, 255 boxes for each pair and
/// the greatest weights.
fn great(window: impl Fn(usize) -> (usize, usize)) -> LongDay {
    let train = |k: usize| {
        let (first, last) = window(k);
        Train { number: MOST_TRAIN_NUMBER + 1 - LONG_TRAINS + k, first, last, group: 0 }
    };
    let number = |to: usize, from: usize| if to == from { 0 } else { MOST_BOXES };
    let row = |to: usize| (0..LONG_TRAINS).map(|from| number(to, from)).collect();
    LongDay {
        tracks: LONG_TRACKS,
        slots: LONG_SLOTS,
        revisit_weight: MOST_WEIGHT,
        split_weight: MOST_WEIGHT,
        trains: (0..LONG_TRAINS).map(train).collect(),
        boxes: (0..LONG_TRAINS).map(row).collect(),
    }
}

/// The greatest file: each first and last slot has two digits. All 36 trains are
/// bound inside 10..12, and 5..12 is the first stretch of fewer than 36 places.
pub fn greatest_long() -> LongDay {
    great(|_| (10, 12))
}

/// The day of the greatest plan file: twelve trains have to be in the slots of two
/// digits, four in each, and the others in those before.
pub fn longest_plan_long() -> LongDay {
    great(|k| if k % 3 == 0 { (10, 12) } else { (1, 9) })
}

/// Each train bound to one slot, three in each.
pub fn bound_long() -> LongDay {
    great(|k| (1 + k / 3, 1 + k / 3))
}

/// All windows open.
pub fn open_long() -> LongDay {
    great(|_| (1, LONG_SLOTS))
}

pub struct GreatLong {
    pub name: &'static str,
    pub day: fn() -> LongDay,
    pub plans: &'static [(u32, KnownPlan)],
}

impl GreatLong {
    pub fn text(&self) -> Vec<u8> {
        write_long(&(self.day)())
    }
}

/// Four trains in each of the slots 4 to 12, the highest positions first.
const BACKWARDS: &[usize] = &[
    12, 12, 12, 12, 11, 11, 11, 11, 10, 10, 10, 10, 9, 9, 9, 9, 8, 8, 8, 8, 7, 7, 7, 7, 6, 6, 6, 6,
    5, 5, 5, 5, 4, 4, 4, 4,
];

/// Three trains in each slot, in order.
const BY_THREES: &[usize] = &[
    1, 1, 1, 2, 2, 2, 3, 3, 3, 4, 4, 4, 5, 5, 5, 6, 6, 6, 7, 7, 7, 8, 8, 8, 9, 9, 9, 10, 10, 10,
    11, 11, 11, 12, 12, 12,
];

/// 36 x 35 x 255 boxes are 321,300. Bound: 12 x 6 x 255 are direct, the 33 trains
/// before the last slot come back, and all 33 do so surely; each train splits
/// 32 x 255 boxes at least. Open: the empty beginning costs nothing as long as the
/// others find room behind it, which is three slots; then each slot takes four, all
/// fours cost the same, and the largest set number stays. 9 x 12 x 255 boxes are
/// direct, the last four trains alone don't come back, and no revisit is sure. After
/// each slot but the last more than 64 plans remain.
#[rustfmt::skip]
pub const GREAT_LONG: [GreatLong; 3] = [
    GreatLong { name: "greatest file", day: greatest_long, plans: &[(1, Refused(9, [5, 12, 36])), (64, Refused(9, [5, 12, 36]))] },
    GreatLong { name: "36 trains bound", day: bound_long, plans: &[
        (1, Row(BY_THREES, [33, 302_940, 18_360, 19_855_335_555, 0, 19_253_724_255])),
        (30, Row(BY_THREES, [33, 302_940, 18_360, 19_855_335_555, 0, 19_253_724_255])),
    ] },
    GreatLong { name: "36 trains in open windows", day: open_long, plans: &[
        (1, Row(BACKWARDS, [32, 293_760, 27_540, 19_253_658_720, 11, 19_251_561_600])),
        (30, Row(BACKWARDS, [32, 293_760, 27_540, 19_253_658_720, 11, 19_251_561_600])),
    ] },
];
