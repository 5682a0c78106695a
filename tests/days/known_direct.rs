//! Days, assignments and baselines worked out by hand for the direct moves of
//! order 6 of 02: boxes between trains of the same slot.

use crate::day_file::GROUP_NAMES;
use crate::known::{
    known, BaselineDay, Known, KnownDay, KnownValue, P1_HEAD, P1_MOVES, P1_TRAINS, P6_TRAINS,
};
use crate::known_sets::{grouped, made, SIX, THREE};
use crate::known_ties::{tied, TiedDay};
use crate::model::{Day, Numbers, MOST_TRAINS};
use crate::special::{dearest_day, gathered_day, greatest_day, halved_day, longest_plan_day};

/// Trains bound to slot 1.
const TWO_BOUND: &[&str] = &["1 1 1", "2 1 1"];
const THREE_BOUND: &[&str] = &["1 1 1", "2 1 1", "3 1 1"];
const FOUR_BOUND: &[&str] = &["1 1 1", "2 1 1", "3 1 1", "4 1 1"];

/// All pairs of three trains, with boxes that no two sums share: 63 in all.
const POWERS: &[&str] = &["1 2 1", "1 3 2", "2 1 4", "2 3 8", "3 1 16", "3 2 32"];

/// Six trains that exchange 3 (1 and 2), 4 (1 and 3), 64 (3 and 5), 16 (4 and
/// 6), 8 (4 and 5) and 32 boxes (1 and 6): 127 in all.
const SIX_MOVES: &[&str] = &["1 2 1", "1 3 4", "2 1 2", "3 5 64", "4 6 16", "5 4 8", "6 1 32"];

/// Two slots of two trains, which exchange 15 and 20 boxes. Of 300 others train 1
/// comes back for 200.
const TWO_AND_TWO: &[&str] = &["1 1 1", "2 2 2", "3 1 1", "4 2 2"];
const TWO_AND_TWO_MOVES: &[&str] = &["1 3 10", "1 4 200", "2 1 100", "3 1 5", "4 2 20"];

#[rustfmt::skip]
pub const DIRECT_DAYS: [KnownDay; 24] = [
    known("one way, to the lower position", "2 2 1 1 1", TWO_BOUND, &["1 2 3"], Known::Best(&[1, 1], [0, 0, 3, 0])),
    known("one way, to the higher position", "2 2 1 1 1", TWO_BOUND, &["2 1 3"], Known::Best(&[1, 1], [0, 0, 3, 0])),
    known("both ways", "2 2 1 1 1", TWO_BOUND, &["1 2 3", "2 1 4"], Known::Best(&[1, 1], [0, 0, 7, 0])),
    known("both ways alike", "2 2 1 1 1", TWO_BOUND, &["1 2 5", "2 1 5"], Known::Best(&[1, 1], [0, 0, 10, 0])),
    known("both ways, weights 0 and 0", "2 2 1 0 0", TWO_BOUND, &["1 2 3", "2 1 4"], Known::Best(&[1, 1], [0, 0, 7, 0])),
    known("255 direct moves", "2 2 1 1 1", TWO_BOUND, &["1 2 255"], Known::Best(&[1, 1], [0, 0, 255, 0])),
    known("256 direct moves", "2 2 1 1 1", TWO_BOUND, &["1 2 255", "2 1 1"], Known::Best(&[1, 1], [0, 0, 256, 0])),
    known("510 direct moves, the greatest weights", "2 2 1 65535 65535", TWO_BOUND, &["1 2 255", "2 1 255"], Known::Best(&[1, 1], [0, 0, 510, 0])),
    known("direct moves of railway numbers", "2 2 1 1 1", &["34463 1 1", "99999 1 1"], &["34463 99999 4", "99999 34463 8"], Known::Best(&[1, 1], [0, 0, 12, 0])),
    known("three in one slot", "3 3 1 1 1", THREE_BOUND, POWERS, Known::Best(&[1, 1, 1], [0, 0, 63, 0])),
    known("not with the first train of the slot", "3 3 1 1 1", THREE_BOUND, &["2 3 5"], Known::Best(&[1, 1, 1], [0, 0, 5, 0])),
    known("four in one slot, no neighbours", "4 4 1 1 1", FOUR_BOUND, &["1 3 1", "2 4 2", "4 1 4"], Known::Best(&[1, 1, 1, 1], [0, 0, 7, 0])),
    known("all apart", "3 1 3 1 1", &["1 1 1", "2 2 2", "3 3 3"], POWERS, Known::Best(&[1, 2, 3], [2, 63, 0, 65])),
    known("neighbouring slots", "2 2 2 1 1", &["1 1 1", "2 2 2"], &["1 2 3", "2 1 4"], Known::Best(&[1, 2], [1, 7, 0, 8])),
    known("no boxes at all", "4 2 2 1 1", P1_TRAINS, &[], Known::Best(&[2, 2, 1, 1], [0, 0, 0, 0])),
    known("direct moves in two slots", "4 2 2 1 1", TWO_AND_TWO, TWO_AND_TWO_MOVES, Known::Best(&[1, 2, 1, 2], [1, 300, 35, 301])),
    // In slot 1 train 1 receives 1, in slot 3 train 3 receives 2; 12 others.
    known("an empty slot between", "4 2 3 2 3", &["1 1 1", "2 1 1", "3 3 3", "4 3 3"], &["1 2 1", "2 4 8", "3 1 4", "3 4 2"], Known::Best(&[1, 1, 3, 3], [1, 12, 3, 38])),
    known("the last of eight slots", "2 2 8 1 1", &["1 8 8", "2 8 8"], &["2 1 6"], Known::Best(&[8, 8], [0, 0, 6, 0])),
    // Train 1 comes back for 2 boxes; the other 5 are direct all the same.
    known("direct moves of a train that revisits", "3 2 2 1 1", &["1 1 1", "2 1 1", "3 2 2"], &["1 2 5", "1 3 2"], Known::Best(&[1, 1, 2], [1, 2, 5, 3])),
    // 1, 4 and 6 exchange 48, the others 64. Those in slot 1 would come back twice.
    known("six trains", "6 3 2 1 1", SIX, SIX_MOVES, Known::Best(&[1, 2, 2, 1, 2, 1], [1, 15, 112, 16])),
    grouped("within a group and beside it", "3 3 1 1 1", THREE_BOUND, &["1 2 2", "1 3 5", "2 3 1"], &[GROUP_NAMES, "4 1", "4 3"], Known::Best(&[1, 1, 1], [0, 0, 8, 0])),
    grouped("a group apart from its supplier", "3 2 2 1 1", THREE, &["1 2 4", "2 1 2", "2 3 9"], &[GROUP_NAMES, "1 1", "1 2"], Known::Best(&[2, 2, 1], [0, 9, 6, 9])),
    grouped("between two groups of one slot", "4 4 1 1 1", FOUR_BOUND, &["1 2 7", "1 3 3", "4 2 5"], &[GROUP_NAMES, "1 1", "1 2", "2 3", "2 4"], Known::Best(&[1, 1, 1, 1], [0, 0, 15, 0])),
    // Without the group there are 112. 3, 4 and 5 in slot 1 cost as much; masks 35, 28.
    grouped("fewer direct moves for a group's sake", "6 3 2 1 1", SIX, SIX_MOVES, &[GROUP_NAMES, "3 1", "3 2"], Known::Best(&[1, 1, 2, 2, 2, 1], [1, 20, 107, 21])),
];

/// Direct moves decide nothing: cost, revisits, sum and masks do. The comments
/// give the direct moves of the assignments in their order.
#[rustfmt::skip]
pub const DIRECT_TIES: [TiedDay; 6] = [
    // 0, 0, 5, 5; no revisit and sum 6 each, masks 12, 10, 9, 6.
    tied(known("more direct moves later", "4 2 2 1 0", P1_TRAINS, &["1 4 5"], Known::Best(&[2, 2, 1, 1], [0, 5, 0, 0])), &[&[2, 1, 2, 1], &[1, 2, 2, 1], &[2, 1, 1, 2]]),
    // 0, 0, 5, 5 and, with a revisit, 0, 0.
    tied(known("more direct moves later, weights 0 and 0", "4 2 2 0 0", P1_TRAINS, &["1 4 5"], Known::Best(&[2, 2, 1, 1], [0, 5, 0, 0])), &[&[2, 1, 2, 1], &[1, 2, 2, 1], &[2, 1, 1, 2], &[1, 2, 1, 2], &[1, 1, 2, 2]]),
    // 5, 0, 0, 5; masks 12, 10, 9, 3.
    tied(known("fewer direct moves later", "4 2 2 1 0", P1_TRAINS, &["3 4 5"], Known::Best(&[2, 2, 1, 1], [0, 0, 5, 0])), &[&[2, 1, 2, 1], &[1, 2, 2, 1], &[1, 1, 2, 2]]),
    // 0, 9; revisits 0, 1.
    tied(known("fewer revisits before more direct moves", "4 2 3 0 0", &["1 2 2", "2 1 3", "3 1 1", "4 2 2"], &["2 1 1", "2 3 9"], Known::Best(&[2, 3, 1, 2], [0, 10, 0, 0])), &[&[2, 1, 1, 2]]),
    // 1 2 1 2 has 9, but costs 15.
    tied(known("P7: a cheaper plan with fewer direct moves", "4 2 2 4 1", P6_TRAINS, P1_MOVES, Known::Best(&[1, 1, 2, 2], [1, 10, 6, 14])), &[]),
    // 1 1 2 2 has a revisit less, and would come first if all boxes weighed alike.
    tied(known("P6: a cheaper plan with more direct moves", P1_HEAD, P6_TRAINS, P1_MOVES, Known::Best(&[1, 2, 1, 2], [2, 7, 9, 9])), &[]),
];

/// Three trains with all pairs of boxes, free to go anywhere.
const fn of_three(slots: &'static [usize], numbers: Numbers) -> KnownValue {
    let (head, trains) = ("3 3 3 100 1", &["1 1 3", "2 1 3", "3 1 3"]);
    KnownValue { name: "three trains", head, trains, moves: POWERS, slots, numbers }
}

const fn of_six(slots: &'static [usize], numbers: Numbers) -> KnownValue {
    KnownValue {
        name: "six trains",
        head: "6 3 2 1 1",
        trains: SIX,
        moves: SIX_MOVES,
        slots,
        numbers,
    }
}

/// Plans and other assignments, to be valued.
#[rustfmt::skip]
pub const DIRECT_VALUES: [KnownValue; 19] = [
    of_three(&[1, 1, 1], [0, 0, 63, 0]),
    of_three(&[2, 2, 2], [0, 0, 63, 0]),
    of_three(&[3, 3, 3], [0, 0, 63, 0]),
    of_three(&[1, 1, 2], [2, 58, 5, 258]),
    of_three(&[1, 1, 3], [2, 58, 5, 258]),
    of_three(&[2, 2, 1], [1, 58, 5, 158]),
    of_three(&[3, 3, 1], [1, 58, 5, 158]),
    of_three(&[1, 2, 1], [2, 45, 18, 245]),
    of_three(&[2, 1, 2], [1, 45, 18, 145]),
    of_three(&[3, 1, 3], [1, 45, 18, 145]),
    of_three(&[1, 2, 2], [1, 23, 40, 123]),
    of_three(&[1, 3, 3], [1, 23, 40, 123]),
    of_three(&[2, 1, 1], [2, 23, 40, 223]),
    of_three(&[1, 2, 3], [2, 63, 0, 263]),
    of_three(&[3, 2, 1], [2, 63, 0, 263]),
    of_six(&[1, 1, 1, 2, 2, 2], [1, 96, 31, 97]),
    of_six(&[1, 1, 2, 2, 2, 1], [1, 20, 107, 21]),
    of_six(&[2, 1, 1, 2, 1, 2], [2, 15, 112, 17]),
    KnownValue { name: "a group and a train beside it", head: "3 3 2 2 3", trains: THREE, moves: &["1 2 2", "1 3 5", "2 3 1", GROUP_NAMES, "4 1", "4 3"], slots: &[2, 1, 2], numbers: [1, 3, 5, 11] },
];

/// First come and the myopic procedure have direct moves of their own, not those
/// of the plan.
#[rustfmt::skip]
pub const DIRECT_BASELINE_DAYS: [BaselineDay; 5] = [
    // The plan has 112 direct moves.
    made("direct moves of all three differ", "6 3 2 1 1", SIX, SIX_MOVES, &[],
        [(&[1, 1, 1, 2, 2, 2], 0, [1, 96, 31, 97], 81), (&[1, 1, 2, 2, 2, 1], 0, [1, 20, 107, 21], 5)]),
    // The plan 2 1 2 1 has 9.
    made("other direct moves, nothing saved", "4 2 2 0 0", P1_TRAINS, P1_MOVES, &[],
        [(&[1, 1, 2, 2], 0, [1, 10, 6, 0], 0), (&[1, 1, 2, 2], 0, [1, 10, 6, 0], 0)]),
    made("all trains in slot 1", "3 3 2 1 1", THREE, POWERS, &[],
        [(&[1, 1, 1], 0, [0, 0, 63, 0], 0), (&[1, 1, 1], 0, [0, 0, 63, 0], 0)]),
    made("direct moves within a group", "3 2 2 1 1", THREE, &["1 2 4", "2 1 2", "3 1 9"], &[GROUP_NAMES, "1 1", "1 2"],
        [(&[1, 1, 2], 0, [0, 9, 6, 9], 0), (&[1, 1, 2], 0, [0, 9, 6, 9], 0)]),
    made("direct moves in two slots", "4 2 2 1 1", TWO_AND_TWO, TWO_AND_TWO_MOVES, &[],
        [(&[1, 2, 1, 2], 0, [1, 300, 35, 301], 0), (&[1, 2, 1, 2], 0, [1, 300, 35, 301], 0)]),
];

/// Days of most trains and boxes, 33,660 in all, with plan and numbers.
pub struct GreatDay {
    pub name: &'static str,
    pub day: fn() -> Day,
    pub slots: [usize; MOST_TRAINS],
    pub numbers: Numbers,
    /// Whether each baseline parts a group; else it has the same numbers.
    pub parted: bool,
}

/// A slot of k trains has k (k - 1) pairs of 255 boxes.
#[rustfmt::skip]
pub const GREAT_DAYS: [GreatDay; 5] = [
    // All 132 pairs.
    GreatDay { name: "all boxes direct", day: gathered_day, slots: [2; 12], numbers: [0, 0, 33_660, 0], parted: false },
    // 30 and 30 pairs; the first six trains served come back.
    GreatDay { name: "two slots of six", day: halved_day, slots: [2, 2, 2, 2, 2, 2, 1, 1, 1, 1, 1, 1], numbers: [6, 18_360, 15_300, 1_203_615_810], parted: false },
    // 30, 20 and no pairs; all but the last train come back.
    GreatDay { name: "longest plan file", day: longest_plan_day, slots: [2, 2, 2, 2, 2, 1, 1, 1, 1, 1, 1, 3], numbers: [11, 20_910, 12_750, 1_371_057_735], parted: false },
    // Four slots of two trains, four of one.
    GreatDay { name: "dearest day", day: dearest_day, slots: [1, 2, 3, 4, 5, 6, 7, 8, 1, 2, 3, 4], numbers: [11, 31_620, 2_040, 2_072_937_585], parted: false },
    // A group of four alone, and two that meet: 12 and 56 pairs. The baselines part the first.
    GreatDay { name: "greatest day", day: greatest_day, slots: [2, 4, 4, 2, 4, 4, 2, 4, 4, 2, 4, 4], numbers: [4, 16_320, 17_340, 1_069_793_340], parted: true },
];
