//! What order 4 of 02 says of days with groups: whether they have a plan, what
//! is refused in reading them, and what valuing and the baselines make of them.

use crate::day_file::{GROUP_NAMES, MOVE_NAMES};
use crate::known::{
    BaselineDay, BaselineOutcome, Known, KnownDay, P1_HEAD, P1_MOVES, P1_TRAINS, TWO,
};

pub const fn grouped(
    name: &'static str,
    head: &'static str,
    trains: &'static [&'static str],
    moves: &'static [&'static str],
    rest: &'static [&'static str],
    outcome: Known,
) -> KnownDay {
    KnownDay { name, head, trains, moves, rest, outcome }
}

pub const THREE: &[&str] = &["1 1 2", "2 1 2", "3 1 2"];
pub const SIX: &[&str] = &["1 1 2", "2 1 2", "3 1 2", "4 1 2", "5 1 2", "6 1 2"];

/// Worked out by hand. P1's allowed rows are 1 1 2 2 (1, 10), 2 2 1 1 (2, 10),
/// 2 1 2 1 (1, 7), 1 2 1 2 (2, 7), 2 1 1 2 and 1 2 2 1 (1, 15 each).
#[rustfmt::skip]
pub const GROUPED_DAYS: [KnownDay; 28] = [
    grouped("neighbours", P1_HEAD, P1_TRAINS, P1_MOVES, &[GROUP_NAMES, "12 1", "12 2"], Known::Best(&[1, 1, 2, 2], [1, 10, 6, 11])),
    grouped("positions apart", P1_HEAD, P1_TRAINS, P1_MOVES, &[GROUP_NAMES, "1 1", "1 4"], Known::Best(&[1, 2, 2, 1], [1, 15, 1, 16])),
    grouped("two groups of two", P1_HEAD, P1_TRAINS, P1_MOVES, &[GROUP_NAMES, "1 1", "1 4", "2 2", "2 3"], Known::Best(&[1, 2, 2, 1], [1, 15, 1, 16])),
    grouped("the plan keeps them anyway", P1_HEAD, P1_TRAINS, P1_MOVES, &[GROUP_NAMES, "3 2", "3 4", "12 1", "12 3"], Known::Best(&[2, 1, 2, 1], [1, 7, 9, 8])),
    grouped("P5 with a group", "4 2 2 0 0", P1_TRAINS, P1_MOVES, &[GROUP_NAMES, "1 1", "1 3"], Known::Best(&[2, 1, 2, 1], [1, 7, 9, 0])),
    grouped("P7 with a group", "4 2 2 4 1", &["1 1 2", "2 1 2", "3 1 2", "4 2 2"], P1_MOVES, &[GROUP_NAMES, "4 2", "4 4"], Known::Best(&[1, 2, 1, 2], [2, 7, 9, 15])),
    grouped("a group of one binds nothing", P1_HEAD, P1_TRAINS, P1_MOVES, &[GROUP_NAMES, "5 3"], Known::Best(&[2, 1, 2, 1], [1, 7, 9, 8])),
    grouped("four groups of one", P1_HEAD, P1_TRAINS, P1_MOVES, &[GROUP_NAMES, "1 4", "2 3", "3 2", "12 1"], Known::Best(&[2, 1, 2, 1], [1, 7, 9, 8])),
    grouped("all trains in one group", "4 4 2 1 1", P1_TRAINS, P1_MOVES, &[GROUP_NAMES, "7 1", "7 2", "7 3", "7 4"], Known::Best(&[1, 1, 1, 1], [0, 0, 16, 0])),
    grouped("one train in a group", "1 1 1 1 1", &["1 1 1"], &[], &[GROUP_NAMES, "12 1"], Known::Best(&[1], [0, 0, 0, 0])),
    grouped("two groups in one slot", "4 4 1 1 1", &["1 1 1", "2 1 1", "3 1 1", "4 1 1"], &[], &[GROUP_NAMES, "2 1", "2 3", "9 2", "9 4"], Known::Best(&[1, 1, 1, 1], [0, 0, 0, 0])),
    grouped("two groups and one train in one slot", "5 5 2 1 1", &["1 1 2", "2 1 2", "3 1 2", "4 1 2", "5 1 2"], &["4 3 1", "5 1 1"], &[GROUP_NAMES, "1 1", "1 2", "2 3", "2 4"], Known::Best(&[1, 1, 1, 1, 1], [0, 0, 2, 0])),
    grouped("one slot in common", "2 2 3 1 1", &["1 1 2", "2 2 3"], &[], &[GROUP_NAMES, "1 1", "1 2"], Known::Best(&[2, 2], [0, 0, 0, 0])),
    grouped("no slot in common, one track", "2 1 3 1 1", &["1 1 2", "2 2 3"], &[], &[GROUP_NAMES, "1 1", "1 2"], Known::Unkept),
    grouped("no slot in common, two tracks", "2 2 2 1 1", &["1 1 1", "2 2 2"], &[], &[GROUP_NAMES, "1 1", "1 2"], Known::Unkept),
    grouped("the first and the last share no slot", "3 3 3 1 1", &["1 1 1", "2 1 3", "3 3 3"], &[], &[GROUP_NAMES, "1 1", "1 2", "1 3"], Known::Unkept),
    grouped("a group larger than G", "3 2 2 1 1", THREE, &[], &[GROUP_NAMES, "1 1", "1 2", "1 3"], Known::Unkept),
    grouped("a group of exactly G", "3 3 2 1 1", THREE, &["1 2 1"], &[GROUP_NAMES, "1 1", "1 2", "1 3"], Known::Best(&[1, 1, 1], [0, 0, 1, 0])),
    grouped("places enough, pairs don't fit", "6 3 2 1 1", SIX, &[], &[GROUP_NAMES, "1 1", "1 2", "2 3", "2 4", "3 5", "3 6"], Known::Unkept),
    grouped("two pairs and two trains fit", "6 3 2 1 1", SIX, &[], &[GROUP_NAMES, "1 1", "1 2", "2 5", "2 6"], Known::Best(&[2, 2, 2, 1, 1, 1], [0, 0, 0, 0])),
    grouped("overbooked, and a group larger than G", "3 2 1 1 1", &["1 1 1", "2 1 1", "3 1 1"], &[], &[GROUP_NAMES, "1 1", "1 2", "1 3"], Known::Overbooked([1, 1, 3])),
    grouped("overbooked, and no slot in common", "3 1 3 1 1", &["1 1 1", "2 3 3", "3 3 3"], &[], &[GROUP_NAMES, "1 1", "1 2"], Known::Overbooked([3, 3, 2])),
    grouped("overbooked, and the groups could be kept", "3 2 2 1 1", &["1 1 1", "2 1 1", "3 1 1"], &[], &[GROUP_NAMES, "1 1", "1 2"], Known::Overbooked([1, 1, 3])),
    grouped("a group of four", "5 4 2 1 1", &["1 1 2", "2 1 2", "3 1 2", "4 1 2", "5 1 2"], &[], &[GROUP_NAMES, "6 1", "6 2", "6 4", "6 5"], Known::Best(&[1, 1, 2, 1, 1], [0, 0, 0, 0])),
    grouped("railway numbers", "2 2 2 1 1", &["34463 1 2", "99999 1 2"], &[], &[GROUP_NAMES, "12 34463", "12 99999"], Known::Best(&[1, 1], [0, 0, 0, 0])),
    grouped("train numbers fall from group to group", "2 1 2 1 1", TWO, &["3 9 1"], &[GROUP_NAMES, "1 9", "2 3"], Known::Best(&[2, 1], [0, 1, 0, 1])),
    grouped("group 9 before 10", "2 1 2 1 1", TWO, &["3 9 1"], &[GROUP_NAMES, "9 9", "10 3"], Known::Best(&[2, 1], [0, 1, 0, 1])),
    grouped("train 9 before 10000", "2 2 2 1 1", &["9 1 2", "10000 1 2"], &[], &[GROUP_NAMES, "1 9", "1 10000"], Known::Best(&[1, 1], [0, 0, 0, 0])),
];

/// The edges of the fourth section and the order of its checks. P1's section
/// begins at line 14, that of the day with two trains at line 7, 8 after a move.
#[rustfmt::skip]
pub const GROUP_EDGES: [KnownDay; 36] = [
    grouped("a section without rows", P1_HEAD, P1_TRAINS, P1_MOVES, &[GROUP_NAMES], Known::Refused(2, 15)),
    grouped("no moves, a section without rows", "2 2 2 1 1", TWO, &[], &[GROUP_NAMES], Known::Refused(2, 8)),
    grouped("names other than these", P1_HEAD, P1_TRAINS, P1_MOVES, &["group trains", "1 1"], Known::Refused(2, 14)),
    grouped("names with a blank behind", P1_HEAD, P1_TRAINS, P1_MOVES, &["group train ", "1 1"], Known::Refused(2, 14)),
    grouped("names with two blanks", P1_HEAD, P1_TRAINS, P1_MOVES, &["group  train", "1 1"], Known::Refused(2, 14)),
    grouped("names in upper case", P1_HEAD, P1_TRAINS, P1_MOVES, &["Group train", "1 1"], Known::Refused(2, 14)),
    grouped("half the names", P1_HEAD, P1_TRAINS, P1_MOVES, &["group", "1 1"], Known::Refused(2, 14)),
    grouped("a row of two fields among the moves", P1_HEAD, P1_TRAINS, P1_MOVES, &["1 4"], Known::Refused(2, 14)),
    grouped("no names before the rows", "2 2 2 1 1", TWO, &[], &["1 3"], Known::Refused(2, 7)),
    grouped("names twice at once", "2 2 2 1 1", TWO, &[], &[GROUP_NAMES, GROUP_NAMES, "1 3"], Known::Refused(2, 8)),
    grouped("names again after a row", "2 2 2 1 1", TWO, &[], &[GROUP_NAMES, "1 3", GROUP_NAMES, "1 9"], Known::Refused(2, 9)),
    grouped("the moves' names after a row", "2 2 2 1 1", TWO, &[], &[GROUP_NAMES, "1 3", MOVE_NAMES], Known::Refused(2, 9)),
    grouped("a move after a row", "2 2 2 1 1", TWO, &[], &[GROUP_NAMES, "1 3", "3 9 1"], Known::Refused(2, 9)),
    grouped("a move after the names", "2 2 2 1 1", TWO, &[], &[GROUP_NAMES, "3 9 1"], Known::Refused(2, 8)),
    grouped("an empty line after the names", "2 2 2 1 1", TWO, &[], &[GROUP_NAMES, ""], Known::Refused(2, 8)),
    grouped("an empty line after a row", "2 2 2 1 1", TWO, &[], &[GROUP_NAMES, "1 3", ""], Known::Refused(2, 9)),
    grouped("one field", "2 2 2 1 1", TWO, &[], &[GROUP_NAMES, "1"], Known::Refused(2, 8)),
    grouped("a leading zero", "2 2 2 1 1", TWO, &[], &[GROUP_NAMES, "01 3"], Known::Refused(2, 8)),
    grouped("group 0", "2 2 2 1 1", TWO, &[], &[GROUP_NAMES, "0 3"], Known::Refused(3, 8)),
    grouped("group 13", "2 2 2 1 1", TWO, &[], &[GROUP_NAMES, "13 3"], Known::Refused(3, 8)),
    grouped("group 100000 is no value", "2 2 2 1 1", TWO, &[], &[GROUP_NAMES, "100000 3"], Known::Refused(2, 8)),
    grouped("train 0", "2 2 2 1 1", TWO, &[], &[GROUP_NAMES, "1 0"], Known::Refused(3, 8)),
    grouped("train 99999, unlisted", "2 2 2 1 1", TWO, &[], &[GROUP_NAMES, "1 99999"], Known::Refused(15, 8)),
    grouped("train 100000 is no value", "2 2 2 1 1", TWO, &[], &[GROUP_NAMES, "1 100000"], Known::Refused(2, 8)),
    grouped("unlisted", "2 2 2 1 1", TWO, &["3 9 1"], &[GROUP_NAMES, "1 3", "1 4"], Known::Refused(15, 10)),
    grouped("the same pair twice", "2 2 2 1 1", TWO, &[], &[GROUP_NAMES, "1 3", "1 3"], Known::Refused(15, 9)),
    grouped("trains of a group falling", "2 2 2 1 1", TWO, &[], &[GROUP_NAMES, "1 9", "1 3"], Known::Refused(15, 9)),
    grouped("groups falling", "2 2 2 1 1", TWO, &[], &[GROUP_NAMES, "2 3", "1 9"], Known::Refused(15, 9)),
    grouped("group 10 before 9", "2 2 2 1 1", TWO, &[], &[GROUP_NAMES, "10 3", "9 9"], Known::Refused(15, 9)),
    grouped("a train in a second group", "2 2 2 1 1", TWO, &[], &[GROUP_NAMES, "1 3", "2 3"], Known::Refused(15, 9)),
    grouped("a train in a second group further down", "2 2 2 1 1", TWO, &[], &[GROUP_NAMES, "1 3", "1 9", "2 3"], Known::Refused(15, 10)),
    grouped("3 before 15: unlisted", "2 2 2 1 1", TWO, &[], &[GROUP_NAMES, "13 4"], Known::Refused(3, 8)),
    grouped("3 before 15: out of order", "2 2 2 1 1", TWO, &[], &[GROUP_NAMES, "1 3", "0 9"], Known::Refused(3, 9)),
    grouped("3 before 15: a second group", "2 2 2 1 1", TWO, &[], &[GROUP_NAMES, "1 3", "13 3"], Known::Refused(3, 9)),
    grouped("2 before 15", "2 2 2 1 1", TWO, &[], &[GROUP_NAMES, "1 4 1"], Known::Refused(2, 8)),
    grouped("15 before what follows", "2 2 2 1 1", TWO, &[], &[GROUP_NAMES, "1 4", "x"], Known::Refused(15, 8)),
];

/// Whole texts: the end of the text at the groups, and the section out of place.
#[rustfmt::skip]
pub const GROUP_TEXTS: [(&str, &str, Known); 6] = [
    ("names of groups without byte 10", "trains tracks slots revisit split\n1 1 1 1 1\ntrain first last\n1 1 1\nto from boxes\ngroup train", Known::Refused(2, 6)),
    ("a row of a group without byte 10", "trains tracks slots revisit split\n1 1 1 1 1\ntrain first last\n1 1 1\nto from boxes\ngroup train\n1 1", Known::Refused(2, 7)),
    ("a row of a group", "trains tracks slots revisit split\n1 1 1 1 1\ntrain first last\n1 1 1\nto from boxes\ngroup train\n1 1\n", Known::Best(&[1], [0, 0, 0, 0])),
    ("groups before the moves", "trains tracks slots revisit split\n1 1 1 1 1\ntrain first last\n1 1 1\ngroup train\n1 1\nto from boxes\n", Known::Refused(1, 5)),
    ("groups for the moves", "trains tracks slots revisit split\n1 1 1 1 1\ntrain first last\n1 1 1\ngroup train\n1 1\n", Known::Refused(1, 5)),
    ("groups before the trains", "trains tracks slots revisit split\n1 1 1 1 1\ngroup train\n1 1\ntrain first last\n1 1 1\nto from boxes\n", Known::Refused(1, 3)),
];

/// The groups that the rows of `GROUPED_ROWS` are valued with, on P1's day: 3
/// has trains 2 and 4, 12 trains 1 and 3.
pub const ROWS_GROUPS: &[&str] = &[GROUP_NAMES, "3 2", "3 4", "12 1", "12 3"];

/// Rows on P1's day with these groups; the refusal and what it carries.
pub const GROUPED_ROWS: [(&[u8], usize, usize); 9] = [
    (&[1, 1, 2, 2], 17, 3),
    (&[2, 1, 1, 2], 17, 3),
    (&[1, 1, 1, 2], 13, 1),
    (&[1, 2, 2, 2], 13, 2),
    (&[1, 1, 2, 3], 12, 4),
    (&[0, 1, 1, 1], 12, 1),
    (&[1, 1, 2], 11, 0),
    (&[1, 1, 2, 2, 1], 11, 0),
    (&[], 11, 0),
];

pub const fn made(
    name: &'static str,
    head: &'static str,
    trains: &'static [&'static str],
    moves: &'static [&'static str],
    rest: &'static [&'static str],
    outcomes: [BaselineOutcome; 2],
) -> BaselineDay {
    BaselineDay { name, head, trains, moves, rest, outcomes }
}

/// Worked out by hand from orders 1 and 4: the baselines don't look at groups.
#[rustfmt::skip]
pub const GROUPED_BASELINE_DAYS: [BaselineDay; 10] = [
    made("P1, a group of one", P1_HEAD, P1_TRAINS, P1_MOVES, &[GROUP_NAMES, "5 3"],
        [(&[1, 1, 2, 2], 0, [1, 10, 6, 11], 3), (&[1, 1, 2, 2], 0, [1, 10, 6, 11], 3)]),
    made("P1, its group kept", P1_HEAD, P1_TRAINS, P1_MOVES, &[GROUP_NAMES, "2 1", "2 2"],
        [(&[1, 1, 2, 2], 0, [1, 10, 6, 11], 0), (&[1, 1, 2, 2], 0, [1, 10, 6, 11], 0)]),
    made("P1, its group parted", P1_HEAD, P1_TRAINS, P1_MOVES, &[GROUP_NAMES, "2 1", "2 3"],
        [(&[1, 1, 2, 2], 14, [0, 0, 0, 0], 0), (&[1, 1, 2, 2], 14, [0, 0, 0, 0], 0)]),
    made("parted though places are free", "3 2 3 1 1", &["1 1 3", "2 1 3", "3 1 3"], &[], &[GROUP_NAMES, "1 1", "1 3"],
        [(&[1, 1, 2], 14, [0, 0, 0, 0], 0), (&[1, 1, 2], 14, [0, 0, 0, 0], 0)]),
    made("one left over, and a group parted", "4 2 2 1 1", &["1 1 2", "2 1 2", "3 1 1", "4 1 2"], &[], &[GROUP_NAMES, "1 2", "1 4"],
        [(&[1, 1, 0, 2], 14, [3, 0, 0, 0], 0), (&[1, 1, 0, 2], 14, [3, 0, 0, 0], 0)]),
    made("a member left over", "4 2 2 1 1", &["1 1 2", "2 1 2", "3 1 1", "4 1 1"], &[], &[GROUP_NAMES, "1 3", "1 4"],
        [(&[1, 1, 0, 0], 14, [3, 0, 0, 0], 0), (&[1, 1, 0, 0], 14, [3, 0, 0, 0], 0)]),
    made("first come keeps it, myopic parts it", "3 2 2 1 1", &["1 1 2", "2 1 2", "3 1 2"], &["2 3 1", "3 1 9"], &[GROUP_NAMES, "1 1", "1 2"],
        [(&[1, 1, 2], 0, [1, 10, 0, 11], 0), (&[1, 2, 1], 14, [0, 0, 0, 0], 0)]),
    made("myopic keeps it, first come parts it", "3 2 2 1 1", &["1 1 2", "2 1 2", "3 1 2"], &["2 3 1", "3 1 9"], &[GROUP_NAMES, "1 1", "1 3"],
        [(&[1, 1, 2], 14, [0, 0, 0, 0], 0), (&[1, 2, 1], 0, [0, 1, 9, 1], 0)]),
    made("16 before 14", "3 2 2 1 1", THREE, &[], &[GROUP_NAMES, "1 1", "1 2", "1 3"],
        [(&[1, 1, 2], 16, [0, 0, 0, 0], 0), (&[1, 1, 2], 16, [0, 0, 0, 0], 0)]),
    made("9 before 16 and 14", "3 2 2 1 1", &["1 1 1", "2 1 1", "3 1 1"], &[], &[GROUP_NAMES, "1 1", "1 2", "1 3"],
        [(&[1, 1, 0], 9, [1, 1, 3, 0], 0), (&[1, 1, 0], 9, [1, 1, 3, 0], 0)]),
];
