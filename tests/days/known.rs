//! What 01 says: its days with known outcome, P5 as order 5 of 02 changes it and
//! all with the direct moves of order 6, and its examples of refusals; and days
//! made by hand for the baselines of order 1. Those of order 4 stand in
//! known_sets.rs, of order 5 in known_ties.rs, of order 6 in known_direct.rs, of
//! order 8 in known_fewest.rs.

use crate::day_file::{HEAD_NAMES, MOVE_NAMES, TRAIN_NAMES};
use crate::model::Numbers;

/// What 01 and 02 say of a text.
#[derive(Debug)]
pub enum Known {
    /// The slots by position, and their numbers.
    Best(&'static [usize], Numbers),
    /// First slot, last slot and trains bound inside.
    Overbooked([usize; 3]),
    /// The groups can't be kept: 16.
    Unkept,
    /// Number and line.
    Refused(usize, usize),
}

pub struct KnownDay {
    pub name: &'static str,
    pub head: &'static str,
    pub trains: &'static [&'static str],
    pub moves: &'static [&'static str],
    /// The lines after the moves.
    pub rest: &'static [&'static str],
    pub outcome: Known,
}

impl KnownDay {
    pub fn text(&self) -> Vec<u8> {
        day_text(self.head, self.trains, &[self.moves, self.rest].concat())
    }
}

/// The text with these rows, the moves with whatever follows them; whether it is
/// sound is the rows' affair.
pub fn day_text(head: &str, trains: &[&str], moves: &[&str]) -> Vec<u8> {
    let lines = [&[HEAD_NAMES, head, TRAIN_NAMES], trains, &[MOVE_NAMES], moves].concat();
    (lines.join("\n") + "\n").into_bytes()
}

pub const P1_HEAD: &str = "4 2 2 1 1";
pub const P1_TRAINS: &[&str] = &["1 1 2", "2 1 2", "3 1 2", "4 1 2"];
pub const P1_MOVES: &[&str] = &["1 4 1", "3 1 3", "3 4 5", "4 2 6", "4 3 1"];
pub const P6_TRAINS: &[&str] = &["1 1 2", "2 1 2", "3 1 2", "4 2 2"];

pub const fn known(
    name: &'static str,
    head: &'static str,
    trains: &'static [&'static str],
    moves: &'static [&'static str],
    outcome: Known,
) -> KnownDay {
    KnownDay { name, head, trains, moves, rest: &[], outcome }
}

/// P2 and P3 value a given assignment of P1's day: see `KNOWN_VALUES`.
#[rustfmt::skip]
pub const KNOWN_DAYS: [KnownDay; 11] = [
    known("P1", P1_HEAD, P1_TRAINS, P1_MOVES, Known::Best(&[2, 1, 2, 1], [1, 7, 9, 8])),
    known("P4", "4 2 2 0 1", P1_TRAINS, P1_MOVES, Known::Best(&[2, 1, 2, 1], [1, 7, 9, 7])),
    known("P5", "4 2 2 0 0", P1_TRAINS, P1_MOVES, Known::Best(&[2, 1, 2, 1], [1, 7, 9, 0])),
    known("P6", P1_HEAD, P6_TRAINS, P1_MOVES, Known::Best(&[1, 2, 1, 2], [2, 7, 9, 9])),
    known("P7", "4 2 2 4 1", P6_TRAINS, P1_MOVES, Known::Best(&[1, 1, 2, 2], [1, 10, 6, 14])),
    known("P8", "1 1 1 1 1", &["1 1 1"], &[], Known::Best(&[1], [0, 0, 0, 0])),
    known("P9", "3 2 2 1 1", &["1 1 1", "2 1 1", "3 1 1"], &[], Known::Overbooked([1, 1, 3])),
    known("P10", "3 1 2 1 1", &["1 1 2", "2 1 2", "3 1 2"], &[], Known::Overbooked([1, 2, 3])),
    known("P11", "2 1 2 1 1", &["1 1 2", "2 1 2"], &["1 2 1", "2 1 1"], Known::Best(&[2, 1], [1, 2, 0, 3])),
    known("P12", "2 2 2 1 1", &["1 1 2", "2 1 2"], &["1 2 1", "2 1 1"], Known::Best(&[1, 1], [0, 0, 2, 0])),
    known("P13", "3 1 3 1 1", &["1 1 3", "2 1 3", "3 1 3"], &["1 2 1"], Known::Best(&[3, 2, 1], [0, 1, 0, 1])),
];

/// An assignment of a day, worked out by hand.
pub struct KnownValue {
    pub name: &'static str,
    pub head: &'static str,
    pub trains: &'static [&'static str],
    /// With the lines after them.
    pub moves: &'static [&'static str],
    pub slots: &'static [usize],
    pub numbers: Numbers,
}

impl KnownValue {
    pub fn text(&self) -> Vec<u8> {
        day_text(self.head, self.trains, self.moves)
    }
}

/// On P1's trains and moves.
const fn of_p1(
    name: &'static str,
    head: &'static str,
    slots: &'static [usize],
    numbers: Numbers,
) -> KnownValue {
    KnownValue { name, head, trains: P1_TRAINS, moves: P1_MOVES, slots, numbers }
}

/// P1's 16 boxes: trains 1 and 3 exchange 3, trains 2 and 4 exchange 6, trains 3
/// and 4 exchange 6, trains 1 and 4 exchange 1.
#[rustfmt::skip]
pub const KNOWN_VALUES: [KnownValue; 6] = [
    of_p1("P1", P1_HEAD, &[2, 1, 2, 1], [1, 7, 9, 8]),
    of_p1("P2", P1_HEAD, &[2, 1, 1, 2], [1, 15, 1, 16]),
    of_p1("P3", P1_HEAD, &[1, 1, 2, 2], [1, 10, 6, 11]),
    of_p1("P4, the later row", "4 2 2 0 1", &[1, 2, 1, 2], [2, 7, 9, 7]),
    of_p1("P3 the other way round", P1_HEAD, &[2, 2, 1, 1], [2, 10, 6, 12]),
    of_p1("P2 the other way round", P1_HEAD, &[1, 2, 2, 1], [1, 15, 1, 16]),
];

/// 01's small inputs for refusals, each in its place in an otherwise good day.
#[rustfmt::skip]
pub const SMALL_INPUTS: [KnownDay; 6] = [
    known("2: a leading zero", P1_HEAD, &["1 01 2"], &[], Known::Refused(2, 4)),
    known("3: 13 trains", "13 2 2 1 1", &[], &[], Known::Refused(3, 2)),
    known("4: number twice", "2 2 2 1 1", &["5 1 2", "5 1 2"], &[], Known::Refused(4, 5)),
    known("5: first above last", "1 2 2 1 1", &["7 2 1"], &[], Known::Refused(5, 4)),
    known("6: to equals from", P1_HEAD, P1_TRAINS, &["4 4 1"], Known::Refused(6, 9)),
    known("7: pair before", P1_HEAD, P1_TRAINS, &["3 4 5", "3 1 3"], Known::Refused(7, 10)),
];

pub const TWO: &[&str] = &["3 1 2", "9 1 2"];

/// What 01, and order 2 of 02 on train numbers, say of the edges and of the
/// order of the checks.
#[rustfmt::skip]
pub const EDGES: [KnownDay; 33] = [
    known("exactly G trains in a slot", "2 2 1 1 1", &["3 1 1", "9 1 1"], &["3 9 1"], Known::Best(&[1, 1], [0, 0, 1, 0])),
    known("weights 65535", "2 1 2 65535 65535", TWO, &["3 9 1"], Known::Best(&[2, 1], [0, 1, 0, 65535])),
    known("weight 65536", "2 1 2 65536 1", TWO, &[], Known::Refused(3, 2)),
    known("weight 100000 is no value", "2 1 2 1 100000", TWO, &[], Known::Refused(2, 2)),
    known("form before limits", "13 1 2 1 x", TWO, &[], Known::Refused(2, 2)),
    known("no trains", "0 1 2 1 1", &[], &[], Known::Refused(3, 2)),
    known("9 slots", "2 1 9 1 1", TWO, &[], Known::Refused(3, 2)),
    known("13 tracks", "2 13 2 1 1", TWO, &[], Known::Refused(3, 2)),
    known("too few trains", "3 1 2 1 1", TWO, &[], Known::Refused(2, 6)),
    known("a row after n trains", "1 1 2 1 1", TWO, &[], Known::Refused(1, 5)),
    known("last after T", "2 1 2 1 1", &["3 1 3", "9 1 2"], &[], Known::Refused(3, 4)),
    known("limit before 4", "2 1 2 1 1", &["3 1 2", "3 0 2"], &[], Known::Refused(3, 5)),
    known("4 before 5", "2 1 2 1 1", &["3 1 2", "3 2 1"], &[], Known::Refused(4, 5)),
    known("trains 255 and 256", "2 1 2 1 1", &["255 1 2", "256 1 2"], &["255 256 1"], Known::Best(&[2, 1], [0, 1, 0, 1])),
    known("trains 65535 and 65536", "2 1 2 1 1", &["65535 1 2", "65536 1 2"], &["65535 65536 1"], Known::Best(&[2, 1], [0, 1, 0, 1])),
    known("equal but for 65536", "2 1 2 1 1", &["34463 1 2", "99999 1 2"], &["34463 99999 1"], Known::Best(&[2, 1], [0, 1, 0, 1])),
    known("train 9 before 10000", "2 1 2 1 1", &["9 1 2", "10000 1 2"], &["9 10000 2", "10000 9 1"], Known::Best(&[2, 1], [1, 3, 0, 4])),
    known("train 10000 before 9", "2 1 2 1 1", &["10000 1 2", "9 1 2"], &[], Known::Refused(4, 5)),
    known("to 10000 before to 9", "2 1 2 1 1", &["9 1 2", "10000 1 2"], &["10000 9 1", "9 10000 1"], Known::Refused(7, 8)),
    known("to 99999 before to 34463", "3 2 2 1 1", &["34463 1 2", "50000 1 2", "99999 1 2"], &["99999 34463 1", "34463 50000 1"], Known::Refused(7, 9)),
    known("train 99999", "1 1 1 1 1", &["99999 1 1"], &[], Known::Best(&[1], [0, 0, 0, 0])),
    known("train 100000 is no value", "1 1 1 1 1", &["100000 1 1"], &[], Known::Refused(2, 4)),
    known("train 0", "1 1 1 1 1", &["0 1 1"], &[], Known::Refused(3, 4)),
    known("from 99999, unlisted", "2 1 2 1 1", TWO, &["3 99999 1"], Known::Refused(6, 7)),
    known("from 100000 is no value", "2 1 2 1 1", TWO, &["3 100000 1"], Known::Refused(2, 7)),
    known("from 0", "2 1 2 1 1", TWO, &["3 0 1"], Known::Refused(3, 7)),
    known("no boxes", "2 1 2 1 1", TWO, &["3 9 0"], Known::Refused(3, 7)),
    known("256 boxes", "2 1 2 1 1", TWO, &["3 9 256"], Known::Refused(3, 7)),
    known("unlisted train", "2 1 2 1 1", TWO, &["3 9 1", "9 4 1"], Known::Refused(6, 8)),
    known("6 before 7", "2 1 2 1 1", TWO, &["9 3 1", "3 3 1"], Known::Refused(6, 8)),
    known("the same pair twice", "2 1 2 1 1", TWO, &["3 9 1", "3 9 1"], Known::Refused(7, 8)),
    known("an empty line at the end", "2 1 2 1 1", TWO, &["3 9 1", ""], Known::Refused(2, 8)),
    known("names among the moves", "2 1 2 1 1", TWO, &[MOVE_NAMES], Known::Refused(2, 7)),
];

/// Whole texts: ends of lines and of the text, and rows out of place.
#[rustfmt::skip]
pub const TEXTS: [(&str, &str, Known); 8] = [
    ("1: first line `trains`", "trains\n", Known::Refused(1, 1)),
    ("the empty text", "", Known::Refused(1, 1)),
    ("names without byte 10", "trains tracks slots revisit split", Known::Refused(1, 1)),
    ("an absent row", "trains tracks slots revisit split\n", Known::Refused(2, 2)),
    ("a row without byte 10", "trains tracks slots revisit split\n1 1 1 1 1", Known::Refused(2, 2)),
    ("absent names", "trains tracks slots revisit split\n1 1 1 1 1\n", Known::Refused(1, 3)),
    ("a second row", "trains tracks slots revisit split\n1 1 1 1 1\n1 1 1 1 1\n", Known::Refused(1, 3)),
    ("byte 13", "trains tracks slots revisit split\r\n", Known::Refused(1, 1)),
];

/// A day with what first come and the myopic procedure make of it.
pub struct BaselineDay {
    pub name: &'static str,
    pub head: &'static str,
    pub trains: &'static [&'static str],
    pub moves: &'static [&'static str],
    /// The lines after the moves.
    pub rest: &'static [&'static str],
    pub outcomes: [BaselineOutcome; 2],
}

/// The slots by position, 0 where a train is left without one; 0 or the number
/// of the refusal; the four numbers; the saving.
pub type BaselineOutcome = (&'static [usize], usize, Numbers, i64);

impl BaselineDay {
    pub fn text(&self) -> Vec<u8> {
        day_text(self.head, self.trains, &[self.moves, self.rest].concat())
    }
}

const fn made(
    name: &'static str,
    head: &'static str,
    trains: &'static [&'static str],
    moves: &'static [&'static str],
    outcomes: [BaselineOutcome; 2],
) -> BaselineDay {
    BaselineDay { name, head, trains, moves, rest: &[], outcomes }
}

/// Worked out by hand from order 1 and section 4.2 of source 000.
#[rustfmt::skip]
pub const BASELINE_DAYS: [BaselineDay; 10] = [
    made("P1", P1_HEAD, P1_TRAINS, P1_MOVES,
        [(&[1, 1, 2, 2], 0, [1, 10, 6, 11], 3), (&[1, 1, 2, 2], 0, [1, 10, 6, 11], 3)]),
    made("boxes from earlier slots count", "3 1 3 1 1", &["1 1 3", "2 1 3", "3 1 3"], &["2 1 5", "3 2 2"],
        [(&[1, 2, 3], 0, [0, 7, 0, 7], 0), (&[1, 3, 2], 0, [1, 7, 0, 8], 1)]),
    made("boxes from the current slot don't", "3 2 2 1 1", &["1 1 2", "2 1 2", "3 1 2"], &["2 3 1", "3 1 9"],
        [(&[1, 1, 2], 0, [1, 10, 0, 11], 10), (&[1, 2, 1], 0, [0, 1, 9, 1], 0)]),
    made("a tie", "3 1 3 1 1", &["1 1 2", "2 1 2", "3 3 3"], &["1 2 1", "2 3 1"],
        [(&[1, 2, 3], 0, [2, 2, 0, 4], 1), (&[1, 2, 3], 0, [2, 2, 0, 4], 1)]),
    made("tracks stay free", "2 2 3 1 1", &["1 3 3", "2 1 1"], &["1 2 1"],
        [(&[3, 1], 0, [0, 1, 0, 1], 0), (&[3, 1], 0, [0, 1, 0, 1], 0)]),
    made("first come leaves one over", "2 1 2 1 1", &["1 1 2", "2 1 1"], &["1 2 1"],
        [(&[1, 0], 14, [2, 0, 0, 0], 0), (&[2, 1], 0, [0, 1, 0, 1], 0)]),
    made("myopic leaves one over", "2 1 2 1 1", &["1 1 1", "2 1 2"], &["1 2 1"],
        [(&[1, 2], 0, [1, 1, 0, 2], 0), (&[0, 1], 14, [1, 0, 0, 0], 0)]),
    made("the lowest of two left over", "4 2 2 1 1", &["1 1 2", "2 1 2", "3 1 1", "4 1 1"], &[],
        [(&[1, 1, 0, 0], 14, [3, 0, 0, 0], 0), (&[1, 1, 0, 0], 14, [3, 0, 0, 0], 0)]),
    made("window passed, still waiting", "4 1 4 2 1", &["1 2 2", "2 2 3", "3 1 4", "4 1 1"], &["1 4 1", "2 3 2"],
        [(&[2, 3, 1, 0], 14, [4, 0, 0, 0], 0), (&[0, 2, 1, 0], 14, [1, 0, 0, 0], 0)]),
    made("9 before 14", "3 2 2 1 1", &["1 1 1", "2 1 1", "3 1 1"], &[],
        [(&[1, 1, 0], 9, [1, 1, 3, 0], 0), (&[1, 1, 0], 9, [1, 1, 3, 0], 0)]),
];
