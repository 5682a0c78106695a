//! Seasons worked out by hand from order 10 of 02 and from days with known outcome.

use crate::day_file::GROUP_NAMES;
use crate::known::{day_text, KNOWN_DAYS, P1_HEAD, P1_MOVES, P1_TRAINS, P6_TRAINS};
use crate::season::Figures;

/// The text of one of 01's days.
pub fn p(name: &str) -> Vec<u8> {
    KNOWN_DAYS.iter().find(|day| day.name == name).expect("a day of this name").text()
}

/// Files joined with an empty line between.
pub fn joined(files: &[Vec<u8>]) -> Vec<u8> {
    files.join(&b'\n')
}

/// First come puts both pairs of trains that exchange boxes apart; the plan costs 0.
pub fn dear() -> Vec<u8> {
    day_text("4 2 2 0 65535", P1_TRAINS, &["1 3 255", "2 4 255", "3 1 255", "4 2 255"])
}

/// First come leaves train 2 over.
pub fn left_over() -> Vec<u8> {
    day_text("2 1 2 1 1", &["1 1 2", "2 1 1"], &["1 2 1"])
}

/// First come parts the group.
pub fn parted() -> Vec<u8> {
    day_text(P1_HEAD, P1_TRAINS, &[P1_MOVES, &[GROUP_NAMES, "2 1", "2 3"]].concat())
}

/// A group larger than the tracks: 16.
pub fn unkept() -> Vec<u8> {
    let groups = [GROUP_NAMES, "1 1", "1 2", "1 3"];
    day_text("3 2 2 1 1", &["1 1 2", "2 1 2", "3 1 2"], &groups)
}

/// A text for each number that reading refuses with, by that number.
pub fn unread(number: usize) -> Vec<u8> {
    let two = &["3 1 2", "9 1 2"][..];
    match number {
        1 => b"trains\n".to_vec(),
        2 => day_text("2 1 2 1 1", &["3 01 2", "9 1 2"], &[]),
        3 => day_text("13 2 2 1 1", &[], &[]),
        4 => day_text("2 2 2 1 1", &["5 1 2", "5 1 2"], &[]),
        5 => day_text("1 2 2 1 1", &["7 2 1"], &[]),
        6 => day_text("2 1 2 1 1", two, &["9 9 1"]),
        7 => day_text("2 1 2 1 1", two, &["9 3 5", "3 9 3"]),
        _ => day_text("2 1 2 1 1", two, &["3 9 1", GROUP_NAMES, "1 4"]),
    }
}

/// The season of docs/FORMAT.md: P1, a bad row, P1 with split weight 2, P9, and P6
/// with weights 0 and 1.
pub fn of_format() -> Vec<u8> {
    joined(&[
        p("P1"),
        unread(2),
        day_text("4 2 2 1 2", P1_TRAINS, P1_MOVES),
        p("P9"),
        day_text("4 2 2 0 1", P6_TRAINS, P1_MOVES),
    ])
}

/// P1's file with one byte 10 more before its third move.
fn among_the_moves() -> Vec<u8> {
    let p1 = String::from_utf8(p("P1")).expect("ASCII");
    p1.replace("3 4 5\n", "\n3 4 5\n").into_bytes()
}

/// P1 without its last byte 10, and one byte 10 before P8.
fn without_last() -> Vec<u8> {
    let (mut first, second) = (p("P1"), p("P8"));
    first.pop();
    [first, second].join(&b'\n')
}

fn each_number() -> Vec<u8> {
    let mut files: Vec<Vec<u8>> = [15, 7, 6, 5].map(unread).to_vec();
    files.extend([p("P6"), p("P9"), unkept(), p("P13")]);
    files.extend([4, 3, 2, 1].map(unread));
    joined(&files)
}

fn repeated(file: &[u8], count: usize) -> Vec<u8> {
    joined(&vec![file.to_vec(); count])
}

/// Days refused by their number, days planned, the five totals, the four means.
pub struct KnownReport {
    pub refused: &'static [(usize, u64)],
    pub planned: u64,
    pub totals: [u64; 5],
    pub means: [[u64; 2]; 4],
}

impl KnownReport {
    pub fn figures(&self) -> Figures {
        let mut told = [0; 40];
        told[0] = self.planned;
        self.refused.iter().for_each(|&(number, days)| told[number] = days);
        told[27..32].copy_from_slice(&self.totals);
        told[32..].copy_from_slice(&self.means.concat());
        told
    }
}

/// A name, the text, and its report; without one it gets 22.
pub type KnownSeason = (&'static str, fn() -> Vec<u8>, Option<KnownReport>);

const fn report(
    refused: &'static [(usize, u64)],
    planned: u64,
    totals: [u64; 5],
    means: [[u64; 2]; 4],
) -> Option<KnownReport> {
    Some(KnownReport { refused, planned, totals, means })
}

/// Without a plan all other numbers are 0.
const fn none_planned(refused: &'static [(usize, u64)]) -> Option<KnownReport> {
    report(refused, 0, [0; 5], [[0; 2]; 4])
}

/// First come on P1 gives 1 1 2 2 of cost 11, the plan costs 8; on P6 11 and 9, on
/// P13 2 and 1. Of P1's first two moves alone the plan is 2 1 2 1 with 0, 1, 3, first
/// come has a revisit and 4 split moves.
#[rustfmt::skip]
pub const KNOWN_SEASONS: [KnownSeason; 20] = [
    ("the empty text", Vec::new, none_planned(&[])),
    ("one byte 10", || b"\n".to_vec(), none_planned(&[(1, 2)])),
    ("two bytes 10", || b"\n\n".to_vec(), none_planned(&[(1, 3)])),
    ("365 bytes 10", || vec![b'\n'; 365], none_planned(&[(1, 366)])),
    ("366 bytes 10", || vec![b'\n'; 366], None),
    ("P1", || p("P1"), report(&[], 1, [1, 7, 9, 16, 3], [[1, 0], [7, 0], [9, 0], [16, 0]])),
    ("the season of FORMAT", of_format, report(&[(2, 1), (9, 1)], 3, [4, 21, 27, 48, 12], [[1, 1], [7, 0], [9, 0], [16, 0]])),
    ("an empty line at the end", || [p("P1"), b"\n".to_vec()].concat(), report(&[(1, 1)], 1, [1, 7, 9, 16, 3], [[1, 0], [7, 0], [9, 0], [16, 0]])),
    ("an empty line at the beginning", || [b"\n".to_vec(), p("P1")].concat(), report(&[(1, 1)], 1, [1, 7, 9, 16, 3], [[1, 0], [7, 0], [9, 0], [16, 0]])),
    ("two empty lines", || [p("P1"), b"\n\n".to_vec(), p("P6")].concat(), report(&[(1, 1)], 2, [3, 14, 18, 32, 5], [[1, 1], [7, 0], [9, 0], [16, 0]])),
    ("an empty line among the moves", among_the_moves, report(&[(1, 1)], 1, [0, 1, 3, 4, 4], [[0, 0], [1, 0], [3, 0], [4, 0]])),
    ("a file without its last byte 10", without_last, none_planned(&[(2, 1)])),
    ("no empty line between", || [p("P1"), p("P8")].concat(), none_planned(&[(2, 1)])),
    ("days without first come", || joined(&[p("P1"), left_over(), parted()]), report(&[], 3, [2, 15, 18, 33, 3], [[0, 2], [5, 0], [6, 0], [11, 0]])),
    ("no plan", || joined(&[p("P9"), unkept(), p("P10")]), none_planned(&[(9, 2), (16, 1)])),
    ("each number", each_number, report(&[(1, 1), (2, 1), (3, 1), (4, 1), (5, 1), (6, 1), (7, 1), (9, 1), (15, 1), (16, 1)], 2, [2, 8, 9, 17, 3], [[1, 0], [4, 0], [4, 1], [8, 1]])),
    ("weights 0", || joined(&[p("P5"), p("P12"), p("P5")]), report(&[], 3, [2, 14, 20, 34, 0], [[0, 2], [4, 2], [6, 2], [11, 1]])),
    ("366 times P1", || repeated(&p("P1"), 366), report(&[], 366, [366, 2562, 3294, 5856, 1098], [[1, 0], [7, 0], [9, 0], [16, 0]])),
    ("366 days of great savings", || repeated(&dear(), 366), report(&[], 366, [0, 0, 373_320, 373_320, 24_465_526_200], [[0, 0], [0, 0], [1020, 0], [1020, 0]])),
    ("367 times P1", || repeated(&p("P1"), 367), None),
];

/// What yard-season prints for the season of docs/FORMAT.md, as it stands there.
pub const FORMAT_REPORT: &str = "days planned refused
5 3 2
refusal days
2 1
9 1
revisits mean remainder
4 1 1
splits mean remainder
21 7 0
direct mean remainder
27 9 0
boxes mean remainder
48 16 0
savings
12
";

/// What it prints for the empty text: names without rows, and zeros.
pub const EMPTY_REPORT: &str = "days planned refused
0 0 0
refusal days
revisits mean remainder
0 0 0
splits mean remainder
0 0 0
direct mean remainder
0 0 0
boxes mean remainder
0 0 0
savings
0
";
