//! The texts of mode weights, each with what tools/lexicographic has to do with it.

use crate::boxes::all_boxes;
use crate::damage::draw_damaged;
use crate::day_file::{read_day, write_day, Refusal};
use crate::draft::Draft;
use crate::draw::{draw_day, draw_grouped, Random, DAMAGED_MOST};
use crate::known::{day_text, Known, EDGES, KNOWN_DAYS};
use crate::known_fewest::FEWEST_DAYS;
use crate::model::{MOST_BOXES, MOST_WEIGHT};
use crate::special::{greatest_day, greatest_ungrouped, line_end_texts};
use crate::texts::Named;

/// A process of the tool takes a tenth of a second: with these the mode takes some
/// twenty.
const DRAWN_DAYS: usize = 50;
const DAMAGED_TEXTS: usize = 50;

const DAYS_SEED: u64 = 19_000_000;
const DAMAGED_SEED: u64 = 19_500_000;

/// One in so many drawn days is given to the tool once more, as it has written it.
const AGAIN_ONE_IN: usize = 20;

/// What the tool has to do.
#[derive(Clone, Debug)]
pub enum Wanted {
    /// Just these bytes, and no error.
    Written(Vec<u8>),
    /// No byte, and one line of errors, which has these words.
    Refused(Vec<String>),
    /// The same, or a text written that is refused like the one given.
    RefusedLike(Refusal),
}

pub struct Given {
    pub which: String,
    pub text: Vec<u8>,
    pub wanted: Wanted,
}

/// The same bytes but for the fourth and the fifth value of line 2.
pub fn with_weights(text: &[u8], weights: &str) -> Vec<u8> {
    let mut lines: Vec<&[u8]> = text.split(|&byte| byte == b'\n').collect();
    let head: Vec<&[u8]> = lines[1].split(|&byte| byte == b' ').take(3).collect();
    let head = [&head.join(&b' '), weights.as_bytes()].join(&b' ');
    lines[1] = &head;
    lines.join(&b'\n')
}

/// With the sum of all boxes and 1.
pub fn rewritten(text: &[u8]) -> Vec<u8> {
    with_weights(text, &format!("{} 1", all_boxes(text)))
}

fn given((which, text): Named) -> Given {
    let wanted = match read_day(&text) {
        Ok(_) => Wanted::Written(rewritten(&text)),
        Err(refusal) => Wanted::RefusedLike(refusal),
    };
    Given { which, text, wanted }
}

/// What the tool has written it writes again.
fn again(given: &Given) -> Given {
    let text = rewritten(&given.text);
    let which = format!("{}, again", given.which);
    Given { which, wanted: Wanted::Written(text.clone()), text }
}

// ---------------------------------------------------------------------------
// Made by hand
// ---------------------------------------------------------------------------

/// Days of order 8, what line 2 may be refused for, the greatest days, and ends of
/// lines.
fn known_texts() -> impl Iterator<Item = Named> {
    let edges = EDGES.iter().filter(|day| matches!(day.outcome, Known::Refused(_, 2)));
    let days = FEWEST_DAYS.iter().chain(edges).map(|day| (day.name.to_string(), day.text()));
    let greatest = [greatest_ungrouped(), greatest_day()];
    let greatest = greatest.map(|day| ("the greatest day".to_string(), write_day(&day)));
    days.chain(greatest).chain(line_end_texts())
}

/// What some languages read as a number, and a day file doesn't.
#[rustfmt::skip]
const ODD_VALUES: [&[u8]; 15] = [
    b"01", b"00", b"+1", b"-1", b"1_0", b"1.0", b"1e1", b"0x1", b"", b"\t1", b"1\r", b"1\x0b",
    b"\xd9\xa1", b"\xef\xbc\x91", b"1\x00",
];

/// P1 with a group of one, and each odd value in one place: every second one for a
/// weight, though that is written anew.
fn odd_texts() -> impl Iterator<Item = Named> {
    let mut day = read_day(&KNOWN_DAYS[0].text()).expect("a good day");
    day.trains[0].group = 1;
    // Lines and fields, counted from 0, of the weights and of trains, a slot, boxes
    // and a group.
    let places = [(1, 3), (1, 0), (1, 4), (3, 1), (1, 3), (8, 2), (1, 4), (14, 0)];
    ODD_VALUES.iter().zip(places.into_iter().cycle()).map(move |(value, (line, field))| {
        let mut draft = Draft::new(day.clone());
        let mut fields = draft.fields(line);
        fields[field] = value.to_vec();
        draft.lines[line] = fields.join(&b' ');
        (format!("\"{}\" in line {}", value.escape_ascii(), line + 1), draft.text())
    })
}

/// A day of so many trains and, if they fit, so many boxes. It may be larger than
/// yard-plan takes: the tool takes it as long as the sum is a weight.
fn larger(name: &str, head: &str, trains: usize, boxes: usize) -> Given {
    let rows: Vec<String> = (1..=trains).map(|number| format!("{number} 1 2")).collect();
    let (mut moves, mut sum) = (Vec::new(), 0);
    for (to, from) in (0..trains * trains).map(|pair| (pair / trains + 1, pair % trains + 1)) {
        let number = MOST_BOXES.min(boxes - sum);
        if to != from && number > 0 {
            moves.push(format!("{to} {from} {number}"));
            sum += number;
        }
    }
    let text = day_text(&format!("{trains} {head}"), &lines(&rows), &lines(&moves));
    let wanted = match sum <= MOST_WEIGHT {
        true => Wanted::Written(with_weights(&text, &format!("{sum} 1"))),
        false => Wanted::Refused([sum, MOST_WEIGHT].map(|number| number.to_string()).to_vec()),
    };
    Given { which: name.to_string(), text, wanted }
}

fn lines(rows: &[String]) -> Vec<&str> {
    rows.iter().map(String::as_str).collect()
}

fn larger_days() -> [Given; 7] {
    [
        larger("13 trains", "2 8 1 1", 13, 20),
        larger("13 tracks", "13 2 9 9", 12, 0),
        larger("9 slots", "2 9 65535 65535", 4, 300),
        larger("36 trains", "4 12 0 0", 36, 10_000),
        larger("a sum that is the greatest weight", "4 12 7 7", 36, MOST_WEIGHT),
        larger("a sum one above it", "4 12 7 7", 36, MOST_WEIGHT + 1),
        larger("all boxes of 36 trains", "4 12 7 7", 36, 321_300),
    ]
}

// ---------------------------------------------------------------------------
// All of them
// ---------------------------------------------------------------------------

fn drawn_days() -> impl Iterator<Item = Given> {
    (DAYS_SEED..).take(DRAWN_DAYS).map(|seed| {
        let mut random = Random(seed);
        let draw = random.pick(&[draw_day, draw_grouped]);
        given((format!("seed {seed}"), write_day(&draw(&mut random, DAMAGED_MOST))))
    })
}

fn damaged_texts() -> impl Iterator<Item = Given> {
    (DAMAGED_SEED..).take(DAMAGED_TEXTS).map(|seed| {
        let (damages, text) = draw_damaged(&mut Random(seed));
        given((format!("seed {seed}, {damages}"), text))
    })
}

pub fn all_texts() -> Vec<Given> {
    let mut all: Vec<Given> = known_texts().chain(odd_texts()).map(given).collect();
    all.extend(larger_days());
    all.extend(drawn_days());
    let written = all.iter().filter(|given| matches!(given.wanted, Wanted::Written(_)));
    let written: Vec<Given> = written.step_by(AGAIN_ONE_IN).map(again).collect();
    all.extend(written);
    all.extend(damaged_texts());
    all
}
