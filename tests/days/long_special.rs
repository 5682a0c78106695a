//! Special texts for long days: the limits of each field, texts around the 32,768
//! bytes that are read, and moves too many.

use crate::day_file::{HEAD_NAMES, MOVE_NAMES};
use crate::draft::{greatest_values, Draft};
use crate::draw::Random;
use crate::known::KNOWN_DAYS;
use crate::long_day::{read_long, write_long, LongDay, LONG_BYTES_READ};
use crate::long_known::{bound_long, greatest_long, longest_plan_long};
use crate::model::{MOST_BOXES, MOST_TRAIN_NUMBER};
use crate::special::{last_move, padded, tiny_texts};
use crate::texts::Named;

fn p1() -> LongDay {
    read_long(&KNOWN_DAYS[0].text()).expect("a good day")
}

/// P1 with each field of a row at its limits, beside them and far outside.
fn limit_texts() -> Vec<Named> {
    let mut texts = Vec::new();
    for line in [1, 3, 8] {
        for (field, limit) in greatest_values(&Draft::long(&p1()), line).into_iter().enumerate() {
            for value in [0, 1, limit - 1, limit, limit + 1, 12, 13, 65536, 99999, 100_000] {
                let mut draft = Draft::long(&p1());
                draft.set_field(line, field, value);
                let what = format!("line {}, field {}: {value}", line + 1, field + 1);
                texts.push((what, draft.text()));
            }
        }
    }
    texts
}

/// So many trains with a slot each on as many tracks, for the limits of the first
/// row in files that are good otherwise.
fn count_texts() -> Vec<Named> {
    let text = |n: usize, tracks: usize, slots: usize| {
        let head = format!("{HEAD_NAMES}\n{n} {tracks} {slots} 1 1\ntrain first last\n");
        let train = |k: usize| {
            let slot = (1 + k * slots / n).min(slots);
            format!("{} {slot} {slot}\n", k + 1)
        };
        let trains: String = (0..n).map(train).collect();
        (
            format!("{n} trains, {tracks} tracks, {slots} slots"),
            (head + &trains + MOVE_NAMES + "\n").into_bytes(),
        )
    };
    let sizes = [
        (12, 4, 8),
        (13, 4, 8),
        (35, 4, 12),
        (36, 4, 12),
        (36, 3, 12),
        (37, 4, 12),
        (37, 4, 10),
        (36, 5, 12),
        (36, 12, 12),
        (36, 4, 13),
        (36, 4, 9),
        (36, 4, 8),
        (12, 12, 8),
        (12, 5, 8),
        (1, 4, 12),
        (1, 1, 9),
        (1, 1, 13),
    ];
    sizes.map(|(n, tracks, slots)| text(n, tracks, slots)).to_vec()
}

pub fn long_line_end_texts() -> Vec<Named> {
    let day = String::from_utf8(write_long(&bound_long())).expect("ASCII");
    let variants = [
        ("byte 13 before each byte 10", day.replace('\n', "\r\n")),
        ("last byte 10 missing", day.trim_end().to_string()),
        ("empty line at the end", day.clone() + "\n"),
        ("empty line at the beginning", format!("\n{day}")),
        ("byte 0 at the end", day.clone() + "\0"),
        ("groups' names at the end", day.clone() + "group train\n"),
        ("groups' names without byte 10", day.clone() + "group train"),
        ("a group section", day.clone() + "group train\n1 99999\n"),
        ("twice the same day", day.repeat(2)),
        ("greatest file", String::from_utf8(write_long(&greatest_long())).expect("ASCII")),
        ("greatest plan", String::from_utf8(write_long(&longest_plan_long())).expect("ASCII")),
        ("36 trains bound", day),
    ];
    variants.map(|(name, text)| (name.to_string(), text.into_bytes())).to_vec()
}

/// Good lines, then a unit again and again, so that the cut falls inside a line or
/// just after one; P1 also with the 4,096 bytes that yard-plan reads.
pub fn very_long_texts() -> Vec<Named> {
    let (greatest, small) = (write_long(&bound_long()), KNOWN_DAYS[0].text());
    let again = last_move().into_bytes();
    let units: [&[u8]; 7] = [b"\n", b" ", b"1", b"x", &again, b"1 2 3\n", b"\0"];
    let mut texts = Vec::new();
    for length in [4096, 4097, LONG_BYTES_READ - 1, LONG_BYTES_READ, LONG_BYTES_READ + 1, 70_000] {
        for unit in units {
            for (name, start) in [("36 trains", &greatest), ("P1", &small)] {
                if start.len() < length {
                    let what = format!("{name} and \"{}\" up to {length}", unit.escape_ascii());
                    texts.push((what, padded(start, unit, length)));
                }
            }
        }
    }
    texts
}

/// Lines that begin well and go on beyond the cut, or end exactly there.
fn cut_texts() -> Vec<Named> {
    let small = KNOWN_DAYS[0].text();
    let ends: Vec<usize> = (0..small.len()).filter(|&place| small[place] == b'\n').collect();
    let mut texts = Vec::new();
    for (index, &end) in ends.iter().enumerate() {
        for unit in [b"1", b" "] {
            for length in [LONG_BYTES_READ - 1, LONG_BYTES_READ] {
                let text = [&padded(&small[..end], unit, length), &small[end..]].concat();
                let unit = unit.escape_ascii();
                texts.push((format!("line {} with \"{unit}\" up to {length}", index + 1), text));
            }
        }
    }
    texts
}

/// The greatest number of moves and one more of each kind that 01 names.
fn move_too_many_texts() -> Vec<Named> {
    let day = write_long(&bound_long());
    let (most, above) = (MOST_TRAIN_NUMBER, MOST_TRAIN_NUMBER + 1);
    let moves = [
        last_move(),
        "1 2 3\n".to_string(),
        format!("{most} {most} 1\n"),
        format!("{above} 1 1\n"),
        format!("{most} {} {}\n", most - 1, MOST_BOXES + 1),
        format!("{MOVE_NAMES}\n"),
    ];
    let text = |row: &str| [&day, row.as_bytes()].concat();
    moves.iter().map(|row| (format!("1,261st move {}", row.trim_end()), text(row))).collect()
}

fn binary_texts() -> Vec<Named> {
    let mut random = Random(2560);
    let mut texts = Vec::new();
    for length in [1000, 32_767, 32_768, 32_769, 40_000] {
        texts.push((
            format!("noise of {length} bytes"),
            (0..length).map(|_| random.byte()).collect(),
        ));
    }
    for byte in [0, b'\n', b' ', b'1', 255] {
        texts.push((format!("40000 bytes {byte}"), vec![byte; 40_000]));
    }
    texts
}

pub fn long_special_texts() -> Vec<Named> {
    let kinds = [
        tiny_texts(),
        binary_texts(),
        limit_texts(),
        count_texts(),
        long_line_end_texts(),
        very_long_texts(),
        cut_texts(),
        move_too_many_texts(),
    ];
    kinds.into_iter().flatten().collect()
}
