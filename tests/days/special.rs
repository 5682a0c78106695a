//! Special texts: the greatest day, tiny, binary and long texts, limits.

use crate::day_file::{read_day, write_day, GROUP_NAMES, HEAD_NAMES};
use crate::draft::{greatest_values, Draft};
use crate::draw::Random;
use crate::known::KNOWN_DAYS;
use crate::model::{
    Day, Train, MOST_BOXES, MOST_GROUP, MOST_SLOTS, MOST_TRACKS, MOST_TRAINS, MOST_TRAIN_NUMBER,
    MOST_WEIGHT,
};

/// The greatest file without groups that is accepted: 12 trains of the greatest
/// numbers, all pairs, with windows narrow enough to try all assignments.
pub fn greatest_ungrouped() -> Day {
    let mut boxes = [[MOST_BOXES; MOST_TRAINS]; MOST_TRAINS];
    for (position, row) in boxes.iter_mut().enumerate() {
        row[position] = 0;
    }
    let window = |k: usize| (1 + k % 7, 2 + k % 7);
    let number = |k: usize| MOST_TRAIN_NUMBER + 1 - MOST_TRAINS + k;
    let train = |k| Train { number: number(k), first: window(k).0, last: window(k).1, group: 0 };
    Day {
        tracks: MOST_TRACKS,
        slots: MOST_SLOTS,
        revisit_weight: MOST_WEIGHT,
        split_weight: MOST_WEIGHT,
        trains: (0..MOST_TRAINS).map(train).collect(),
        boxes,
    }
}

/// The greatest file that is accepted: each train besides in a group whose
/// number has two digits. Group 10 has one slot, 11 and 12 may meet or not.
pub fn greatest_day() -> Day {
    let mut day = greatest_ungrouped();
    for (position, train) in day.trains.iter_mut().enumerate() {
        train.group = 10 + position % 3;
        (train.first, train.last) = match train.group {
            10 if position % 2 == 0 => (1, 2),
            10 => (2, 3),
            11 => (3, 4),
            _ => (4, 5),
        };
    }
    day
}

/// The last move of the greatest day; a second time it is a move too many.
pub fn last_move() -> String {
    format!("{MOST_TRAIN_NUMBER} {} {MOST_BOXES}\n", MOST_TRAIN_NUMBER - 1)
}

/// As dear as a day can be: all pairs of trains in different slots as far as
/// there are slots, and each train but the last slot's has to come back. Those
/// that share a slot are a group.
pub fn dearest_day() -> Day {
    let mut day = greatest_ungrouped();
    for (position, train) in day.trains.iter_mut().enumerate() {
        let slot = 1 + position % MOST_SLOTS;
        (train.first, train.last, train.group) = (slot, slot, slot);
    }
    day
}

/// All boxes direct moves: the windows of all trains begin in one slot, which
/// has a track for each.
pub fn gathered_day() -> Day {
    let mut day = greatest_ungrouped();
    for (position, train) in day.trains.iter_mut().enumerate() {
        (train.first, train.last) = (2, 2 + position % 2);
    }
    day
}

/// Places for just all trains in two slots of six tracks.
pub fn halved_day() -> Day {
    let mut day = greatest_ungrouped();
    (day.tracks, day.slots) = (6, 2);
    for train in &mut day.trains {
        (train.first, train.last) = (1, 2);
    }
    day
}

/// The day of the greatest plan file: train numbers, split moves and direct moves
/// of five digits each, revisits of two and a cost of ten. The last train is
/// alone in the last slot, so that all others come back; these have two slots.
pub fn longest_plan_day() -> Day {
    let mut day = halved_day();
    day.slots = 3;
    if let Some(last) = day.trains.last_mut() {
        (last.first, last.last) = (3, 3);
    }
    day
}

/// The text, then `unit` again and again up to the wanted length.
pub fn padded(text: &[u8], unit: &[u8], length: usize) -> Vec<u8> {
    let padding = unit.iter().copied().cycle();
    text.iter().copied().chain(padding).take(length).collect()
}

type Texts = Vec<(String, Vec<u8>)>;

pub fn tiny_texts() -> Texts {
    let mut texts = vec![("empty".to_string(), Vec::new())];
    for byte in [0, b'\n', b'\r', b' ', b'0', b'1', b't', 127, 128, 255] {
        texts.push((format!("the one byte {byte}"), vec![byte]));
    }
    for (name, text) in [("two bytes 10", "\n\n"), ("names alone", HEAD_NAMES)] {
        texts.push((name.to_string(), text.as_bytes().to_vec()));
    }
    texts
}

fn binary_texts() -> Texts {
    let all: Vec<u8> = (0..=255).collect();
    let mut texts = vec![("all 256 byte values".to_string(), all.clone())];
    let mut random = Random(256);
    for length in [2, 100, 1000, 4095, 4096, 4097, 9000] {
        let noise = (0..length).map(|_| random.byte()).collect();
        texts.push((format!("noise of {length} bytes"), noise));
    }
    for byte in [0, b'\n', b' ', b'1', 255] {
        texts.push((format!("5000 bytes {byte}"), vec![byte; 5000]));
    }
    let after_names = [HEAD_NAMES.as_bytes(), b"\n", &all].concat();
    texts.push(("all 256 byte values after the names".to_string(), after_names));
    texts
}

pub fn line_end_texts() -> Texts {
    let text = |day: &Day| String::from_utf8(write_day(day)).expect("ASCII");
    let day = text(&greatest_day());
    let variants = [
        ("byte 13 before each byte 10", day.replace('\n', "\r\n")),
        ("byte 13 for each byte 10", day.replace('\n', "\r")),
        ("byte 10 before each byte 13", day.replace('\n', "\n\r")),
        ("last byte 10 missing", day.trim_end().to_string()),
        ("empty line at the end", day.clone() + "\n"),
        ("empty line at the beginning", format!("\n{day}")),
        ("byte order mark", format!("\u{feff}{day}")),
        ("byte 0 at the end", day.clone() + "\0"),
        ("byte 26 at the end", day.clone() + "\x1a"),
        ("end line of blanks", day.clone() + " \n"),
        ("twice the same day", day.repeat(2)),
        ("without spaces", day.replace(' ', "")),
        ("full-width digits", day.replace('1', "\u{ff11}")),
        ("greatest day", day.clone()),
        ("greatest day without groups", text(&greatest_ungrouped())),
    ];
    variants.map(|(name, text)| (name.to_string(), text.into_bytes())).to_vec()
}

/// P1, trains 1 and 3 being groups of one, with each field of a row at its
/// limits, beside them and far outside.
fn limit_texts() -> Texts {
    let mut p1 = read_day(&KNOWN_DAYS[0].text()).expect("a good day");
    (p1.trains[0].group, p1.trains[2].group) = (1, MOST_GROUP);
    let mut texts = vec![("dearest day".to_string(), write_day(&dearest_day()))];
    for line in [1, 3, 8, 14, 15] {
        for (field, limit) in greatest_values(&Draft::new(p1.clone()), line).into_iter().enumerate()
        {
            for value in [0, 1, limit - 1, limit, limit + 1, 65536, 99999, 100_000] {
                let mut draft = Draft::new(p1.clone());
                draft.set_field(line, field, value);
                let what = format!("line {}, field {}: {value}", line + 1, field + 1);
                texts.push((what, draft.text()));
            }
        }
    }
    texts
}

/// Texts around the 4,096 bytes that are read: good lines, then a unit again
/// and again, so that the cut falls inside a line or just after one.
pub fn long_texts() -> Texts {
    let greatest = write_day(&greatest_day());
    let ungrouped = write_day(&greatest_ungrouped());
    let small = KNOWN_DAYS[0].text();
    let again = last_move().into_bytes();
    let names = format!("{GROUP_NAMES}\n").into_bytes();
    let units: [&[u8]; 9] = [b"\n", b" ", b"1", b"x", &again, b"1 2 3\n", b"12 1\n", &names, b"\0"];
    let starts = [("greatest day", &greatest), ("no groups", &ungrouped), ("P1", &small)];
    let mut texts = Vec::new();
    for length in [4090, 4095, 4096, 4097, 5000, 70_000] {
        for unit in units {
            for (name, start) in starts {
                let what = format!("{name} and \"{}\" up to {length}", unit.escape_ascii());
                texts.push((what, padded(start, unit, length)));
            }
        }
    }
    texts
}

/// Lines that begin well and go on beyond the cut, or end exactly there.
fn cut_texts() -> Texts {
    let small = KNOWN_DAYS[0].text();
    let ends: Vec<usize> = (0..small.len()).filter(|&place| small[place] == b'\n').collect();
    let mut texts = Vec::new();
    for (index, &end) in ends.iter().enumerate() {
        for unit in [b"1", b" ", b"0"] {
            for length in [4095, 4096] {
                // The line goes on up to the cut, its byte 10 stands at the
                // cut or just after it, and the rest of the day follows.
                let text = [&padded(&small[..end], unit, length), &small[end..]].concat();
                let unit = unit.escape_ascii();
                texts.push((format!("line {} with \"{unit}\" up to {length}", index + 1), text));
            }
        }
    }
    texts
}

/// The greatest day with a 133rd move of each kind that 01 names.
fn move_too_many_texts() -> Texts {
    let day = write_day(&greatest_ungrouped());
    let (most, above) = (MOST_TRAIN_NUMBER, MOST_TRAIN_NUMBER + 1);
    let moves = [
        last_move(),
        "1 2 3\n".to_string(),
        format!("{most} {most} 1\n"),
        format!("{above} 1 1\n"),
        format!("{most} {}\n", most - 1),
        "to from boxes\n".to_string(),
    ];
    let text = |row: &str| [&day, row.as_bytes()].concat();
    moves.iter().map(|row| (format!("133rd move {}", row.trim_end()), text(row))).collect()
}

/// The greatest day with a row after the twelve of its groups.
fn group_row_too_many_texts() -> Texts {
    let day = write_day(&greatest_day());
    let most = MOST_TRAIN_NUMBER;
    let rows = [
        format!("{MOST_GROUP} {most}\n"),
        format!("{MOST_GROUP} {}\n", most - 1),
        format!("{} {most}\n", MOST_GROUP + 1),
        format!("{MOST_GROUP} 1\n"),
        format!("{MOST_GROUP}\n"),
        format!("{GROUP_NAMES}\n"),
        last_move(),
    ];
    let text = |row: &str| [&day, row.as_bytes()].concat();
    rows.iter().map(|row| (format!("13th group row {}", row.trim_end()), text(row))).collect()
}

pub fn special_texts() -> Texts {
    let kinds = [
        tiny_texts(),
        binary_texts(),
        line_end_texts(),
        limit_texts(),
        long_texts(),
        cut_texts(),
        move_too_many_texts(),
        group_row_too_many_texts(),
    ];
    kinds.into_iter().flatten().collect()
}
