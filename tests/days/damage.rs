//! Damages that aim at what a line says, and the draw among all damages.

use crate::damage_sets::{
    cut_at_group_names, group_beside_limits, group_broken_twice, group_names_again,
    group_row_again, no_group_rows, other_rows, pairs_of_groups_swapped, second_group,
    unlisted_in_group,
};
use crate::day_file::{read_day, GROUP_NAMES, HEAD_NAMES, MOVE_NAMES, TRAIN_NAMES};
use crate::draft::{
    change_byte, cut_after_line, cut_anywhere, double_line, drop_last_newline, empty_line,
    greatest_values, insert_byte, pick_any, pick_row, remove_byte, remove_line, swap_lines, Draft,
};
use crate::draw::{draw_day, draw_grouped, Random, DAMAGED_MOST, USUAL_MOST};
use crate::model::{MOST_BOXES, MOST_TRAIN_NUMBER};
use crate::special::last_move;

/// A row too many in the first section, after the trains or at the end, or a
/// names line there.
fn extra_row(random: &mut Random, draft: &mut Draft) {
    let after_trains = 3 + draft.trains.len();
    let line = random.pick(&[2, after_trains, draft.lines.len()]);
    let names = random.pick(&[HEAD_NAMES, TRAIN_NAMES, MOVE_NAMES, GROUP_NAMES]).as_bytes();
    let head = draft.lines.get(1).cloned().unwrap_or_default();
    let train = format!("{MOST_TRAIN_NUMBER} 1 1");
    let again = last_move();
    let rows = [train.as_bytes(), b"1 2 3", again.trim_end().as_bytes(), b"7", names, &head];
    draft.insert_line(line, random.pick(&rows));
}

/// The train count says one more or one fewer than there are rows.
fn change_count(random: &mut Random, draft: &mut Draft) {
    let n = draft.trains.len();
    for line in draft.head_lines() {
        draft.set_field(line, 0, if random.one_in(2) { n + 1 } else { n - 1 });
    }
}

/// A value at a limit, just outside it, or far outside; six digits are no
/// longer a value. At the limit the text may stay sound.
fn value_at_limit(random: &mut Random, draft: &mut Draft) {
    if let Some(line) = pick_row(random, draft) {
        let greatest = greatest_values(draft, line);
        let field = random.below(greatest.len());
        let limit = greatest[field];
        let values = [0, 0, limit, limit + 1, limit + 1, 65536, 99999, 100000, 123456];
        draft.set_field(line, field, random.pick(&values));
    }
}

/// Another value of the right size: sound still, or refused further down,
/// where other lines rely on this one.
fn other_value(random: &mut Random, draft: &mut Draft) {
    if let Some(line) = pick_row(random, draft) {
        let greatest = greatest_values(draft, line);
        let field = random.below(greatest.len());
        draft.set_field(line, field, random.between(1, greatest[field]));
    }
}

/// A zero before a value, or `00` for it.
fn leading_zero(random: &mut Random, draft: &mut Draft) {
    if let Some(line) = pick_row(random, draft) {
        let mut fields = draft.fields(line);
        let field = random.below(fields.len());
        if random.one_in(3) {
            fields[field] = b"0".to_vec();
        }
        fields[field].insert(0, b'0');
        draft.lines[line] = fields.join(&b' ');
    }
}

/// A blank doubled, at the beginning or at the end of a line.
fn extra_blank(random: &mut Random, draft: &mut Draft) {
    let line = random.below(draft.lines.len());
    let bytes = &mut draft.lines[line];
    let blanks: Vec<usize> = (0..bytes.len()).filter(|&place| bytes[place] == b' ').collect();
    let inside = pick_any(random, &blanks).unwrap_or(0);
    bytes.insert(random.pick(&[0, inside, bytes.len()]), b' ');
}

/// A byte that other formats take for a blank, in a blank's place or at the
/// end of a line.
fn strange_blank(random: &mut Random, draft: &mut Draft) {
    let line = random.below(draft.lines.len());
    let bytes = &mut draft.lines[line];
    let strange = random.pick(b"\t\r\r\x0b\x0c\x00\xa0");
    let blank = bytes.iter().position(|&byte| byte == b' ');
    match blank {
        Some(place) if random.one_in(2) => bytes[place] = strange,
        _ => bytes.push(strange),
    }
}

/// One field more or fewer than the row has to have.
fn change_field_count(random: &mut Random, draft: &mut Draft) {
    if let Some(line) = pick_row(random, draft) {
        let mut fields = draft.fields(line);
        let field = random.below(fields.len());
        if random.one_in(2) {
            fields.remove(field);
        } else {
            fields.insert(field, b"1".to_vec());
        }
        draft.lines[line] = fields.join(&b' ');
    }
}

/// A train number equal to or below the one before.
fn number_not_rising(random: &mut Random, draft: &mut Draft) {
    let lines = draft.train_lines();
    if let Some(line) = pick_any(random, lines.get(1..).unwrap_or(&[])) {
        let before = draft.trains[line - 4].number;
        let lower = random.between(1, before);
        draft.set_field(line, 0, random.pick(&[before, lower]));
    }
}

/// A train refused by several rules at once, of which 01's order chooses one.
fn train_broken_twice(random: &mut Random, draft: &mut Draft) {
    let lines = draft.train_lines();
    let slots = draft.slots;
    if let Some(line) = pick_any(random, lines.get(1..).unwrap_or(&[])) {
        let before = draft.trains[line - 4].number;
        draft.set_field(line, 0, random.pick(&[before, before, 0, MOST_TRAIN_NUMBER + 1]));
        draft.set_field(line, 1, random.pick(&[slots, slots, slots, slots + 1]));
        draft.set_field(line, 2, random.pick(&[1, 1, 1, 0]));
    }
}

/// A move that comes too early and is besides from an unlisted train, from
/// the receiver itself or without boxes.
fn move_broken_twice(random: &mut Random, draft: &mut Draft) {
    let lines = draft.move_lines();
    if let Some(line) = pick_any(random, lines.get(1..).unwrap_or(&[])) {
        let lowest = draft.trains[0].number;
        draft.set_field(line, 0, lowest);
        draft.set_field(line, 1, random.pick(&[lowest, lowest, 1, 0]));
        draft.set_field(line, 2, random.pick(&[1, 1, 0, MOST_BOXES + 1]));
    }
}

fn first_above_last(random: &mut Random, draft: &mut Draft) {
    if let (Some(line), true) = (pick_any(random, &draft.train_lines()), draft.slots > 1) {
        let first = random.between(2, draft.slots);
        draft.set_field(line, 1, first);
        draft.set_field(line, 2, random.between(1, first - 1));
    }
}

/// Any train number, or one that a careless comparison takes for `number`:
/// beside it, equal in its low bits, a digit shorter or longer.
fn like(random: &mut Random, number: usize) -> usize {
    let bits = random.pick(&[number % 256, number + 256, number % 65536, number + 65536]);
    let near = random.pick(&[number - 1, number + 1, number / 10, number * 10]);
    let any = random.between(1, MOST_TRAIN_NUMBER);
    random.pick(&[bits, near, any])
}

/// The number of a train that is not there.
pub fn unlisted_number(random: &mut Random, draft: &Draft) -> usize {
    let listed: Vec<usize> = draft.trains.iter().map(|train| train.number).collect();
    let mut number = 0;
    while !(1..=MOST_TRAIN_NUMBER).contains(&number) || listed.contains(&number) {
        let there = random.pick(&listed);
        number = like(random, there);
    }
    number
}

/// A move to or from a train that is not there.
fn unlisted_train(random: &mut Random, draft: &mut Draft) {
    let number = unlisted_number(random, draft);
    if let Some(line) = pick_any(random, &draft.move_lines()) {
        draft.set_field(line, random.below(2), number);
    }
}

/// A train that sends to itself, listed or not.
fn to_equals_from(random: &mut Random, draft: &mut Draft) {
    if let Some(line) = pick_any(random, &draft.move_lines()) {
        let listed = draft.trains[random.below(draft.trains.len())].number;
        let any = random.between(1, MOST_TRAIN_NUMBER);
        let number = random.pick(&[listed, listed, any]);
        draft.set_field(line, 0, number);
        draft.set_field(line, 1, number);
    }
}

fn pairs_out_of_order(random: &mut Random, draft: &mut Draft) {
    let lines = draft.move_lines();
    if let (Some(line), Some(other)) = (pick_any(random, &lines), pick_any(random, &lines)) {
        draft.lines.swap(line, other);
    }
}

/// The same pair again, at once or at the end, with the same boxes or others.
fn pair_again(random: &mut Random, draft: &mut Draft) {
    if let Some(line) = pick_any(random, &draft.move_lines()) {
        let place = random.pick(&[line + 1, draft.lines.len() - 1]);
        draft.insert_line(place, &draft.lines[line].clone());
        if random.one_in(2) {
            draft.set_field(place, 2, random.between(1, MOST_BOXES));
        }
    }
}

fn change_name(random: &mut Random, draft: &mut Draft) {
    if let Some(line) = pick_any(random, &draft.names_lines()) {
        let bytes = &mut draft.lines[line];
        if !bytes.is_empty() {
            let place = random.below(bytes.len());
            bytes[place] ^= 1 << random.below(8);
        }
    }
}

fn upper_case(random: &mut Random, draft: &mut Draft) {
    if let Some(line) = pick_any(random, &draft.names_lines()) {
        match random.below(2) {
            0 => draft.lines[line].make_ascii_uppercase(),
            _ => draft.lines[line][..1].make_ascii_uppercase(),
        }
    }
}

type Damage = fn(&mut Random, &mut Draft);

/// The damages with their shares of the draw. Those that aim at one refusal
/// have the larger shares, so that each refusal occurs hundreds of times.
const DAMAGES: [(&str, usize, Damage); 38] = [
    ("cut anywhere", 3, cut_anywhere),
    ("cut after a line", 2, cut_after_line),
    ("byte changed", 3, change_byte),
    ("byte inserted", 2, insert_byte),
    ("byte removed", 2, remove_byte),
    ("line doubled", 2, double_line),
    ("lines swapped", 2, swap_lines),
    ("line removed", 2, remove_line),
    ("last byte 10 missing", 1, drop_last_newline),
    ("empty line", 2, empty_line),
    ("row too many", 3, extra_row),
    ("train count changed", 2, change_count),
    ("value at a limit", 8, value_at_limit),
    ("another value", 6, other_value),
    ("leading zero", 3, leading_zero),
    ("blank too many", 3, extra_blank),
    ("strange blank", 3, strange_blank),
    ("field count changed", 2, change_field_count),
    ("train number not rising", 6, number_not_rising),
    ("first above last", 8, first_above_last),
    ("train broken twice", 4, train_broken_twice),
    ("train not listed", 4, unlisted_train),
    ("to equals from", 4, to_equals_from),
    ("pairs out of order", 6, pairs_out_of_order),
    ("pair again", 5, pair_again),
    ("move broken twice", 4, move_broken_twice),
    ("name changed", 3, change_name),
    ("upper case", 2, upper_case),
    ("group rows removed", 2, no_group_rows),
    ("text cut at the groups' names", 4, cut_at_group_names),
    ("groups' names again", 4, group_names_again),
    ("a row of another section", 3, other_rows),
    ("group row again", 5, group_row_again),
    ("group beside its limits", 3, group_beside_limits),
    ("group rows out of order", 5, pairs_of_groups_swapped),
    ("train in a second group", 5, second_group),
    ("group of a train not listed", 5, unlisted_in_group),
    ("group row broken twice", 5, group_broken_twice),
];

/// Damages the draft once and returns the damage's name.
pub fn damage(random: &mut Random, draft: &mut Draft) -> &'static str {
    let shares = DAMAGES.iter().map(|(_, share, _)| share).sum();
    let mut ticket = random.below(shares);
    for (name, share, damage) in DAMAGES {
        if ticket < share {
            damage(random, draft);
            return name;
        }
        ticket -= share;
    }
    unreachable!("the ticket is below the sum of the shares")
}

/// A text damaged once, sometimes twice, with the names of its damages.
pub fn draw_damaged(random: &mut Random) -> (String, Vec<u8>) {
    loop {
        let draw = random.pick(&[draw_day, draw_day, draw_grouped]);
        let mut draft = Draft::new(draw(random, DAMAGED_MOST));
        let sound = draft.text();
        let mut damages = damage(random, &mut draft).to_string();
        if random.one_in(4) {
            damages = format!("{damages}, {}", damage(random, &mut draft));
        }
        let text = draft.text();
        // A damage that turned a window wide may leave too much to try.
        let enumerable = read_day(&text).map_or(true, |day| day.assignments() <= USUAL_MOST);
        if text != sound && enumerable {
            return (damages, text);
        }
    }
}
