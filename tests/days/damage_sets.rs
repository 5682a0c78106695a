//! Damages that aim at the groups of order 4.

use crate::damage::unlisted_number;
use crate::day_file::GROUP_NAMES;
use crate::draft::{pick_any, Draft};
use crate::draw::Random;
use crate::model::{MOST_GROUP, MOST_TRAIN_NUMBER};
use crate::sets::{groups_of, members_of};

/// The names stay, with no row behind them.
pub fn no_group_rows(_: &mut Random, draft: &mut Draft) {
    if let Some(&first) = draft.group_lines().first() {
        draft.lines.truncate(first);
        draft.lines.push(Vec::new());
    }
}

/// The text ends with the groups' names or within them, without a byte 10.
pub fn cut_at_group_names(random: &mut Random, draft: &mut Draft) {
    let names = draft.group_names();
    if names < draft.lines.len() {
        draft.lines.truncate(names + 1);
        let cut = random.pick(&[0, 0, 0, 1, 6]);
        let length = draft.lines[names].len().saturating_sub(cut);
        draft.lines[names].truncate(length);
    }
}

/// The names once more or for the first time: before the moves or among them,
/// at once, among the rows of the groups or at the end.
pub fn group_names_again(random: &mut Random, draft: &mut Draft) {
    let (before, end) = (draft.move_names(), draft.lines.len() - 1);
    let among_moves = pick_any(random, &draft.move_lines()).unwrap_or(end);
    let among_groups = pick_any(random, &draft.group_lines()).unwrap_or(end);
    let places = [before, before, before + 1, among_moves, among_groups, among_groups, end];
    let place = random.pick(&places);
    draft.insert_line(place, GROUP_NAMES.as_bytes());
}

/// A row of a group among the moves, or a move among the groups.
pub fn other_rows(random: &mut Random, draft: &mut Draft) {
    let (moves, groups) = (draft.move_lines(), draft.group_lines());
    if let (Some(line), Some(other)) = (pick_any(random, &moves), pick_any(random, &groups)) {
        let (from, to) = random.pick(&[(line, other), (other, line), (line, other + 1)]);
        let row = draft.lines[from].clone();
        draft.insert_line(to, &row);
    }
}

/// The same row again, at once or at the end.
pub fn group_row_again(random: &mut Random, draft: &mut Draft) {
    if let Some(line) = pick_any(random, &draft.group_lines()) {
        let place = random.pick(&[line + 1, line + 1, draft.lines.len() - 1]);
        draft.insert_line(place, &draft.lines[line].clone());
    }
}

/// Two rows of groups exchanged, neighbours of the same group or any.
pub fn pairs_of_groups_swapped(random: &mut Random, draft: &mut Draft) {
    let lines = draft.group_lines();
    let group = |line: usize| draft.fields(line).swap_remove(0);
    let alike = |line: &usize| lines.contains(&(line - 1)) && group(*line) == group(line - 1);
    let alike: Vec<usize> = lines.iter().copied().filter(alike).collect();
    match (pick_any(random, &alike), pick_any(random, &lines), pick_any(random, &lines)) {
        (Some(line), ..) if random.one_in(2) => draft.lines.swap(line, line - 1),
        (_, Some(line), Some(other)) => draft.lines.swap(line, other),
        _ => {}
    }
}

/// The first group is 0 or the last one 13, in rows that are good otherwise.
pub fn group_beside_limits(random: &mut Random, draft: &mut Draft) {
    let lines = draft.group_lines();
    if let (Some(&first), Some(&last)) = (lines.first(), lines.last()) {
        let (line, group) = random.pick(&[(first, 0), (last, MOST_GROUP + 1)]);
        draft.set_field(line, 0, group);
    }
}

/// A train of a group in the last group too, or in one behind it.
pub fn second_group(random: &mut Random, draft: &mut Draft) {
    let groups = groups_of(&draft.trains);
    let Some(&last) = groups.last() else { return };
    let members = members_of(&draft.trains, random.pick(&groups));
    let number = draft.trains[random.pick(&members)].number;
    let row = format!("{} {number}", random.between(last, MOST_GROUP));
    draft.insert_line(draft.lines.len() - 1, row.as_bytes());
}

/// A row of a group for a train that is not there, in place of another row or
/// at the end.
pub fn unlisted_in_group(random: &mut Random, draft: &mut Draft) {
    let number = unlisted_number(random, draft);
    if let Some(line) = pick_any(random, &draft.group_lines()) {
        if random.one_in(2) {
            draft.set_field(line, 1, number);
        } else {
            draft.insert_line(draft.lines.len() - 1, format!("{MOST_GROUP} {number}").as_bytes());
        }
    }
}

/// A row of a group that gets 15, and besides is outside the limits or has
/// another form.
pub fn group_broken_twice(random: &mut Random, draft: &mut Draft) {
    let lines = draft.group_lines();
    let unlisted = unlisted_number(random, draft);
    if let Some(line) = pick_any(random, &lines) {
        let before = draft.trains.iter().find(|train| train.group > 0);
        let again = before.map_or(unlisted, |train| train.number);
        draft.set_field(line, 1, random.pick(&[unlisted, again, again]));
        let group = random.pick(&[0, MOST_GROUP + 1, MOST_GROUP + 1, MOST_TRAIN_NUMBER]);
        match random.below(5) {
            0 => draft.lines[line].extend_from_slice(b" 1"),
            1 => draft.set_field(line, 1, 0),
            _ => draft.set_field(line, 0, group),
        }
    }
}
