//! All boxes of a day, taken from its text and not from what was read of it. By
//! order 6 of 02 direct and split moves, each counted by its own definition, add
//! up to them.

use crate::day_file::{GROUP_NAMES, MOVE_NAMES};

/// The boxes of all moves of a day file: the last fields of the rows between the
/// names of the moves and those of the groups, or the end.
pub fn all_boxes(text: &[u8]) -> usize {
    let text = String::from_utf8_lossy(text);
    let rows = text.lines().skip_while(|line| *line != MOVE_NAMES).skip(1);
    let rows = rows.take_while(|line| *line != GROUP_NAMES);
    let boxes = |row: &str| row.rsplit(' ').next().and_then(|field| field.parse::<usize>().ok());
    rows.map(|row| boxes(row).expect("a row of a day file")).sum()
}

/// The second and the third of an assignment's numbers, as a call has left them,
/// add up to all boxes.
pub fn add_up(boxes: usize, numbers: &[u64]) -> Result<(), String> {
    let (splits, direct) = (numbers[1], numbers[2]);
    match splits.checked_add(direct) == Some(boxes as u64) {
        true => Ok(()),
        false => Err(format!("{splits} split and {direct} direct moves of {boxes} boxes")),
    }
}
