//! The day file: its names and limits, reading and writing it.

use crate::model::{
    Day, Train, MOST_BOXES, MOST_GROUP, MOST_SLOTS, MOST_TRACKS, MOST_TRAINS, MOST_TRAIN_NUMBER,
    MOST_WEIGHT,
};
use crate::sets::members;

// ---------------------------------------------------------------------------
// Reading a day file (01, The day file; refusals 1 to 7, and 15 by order 4 of 02)
// ---------------------------------------------------------------------------

pub const HEAD_NAMES: &str = "trains tracks slots revisit split";
pub const TRAIN_NAMES: &str = "train first last";
pub const MOVE_NAMES: &str = "to from boxes";
pub const GROUP_NAMES: &str = "group train";

/// The refusals of a text that is no day file.
pub const READING_REFUSALS: [usize; 8] = [1, 2, 3, 4, 5, 6, 7, 15];

#[derive(Clone, Copy, Debug, PartialEq)]
pub struct Refusal {
    pub number: usize,
    pub line: usize,
}

/// Least and greatest value of a field.
pub type Limits = (usize, usize);

pub const HEAD_LIMITS: [Limits; 5] =
    [(1, MOST_TRAINS), (1, MOST_TRACKS), (1, MOST_SLOTS), (0, MOST_WEIGHT), (0, MOST_WEIGHT)];

pub fn train_limits(slots: usize) -> [Limits; 3] {
    [(1, MOST_TRAIN_NUMBER), (1, slots), (1, slots)]
}

pub const MOVE_LIMITS: [Limits; 3] =
    [(1, MOST_TRAIN_NUMBER), (1, MOST_TRAIN_NUMBER), (1, MOST_BOXES)];

pub const GROUP_LIMITS: [Limits; 2] = [(1, MOST_GROUP), (1, MOST_TRAIN_NUMBER)];

/// The lines of a text, taken downwards; `taken` is the number of the line
/// taken last, so that an absent line counts as the one after the last.
struct Lines<'a> {
    rest: &'a [u8],
    taken: usize,
}

impl<'a> Lines<'a> {
    fn at_end(&self) -> bool {
        self.rest.is_empty()
    }

    /// Whether the next line is exactly these names, with their byte 10.
    fn next_is(&self, names: &str) -> bool {
        self.rest.strip_prefix(names.as_bytes()).is_some_and(|rest| rest.starts_with(b"\n"))
    }

    /// The next line without its byte 10; nothing where the line is absent or
    /// where its byte 10 is, for then it has a wrong form.
    fn take(&mut self) -> Option<&'a [u8]> {
        self.taken += 1;
        let end = self.rest.iter().position(|&byte| byte == b'\n')?;
        let line = &self.rest[..end];
        self.rest = &self.rest[end + 1..];
        Some(line)
    }

    fn refuse<T>(&self, number: usize) -> Result<T, Refusal> {
        Err(Refusal { number, line: self.taken })
    }

    fn names(&mut self, names: &str) -> Result<(), Refusal> {
        match self.take() {
            Some(line) if line == names.as_bytes() => Ok(()),
            _ => self.refuse(1),
        }
    }

    /// A row of values: the form of the whole line first, then the limits.
    fn row(&mut self, limits: &[Limits]) -> Result<Vec<usize>, Refusal> {
        let Some(values) = self.take().and_then(values_of) else {
            return self.refuse(2);
        };
        if values.len() != limits.len() {
            return self.refuse(2);
        }
        let within = |(value, limits): (&usize, &Limits)| limits.0 <= *value && *value <= limits.1;
        if !values.iter().zip(limits).all(within) {
            return self.refuse(3);
        }
        Ok(values)
    }
}

/// The values of a line, if it consists of values parted by one space each.
fn values_of(line: &[u8]) -> Option<Vec<usize>> {
    line.split(|&byte| byte == b' ').map(value_of).collect()
}

/// One to five digits without leading zeros.
fn value_of(field: &[u8]) -> Option<usize> {
    let form = (1..=5).contains(&field.len()) && field.iter().all(u8::is_ascii_digit);
    if !form || (field.len() > 1 && field[0] == b'0') {
        return None;
    }
    Some(field.iter().fold(0, |sum, digit| 10 * sum + usize::from(digit - b'0')))
}

/// What may stand in a day file beside what is the same for all: the limits of
/// its first row, and the rules for the rows of groups, where it may have groups.
pub struct Form<'a> {
    pub head: [Limits; 5],
    pub groups: Option<&'a GroupRules>,
}

/// What the rows of a day file say, with the moves by positions: to, from, boxes.
pub struct Rows {
    pub head: Vec<usize>,
    pub trains: Vec<Train>,
    pub moves: Vec<[usize; 3]>,
}

pub fn read_rows(text: &[u8], form: &Form) -> Result<Rows, Refusal> {
    let mut lines = Lines { rest: text, taken: 0 };
    lines.names(HEAD_NAMES)?;
    let head = lines.row(&form.head)?;
    lines.names(TRAIN_NAMES)?;
    let mut trains = read_trains(&mut lines, head[0], head[2])?;
    lines.names(MOVE_NAMES)?;
    let moves = read_moves(&mut lines, &trains, form.groups.is_some())?;
    if let (false, Some(rules)) = (lines.at_end(), form.groups) {
        lines.names(GROUP_NAMES)?;
        read_groups(&mut lines, &mut trains, rules)?;
    }
    Ok(Rows { head, trains, moves })
}

pub fn read_day(text: &[u8]) -> Result<Day, Refusal> {
    read_day_by(text, &GROUP_RULES)
}

/// With rules of the caller's choice for the rows of groups.
pub fn read_day_by(text: &[u8], rules: &GroupRules) -> Result<Day, Refusal> {
    let Rows { head, trains, moves } =
        read_rows(text, &Form { head: HEAD_LIMITS, groups: Some(rules) })?;
    let mut boxes = [[0; MOST_TRAINS]; MOST_TRAINS];
    for [to, from, number] in moves {
        boxes[to][from] = number;
    }
    Ok(Day {
        tracks: head[1],
        slots: head[2],
        revisit_weight: head[3],
        split_weight: head[4],
        trains,
        boxes,
    })
}

fn read_trains(lines: &mut Lines, count: usize, slots: usize) -> Result<Vec<Train>, Refusal> {
    let mut trains: Vec<Train> = Vec::new();
    while trains.len() < count {
        let row = lines.row(&train_limits(slots))?;
        let train = Train { number: row[0], first: row[1], last: row[2], group: 0 };
        if trains.last().is_some_and(|before| train.number <= before.number) {
            return lines.refuse(4);
        }
        if train.first > train.last {
            return lines.refuse(5);
        }
        trains.push(train);
    }
    Ok(trains)
}

/// The moves, up to the end of the text or, where groups may follow, to their
/// names; where none may, these names are a row of another form.
fn read_moves(
    lines: &mut Lines,
    trains: &[Train],
    groups_follow: bool,
) -> Result<Vec<[usize; 3]>, Refusal> {
    let position = |number: usize| trains.iter().position(|train| train.number == number);
    let mut moves = Vec::new();
    let mut before: Option<(usize, usize)> = None;
    while !lines.at_end() && !(groups_follow && lines.next_is(GROUP_NAMES)) {
        let row = lines.row(&MOVE_LIMITS)?;
        let pair = (row[0], row[1]);
        let (Some(to), Some(from)) = (position(pair.0), position(pair.1)) else {
            return lines.refuse(6);
        };
        if to == from {
            return lines.refuse(6);
        }
        if before.is_some_and(|before| pair <= before) {
            return lines.refuse(7);
        }
        moves.push([to, from, row[2]]);
        before = Some(pair);
    }
    Ok(moves)
}

/// A row of a group: the group and the train number.
pub type Pair = (usize, usize);

/// The refusal of a row of a group by the trains, with their groups so far, the
/// pair before and its own.
pub type JudgePair = fn(&[Train], Option<Pair>, Pair) -> Option<usize>;

/// The limits of a row of a group, and what it is refused with within them.
pub struct GroupRules {
    pub limits: [Limits; 2],
    pub judge: JudgePair,
}

pub const GROUP_RULES: GroupRules = GroupRules { limits: GROUP_LIMITS, judge: judge_pair };

pub fn unlisted(trains: &[Train], (_, number): Pair) -> bool {
    trains.iter().all(|train| train.number != number)
}

/// Whether the pair's train is in a group by an earlier row.
pub fn placed_before(trains: &[Train], (_, number): Pair) -> bool {
    trains.iter().any(|train| train.number == number && train.group > 0)
}

/// Whether the pair isn't after the pair before.
pub fn not_rising(before: Option<Pair>, pair: Pair) -> bool {
    before.is_some_and(|before| pair <= before)
}

pub fn judge_pair(trains: &[Train], before: Option<Pair>, pair: Pair) -> Option<usize> {
    let broken = unlisted(trains, pair) || not_rising(before, pair) || placed_before(trains, pair);
    broken.then_some(15)
}

/// One row or more, up to the end of the text.
fn read_groups(
    lines: &mut Lines,
    trains: &mut [Train],
    GroupRules { limits, judge }: &GroupRules,
) -> Result<(), Refusal> {
    let mut before: Option<Pair> = None;
    while before.is_none() || !lines.at_end() {
        let row = lines.row(limits)?;
        let pair = (row[0], row[1]);
        if let Some(number) = judge(trains, before, pair) {
            return lines.refuse(number);
        }
        for train in trains.iter_mut().filter(|train| train.number == pair.1) {
            train.group = pair.0;
        }
        before = Some(pair);
    }
    Ok(())
}

// ---------------------------------------------------------------------------
// Writing a day file
// ---------------------------------------------------------------------------

/// A day file of a day, its moves and its groups in the order of the pairs.
pub fn write_day(day: &Day) -> Vec<u8> {
    let head = [day.tracks, day.slots, day.revisit_weight, day.split_weight];
    let text = write_rows(head, &day.trains, |to, from| day.boxes[to][from]);
    (text + &write_groups(day)).into_bytes()
}

/// The three sections that each day file has: tracks, slots and weights, the
/// trains, and the boxes by positions. Positions rise with the train numbers, so
/// the pairs of numbers rise with the positions.
pub fn write_rows(
    [tracks, slots, revisit_weight, split_weight]: [usize; 4],
    trains: &[Train],
    boxes: impl Fn(usize, usize) -> usize,
) -> String {
    let n = trains.len();
    let weights = format!("{revisit_weight} {split_weight}");
    let mut text = format!("{HEAD_NAMES}\n{n} {tracks} {slots} {weights}\n");
    text += &format!("{TRAIN_NAMES}\n");
    for Train { number, first, last, .. } in trains {
        text += &format!("{number} {first} {last}\n");
    }
    text += &format!("{MOVE_NAMES}\n");
    for i in 0..n {
        for j in 0..n {
            if boxes(i, j) > 0 {
                let (to, from) = (trains[i].number, trains[j].number);
                text += &format!("{to} {from} {}\n", boxes(i, j));
            }
        }
    }
    text
}

/// The section of the groups; nothing where there are none.
fn write_groups(day: &Day) -> String {
    let rows = |group| {
        let row = move |k: usize| format!("{group} {}\n", day.trains[k].number);
        members(day, group).into_iter().map(row)
    };
    let rows: String = (1..=MOST_GROUP).flat_map(rows).collect();
    if rows.is_empty() {
        rows
    } else {
        format!("{GROUP_NAMES}\n{rows}")
    }
}
