//! The draft of a damaged text, and damages to its bytes and lines.

use crate::day_file::{train_limits, write_day, Limits, GROUP_LIMITS, HEAD_LIMITS, MOVE_LIMITS};
use crate::draw::Random;
use crate::long_day::{write_long, LongDay, LONG_LIMITS};
use crate::model::{Day, Train};

/// The text of a sound day on its way to a damaged one. The pieces between the
/// bytes 10 are kept, so the last piece is what follows the last byte 10.
pub struct Draft {
    pub trains: Vec<Train>,
    pub slots: usize,
    /// How many rows the sound day has of moves.
    moves: usize,
    /// The limits of the first row.
    head: [Limits; 5],
    pub lines: Vec<Vec<u8>>,
}

impl Draft {
    pub fn new(day: Day) -> Draft {
        let moves = day.boxes.iter().flatten().filter(|&&boxes| boxes > 0).count();
        let (text, trains, slots) = (write_day(&day), day.trains, day.slots);
        Draft { trains, slots, moves, head: HEAD_LIMITS, lines: split(&text) }
    }

    /// Of a long day, whose limits are others.
    pub fn long(day: &LongDay) -> Draft {
        let moves = day.boxes.iter().flatten().filter(|&&boxes| boxes > 0).count();
        let (trains, slots) = (day.trains.clone(), day.slots);
        Draft { trains, slots, moves, head: LONG_LIMITS, lines: split(&write_long(day)) }
    }

    pub fn text(&self) -> Vec<u8> {
        self.lines.join(&b'\n')
    }

    fn set_text(&mut self, text: &[u8]) {
        self.lines = split(text);
    }

    /// The lines in low..high that are still there after a first damage.
    fn present(&self, low: usize, high: usize) -> Vec<usize> {
        (low..high.min(self.lines.len() - 1)).collect()
    }

    pub fn head_lines(&self) -> Vec<usize> {
        self.present(1, 2)
    }

    pub fn train_lines(&self) -> Vec<usize> {
        self.present(3, 3 + self.trains.len())
    }

    /// The line of the third names.
    pub fn move_names(&self) -> usize {
        3 + self.trains.len()
    }

    pub fn move_lines(&self) -> Vec<usize> {
        self.present(self.move_names() + 1, self.group_names())
    }

    /// The line of the fourth names, or one that is never there.
    pub fn group_names(&self) -> usize {
        match self.trains.iter().any(|train| train.group > 0) {
            true => self.move_names() + 1 + self.moves,
            false => usize::MAX - 1,
        }
    }

    pub fn group_lines(&self) -> Vec<usize> {
        self.present(self.group_names() + 1, usize::MAX)
    }

    pub fn names_lines(&self) -> Vec<usize> {
        let places = [0, 2, self.move_names(), self.group_names()];
        places.into_iter().filter(|&line| line < self.lines.len() - 1).collect()
    }

    pub fn fields(&self, line: usize) -> Vec<Vec<u8>> {
        self.lines[line].split(|&byte| byte == b' ').map(<[u8]>::to_vec).collect()
    }

    /// Replaces a field, where the line has one there.
    pub fn set_field(&mut self, line: usize, field: usize, value: usize) {
        let mut fields = self.fields(line);
        if let Some(place) = fields.get_mut(field) {
            *place = value.to_string().into_bytes();
        }
        self.lines[line] = fields.join(&b' ');
    }

    pub fn insert_line(&mut self, line: usize, bytes: &[u8]) {
        self.lines.insert(line.min(self.lines.len() - 1), bytes.to_vec());
    }
}

/// The pieces of a text between its bytes 10.
fn split(text: &[u8]) -> Vec<Vec<u8>> {
    text.split(|&byte| byte == b'\n').map(<[u8]>::to_vec).collect()
}

/// One of the items, if there are any.
pub fn pick_any(random: &mut Random, items: &[usize]) -> Option<usize> {
    (!items.is_empty()).then(|| random.pick(items))
}

/// One line of the four kinds of rows, each kind as often as the others.
pub fn pick_row(random: &mut Random, draft: &Draft) -> Option<usize> {
    let kinds = [draft.head_lines(), draft.train_lines(), draft.move_lines(), draft.group_lines()];
    let kind = random.below(kinds.len());
    pick_any(random, &kinds[kind])
}

/// The greatest value of each field of a line, by its place.
pub fn greatest_values(draft: &Draft, line: usize) -> Vec<usize> {
    let limits = match line {
        1 => draft.head.to_vec(),
        _ if draft.train_lines().contains(&line) => train_limits(draft.slots).to_vec(),
        _ if draft.group_lines().contains(&line) => GROUP_LIMITS.to_vec(),
        _ => MOVE_LIMITS.to_vec(),
    };
    limits.iter().map(|limits| limits.1).collect()
}

// ---------------------------------------------------------------------------
// Damages to bytes and lines, whatever they say
// ---------------------------------------------------------------------------

// A damage changes the draft, or leaves it where it finds nothing to damage.

pub fn cut_anywhere(random: &mut Random, draft: &mut Draft) {
    let text = draft.text();
    let end = random.below(text.len() + 1);
    draft.set_text(&text[..end]);
}

pub fn cut_after_line(random: &mut Random, draft: &mut Draft) {
    let kept = random.below(draft.lines.len());
    draft.lines.truncate(kept);
    draft.lines.push(Vec::new());
}

/// A byte that is likely to matter: of the format's own, or any.
fn likely_byte(random: &mut Random) -> u8 {
    let any = random.byte();
    random.pick(&[b' ', b'\n', b'0', b'1', b'2', b'5', b'9', b'/', b':', b'-', any, any])
}

pub fn change_byte(random: &mut Random, draft: &mut Draft) {
    let mut text = draft.text();
    if !text.is_empty() {
        let place = random.below(text.len());
        text[place] = likely_byte(random);
        draft.set_text(&text);
    }
}

pub fn insert_byte(random: &mut Random, draft: &mut Draft) {
    let mut text = draft.text();
    text.insert(random.below(text.len() + 1), likely_byte(random));
    draft.set_text(&text);
}

pub fn remove_byte(random: &mut Random, draft: &mut Draft) {
    let mut text = draft.text();
    if !text.is_empty() {
        text.remove(random.below(text.len()));
        draft.set_text(&text);
    }
}

pub fn double_line(random: &mut Random, draft: &mut Draft) {
    let line = random.below(draft.lines.len());
    draft.insert_line(line, &draft.lines[line].clone());
}

pub fn swap_lines(random: &mut Random, draft: &mut Draft) {
    let line = random.below(draft.lines.len());
    let other = random.below(draft.lines.len());
    draft.lines.swap(line, other);
}

pub fn remove_line(random: &mut Random, draft: &mut Draft) {
    if draft.lines.len() > 1 {
        draft.lines.remove(random.below(draft.lines.len() - 1));
    }
}

pub fn drop_last_newline(_: &mut Random, draft: &mut Draft) {
    if draft.lines.len() > 1 {
        draft.lines.pop();
    }
}

pub fn empty_line(random: &mut Random, draft: &mut Draft) {
    let line = if random.one_in(2) { draft.lines.len() } else { random.below(draft.lines.len()) };
    draft.insert_line(line, b"");
}
