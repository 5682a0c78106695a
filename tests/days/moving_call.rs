//! A call of a moving day (order 7 of 02, include/yard.h): what is asked of which
//! state, and how much memory is lent.

use crate::header::{CHOICE_WORDS, COST_WORDS, DAY_BYTES, MOST_TRAINS};
use crate::model::NUMBERS;
use crate::process::escaped;
use std::fmt;

/// The function and what it is given besides the state.
#[derive(Clone, Copy, Debug, PartialEq)]
pub enum Asked {
    Begin,
    Close,
    /// The train number.
    Cancel(u32),
    /// The train number, and the first and the last slot.
    Add(u32, u32, u32),
    /// To, from and the boxes.
    SetBoxes(u32, u32, u32),
}

pub const NAMES: [&str; 5] =
    ["yard_begin", "yard_close", "yard_cancel", "yard_add", "yard_set_boxes"];

impl Asked {
    pub fn name(&self) -> &'static str {
        match self {
            Asked::Begin => NAMES[0],
            Asked::Close => NAMES[1],
            Asked::Cancel(_) => NAMES[2],
            Asked::Add(..) => NAMES[3],
            Asked::SetBoxes(..) => NAMES[4],
        }
    }

    /// The three calls that change the day and write a new one.
    pub fn changes(&self) -> bool {
        !matches!(self, Asked::Begin | Asked::Close)
    }

    /// All but close are lent areas, and plan.
    pub fn plans(&self) -> bool {
        *self != Asked::Close
    }
}

/// A state as a program keeps it; whether it is one is another matter.
#[derive(Clone, Debug, PartialEq)]
pub struct State {
    pub text: Vec<u8>,
    pub closed: u32,
    pub row: Vec<u8>,
}

/// The lengths of what is lent to be written. Begin is lent no day, and close
/// numbers alone.
#[derive(Clone, Copy, Debug, PartialEq)]
pub struct Room {
    pub numbers: usize,
    pub day: usize,
    pub next: usize,
    pub cost: usize,
    pub choice: usize,
}

/// Just what suffices.
pub const EXACT: Room = Room {
    numbers: NUMBERS,
    day: DAY_BYTES,
    next: MOST_TRAINS,
    cost: COST_WORDS,
    choice: CHOICE_WORDS,
};

impl Room {
    /// The lengths that are lent by this call, 0 for the others.
    pub fn lent_by(self, asked: &Asked) -> Room {
        let (changes, plans) = (asked.changes(), asked.plans());
        let only = |lent: bool, length: usize| if lent { length } else { 0 };
        Room {
            numbers: self.numbers,
            day: only(changes, self.day),
            next: only(plans, self.next),
            cost: only(plans, self.cost),
            choice: only(plans, self.choice),
        }
    }
}

#[derive(Clone, Debug)]
pub struct Call {
    pub asked: Asked,
    pub state: State,
    pub room: Room,
}

impl fmt::Display for Call {
    fn fmt(&self, f: &mut fmt::Formatter) -> fmt::Result {
        let Call { asked, state: State { text, closed, row }, room } = self;
        let text = escaped(text);
        writeln!(f, "text \"{text}\"\n  closed {closed}, row {row:?}")?;
        write!(f, "  {asked:?}, {:?}", room.lent_by(asked))
    }
}
