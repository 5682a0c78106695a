//! The memory lent to a call of a moving day, the call in the static library,
//! and the comparison with what it has to give.

use crate::header::{CHOICE_WORDS, COST_WORDS, DAY_BYTES, MOST_TRAINS};
use crate::lent::{lent_text, returned, Lent, Marks};
use crate::moving_call::{Asked, Call, State};
use crate::moving_rules::Reply;
use crate::sys;

pub struct Memory {
    pub text: Lent<u8>,
    pub row: Lent<u8>,
    pub numbers: Lent<u64>,
    pub day: Lent<u8>,
    pub next: Lent<u8>,
    pub cost: Lent<u64>,
    pub choice: Lent<u16>,
}

/// Makes a call in its memory and returns what it returns.
pub type Perform<'a> = &'a dyn Fn(&Call, &mut Memory) -> u64;

impl Memory {
    pub fn lent(call: &Call, marks: Marks) -> Memory {
        let room = call.room.lent_by(&call.asked);
        // Close is lent no area, and no room is watched for one.
        let suffices = |words: usize| if call.asked.plans() { words } else { 0 };
        Memory {
            text: lent_text(&call.state.text, marks),
            row: Lent::holding("row", &call.state.row, marks),
            numbers: Lent::marked("numbers", room.numbers, marks),
            day: Lent::marked_room("day", room.day, suffices(DAY_BYTES), marks),
            next: Lent::marked_room("next", room.next, MOST_TRAINS, marks),
            cost: Lent::marked_room("cost", room.cost, suffices(COST_WORDS), marks),
            choice: Lent::marked_room("choice", room.choice, suffices(CHOICE_WORDS), marks),
        }
    }

    /// Each byte that was lent or lies around it.
    pub fn compare(&self, got: u64, reply: &Reply) -> Result<(), String> {
        let outcome = &reply.outcome;
        returned(got, outcome.refusal)?;
        self.numbers.holds(&outcome.written(self.numbers.length()))?;
        self.day.holds(&reply.day)?;
        self.next.holds(&reply.next)?;
        // An area that suffices may hold anything where planning has begun.
        let worked = matches!(outcome.refusal, 0 | 9 | 16);
        let open = |length: usize, words: usize| if worked { length.min(words) } else { 0 };
        self.cost.kept_beyond(open(self.cost.length(), COST_WORDS))?;
        self.choice.kept_beyond(open(self.choice.length(), CHOICE_WORDS))?;
        self.row.kept()?;
        self.text.kept()
    }

    /// The state that a taken call has left: what it has written, and of begin
    /// and close what was given.
    pub fn state(&self, call: &Call) -> State {
        let numbers = self.numbers.words();
        let (trains, bytes) = (numbers[1] as usize, numbers[2] as usize);
        let asked = &call.asked;
        let text = if asked.changes() { &self.day.words()[..bytes] } else { &call.state.text };
        let row = if asked.plans() { &self.next.words()[..trains] } else { &call.state.row };
        State { text: text.to_vec(), closed: numbers[0] as u32, row: row.to_vec() }
    }
}

/// The call in the static library. The lengths are those of the memory, and
/// nothing overlaps: that is all the functions ask.
pub fn by_library(call: &Call, memory: &mut Memory) -> u64 {
    let Memory { text, row, numbers, day, next, cost, choice } = memory;
    let closed = call.state.closed;
    let (text, text_length) = (text.pointer(), text.length());
    let (row, row_length) = (row.pointer(), row.length());
    let (numbers, numbers_length) = (numbers.pointer(), numbers.length());
    let (day, day_length) = (day.pointer(), day.length());
    let (next, next_length) = (next.pointer(), next.length());
    let (cost, cost_length) = (cost.pointer(), cost.length());
    let (choice, choice_length) = (choice.pointer(), choice.length());
    #[rustfmt::skip]
    let got = unsafe {
        match call.asked {
            Asked::Begin => sys::yard_begin(
                text, text_length, cost, cost_length, choice, choice_length,
                next, next_length, numbers, numbers_length,
            ),
            Asked::Close => sys::yard_close(
                text, text_length, closed, row, row_length, numbers, numbers_length,
            ),
            Asked::Cancel(train) => sys::yard_cancel(
                text, text_length, closed, row, row_length, train,
                cost, cost_length, choice, choice_length,
                day, day_length, next, next_length, numbers, numbers_length,
            ),
            Asked::Add(train, first, last) => sys::yard_add(
                text, text_length, closed, row, row_length, train, first, last,
                cost, cost_length, choice, choice_length,
                day, day_length, next, next_length, numbers, numbers_length,
            ),
            Asked::SetBoxes(to, from, boxes) => sys::yard_set_boxes(
                text, text_length, closed, row, row_length, to, from, boxes,
                cost, cost_length, choice, choice_length,
                day, day_length, next, next_length, numbers, numbers_length,
            ),
        }
    };
    got
}
