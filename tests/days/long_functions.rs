//! The four functions of long days, in marked memory: the library's, or whoever
//! stands in for them.

use crate::call_plan;
use crate::call_value;
use crate::header::LONG_MOST_TRAINS;
use crate::lent::{lent_text, Lent, Marks};
use crate::sys;

/// Memory as yard_plan and yard_value take it.
pub type PlanMemory = call_plan::Memory;
pub type ValueMemory = call_value::Memory;

/// Text, bytes of the answer and their count; text and line.
pub type AnswerMemory = (Lent<u8>, Lent<u8>, Lent<usize>);
pub type CheckMemory = (Lent<u8>, Lent<u64>);

/// Each returns what the function returns, and leaves in memory what it leaves.
pub trait Functions {
    fn plan(&self, memory: &mut PlanMemory, width: u32) -> u64;
    fn value(&self, memory: &mut ValueMemory) -> u64;
    fn answer(&self, memory: &mut AnswerMemory) -> u64;
    fn check(&self, memory: &mut CheckMemory) -> u64;
}

pub fn plan_memory(text: &[u8], row: usize, numbers: usize, marks: Marks) -> PlanMemory {
    PlanMemory {
        text: lent_text(text, marks),
        row: Lent::marked_room("row", row, LONG_MOST_TRAINS, marks),
        numbers: Lent::marked("numbers", numbers, marks),
        trains: Lent::marked("trains", 1, marks),
    }
}

/// The functions of the static library. In each call the lengths are those of the
/// memory, and nothing overlaps: that is all the functions ask.
pub struct Library;

impl Functions for Library {
    fn plan(&self, memory: &mut PlanMemory, width: u32) -> u64 {
        let PlanMemory { text, row, numbers, trains } = memory;
        unsafe {
            sys::yard_long_plan(
                text.pointer(),
                text.length(),
                width,
                row.pointer(),
                row.length(),
                numbers.pointer(),
                numbers.length(),
                trains.pointer(),
            )
        }
    }

    fn value(&self, memory: &mut ValueMemory) -> u64 {
        memory.value_by(sys::yard_long_value)
    }

    fn answer(&self, (text, out, bytes): &mut AnswerMemory) -> u64 {
        unsafe {
            sys::yard_long_answer(
                text.pointer(),
                text.length(),
                out.pointer(),
                out.length(),
                bytes.pointer(),
            )
        }
    }

    fn check(&self, (text, line): &mut CheckMemory) -> u64 {
        unsafe { sys::yard_long_check(text.pointer(), text.length(), line.pointer()) }
    }
}
