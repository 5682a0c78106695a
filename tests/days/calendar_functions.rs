//! The two functions of opening hours and dates, in marked memory: the library's, or
//! whoever stands in for them.

use crate::calendar::{Asked, HOURS};
use crate::lent::{Lent, Marks};
use crate::sys;

/// Hours, closed dates and the three numbers that the two functions write. Those that a
/// function is not lent are there as well, and have to stay as they are.
pub struct Memory {
    pub hours: Lent<u32>,
    pub closed: Lent<u32>,
    pub slots: Lent<u32>,
    pub first: Lent<u32>,
    pub last: Lent<u32>,
}

/// A good calendar, for what is behind hours that are too few.
const GOOD: [u32; HOURS] = [0, 1439, 1, 1438, 2, 1437, 3, 1436, 4, 1435, 5, 1434, 6, 1433];

impl Memory {
    /// So that reading on is seen, the rest of a good calendar is behind hours that are
    /// too few, and behind the closed dates stands the date itself.
    pub fn of(asked: &Asked, marks: Marks) -> Memory {
        let rest = &GOOD[asked.hours.len().min(HOURS)..];
        Memory {
            hours: Lent::followed("hours", &asked.hours, rest, marks),
            closed: Lent::followed("closed", &asked.closed, &[asked.date], marks),
            slots: Lent::marked("slots", 1, marks),
            first: Lent::marked("first", 1, marks),
            last: Lent::marked("last", 1, marks),
        }
    }

    /// All words as before, for another call.
    pub fn undo(&mut self) {
        let Memory { hours, closed, slots, first, last } = self;
        [hours, closed, slots, first, last].into_iter().for_each(Lent::undo);
    }
}

/// Each returns what the function returns, and leaves in memory what it leaves. Hours and
/// closed dates are those of the memory.
pub trait Functions {
    fn slots_on(&self, asked: &Asked, memory: &mut Memory) -> u64;
    fn window(&self, asked: &Asked, memory: &mut Memory) -> u64;
}

/// The functions of the static library. In each call the lengths are those of the
/// memory, and nothing overlaps: that is all the functions ask.
pub struct Library;

impl Functions for Library {
    fn slots_on(&self, asked: &Asked, memory: &mut Memory) -> u64 {
        unsafe {
            sys::yard_slots_on(
                memory.hours.pointer(),
                memory.hours.length(),
                asked.length,
                memory.closed.pointer(),
                memory.closed.length(),
                asked.date,
                memory.slots.pointer(),
            )
        }
    }

    fn window(&self, asked: &Asked, memory: &mut Memory) -> u64 {
        unsafe {
            sys::yard_window(
                memory.hours.pointer(),
                memory.hours.length(),
                asked.length,
                memory.closed.pointer(),
                memory.closed.length(),
                asked.date,
                asked.train[0],
                asked.train[1],
                memory.first.pointer(),
                memory.last.pointer(),
            )
        }
    }
}
