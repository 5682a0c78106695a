//! A stand-in of the five functions, by rules of the caller's choice: it writes
//! into lent memory as the library does. Mode self gives it mistakes, and the
//! comparison has to tell them.

use crate::header::{CHOICE_WORDS, COST_WORDS};
use crate::lent::{Lent, Word};
use crate::model::NUMBERS;
use crate::moving_call::Call;
use crate::moving_memory::Memory;
use crate::moving_rules::{reply, Reply, Rules};

#[derive(Clone, Copy)]
pub struct StandIn {
    pub rules: Rules,
    /// Tells something else than what was found.
    pub retell: fn(&Call, Reply) -> Reply,
    /// Writes on after the call has written.
    pub touch: fn(&Call, &Reply, &mut Memory),
}

/// Answers by these rules and does nothing besides.
pub const fn stand_in(rules: Rules) -> StandIn {
    StandIn { rules, retell: |_, reply| reply, touch: |_, _, _| {} }
}

/// Writes words from a place on, counted from the first lent.
pub fn put<W: Word>(lent: &mut Lent<W>, place: usize, words: &[W]) {
    for (index, word) in words.iter().enumerate() {
        // There are marked words behind those lent.
        unsafe { *lent.pointer().wrapping_add(place + index) = *word };
    }
}

/// What planning leaves in an area: nothing that anyone relies on.
fn work<W: Word>(area: &mut Lent<W>, words: usize, word: W) {
    put(area, 0, &vec![word; words]);
}

pub fn perform(by: &StandIn, call: &Call, memory: &mut Memory) -> u64 {
    let reply = (by.retell)(call, reply(&by.rules, call));
    if memory.numbers.length() >= NUMBERS {
        put(&mut memory.numbers, 0, &reply.outcome.numbers.map(|number| number as u64));
    }
    put(&mut memory.day, 0, &reply.day);
    put(&mut memory.next, 0, &reply.next);
    if call.asked.plans() && matches!(reply.outcome.refusal, 0 | 9 | 16) {
        work(&mut memory.cost, COST_WORDS, 77);
        work(&mut memory.choice, CHOICE_WORDS, 77);
    }
    (by.touch)(call, &reply, memory);
    reply.outcome.refusal as u64
}
