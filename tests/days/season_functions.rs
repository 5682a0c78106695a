//! The two functions of a season, in marked memory: the library's, or whoever stands
//! in for them.

use crate::lent::{lent_text, Lent, Marks};
use crate::season::SEASON_NUMBERS;
use crate::sys;

pub use crate::long_functions::AnswerMemory;

/// Text and numbers.
pub type SeasonMemory = (Lent<u8>, Lent<u64>);

/// Each returns what the function returns, and leaves in memory what it leaves.
pub trait Functions {
    fn season(&self, memory: &mut SeasonMemory) -> u64;
    fn answer(&self, memory: &mut AnswerMemory) -> u64;
}

pub fn season_memory(text: &[u8], numbers: usize, marks: Marks) -> SeasonMemory {
    let numbers = Lent::marked_room("numbers", numbers, SEASON_NUMBERS, marks);
    (lent_text(text, marks), numbers)
}

/// The functions of the static library. In each call the lengths are those of the
/// memory, and nothing overlaps: that is all the functions ask.
pub struct Library;

impl Functions for Library {
    fn season(&self, (text, numbers): &mut SeasonMemory) -> u64 {
        unsafe {
            sys::yard_season(text.pointer(), text.length(), numbers.pointer(), numbers.length())
        }
    }

    fn answer(&self, (text, out, bytes): &mut AnswerMemory) -> u64 {
        unsafe {
            sys::yard_season_answer(
                text.pointer(),
                text.length(),
                out.pointer(),
                out.length(),
                bytes.pointer(),
            )
        }
    }
}
