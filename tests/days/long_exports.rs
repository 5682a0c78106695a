//! The functions of long days on top of this program's own search, for building
//! with `--cfg long_standin` where the library hasn't them. They prove nothing; they
//! let the modes run.

use crate::case::Outcome;
use crate::long_case::{Asked, Reply};
use crate::long_standin::SOUND;
use std::slice::{from_raw_parts, from_raw_parts_mut};

/// # Safety
/// As yard.h asks.
pub unsafe extern "C" fn yard_long_answer(
    text: *const u8,
    text_length: usize,
    out: *mut u8,
    out_length: usize,
    bytes: *mut usize,
) -> u64 {
    let answer = SOUND.print(unsafe { from_raw_parts(text, text_length) });
    let fits = answer.len() <= out_length;
    let written = if fits { &answer[..] } else { &[] };
    unsafe {
        from_raw_parts_mut(out, written.len()).copy_from_slice(written);
        *bytes = written.len();
    }
    if fits {
        0
    } else {
        10
    }
}

/// # Safety
/// As yard.h asks.
#[allow(clippy::too_many_arguments)]
pub unsafe extern "C" fn yard_long_plan(
    text: *const u8,
    text_length: usize,
    width: u32,
    row: *mut u8,
    row_length: usize,
    numbers: *mut u64,
    numbers_length: usize,
    trains: *mut usize,
) -> u64 {
    let text = unsafe { from_raw_parts(text, text_length) };
    let asked = Asked { width, row: row_length, numbers: numbers_length };
    let Reply { refusal, numbers: told, slots } = SOUND.reply(text, &asked);
    unsafe {
        from_raw_parts_mut(row, slots.len()).copy_from_slice(&slots);
        let room = from_raw_parts_mut(numbers, told.len());
        room.iter_mut().zip(told).for_each(|(place, number)| *place = number as u64);
        *trains = slots.len();
    }
    refusal as u64
}

/// # Safety
/// As yard.h asks.
pub unsafe extern "C" fn yard_long_check(
    text: *const u8,
    text_length: usize,
    line: *mut u64,
) -> u64 {
    let (number, found) = SOUND.checked(unsafe { from_raw_parts(text, text_length) });
    unsafe { *line = found as u64 };
    number as u64
}

/// # Safety
/// As yard.h asks.
pub unsafe extern "C" fn yard_long_value(
    text: *const u8,
    text_length: usize,
    row: *const u8,
    row_length: usize,
    numbers: *mut u64,
    numbers_length: usize,
) -> u64 {
    let (text, row) =
        unsafe { (from_raw_parts(text, text_length), from_raw_parts(row, row_length)) };
    let outcome: Outcome = SOUND.outcome(text, row, numbers_length);
    let told = outcome.written(numbers_length);
    unsafe { from_raw_parts_mut(numbers, told.len()) }.copy_from_slice(&told);
    outcome.refusal as u64
}
