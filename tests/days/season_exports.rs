//! The functions of a season on top of this program's own report, for building with
//! `--cfg season_standin` where the library hasn't them. They prove nothing; they let
//! the modes run.

use crate::season_standin::SOUND;
use std::slice::{from_raw_parts, from_raw_parts_mut};

/// # Safety
/// As yard.h asks.
pub unsafe extern "C" fn yard_season(
    text: *const u8,
    text_length: usize,
    numbers: *mut u64,
    numbers_length: usize,
) -> u64 {
    let short = numbers_length < SOUND.numbers_needed;
    let (told, too_many) = SOUND.report(unsafe { from_raw_parts(text, text_length) });
    if !short {
        unsafe { from_raw_parts_mut(numbers, told.len()) }.copy_from_slice(&told);
    }
    (SOUND.checks)(short, too_many)
}

/// # Safety
/// As yard.h asks.
pub unsafe extern "C" fn yard_season_answer(
    text: *const u8,
    text_length: usize,
    out: *mut u8,
    out_length: usize,
    bytes: *mut usize,
) -> u64 {
    let (answer, too_many) = SOUND.print(unsafe { from_raw_parts(text, text_length) });
    let short = answer.len() > out_length;
    let written = if short { &[] } else { &answer[..] };
    unsafe {
        from_raw_parts_mut(out, written.len()).copy_from_slice(written);
        *bytes = written.len();
    }
    (SOUND.answer_checks)(short, too_many)
}
