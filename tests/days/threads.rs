//! Several threads at once: by yard.h the functions keep no state, so that they
//! do not disturb each other.

use crate::calls::CALLS;
use crate::case::Case;
use crate::groups::Tests;
use crate::moving;
use crate::moving_memory::by_library;
use crate::moving_walk::Walk;
use crate::process::escaped;
use crate::seen::Seen;
use crate::texts::{known_texts, sound_texts, Named};
use std::thread;

const THREADS: usize = 4;
const SOUND_TEXTS: usize = 150;
const LISTS: usize = 60;

/// All functions on all cases, beginning at one's own.
fn compare_from(cases: &[Case], start: usize) -> Result<(), String> {
    let mut seen = Seen::default();
    for case in cases.iter().cycle().skip(start).take(cases.len()) {
        for call in &CALLS {
            let which = || format!("text \"{}\"\n  {}", escaped(case.text), call.name);
            (call.compare)(case, &mut seen).map_err(|what| format!("{}, {what}", which()))?;
        }
    }
    Ok(())
}

/// Lists of mode moving, beginning at one's own.
fn move_from(start: usize) -> Result<(), String> {
    for index in (0..LISTS).map(|index| (start + index) % LISTS) {
        let seed = moving::SEED + index as u64;
        let mut walk = Walk::new(seed, &by_library, None);
        walk.list().map_err(|what| format!("seed {seed}\n  {what}"))?;
    }
    Ok(())
}

/// Each thread takes the same lists, beginning at a place of its own.
pub fn move_at_once(tests: &mut Tests) {
    at_once(tests, |index| move_from(index * LISTS / THREADS));
}

/// Each thread takes the same texts, beginning at a place of its own.
pub fn compare_at_once(tests: &mut Tests) {
    let texts: Vec<Named> = known_texts().chain(sound_texts().take(SOUND_TEXTS)).collect();
    let numbered = texts.iter().enumerate();
    let cases: Vec<Case> = numbered.map(|(index, (_, text))| Case::new(index, text)).collect();
    at_once(tests, |index| compare_from(&cases, index * cases.len() / THREADS));
}

/// Runs this in each of several threads.
pub fn at_once(tests: &mut Tests, run: impl Fn(usize) -> Result<(), String> + Sync) {
    let run = &run;
    thread::scope(|scope| {
        let spawn = |index| scope.spawn(move || run(index));
        let threads: Vec<_> = (0..THREADS).map(spawn).collect();
        for thread in threads {
            match thread.join() {
                Ok(Ok(())) => tests.passed += 1,
                Ok(Err(what)) => tests.fail(&format!("{THREADS} threads at once\n  {what}")),
                Err(_) => tests.fail("one of several threads ended badly"),
            }
        }
    });
}
