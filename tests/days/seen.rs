//! Counting what was tried, for what was seen too seldom has not been tested.

use crate::groups::Tests;
use crate::plan::broken;
use std::collections::BTreeMap;

pub const LEAST_SEEN: usize = 30;

/// How often each thing was seen.
#[derive(Default)]
pub struct Seen(BTreeMap<String, usize>);

impl Seen {
    pub fn note(&mut self, what: &str) {
        match self.0.get_mut(what) {
            Some(count) => *count += 1,
            None => drop(self.0.insert(what.to_string(), 1)),
        }
    }

    pub fn note_if(&mut self, holds: bool, what: &str) {
        if holds {
            self.note(what);
        }
    }

    pub fn count(&self, what: &str) -> usize {
        self.0.get(what).copied().unwrap_or_default()
    }

    /// What was noted though nobody requires it: a slip of the pen.
    pub fn not_in(&self, required: &[String]) -> Option<&String> {
        self.0.keys().find(|what| !required.contains(what))
    }
}

/// Each thing that is required was seen so often at least, and nothing else was
/// counted.
pub fn require_all(tests: &mut Tests, seen: &Seen, required: &[String], least: usize) {
    if let Some(what) = seen.not_in(required) {
        broken(&format!("{what} is counted and not required"));
    }
    for what in required {
        let count = seen.count(what);
        let seldom = format!("{what}: seen {count} times, {least} are needed");
        tests.check(count >= least, &seldom);
    }
    if let Some((count, what)) = required.iter().map(|what| (seen.count(what), what)).min() {
        println!("{} things to see, least often {what}, {count} times", required.len());
    }
}
