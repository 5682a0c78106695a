//! Mode fewest: order 8 of 02. With the sum of all boxes for the revisit weight, or
//! more, and 1 for the split weight, a plan has the fewest revisits of all allowed
//! rows, and the fewest split moves of those that share them.

use crate::day_file::{read_day, write_day};
use crate::draw::Random;
use crate::draw_fewest::KINDS;
use crate::fewest::{all_counts, Counts};
use crate::fewest_moving::moving_states;
use crate::fewest_moving_seen::required_states;
use crate::fewest_plans::{by_library, by_program, compare, refusal};
use crate::fewest_seen::{note_day, planned, refused, required_days, LIBRARY, PROGRAM};
use crate::fewest_weights::{sum, weighed_by, WEIGHTS};
use crate::groups::{Tests, MOST_DIFFERENCES};
use crate::known::KNOWN_DAYS;
use crate::known_fewest::FEWEST_DAYS;
use crate::lent::Marks;
use crate::model::Day;
use crate::process::escaped;
use crate::seen::{require_all, Seen, LEAST_SEEN};

/// A process takes longer than a call: the program is given one in so many of the
/// texts.
const PROGRAM_ONE_IN: usize = 13;

struct Run<'a> {
    tests: Tests<'a>,
    seen: Seen,
    /// Of the next text.
    index: usize,
}

impl Run<'_> {
    /// A day with each kind of weights; its fewest counts.
    fn day(&mut self, which: &str, seed: u64, day: &Day) -> Option<Counts> {
        let all = all_counts(day);
        note_day(&mut self.seen, day, &all);
        let mut random = Random(seed);
        for (weights, weigh) in &WEIGHTS {
            if let Some(chosen) = weigh(&mut random, sum(day)) {
                let which = format!("{which}, weights {weights}");
                self.text(&which, weights, &weighed_by(day, chosen), all.first().copied());
            }
        }
        all.first().copied()
    }

    /// The plans of a text, or its refusals.
    fn text(&mut self, which: &str, weights: &str, day: &Day, least: Option<Counts>) {
        if self.tests.stopped() {
            return;
        }
        let text = write_day(day);
        let mut found = vec![(LIBRARY, Ok(by_library(&text, Marks::of(self.index))))];
        if self.index % PROGRAM_ONE_IN == 0 {
            found.push((PROGRAM, by_program(self.tests.program, &text)));
        }
        self.index += 1;
        for (by, found) in found {
            let what = match least {
                Some(_) => planned(by, weights),
                None => refused(by, refusal(day)),
            };
            self.seen.note(&what);
            let compared = found.and_then(|found| compare(day, least, &found));
            match compared {
                Ok(()) => self.tests.passed += 1,
                Err(what) => {
                    let text = escaped(&text);
                    self.tests.fail(&format!("{which}\n  text \"{text}\"\n  {by}: {what}"));
                }
            }
        }
    }

    fn group(&mut self, name: &str, days: impl Iterator<Item = (String, u64, Day)>) {
        let before = self.tests.passed;
        let [mut planned, mut overbooked, mut unkept] = [0; 3];
        for (which, seed, day) in days {
            match self.day(&format!("group {name}, {which}"), seed, &day) {
                Some(_) => planned += 1,
                None if refusal(&day) == 9 => overbooked += 1,
                None => unkept += 1,
            }
        }
        let compared = self.tests.passed - before;
        println!("{name:<8} {planned:>6} {overbooked:>5} {unkept:>5} {compared:>8}");
    }
}

/// Days worked out by hand; they have no seeds, and their places will do.
fn known_days() -> impl Iterator<Item = (String, u64, Day)> {
    KNOWN_DAYS.iter().chain(&FEWEST_DAYS).zip(0..).map(|(known, place)| {
        (known.name.to_string(), place, read_day(&known.text()).expect("a good day"))
    })
}

pub fn fewest_of_all(program: &str) -> bool {
    let mut run = Run { tests: Tests::new(program), seen: Seen::default(), index: 0 };
    println!("{:<8} {:>6} {:>5} {:>5} {:>8}", "group", "plan", "9", "16", "compared");
    run.group("known", known_days());
    for (place, kind) in KINDS.iter().enumerate() {
        let days = kind.drawn(place).map(|(seed, day)| (format!("seed {seed}"), seed, day));
        run.group(kind.name, days);
    }
    moving_states(&mut run.tests, &mut run.seen);
    if run.tests.stopped() {
        println!("stopped after {MOST_DIFFERENCES} differences");
    } else {
        let required = [required_days(), required_states()].concat();
        require_all(&mut run.tests, &run.seen, &required, LEAST_SEEN);
    }
    run.tests.finish()
}
