//! Counting the outcomes of the tests by groups, and reporting them.

use crate::plan::{answer, write_answer, Answer};
use crate::process::{compare, escaped, Feed};

const OUTCOMES: [&str; 11] = ["plan", "1", "2", "3", "4", "5", "6", "7", "9", "15", "16"];
pub const MOST_DIFFERENCES: usize = 10;

/// The place in `OUTCOMES` of this outcome.
fn place(outcome: &str) -> usize {
    OUTCOMES.iter().position(|name| *name == outcome).expect("one of the outcomes")
}

/// The place of an answer in `OUTCOMES`.
fn outcome(answer: &Answer) -> usize {
    match answer {
        Answer::Plan(_) => place("plan"),
        Answer::Refused(refusal) => place(&refusal.number.to_string()),
        Answer::Overbooked(_) => place("9"),
        Answer::Unkept => place("16"),
    }
}

struct Group {
    name: &'static str,
    outcomes: [usize; OUTCOMES.len()],
}

/// The running count of a test: one comparison to a text.
pub struct Tests<'a> {
    pub program: &'a str,
    pub passed: usize,
    failed: usize,
    groups: Vec<Group>,
}

impl<'a> Tests<'a> {
    pub fn new(program: &'a str) -> Tests<'a> {
        Tests { program, passed: 0, failed: 0, groups: Vec::new() }
    }

    pub fn begin(&mut self, name: &'static str) {
        self.groups.push(Group { name, outcomes: [0; OUTCOMES.len()] });
    }

    pub fn stopped(&self) -> bool {
        self.failed >= MOST_DIFFERENCES
    }

    /// Runs the program on one text of the last begun group; `which` says how
    /// to find the text again.
    pub fn compare(&mut self, which: &str, text: &[u8], feed: Feed) {
        let program = self.program;
        self.judge(which, text, |expected| compare(program, feed, expected));
    }

    /// Counts one text of the last begun group by the given comparison.
    pub fn judge(
        &mut self,
        which: &str,
        text: &[u8],
        compare: impl FnOnce(&[u8]) -> Result<(), String>,
    ) {
        if self.stopped() {
            return;
        }
        let answer = answer(text);
        let expected = write_answer(&answer);
        let group = self.groups.last_mut().expect("a begun group");
        group.outcomes[outcome(&answer)] += 1;
        let name = group.name;
        match compare(&expected) {
            Ok(()) => self.passed += 1,
            Err(got) => {
                let (text, expected) = (escaped(text), escaped(&expected));
                let what = format!("text \"{text}\"\n  expected \"{expected}\"\n  got {got}");
                self.fail(&format!("group {name}, {which}\n  {what}"));
            }
        }
    }

    /// What another count has seen, counted here as well.
    pub fn add(&mut self, other: &Tests) {
        self.passed += other.passed;
        self.failed += other.failed;
    }

    pub fn fail(&mut self, what: &str) {
        self.failed += 1;
        println!("difference {}: {what}", self.failed);
    }

    /// A group that never saw an outcome has not tested it.
    pub fn require(&mut self, name: &str, outcomes: &[&str]) {
        for outcome in outcomes {
            let seen = |group: &Group| group.name == name && group.outcomes[place(outcome)] > 0;
            if !self.groups.iter().any(seen) {
                self.fail(&format!("group {name} has no outcome {outcome}"));
            }
        }
    }

    pub fn print_counts(&self) {
        print!("{:<8} {:>6}", "group", "texts");
        for outcome in OUTCOMES {
            print!(" {outcome:>5}");
        }
        println!();
        for group in &self.groups {
            print!("{:<8} {:>6}", group.name, group.outcomes.iter().sum::<usize>());
            for count in group.outcomes {
                print!(" {count:>5}");
            }
            println!();
        }
    }

    /// The last line; true where nothing failed.
    pub fn finish(&self) -> bool {
        println!("{} passed, {} failed", self.passed, self.failed);
        self.failed == 0
    }
}
