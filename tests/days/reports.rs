//! Counting the baselines' reports by groups, and requiring that every kind of
//! report, and every difference that a mistake would make, was seen.

use crate::groups::{Tests, MOST_DIFFERENCES};
use crate::library::{complete, planned, report, Planned, Report, BASELINES};
use crate::miscountings::MISCOUNTINGS;
use crate::misreadings::MISREADINGS;
use crate::misreports::{MISPLACINGS, MISREPORTS};
use crate::procedures::myopic_by;
use crate::process::escaped;
use crate::seen::{Seen, LEAST_SEEN};

/// A baseline as cheap as the plan, a dearer one, and the refusals, 14 with
/// a position and with 0.
const OUTCOMES: [&str; 14] =
    ["equal", "dearer", "1", "2", "3", "4", "5", "6", "7", "9", "14", "14 0", "15", "16"];

/// The place of a report in `OUTCOMES`.
fn outcome(report: &Report) -> usize {
    let number = report.refusal.to_string();
    let name = match (report.refusal, report.numbers[0]) {
        (0, _) if report.saving == 0 => "equal",
        (0, _) => "dearer",
        (14, 0) => "14 0",
        _ => &number,
    };
    OUTCOMES.iter().position(|outcome| *outcome == name).expect("one of the outcomes")
}

struct Group {
    name: &'static str,
    texts: usize,
    /// For each baseline.
    outcomes: [[usize; OUTCOMES.len()]; BASELINES.len()],
}

/// The running test: for each text one comparison to each baseline.
pub struct Run {
    tests: Tests<'static>,
    groups: Vec<Group>,
    /// Days on which first come and the myopic procedure report differently.
    parted: usize,
    /// Days on which each misreading reports otherwise than the paper.
    told: Seen,
}

/// A mistake in the report of one of the baselines.
fn misreported(baseline: &str, mistake: &str) -> String {
    format!("{baseline}: {mistake}")
}

/// These mistakes in the report of each baseline.
fn on_each(mistakes: &[&str]) -> Vec<String> {
    let names = |baseline: &str| -> Vec<String> {
        mistakes.iter().map(|mistake| misreported(baseline, mistake)).collect()
    };
    BASELINES.iter().flat_map(|baseline| names(baseline.name)).collect()
}

/// The misreadings that have to be told apart from the paper.
fn misreadings() -> Vec<String> {
    let myopic = MISREADINGS.iter().map(|(name, _)| name.to_string());
    let first_come = MISPLACINGS.iter().map(|(name, _)| name.to_string());
    myopic.chain(first_come).chain(on_each(&MISREPORTS.map(|(name, _)| name))).collect()
}

/// The same of mistakes about direct moves.
fn miscountings() -> Vec<String> {
    on_each(&MISCOUNTINGS.map(|(name, _)| name))
}

impl Run {
    pub fn new() -> Run {
        Run { tests: Tests::new(""), groups: Vec::new(), parted: 0, told: Seen::default() }
    }

    pub fn begin(&mut self, name: &'static str) {
        let outcomes = [[0; OUTCOMES.len()]; BASELINES.len()];
        self.groups.push(Group { name, texts: 0, outcomes });
    }

    /// Calls both baselines on one text of the last begun group; `which` says
    /// how to find the text again.
    pub fn judge(&mut self, which: &str, text: &[u8]) {
        if self.tests.stopped() {
            return;
        }
        let planned = planned(text);
        let reports = BASELINES.map(|baseline| baseline.expected(&planned));
        let group = self.groups.last_mut().expect("a begun group");
        group.texts += 1;
        for (index, report) in reports.iter().enumerate() {
            group.outcomes[index][outcome(report)] += 1;
            match BASELINES[index].compare(text, report) {
                Ok(()) => self.tests.passed += 1,
                Err(what) => {
                    let (name, text) = (group.name, escaped(text));
                    let what = format!("group {name}, {which}\n  text \"{text}\"\n  {what}");
                    self.tests.fail(&what);
                }
            }
        }
        self.tell_apart(&planned, &reports);
    }

    fn tell_apart(&mut self, planned: &Planned, reports: &[Report; 2]) {
        let Ok((day, plan)) = planned else { return };
        let [first_come, myopic] = reports;
        self.parted += usize::from(first_come != myopic);
        for (name, select) in MISREADINGS {
            let misread = report(day, plan, &myopic_by(day, select));
            self.told.note_if(misread != *myopic, name);
        }
        for (name, misplace) in MISPLACINGS {
            let misread = report(day, plan, &misplace(day));
            self.told.note_if(misread != *first_come, name);
        }
        for (baseline, report) in BASELINES.iter().zip(reports) {
            let slots = (baseline.slots)(day);
            for (name, misreport) in MISREPORTS {
                let misread = misreport(day, plan, &slots);
                self.told.note_if(misread != *report, &misreported(baseline.name, name));
            }
            for (name, miscount) in MISCOUNTINGS.iter().filter(|_| report.refusal == 0) {
                let numbers = miscount(day, &complete(&slots)).numbers();
                self.told.note_if(numbers != report.numbers, &misreported(baseline.name, name));
            }
        }
    }

    fn require(&mut self, seen: usize, what: &str) {
        if seen < LEAST_SEEN {
            self.tests.fail(&format!("{what}: seen {seen} times, {LEAST_SEEN} are needed"));
        }
    }

    /// Each outcome of each baseline, and each difference, was seen.
    fn require_all(&mut self) {
        for (index, baseline) in BASELINES.iter().enumerate() {
            for (place, outcome) in OUTCOMES.iter().enumerate() {
                let seen = self.groups.iter().map(|group| group.outcomes[index][place]).sum();
                self.require(seen, &format!("{} with outcome {outcome}", baseline.name));
            }
        }
        self.require(self.parted, "first come and myopic differ");
        for name in misreadings().into_iter().chain(miscountings()) {
            self.require(self.told.count(&name), &name);
        }
    }

    fn print_counts(&self) {
        print!("{:<8} {:<10} {:>6}", "group", "baseline", "texts");
        for outcome in OUTCOMES {
            print!(" {outcome:>6}");
        }
        println!();
        for group in &self.groups {
            for (baseline, outcomes) in BASELINES.iter().zip(group.outcomes) {
                print!("{:<8} {:<10} {:>6}", group.name, baseline.name, group.texts);
                for count in outcomes {
                    print!(" {count:>6}");
                }
                println!();
            }
        }
        println!("days on which first come and myopic differ: {}", self.parted);
        println!("days on which a report would differ, were the papers misread:");
        for name in misreadings() {
            println!("{:>6} {name}", self.told.count(&name));
        }
        let miscounted = miscountings();
        let counts = miscounted.iter().map(|name| (self.told.count(name), name));
        if let Some((count, name)) = counts.min() {
            println!("and of {} about direct moves at least {count}: {name}", miscounted.len());
        }
    }

    /// The counts and the last line; true where nothing failed.
    pub fn finish(&mut self) -> bool {
        if self.tests.stopped() {
            println!("stopped after {MOST_DIFFERENCES} differences");
        } else {
            self.require_all();
        }
        self.print_counts();
        self.tests.finish()
    }
}
