//! Mode calls: the functions of include/yard.h but the baselines, on all texts
//! of mode generated and on days made for the baselines.

use crate::case::Case;
use crate::day_file::write_day;
use crate::draw::{draw_crowded, Random, DAMAGED_MOST};
use crate::groups::{Tests, MOST_DIFFERENCES};
use crate::header;
use crate::known::KNOWN_VALUES;
use crate::known_direct::{GreatDay, DIRECT_VALUES, GREAT_DAYS};
use crate::model::{MOST_BYTES_ACCEPTED, MOST_BYTES_PRINTED, MOST_SLOTS, MOST_TRAINS};
use crate::plan::broken;
use crate::process::escaped;
use crate::seen::{Seen, LEAST_SEEN};
use crate::special::special_texts;
use crate::stack::compare_in_little_stack;
use crate::sys;
use crate::texts::{
    damaged_texts, direct_texts, grouped_texts, hand_made_days, heavy_texts, known_texts,
    pieced_texts, sound_texts, tied_texts, Named,
};
use crate::threads::compare_at_once;
use crate::{call_answer, call_check, call_plan, call_value, call_workspace};
use std::collections::BTreeSet;

const CROWDED_DAYS: usize = 500;
const CROWDED_SEED: u64 = 10_000_000;

/// A function under test: how it is compared on a text, and what has to be
/// seen of it.
pub struct Call {
    pub name: &'static str,
    pub compare: fn(&Case, &mut Seen) -> Result<(), String>,
    required: fn() -> Vec<String>,
}

#[rustfmt::skip]
pub const CALLS: [Call; 5] = [
    Call { name: "yard_check", compare: call_check::compare, required: call_check::required },
    Call { name: "yard_value", compare: call_value::compare, required: call_value::required },
    Call { name: "yard_plan", compare: call_plan::compare, required: call_plan::required },
    Call { name: "yard_plan_in_workspace", compare: call_workspace::compare, required: call_workspace::required },
    Call { name: "yard_answer", compare: call_answer::compare, required: call_answer::required },
];

/// The running test: for each text one comparison to each function.
struct Run {
    tests: Tests<'static>,
    texts: Vec<(&'static str, usize)>,
    seen: [Seen; CALLS.len()],
    /// Of the next text.
    index: usize,
}

impl Run {
    fn new() -> Run {
        Run { tests: Tests::new(""), texts: Vec::new(), seen: Default::default(), index: 0 }
    }

    fn group(&mut self, name: &'static str, texts: impl IntoIterator<Item = Named>) {
        let mut count = 0;
        for (which, text) in texts {
            if self.tests.stopped() {
                break;
            }
            self.judge(&format!("group {name}, {which}"), &text);
            count += 1;
        }
        self.texts.push((name, count));
    }

    fn judge(&mut self, which: &str, text: &[u8]) {
        let case = Case::new(self.index, text);
        self.index += 1;
        for (call, seen) in CALLS.iter().zip(&mut self.seen) {
            match (call.compare)(&case, seen) {
                Ok(()) => self.tests.passed += 1,
                Err(what) => {
                    let (name, text) = (call.name, escaped(text));
                    self.tests.fail(&format!("{which}\n  text \"{text}\"\n  {name}, {what}"));
                }
            }
        }
    }

    fn require_all(&mut self) {
        for (call, seen) in CALLS.iter().zip(&self.seen) {
            let required = (call.required)();
            if let Some(what) = seen.not_in(&required) {
                broken(&format!("{}, {what} is counted and not required", call.name));
            }
            for what in required {
                let (name, count) = (call.name, seen.count(&what));
                if count < LEAST_SEEN {
                    let what = format!("{name}, {what}: seen {count} times");
                    self.tests.fail(&format!("{what}, {LEAST_SEEN} are needed"));
                }
            }
        }
    }

    fn print_counts(&self) {
        for (name, count) in &self.texts {
            println!("{name:<8} {count:>6} texts");
        }
        for (call, seen) in CALLS.iter().zip(&self.seen) {
            let required = (call.required)();
            let counts = required.iter().map(|what| (seen.count(what), what));
            if let Some((count, what)) = counts.min() {
                let (name, kinds) = (call.name, required.len());
                println!("{name}: {kinds} things to see, least often {what}, {count} times");
            }
        }
    }
}

/// The header declares the functions that are called here and no others, and
/// its sizes suffice; the library is of the header's version.
fn check_header(tests: &mut Tests) {
    let declared: BTreeSet<String> = header::prototypes().into_iter().collect();
    let called: BTreeSet<String> = sys::PROTOTYPES.iter().map(|name| name.to_string()).collect();
    let apart: Vec<&String> = declared.symmetric_difference(&called).collect();
    tests.check(apart.is_empty(), &format!("in one of yard.h and this program only: {apart:?}"));
    let version = unsafe { sys::yard_version() };
    let wanted = header::VERSION as u64;
    tests.check(version == wanted, &format!("yard_version() is {version}, in yard.h {wanted}"));
    let sizes = [
        ("YARD_ANSWER_BYTES", header::ANSWER_BYTES, MOST_BYTES_PRINTED),
        ("YARD_DAY_BYTES", header::DAY_BYTES, MOST_BYTES_ACCEPTED),
        ("YARD_MOST_TRAINS", header::MOST_TRAINS, MOST_TRAINS),
        ("YARD_COST_WORDS", header::COST_WORDS, 1 << MOST_TRAINS),
        ("YARD_CHOICE_WORDS", header::CHOICE_WORDS, MOST_SLOTS << MOST_TRAINS),
    ];
    for (name, size, needed) in sizes {
        tests.check(size >= needed, &format!("{name} is {size}, {needed} are needed"));
    }
}

/// Assignments worked out by hand, on their days.
fn check_values(tests: &mut Tests) {
    let known = KNOWN_VALUES.iter().chain(&DIRECT_VALUES);
    let known = known.map(|known| (known.name, known.text(), known.slots, known.numbers));
    let great = |great: &'static GreatDay| {
        (great.name, write_day(&(great.day)()), &great.slots[..], great.numbers)
    };
    for (name, text, slots, numbers) in known.chain(GREAT_DAYS.iter().map(great)) {
        let compared = call_value::compare_known(&Case::new(0, &text), slots, numbers);
        tests.check(compared.is_ok(), &format!("yard_value, {name}: {compared:?}"));
    }
}

/// Days made by hand for the baselines, and days that fill their slots.
fn crowded_texts() -> impl Iterator<Item = Named> {
    let made = hand_made_days().map(|day| (day.name.to_string(), day.text()));
    made.chain((CROWDED_SEED..).take(CROWDED_DAYS).map(|seed| {
        let day = draw_crowded(&mut Random(seed), DAMAGED_MOST);
        (format!("seed {seed}"), write_day(&day))
    }))
}

pub fn calls() -> bool {
    let mut run = Run::new();
    check_header(&mut run.tests);
    check_values(&mut run.tests);
    run.group("known", known_texts());
    run.group("sound", sound_texts());
    run.group("sets", grouped_texts());
    run.group("ties", tied_texts());
    run.group("direct", direct_texts());
    run.group("crowded", crowded_texts());
    run.group("heavy", heavy_texts());
    run.group("damaged", damaged_texts());
    run.group("special", special_texts());
    run.group("pieces", pieced_texts().map(|(named, _)| named));
    if run.tests.stopped() {
        println!("stopped after {MOST_DIFFERENCES} differences");
    } else {
        run.require_all();
        compare_at_once(&mut run.tests);
        compare_in_little_stack(&mut run.tests);
    }
    run.print_counts();
    run.tests.finish()
}
