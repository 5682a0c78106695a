//! Mode self: this program checked on what 01 says, and on days made by hand.

use crate::day_file::{read_day, write_day, Refusal};
use crate::draw::{draw_day, Random, DAMAGED_MOST};
use crate::groups::Tests;
use crate::heavy::slot_costs;
use crate::known::{
    day_text, Known, KnownValue, EDGES, KNOWN_DAYS, KNOWN_VALUES, P1_MOVES, P1_TRAINS,
    SMALL_INPUTS, TEXTS,
};
use crate::model::{
    rank, value, within_tracks, within_windows, MOST_BYTES_ACCEPTED, MOST_BYTES_PRINTED,
    MOST_BYTES_READ, MOST_BYTES_UNGROUPED,
};
use crate::plan::{allowed, answer, best, expected, Answer};
use crate::self_baselines::check_baselines;
use crate::self_calendar::check_calendar;
use crate::self_calls::check_calls;
use crate::self_direct::check_direct;
use crate::self_fewest::check_fewest;
use crate::self_long::check_long;
use crate::self_moving::check_moving;
use crate::self_search::check_search;
use crate::self_season::check_season;
use crate::self_sets::check_sets;
use crate::self_ties::check_ties;
use crate::special::{greatest_day, greatest_ungrouped, last_move, longest_plan_day, padded};

/// 01's two files of case P1, as it prints them.
const P1_FILE: &str = "trains tracks slots revisit split
4 2 2 1 1
train first last
1 1 2
2 1 2
3 1 2
4 1 2
to from boxes
1 4 1
3 1 3
3 4 5
4 2 6
4 3 1
";
const P1_PLAN: &str = "revisits splits direct cost\n1 7 9 8\ntrain slot\n1 2\n2 1\n3 2\n4 1\n";

/// The greatest plan file: by order 6 28, 26, 11 and twelve times 8 bytes.
const LONGEST_PLAN: &str = "revisits splits direct cost
11 20910 12750 1371057735
train slot
99988 2
99989 2
99990 2
99991 2
99992 2
99993 1
99994 1
99995 1
99996 1
99997 1
99998 1
99999 3
";

fn agrees(answer: &Answer, known: &Known) -> bool {
    match (answer, known) {
        (Answer::Plan(plan), Known::Best(slots, numbers)) => {
            plan.assignment == *slots && plan.value.numbers() == *numbers
        }
        (Answer::Overbooked(found), Known::Overbooked(numbers)) => {
            [found.first, found.last, found.bound] == *numbers
        }
        (Answer::Unkept, Known::Unkept) => true,
        (Answer::Refused(refusal), &Known::Refused(number, line)) => {
            *refusal == Refusal { number, line }
        }
        _ => false,
    }
}

impl Tests<'_> {
    pub fn check(&mut self, holds: bool, what: &str) {
        match holds {
            true => self.passed += 1,
            false => self.fail(what),
        }
    }

    pub fn check_text(&mut self, name: &str, text: &[u8], known: &Known) {
        let answer = answer(text);
        self.check(agrees(&answer, known), &format!("{name}: {answer:?}, but 01 says {known:?}"));
    }

    pub fn check_value(&mut self, known: &KnownValue) {
        let KnownValue { name, slots, numbers, .. } = known;
        let day = read_day(&known.text()).expect("a good day");
        let found = value(&day, slots).numbers();
        let what = format!("{name}, {slots:?}: {found:?}, but 01 says {numbers:?}");
        self.check(found == *numbers && within_windows(&day, slots) && allowed(&day, slots), &what);
    }
}

fn check_values(tests: &mut Tests) {
    KNOWN_VALUES.iter().for_each(|known| tests.check_value(known));
    let day = read_day(&day_text("4 2 2 0 1", P1_TRAINS, P1_MOVES)).expect("a good day");
    let precedes = |one: &[usize], other: &[usize]| rank(&day, one) < rank(&day, other);
    tests.check(precedes(&[2, 1, 2, 1], &[1, 2, 1, 2]), "P4: the later row comes first");
    tests.check(!precedes(&[1, 2, 1, 2], &[2, 1, 2, 1]), "P4: each row comes first");
    let day = read_day(P1_FILE.as_bytes()).expect("a good day");
    tests.check(!within_windows(&day, &[0, 1, 2, 2]), "12: slot 0 passes");
    tests.check(!within_tracks(&day, &[1, 1, 1, 2]), "13: three trains on two tracks pass");
    tests.check(within_tracks(&day, &[1, 1, 2, 2]), "two trains on two tracks do not pass");
}

fn check_printing(tests: &mut Tests) {
    let print = |text: &[u8]| String::from_utf8(expected(text)).expect("ASCII");
    tests.check(KNOWN_DAYS[0].text() == P1_FILE.as_bytes(), "P1's file differs from 01's");
    tests.check(print(P1_FILE.as_bytes()) == P1_PLAN, "P1's plan is printed otherwise");
    tests.check(print(b"") == "refusal line\n1 1\n", "a refusal is printed otherwise");
    let overbooked = print(&KNOWN_DAYS[6].text());
    let wanted = "refusal first last trains\n9 1 1 3\n";
    tests.check(overbooked == wanted, "refusal 9 is printed otherwise");
    let longest = print(&write_day(&longest_plan_day()));
    tests.check(longest == LONGEST_PLAN, "the greatest plan file is printed otherwise");
    tests.check(longest.len() == MOST_BYTES_PRINTED, "the greatest plan file has another length");
}

/// What the slots cost adds up to the cost; six trains that receive from six
/// others at the greatest weights and boxes, all of them revisiting, are the
/// dearest slot.
fn check_slot_costs(tests: &mut Tests) {
    let halves = [1, 1, 1, 1, 1, 1, 2, 2, 2, 2, 2, 2];
    let costs = slot_costs(&greatest_day(), &halves);
    tests.check(costs[..2] == [602_004_510, 601_611_300], "the dearest slot costs otherwise");
    for seed in 0..200 {
        let day = draw_day(&mut Random(seed), DAMAGED_MOST);
        if let Some(plan) = best(&day) {
            let sum: usize = slot_costs(&day, &plan.assignment).iter().sum();
            tests.check(sum == plan.value.cost, &format!("seed {seed}: the slots cost {sum}"));
        }
    }
}

/// 12 trains pass and 13 don't; the greatest files have their lengths.
fn check_sizes(tests: &mut Tests) {
    for (count, known) in [(12, Known::Best(&[1; 12], [0; 4])), (13, Known::Refused(3, 2))] {
        let trains: Vec<String> = (1..=count).map(|number| format!("{number} 1 1")).collect();
        let trains: Vec<&str> = trains.iter().map(String::as_str).collect();
        let text = day_text(&format!("{count} 12 1 1 1"), &trains, &[]);
        tests.check_text(&format!("{count} trains"), &text, &known);
    }
    let greatest = write_day(&greatest_day());
    tests.check(greatest.len() == MOST_BYTES_ACCEPTED, "the greatest day has another length");
    tests.check(read_day(&greatest) == Ok(greatest_day()), "the greatest day reads otherwise");
    tests.check(best(&greatest_day()).is_some(), "the greatest day has no plan");
    let unended = &greatest[..greatest.len() - 1];
    tests.check_text("no byte 10 at the end", unended, &Known::Refused(2, 161));
    let longer = padded(&greatest, b"12 99999\n", 2 * MOST_BYTES_READ);
    tests.check_text("a 13th row of a group", &longer, &Known::Refused(15, 162));
    let ungrouped = write_day(&greatest_ungrouped());
    tests.check(ungrouped.len() == MOST_BYTES_UNGROUPED, "without groups the length is another");
    let unended = &ungrouped[..ungrouped.len() - 1];
    tests.check_text("no byte 10 after the moves", unended, &Known::Refused(2, 148));
    let longer = padded(&ungrouped, last_move().as_bytes(), 2 * MOST_BYTES_READ);
    tests.check_text("a 133rd move", &longer, &Known::Refused(7, 149));
}

pub fn check_self() -> bool {
    let mut tests = Tests::new("");
    for day in KNOWN_DAYS.iter().chain(&SMALL_INPUTS).chain(&EDGES) {
        tests.check_text(day.name, &day.text(), &day.outcome);
    }
    for (name, text, known) in TEXTS {
        tests.check_text(name, text.as_bytes(), &known);
    }
    check_values(&mut tests);
    check_slot_costs(&mut tests);
    check_printing(&mut tests);
    check_sizes(&mut tests);
    check_baselines(&mut tests);
    check_calls(&mut tests);
    check_search(&mut tests);
    check_sets(&mut tests);
    check_ties(&mut tests);
    check_direct(&mut tests);
    check_moving(&mut tests);
    check_fewest(&mut tests);
    check_long(&mut tests);
    check_season(&mut tests);
    check_calendar(&mut tests);
    tests.finish()
}
