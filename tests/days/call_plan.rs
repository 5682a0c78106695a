//! yard_plan: slots and numbers of the plan, or the first of its refusals: 10
//! for the numbers, 1 to 7 or 15, 10 for the row, 9 or 16.

use crate::boxes::add_up;
use crate::case::{unless_too_few, Case, Outcome, KINDS};
use crate::header::MOST_TRAINS;
use crate::lent::{lent_text, returned, Lent, Marks};
use crate::miscountings::{direct_of, MISCOUNTINGS, OTHERS};
use crate::misplannings::MISPLANNINGS;
use crate::model::{Day, NUMBERS};
use crate::plan::{overbooked, Interval, Plan};
use crate::rotation::{chosen, supposed};
use crate::seen::Seen;
use crate::sets::has_groups;
use crate::sys;

/// Days of no more assignments are planned by each mistake too.
const MISPLANNED_MOST: usize = 2000;

/// The lengths of row and numbers, for a day of so many trains.
pub struct Lending {
    name: &'static str,
    row: fn(usize) -> usize,
    numbers: usize,
}

const fn lending(name: &'static str, row: fn(usize) -> usize, numbers: usize) -> Lending {
    Lending { name, row, numbers }
}

/// With these the day is planned. A length of 256 has no low bits.
#[rustfmt::skip]
const SUFFICIENT: [Lending; 5] = [
    lending("row n", |n| n, NUMBERS),
    lending("row n, 6 numbers", |n| n, 6),
    lending("row n + 1", |n| n + 1, NUMBERS),
    lending("row YARD_MOST_TRAINS, 5 numbers", |_| MOST_TRAINS, 5),
    lending("row 256, 256 numbers", |_| 256, 256),
];

#[rustfmt::skip]
const SHORT: [Lending; 10] = [
    lending("row n - 1", |n| n - 1, NUMBERS),
    lending("row n - 1, 6 numbers", |n| n - 1, 6),
    lending("no row", |_| 0, NUMBERS),
    lending("no row, 5 numbers", |_| 0, 5),
    lending("row n, no number", |n| n, 0),
    lending("row n, 1 number", |n| n, 1),
    lending("row n, 2 numbers", |n| n, 2),
    lending("row n, 3 numbers", |n| n, 3),
    lending("row YARD_MOST_TRAINS, 3 numbers", |_| MOST_TRAINS, 3),
    lending("no row, 3 numbers", |_| 0, 3),
];

const INTERVALS: [&str; 4] = [
    "9: not the whole day",
    "9: other trains are bound elsewhere",
    "9: another last slot would do",
    "9: another first slot would do",
];

fn on_kind(name: &str, kind: &str) -> String {
    format!("{name} on {kind}")
}

pub fn required() -> Vec<String> {
    let mut required = INTERVALS.map(str::to_string).to_vec();
    required.extend(MISPLANNINGS.iter().map(|(name, _)| name.to_string()));
    required.extend(MISCOUNTINGS.iter().map(|(name, _)| name.to_string()));
    required.extend(OTHERS.iter().map(|(name, _)| name.to_string()));
    for lending in SUFFICIENT.iter().chain(&SHORT) {
        required.extend(KINDS.map(|kind| on_kind(lending.name, kind)));
    }
    required
}

/// What there is to choose from on a day with 9.
fn note_intervals(seen: &mut Seen, day: &Day) {
    let intervals = overbooked(day);
    let Some(Interval { first, last, bound }) = intervals.first() else { return };
    seen.note_if((*first, *last) != (1, day.slots), INTERVALS[0]);
    seen.note_if(*bound < day.trains.len(), INTERVALS[1]);
    let another = |other: &Interval| other.first == *first && other.last != *last;
    seen.note_if(intervals.iter().any(another), INTERVALS[2]);
    seen.note_if(intervals.iter().any(|other| other.first != *first), INTERVALS[3]);
}

/// What a mistake would answer otherwise.
fn note_misplanned(seen: &mut Seen, case: &Case, day: &Day) {
    if has_groups(day) && day.assignments() <= MISPLANNED_MOST {
        for (name, misplan) in MISPLANNINGS {
            seen.note_if(misplan(day) != case.answer, name);
        }
    }
}

/// The same of mistakes about the plan's direct moves.
fn note_miscounted(seen: &mut Seen, day: &Day, plan: &Plan) {
    for (name, miscount) in MISCOUNTINGS {
        seen.note_if(miscount(day, &plan.assignment) != plan.value, name);
    }
    if day.assignments() <= MISPLANNED_MOST {
        for (name, other) in OTHERS {
            let told = direct_of(day, other).is_some_and(|direct| direct != plan.value.direct);
            seen.note_if(told, name);
        }
    }
}

/// What a call that plans has to return where memory enough is lent or not,
/// and the slots that it writes.
pub fn planned(case: &Case, suffices: bool, numbers: usize) -> (Outcome, Vec<u8>) {
    let outcome = match case.read {
        Ok(_) if !suffices => Outcome::carrying(10, 0),
        _ => case.planned(),
    };
    let outcome = unless_too_few(numbers, outcome);
    let slots = match case.plan() {
        Some(plan) if outcome.refusal == 0 => plan.assignment.iter().map(|&slot| slot as u8),
        _ => return (outcome, Vec::new()),
    };
    (outcome, slots.collect())
}

/// The memory lent to the call.
pub struct Memory {
    pub text: Lent<u8>,
    pub row: Lent<u8>,
    pub numbers: Lent<u64>,
    pub trains: Lent<usize>,
}

impl Memory {
    pub fn lent(text: &[u8], row: usize, numbers: usize, marks: Marks) -> Memory {
        Memory {
            text: lent_text(text, marks),
            row: Lent::marked_room("row", row, MOST_TRAINS, marks),
            numbers: Lent::marked("numbers", numbers, marks),
            trains: Lent::marked("trains", 1, marks),
        }
    }

    /// Makes the call and returns what it returns.
    pub fn plan(&mut self) -> u64 {
        let Memory { text, row, numbers, trains } = self;
        unsafe {
            sys::yard_plan(
                text.pointer(),
                text.length(),
                row.pointer(),
                row.length(),
                numbers.pointer(),
                numbers.length(),
                trains.pointer(),
            )
        }
    }
}

fn compare_one(case: &Case, n: usize, lending: &Lending, marks: Marks) -> Result<(), String> {
    let mut memory = Memory::lent(case.text, (lending.row)(n), lending.numbers, marks);
    let got = memory.plan();
    let Memory { text, row, numbers, trains } = &memory;
    let (outcome, slots) = planned(case, row.length() >= n, numbers.length());
    returned(got, outcome.refusal)?;
    numbers.holds(&outcome.written(numbers.length()))?;
    if got == 0 {
        add_up(case.boxes, numbers.words())?;
    }
    trains.holds(&[slots.len()])?;
    row.holds(&slots)?;
    text.kept()
}

pub fn compare(case: &Case, seen: &mut Seen) -> Result<(), String> {
    let (n, _) = supposed(case);
    if let Ok(day) = &case.read {
        note_intervals(seen, day);
        note_misplanned(seen, case, day);
        case.plan().into_iter().for_each(|plan| note_miscounted(seen, day, plan));
    }
    let sufficient = SUFFICIENT.iter().enumerate();
    let sufficient = sufficient.filter(|(way, _)| chosen(case, *way, SUFFICIENT.len()));
    for (turn, lending) in sufficient.chain(SHORT.iter().enumerate()) {
        seen.note(&on_kind(lending.name, case.kind()));
        compare_one(case, n, lending, Marks::of(case.index + turn))
            .map_err(|what| format!("{} for {n} trains: {what}", lending.name))?;
    }
    Ok(())
}
