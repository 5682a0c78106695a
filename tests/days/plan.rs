//! The answer to a text: planning it, and the bytes that are printed for it.

use crate::boxes::all_boxes;
use crate::day_file::{read_day, Refusal};
use crate::model::{
    rank, value, within_tracks, within_windows, Day, Train, Value, MOST_BYTES_READ,
};
use crate::sets::{has_groups, keeps_groups, singly, ungrouped, units};

// ---------------------------------------------------------------------------
// Planning by trying all assignments (01, The calls)
// ---------------------------------------------------------------------------

#[derive(Clone, Debug, PartialEq)]
pub struct Plan {
    pub numbers: Vec<usize>,
    pub assignment: Vec<usize>,
    pub value: Value,
}

#[derive(Clone, Copy, Debug, PartialEq)]
pub struct Interval {
    pub first: usize,
    pub last: usize,
    pub bound: usize,
}

/// Whether an assignment within the windows is allowed.
pub type Allowed = fn(&Day, &[usize]) -> bool;

pub fn allowed(day: &Day, assignment: &[usize]) -> bool {
    within_tracks(day, assignment) && keeps_groups(day, assignment)
}

/// A group's slot is tried in the window of its first train only, and the other
/// trains have windows of their own.
fn allowed_within(day: &Day, assignment: &[usize]) -> bool {
    within_windows(day, assignment) && allowed(day, assignment)
}

/// Which assignments are tried, and which of them are allowed. Trains of a unit
/// take one slot together; a train is in one unit.
#[derive(Clone, Copy)]
pub struct Search {
    pub units: fn(&Day) -> Vec<Vec<usize>>,
    pub step: fn(&Day, &[Vec<usize>], &mut [usize]) -> bool,
    pub allowed: Allowed,
}

/// Finds what the papers allow. An assignment that keeps the groups is known by
/// the slots of each group's first train and of the trains in no group, so the
/// others are not tried: mode self holds that this leaves none out.
pub const SEARCH: Search = Search { units: units_in_order, step, allowed: allowed_within };

/// Tries each assignment within the windows: what the caller chooses may part
/// groups.
pub fn try_each(allowed: Allowed) -> Search {
    Search { units: singly, step, allowed }
}

/// The units by their first positions, so that the order in which assignments
/// are visited is that of trying each.
fn units_in_order(day: &Day) -> Vec<Vec<usize>> {
    let mut units = units(day);
    units.sort();
    units
}

/// Puts the trains of a unit into a slot.
fn put(unit: &[usize], slot: usize, assignment: &mut [usize]) {
    unit.iter().for_each(|&position| assignment[position] = slot);
}

/// Each unit in the first slot of its first train.
fn start(day: &Day, units: &[Vec<usize>]) -> Vec<usize> {
    let mut assignment = vec![0; day.trains.len()];
    units.iter().for_each(|unit| put(unit, day.trains[unit[0]].first, &mut assignment));
    assignment
}

/// Steps like an odometer through the windows of the units' first trains; false
/// after the last.
fn step(day: &Day, units: &[Vec<usize>], assignment: &mut [usize]) -> bool {
    for unit in units.iter().rev() {
        let (slot, train) = (assignment[unit[0]], &day.trains[unit[0]]);
        if slot < train.last {
            put(unit, slot + 1, assignment);
            return true;
        }
        put(unit, train.first, assignment);
    }
    false
}

/// Visits each assignment that is tried and allowed.
pub fn each_allowed(day: &Day, search: Search, mut visit: impl FnMut(&[usize])) {
    let units = (search.units)(day);
    let mut assignment = start(day, &units);
    loop {
        if (search.allowed)(day, &assignment) {
            visit(&assignment);
        }
        if !(search.step)(day, &units, &mut assignment) {
            return;
        }
    }
}

/// Whether there is an allowed assignment: after the first one none is tried.
pub fn any_allowed(day: &Day) -> bool {
    let units = units_in_order(day);
    let mut assignment = start(day, &units);
    while !allowed_within(day, &assignment) {
        if !step(day, &units, &mut assignment) {
            return false;
        }
    }
    true
}

/// The allowed assignment of the lowest rank, by the given ranks.
pub fn first_by<R: Ord>(
    day: &Day,
    search: Search,
    rank: impl Fn(&[usize]) -> R,
) -> Option<Vec<usize>> {
    let mut first: Option<(R, Vec<usize>)> = None;
    each_allowed(day, search, |assignment| {
        let rank = rank(assignment);
        if first.as_ref().is_none_or(|(lowest, _)| rank < *lowest) {
            first = Some((rank, assignment.to_vec()));
        }
    });
    first.map(|(_, assignment)| assignment)
}

/// The best plan.
pub fn best(day: &Day) -> Option<Plan> {
    best_of(day, SEARCH)
}

/// The best plan among assignments of the caller's choice.
pub fn best_by(day: &Day, allowed: Allowed) -> Option<Plan> {
    best_of(day, try_each(allowed))
}

fn best_of(day: &Day, search: Search) -> Option<Plan> {
    let assignment = first_by(day, search, |assignment| rank(day, assignment))?;
    let numbers = day.trains.iter().map(|train| train.number).collect();
    let value = value(day, &assignment);
    Some(Plan { numbers, assignment, value })
}

/// The overbooked intervals, by their first slots and for each by their last.
pub fn overbooked(day: &Day) -> Vec<Interval> {
    let mut intervals = Vec::new();
    for first in 1..=day.slots {
        for last in first..=day.slots {
            let inside = |train: &&Train| first <= train.first && train.last <= last;
            let bound = day.trains.iter().filter(inside).count();
            if bound > day.tracks * (last - first + 1) {
                intervals.push(Interval { first, last, bound });
            }
        }
    }
    intervals
}

/// The overbooked interval with the smallest first slot and for it the
/// smallest last slot.
pub fn first_overbooked(day: &Day) -> Option<Interval> {
    overbooked(day).first().copied()
}

/// What yard-plan has to answer to a text.
#[derive(Clone, Debug, PartialEq)]
pub enum Answer {
    Plan(Plan),
    Refused(Refusal),
    Overbooked(Interval),
    /// No interval is overbooked, and still the groups can't be kept.
    Unkept,
}

/// A day has no assignment that is allowed but for its groups exactly when an
/// interval is overbooked. The two are found here independently; if they
/// disagree, it is this test program that is wrong, and nothing it says can be
/// relied on.
pub fn plan(day: &Day) -> Answer {
    match (best(day), first_overbooked(day)) {
        (Some(plan), None) => Answer::Plan(plan),
        (None, Some(interval)) => Answer::Overbooked(interval),
        (None, None) if has_groups(day) && any_allowed(&ungrouped(day)) => Answer::Unkept,
        (found, interval) => broken(&format!("{day:?} has {found:?}, yet {interval:?}")),
    }
}

/// The test program contradicts itself: says so and ends.
pub fn broken(what: &str) -> ! {
    println!("the test program itself is wrong: {what}");
    println!("0 passed, 1 failed");
    std::process::exit(1)
}

/// The bytes that the program reads of a text.
fn part_read(text: &[u8]) -> &[u8] {
    &text[..text.len().min(MOST_BYTES_READ)]
}

/// Split and direct moves of a plan are counted apart, and all boxes a third
/// time; if they don't add up, it is this test program that is wrong.
pub fn answer(text: &[u8]) -> Answer {
    let text = part_read(text);
    let answer = match read_day(text) {
        Ok(day) => plan(&day),
        Err(refusal) => Answer::Refused(refusal),
    };
    match &answer {
        Answer::Plan(plan) if plan.value.splits + plan.value.direct != all_boxes(text) => {
            broken(&format!("{plan:?} for {} boxes", all_boxes(text)))
        }
        _ => answer,
    }
}

// ---------------------------------------------------------------------------
// Writing (01, The program; the first names line by order 6 of 02)
// ---------------------------------------------------------------------------

fn write_plan(plan: &Plan) -> String {
    let Value { revisits, splits, direct, cost } = plan.value;
    let mut text = "revisits splits direct cost\n".to_string();
    text += &format!("{revisits} {splits} {direct} {cost}\ntrain slot\n");
    for (number, slot) in plan.numbers.iter().zip(&plan.assignment) {
        text += &format!("{number} {slot}\n");
    }
    text
}

pub fn write_answer(answer: &Answer) -> Vec<u8> {
    let text = match answer {
        Answer::Plan(plan) => write_plan(plan),
        Answer::Refused(Refusal { number, line }) => format!("refusal line\n{number} {line}\n"),
        Answer::Overbooked(Interval { first, last, bound }) => {
            format!("refusal first last trains\n9 {first} {last} {bound}\n")
        }
        Answer::Unkept => "refusal line\n16 0\n".to_string(),
    };
    text.into_bytes()
}

/// The exact bytes that yard-plan prints for an input.
pub fn expected(text: &[u8]) -> Vec<u8> {
    write_answer(&answer(text))
}
