//! Mode self, its part on trying assignments: moving groups as units leaves out
//! none that is allowed, and drawn days tell each mistake in it.

use crate::draw::{draw_grouped, Random, DAMAGED_MOST};
use crate::groups::Tests;
use crate::missteps::MISSTEPS;
use crate::model::{within_windows, Day};
use crate::plan::{allowed, any_allowed, each_allowed, try_each, Search, SEARCH};
use crate::sets::{groups, members, ungrouped};

const DRAWN_DAYS: u64 = 1500;

/// What the draws have to bring about, each on so many days.
const DRAWN: [&str; 4] = [
    "several allowed assignments",
    "no allowed assignment",
    "a group of several trains in different slots",
    "a group whose first train has another window",
];

const LEAST_DRAWN: usize = 20;

/// What is visited, in this order.
fn visited(day: &Day, search: Search) -> Vec<Vec<usize>> {
    let mut visited = Vec::new();
    each_allowed(day, search, |assignment| visited.push(assignment.to_vec()));
    visited
}

/// Trying each assignment within the windows does so: there are as many as the
/// windows hold, all inside, and none comes twice because they rise.
fn check_each(tests: &mut Tests, seed: u64, day: &Day) {
    let all = visited(day, try_each(|_, _| true));
    let whole = |assignment: &Vec<usize>| assignment.len() == day.trains.len();
    let inside = all.iter().all(|assignment| whole(assignment) && within_windows(day, assignment));
    let rising = all.windows(2).all(|two| two[0] < two[1]);
    let each = all.len() == day.assignments() && inside && rising;
    tests.check(each, &format!("seed {seed}: not each assignment is tried once"));
}

/// Which of `DRAWN` a day is, by its allowed assignments.
fn drawn_kinds(day: &Day, all: &[Vec<usize>]) -> [bool; DRAWN.len()] {
    let sets: Vec<Vec<usize>> = groups(day).iter().map(|&group| members(day, group)).collect();
    let moves = |set: &Vec<usize>| all.iter().any(|tried| tried[set[0]] != all[0][set[0]]);
    let window = |position: usize| (day.trains[position].first, day.trains[position].last);
    let differs = |set: &Vec<usize>| set.iter().any(|&other| window(other) != window(set[0]));
    [
        all.len() > 1,
        all.is_empty(),
        sets.iter().any(|set| set.len() > 1 && moves(set)),
        sets.iter().any(differs),
    ]
}

pub fn check_search(tests: &mut Tests) {
    let mut counts = [0; DRAWN.len()];
    let mut told = [0; MISSTEPS.len()];
    for seed in 0..DRAWN_DAYS {
        let day = draw_grouped(&mut Random(seed), DAMAGED_MOST / 10);
        check_each(tests, seed, &day);
        let all = visited(&day, try_each(allowed));
        let found = visited(&day, SEARCH);
        tests.check(found == all, &format!("seed {seed}: visited {found:?}, but {all:?} is right"));
        for day in [&day, &ungrouped(&day)] {
            let any = !visited(day, try_each(allowed)).is_empty();
            tests.check(any_allowed(day) == any, &format!("seed {seed}: any allowed is not {any}"));
        }
        for (count, holds) in counts.iter_mut().zip(drawn_kinds(&day, &all)) {
            *count += usize::from(holds);
        }
        for (count, (_, misstep)) in told.iter_mut().zip(MISSTEPS) {
            *count += usize::from(visited(&day, misstep) != all);
        }
    }
    let mistakes = MISSTEPS.iter().map(|(name, _)| *name);
    let names = DRAWN.into_iter().chain(mistakes);
    for (name, count) in names.zip(counts.into_iter().chain(told)) {
        let seen = format!("{name}: on {count} drawn days, {LEAST_DRAWN} are needed");
        tests.check(count >= LEAST_DRAWN, &seen);
    }
}
