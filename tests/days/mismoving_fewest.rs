//! Mistakes about order 8 of 02 in the plans of moving days, which the states of mode
//! fewest have to tell.

use crate::account::Account;
use crate::account_plan::Replanned;
use crate::mismoving::planned_in;
use crate::mismoving_plans;
use crate::model::Day;
use crate::moving_rules::Replan;

/// Those of mismoving_plans.rs that are told here too. The others have right counts,
/// or are about refusals.
const SHARED: [&str; 9] = [
    "every slot is open again",
    "served trains change closed slots",
    "closed slots are used",
    "the first open slot isn't used",
    "set boxes keeps the plan",
    "cancel keeps the plan of the others",
    "add keeps the others where it can",
    "groups are not kept",
    "the cost of the day without weights",
];

/// By order 8 it is none where the weights are the sum and 1.
const NO_MISTAKE: &str = "revisits before cost";

/// To leave out what served trains receive or supply would be none: they come back
/// for each supplier that isn't served, wherever it goes, and its boxes are split.
const MISPLANS: [(&str, Replan); 3] = [
    ("split moves before revisits", |a, _, _| weighed(a, 0)),
    ("half the sum", |a, _, _| weighed(a, a.boxes.values().sum::<usize>() / 2)),
    ("the number of moves for the sum", |a, _, _| weighed(a, a.boxes.len())),
];

fn shared(name: &str) -> (&'static str, Replan) {
    *mismoving_plans::MISPLANS.iter().find(|(found, _)| *found == name).expect("its name")
}

pub fn no_mistake() -> Replan {
    shared(NO_MISTAKE).1
}

pub fn mistakes() -> impl Iterator<Item = (&'static str, Replan)> {
    SHARED.iter().map(|name| shared(name)).chain(MISPLANS)
}

/// With another revisit weight.
fn weighed(a: &Account, revisit_weight: usize) -> Replanned {
    planned_in(a, &Day { revisit_weight, ..a.bound_day() })
}
