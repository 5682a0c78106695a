//! Mistakes about order 7 of 02, each as a stand-in of the five functions that
//! makes it. The comparison of mode moving has to tell each of them, for else a
//! library that makes it would pass.

use crate::account::{Account, Slots};
use crate::account_plan::Replanned;
use crate::mismoving_checks::MISCHECKS;
use crate::mismoving_edits::MISEDITS;
use crate::mismoving_limits::MISLIMITS;
use crate::mismoving_numbers::MISNUMBERED;
use crate::mismoving_plans::MISPLANS;
use crate::mismoving_writing::{MISTOLD, MISWRITTEN};
use crate::model::{Day, MOST_TRAINS};
use crate::moving_call::Asked;
use crate::moving_rules::{Rules, RULES};
use crate::moving_standin::{stand_in, StandIn};
use crate::plan::{best, first_overbooked};

/// The papers' rules, with a planner that takes what a mistake makes of a day.
pub const SOUND: Rules = Rules { replan: planned, ..RULES };

fn planned(account: &Account, _: &Asked, _: &Slots) -> Replanned {
    planned_in(account, &account.bound_day())
}

/// The best plan of a day that stands for the account's, or 9 or 16 by it.
pub fn planned_in(account: &Account, day: &Day) -> Replanned {
    // The model has no place for a thirteenth train, whatever the mistake.
    if day.trains.len() > MOST_TRAINS {
        let first: Vec<usize> = day.trains.iter().map(|train| train.first).collect();
        return Replanned::Plan(account.by_number(&first));
    }
    match best(day) {
        Some(plan) => Replanned::Plan(account.by_number(&plan.assignment)),
        None => refused_in(day),
    }
}

/// 9 or 16 by a day that has no plan.
pub fn refused_in(day: &Day) -> Replanned {
    first_overbooked(day).map_or(Replanned::Unkept, Replanned::Overbooked)
}

/// All mistakes, by their names.
pub fn mistakes() -> Vec<(&'static str, StandIn)> {
    let mut all = Vec::new();
    for (name, checks) in MISCHECKS.iter().chain(&MISLIMITS) {
        all.push((*name, stand_in(Rules { checks: *checks, ..SOUND })));
    }
    for (name, change) in MISEDITS {
        all.push((name, stand_in(Rules { change, ..SOUND })));
    }
    for (name, checks, change) in MISNUMBERED {
        all.push((name, stand_in(Rules { checks, change, ..SOUND })));
    }
    for (name, replan) in MISPLANS {
        all.push((name, stand_in(Rules { replan, ..SOUND })));
    }
    for (name, retell) in MISTOLD {
        all.push((name, StandIn { retell, ..stand_in(SOUND) }));
    }
    for (name, touch) in MISWRITTEN {
        all.push((name, StandIn { touch, ..stand_in(SOUND) }));
    }
    all
}
