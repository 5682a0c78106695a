//! Mode self, its part on moving days (order 7): that what mode moving runs tells
//! each mistake from the papers, and that lists worked out by hand agree.

use crate::groups::Tests;
use crate::known_moving::KNOWN_LISTS;
use crate::mismoving::{mistakes, SOUND};
use crate::moving::{LISTS, SEED};
use crate::moving_call::{Call, EXACT};
use crate::moving_memory::Memory;
use crate::moving_rules::{reply, RULES};
use crate::moving_standin::{perform, stand_in, StandIn};
use crate::moving_walk::Walk;

/// Lists on which a mistake has to be told, each by itself.
const LEAST_TOLD: usize = 8;

/// Lists on which a stand-in without a mistake passes.
const SOUND_LISTS: usize = 300;

fn tells(seed: u64, by: &StandIn) -> bool {
    let made = |call: &Call, memory: &mut Memory| perform(by, call, memory);
    Walk::new(seed, &made, None).list().is_err()
}

/// Each mistake is told on some lists of mode moving, and no mistake on none.
fn check_mistakes(tests: &mut Tests) {
    let sound = stand_in(SOUND);
    let passes = (SEED..).take(SOUND_LISTS).all(|seed| !tells(seed, &sound));
    tests.check(passes, "a stand-in without a mistake is told");
    for (name, by) in mistakes() {
        let told = (SEED..).take(LISTS as usize).filter(|&seed| tells(seed, &by));
        let told = told.take(LEAST_TOLD).count();
        let what = format!("moving, {name}: told by {told} lists, {LEAST_TOLD} are needed");
        tests.check(told >= LEAST_TOLD, &what);
    }
}

/// What was worked out by hand is what the rules give.
fn check_known(tests: &mut Tests) {
    for list in KNOWN_LISTS {
        for (call, wanted) in list.calls(EXACT) {
            let found = reply(&RULES, &call);
            let alike = found.outcome == wanted.outcome
                && (&found.day, &found.next) == (&wanted.day, &wanted.next);
            let what = format!("{}, {:?}: {found:?}, by hand {wanted:?}", list.name, call.asked);
            tests.check(alike, &what);
        }
    }
}

pub fn check_moving(tests: &mut Tests) {
    check_known(tests);
    check_mistakes(tests);
}
