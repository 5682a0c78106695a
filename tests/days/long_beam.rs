//! The beam search of long days (order 9 of 02, section 4.3 of source 000), as
//! plainly as the papers have it: partial plans are rows with gaps, and what is
//! asked of them is counted anew each time. It is slow, and meant for small days;
//! long_fast.rs is held to it.

use crate::long_day::LongDay;
use crate::model::Train;
use std::collections::BTreeSet;

/// The slot of each train, 0 where it isn't served yet.
pub type Partial = Vec<usize>;

/// What a mistake may do otherwise.
#[derive(Clone, Copy)]
pub struct Rules {
    /// Revisits and split moves of a partial plan.
    pub counts: fn(&LongDay, &[usize]) -> (usize, usize),
    /// The numbers by which plans are compared, the smaller one first.
    pub key: fn(&LongDay, &Rules, &[usize]) -> Vec<i64>,
    /// The sets of trains that a slot may serve.
    pub choices: fn(&LongDay, &[usize], usize) -> Vec<Vec<usize>>,
    /// Whether a partial plan is discarded after a slot.
    pub discarded: fn(&LongDay, &[usize], usize) -> bool,
    /// What of all partial plans after a slot is kept, and whether the slot counts.
    pub sift: fn(&LongDay, &Rules, Vec<Partial>, usize, usize) -> (Vec<Partial>, bool),
}

pub const RULES: Rules = Rules { counts, key, choices, discarded, sift };

/// The row that the search ends with, and the number of slots after which more
/// merged partial plans than the width remained.
#[derive(Clone, Debug, PartialEq)]
pub struct Found {
    pub row: Vec<usize>,
    pub full: usize,
}

pub fn search(day: &LongDay, width: usize) -> Option<Found> {
    search_by(day, width, &RULES)
}

pub fn search_by(day: &LongDay, width: usize, rules: &Rules) -> Option<Found> {
    let mut kept: Vec<Partial> = vec![vec![0; day.trains.len()]];
    let mut full = 0;
    for slot in 1..=day.slots {
        let next: Vec<Partial> =
            kept.iter().flat_map(|plan| continued(day, plan, slot, rules)).collect();
        let (best, counts) = (rules.sift)(day, rules, next, slot, width);
        full += usize::from(counts);
        kept = best;
    }
    let whole = kept.into_iter().find(|plan| plan.iter().all(|&slot| slot > 0));
    whole.map(|row| Found { row, full })
}

/// A partial plan with each set of trains that the slot may serve.
fn continued(day: &LongDay, plan: &[usize], slot: usize, rules: &Rules) -> Vec<Partial> {
    let with = |served: Vec<usize>| {
        let mut next = plan.to_vec();
        served.into_iter().for_each(|position| next[position] = slot);
        next
    };
    (rules.choices)(day, plan, slot).into_iter().map(with).collect()
}

/// No trains up to as many as there are tracks, of those that wait and whose
/// window holds the slot.
pub fn choices(day: &LongDay, plan: &[usize], slot: usize) -> Vec<Vec<usize>> {
    let may = |k: &usize| plan[*k] == 0 && day.within_window(*k, slot);
    sets_of(day.positions().filter(may), day.tracks)
}

/// All sets of at most so many of the positions.
pub fn sets_of(positions: impl Iterator<Item = usize>, most: usize) -> Vec<Vec<usize>> {
    let mut sets: Vec<Vec<usize>> = vec![Vec::new()];
    for position in positions {
        for index in 0..sets.len() {
            if sets[index].len() < most {
                sets.push([&sets[index][..], &[position]].concat());
            }
        }
    }
    sets
}

/// (10), summed over the slots so far: a served train counts a revisit where a
/// supplier hasn't been served up to its slot, and splits its boxes from all
/// suppliers outside its slot, also from those that wait.
pub fn counts(day: &LongDay, plan: &[usize]) -> (usize, usize) {
    let served = |i: usize| plan[i] > 0;
    let missing = |i: usize, j: usize| plan[j] == 0 || plan[j] > plan[i];
    let back = |i: usize| day.supplies().any(|(to, from, _)| to == i && missing(i, from));
    let revisits = day.positions().filter(|&i| served(i) && back(i)).count();
    let apart = |(i, j, _): &(usize, usize, usize)| served(*i) && plan[*i] != plan[*j];
    (revisits, day.supplies().filter(apart).map(|(_, _, boxes)| boxes).sum())
}

/// 01's set numbers of the slots.
pub fn set_numbers(day: &LongDay, plan: &[usize]) -> Vec<i64> {
    let held = |slot: usize| day.positions().filter(move |&k| plan[k] == slot);
    (1..=day.slots).map(|slot| held(slot).map(|k| 1_i64 << k).sum()).collect()
}

/// Order 5, by the trains served so far: the smaller cost, then fewer revisits,
/// then the smaller sum of slots, then the larger set number at the lowest slot
/// where they differ.
pub fn key(day: &LongDay, rules: &Rules, plan: &[usize]) -> Vec<i64> {
    let (revisits, splits) = (rules.counts)(day, plan);
    let numbers = [day.weighed(revisits, splits), revisits, plan.iter().sum()];
    let sets = set_numbers(day, plan).into_iter().map(|number| -number);
    numbers.into_iter().map(|number| number as i64).chain(sets).collect()
}

/// A waiting train's last slot has passed, or the waiting trains overbook a stretch
/// of the slots that remain.
pub fn discarded(day: &LongDay, plan: &[usize], slot: usize) -> bool {
    passed(day, plan, slot) || overbooks(day, plan, slot)
}

pub fn waiting<'a>(day: &'a LongDay, plan: &'a [usize]) -> impl Iterator<Item = &'a Train> {
    day.positions().filter(|&k| plan[k] == 0).map(|k| &day.trains[k])
}

pub fn passed(day: &LongDay, plan: &[usize], slot: usize) -> bool {
    waiting(day, plan).any(|train| train.last <= slot)
}

pub fn overbooks(day: &LongDay, plan: &[usize], slot: usize) -> bool {
    let next = slot + 1;
    let overbooked = |a: usize, b: usize| {
        let bound = |train: &&Train| a <= train.first.max(next) && train.last <= b;
        waiting(day, plan).filter(bound).count() > day.tracks * (b - a + 1)
    };
    (next..=day.slots).any(|a| (a..=day.slots).any(|b| overbooked(a, b)))
}

/// Discards, merges, counts, and keeps as many as the width.
pub fn sift(
    day: &LongDay,
    rules: &Rules,
    mut plans: Vec<Partial>,
    slot: usize,
    width: usize,
) -> (Vec<Partial>, bool) {
    plans.retain(|plan| !(rules.discarded)(day, plan, slot));
    let mut merged = merged(sorted(day, rules, plans));
    let counts = merged.len() > width;
    merged.truncate(width);
    (merged, counts)
}

pub fn sorted(day: &LongDay, rules: &Rules, mut plans: Vec<Partial>) -> Vec<Partial> {
    plans.sort_by_cached_key(|plan| (rules.key)(day, rules, plan));
    plans
}

/// Of plans that cover the same trains the first one.
pub fn merged(mut plans: Vec<Partial>) -> Vec<Partial> {
    let mut covers = BTreeSet::new();
    plans.retain(|plan| covers.insert(cover(plan)));
    plans
}

/// The trains that a plan serves.
pub fn cover(plan: &[usize]) -> Vec<bool> {
    plan.iter().map(|&slot| slot > 0).collect()
}
