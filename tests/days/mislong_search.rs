//! Mistakes in the beam search of order 9. Each has to give another plan or number
//! on drawn days, for else a library that makes it would pass.

use crate::long_beam::{
    choices, counts, cover, discarded, key, merged, overbooks, passed, set_numbers, sets_of, sift,
    sorted, waiting, Partial, Rules, RULES,
};
use crate::long_day::LongDay;
use crate::model::Train;

pub type Missearch = (&'static str, Rules);

const fn counting(counts: fn(&LongDay, &[usize]) -> (usize, usize)) -> Rules {
    Rules { counts, ..RULES }
}

const fn ordering(key: fn(&LongDay, &Rules, &[usize]) -> Vec<i64>) -> Rules {
    Rules { key, ..RULES }
}

const fn choosing(choices: fn(&LongDay, &[usize], usize) -> Vec<Vec<usize>>) -> Rules {
    Rules { choices, ..RULES }
}

const fn discarding(discarded: fn(&LongDay, &[usize], usize) -> bool) -> Rules {
    Rules { discarded, ..RULES }
}

type Sift = fn(&LongDay, &Rules, Vec<Partial>, usize, usize) -> (Vec<Partial>, bool);

const fn sifting(sift: Sift) -> Rules {
    Rules { sift, ..RULES }
}

#[rustfmt::skip]
pub const MISSEARCHES: [Missearch; 46] = [
    ("cost of pairs both served alone", counting(both_served)),
    ("split moves from waiting suppliers not counted", counting(|day, plan| (counts(day, plan).0, both_served(day, plan).1))),
    ("no revisit for waiting suppliers", counting(|day, plan| (both_served(day, plan).0, counts(day, plan).1))),
    ("a revisit for each missing supplier", counting(each_missing)),
    ("a revisit for suppliers of the same slot", counting(|day, plan| (same_slot(day, plan), counts(day, plan).1))),
    ("split moves from later suppliers alone", counting(|day, plan| (counts(day, plan).0, later_alone(day, plan)))),
    ("direct moves counted for split moves", counting(|day, plan| (counts(day, plan).0, direct(day, plan)))),
    ("the last slot's cost alone", counting(last_slot)),
    ("boxes sent for boxes received", counting(sent)),
    ("more trains first at equal cost", ordering(|day, rules, plan| with_third(day, rules, plan, -served(plan)))),
    ("fewer trains before the sum of slots", ordering(|day, rules, plan| with_third(day, rules, plan, served(plan)))),
    ("the sum of slots dropped", ordering(|day, rules, plan| without(key(day, rules, plan), 2))),
    ("revisits dropped", ordering(|day, rules, plan| without(key(day, rules, plan), 1))),
    ("the sum before the revisits", ordering(|day, rules, plan| exchanged(key(day, rules, plan), 1, 2))),
    ("the larger sum first", ordering(|day, rules, plan| negated(key(day, rules, plan), 2..3))),
    ("more revisits first", ordering(|day, rules, plan| negated(key(day, rules, plan), 1..2))),
    ("the smaller set number first", ordering(|day, rules, plan| negated(key(day, rules, plan), 3..3 + day.slots))),
    ("set numbers from the last slot down", ordering(from_the_last)),
    ("the set number of the trains covered", ordering(by_cover)),
    ("waiting trains count as behind the last slot", ordering(|day, rules, plan| { let late = (plan.len() as i64 - served(plan)) * (day.slots as i64 + 1); with_third(day, rules, plan, late) })),
    ("split moves for the cost", ordering(|day, rules, plan| with_first(day, rules, plan, (rules.counts)(day, plan).1))),
    ("revisits for the cost", ordering(|day, rules, plan| with_first(day, rules, plan, (rules.counts)(day, plan).0))),
    ("the cost for each train served", ordering(for_each_train)),
    ("slots filled to G always", choosing(filled)),
    ("slots filled as far as windows allow", choosing(as_far_as_possible)),
    ("no empty slots", choosing(|day, plan, slot| not_empty(choices(day, plan, slot)))),
    ("a train more than there are tracks", choosing(|day, plan, slot| sets_of(may(day, plan, slot), day.tracks + 1))),
    ("a track stays free", choosing(|day, plan, slot| sets_of(may(day, plan, slot), day.tracks.max(2) - 1))),
    ("trains before their first slot", choosing(|day, plan, slot| sets_of(day.positions().filter(|&k| plan[k] == 0 && slot <= day.trains[k].last), day.tracks))),
    ("trains after their last slot", Rules { choices: |day, plan, slot| sets_of(day.positions().filter(|&k| plan[k] == 0 && day.trains[k].first <= slot), day.tracks), discarded: overbooks, ..RULES }),
    ("no discard of passed last slots", discarding(overbooks)),
    ("passed means before this slot", discarding(|day, plan, slot| passed(day, plan, slot - 1) || overbooks(day, plan, slot))),
    ("no discard of overbooked stretches", discarding(passed)),
    ("nothing discarded", discarding(|_, _, _| false)),
    ("windows not cut", discarding(|day, plan, slot| passed(day, plan, slot) || overbooks_by(day, plan, slot, |train, _| train.first, 0))),
    ("discard at equality", discarding(|day, plan, slot| passed(day, plan, slot) || overbooks_by(day, plan, slot, |train, next| train.first.max(next), 1))),
    ("the rest of the day alone asked", discarding(|day, plan, slot| passed(day, plan, slot) || waiting(day, plan).count() > day.tracks * (day.slots - slot))),
    ("stretches of one slot alone asked", discarding(|day, plan, slot| passed(day, plan, slot) || one_slot(day, plan, slot))),
    ("cut before merging", sifting(cut_first)),
    ("merging keeps the dearer", sifting(|day, rules, plans, slot, width| sift_as(day, rules, plans, slot, width, keep_last))),
    ("merging keeps the first that was found", sifting(|day, rules, plans, slot, width| found_first(day, rules, plans, slot, width))),
    ("nothing merged", sifting(|day, rules, plans, slot, width| sift_as(day, rules, plans, slot, width, |plans| plans))),
    ("counted before discarding", sifting(counted_all)),
    ("counted before merging", sifting(|day, rules, plans, slot, width| { let many = left(day, rules, &plans, slot).len() > width; (sift(day, rules, plans, slot, width).0, many) })),
    ("counted at exactly the width", sifting(|day, rules, plans, slot, width| { let many = merged(left(day, rules, &plans, slot)).len() >= width; (sift(day, rules, plans, slot, width).0, many) })),
    ("one more than the width kept", sifting(|day, rules, plans, slot, width| { let kept = sift(day, rules, plans.clone(), slot, width + 1).0; (kept, sift(day, rules, plans, slot, width).1) })),
];

/// What else a mistake may do with the width: these are told where it is small.
pub const MISWIDTHS: [Missearch; 2] = [
    (
        "all kept, whatever the width",
        sifting(|day, rules, plans, slot, width| {
            let kept = sift(day, rules, plans.clone(), slot, usize::MAX).0;
            (kept, sift(day, rules, plans, slot, width).1)
        }),
    ),
    (
        "one less than the width kept",
        sifting(|day, rules, plans, slot, width| {
            let kept = sift(day, rules, plans.clone(), slot, width.max(2) - 1).0;
            (kept, sift(day, rules, plans, slot, width).1)
        }),
    ),
];

// ---------------------------------------------------------------------------
// Costs
// ---------------------------------------------------------------------------

fn sum_if(day: &LongDay, such: impl Fn(usize, usize) -> bool) -> usize {
    let supplies = day.supplies().filter(|&(i, j, _)| such(i, j));
    supplies.map(|(_, _, boxes)| boxes).sum()
}

fn count_if(day: &LongDay, such: impl Fn(usize, usize) -> bool) -> usize {
    let back = |i: usize| day.supplies().any(|(to, from, _)| to == i && such(to, from));
    day.positions().filter(|&i| back(i)).count()
}

fn both_served(day: &LongDay, plan: &[usize]) -> (usize, usize) {
    let both = |i: usize, j: usize| plan[i] > 0 && plan[j] > 0;
    let revisits = count_if(day, |i, j| both(i, j) && plan[j] > plan[i]);
    (revisits, sum_if(day, |i, j| both(i, j) && plan[i] != plan[j]))
}

fn missing(plan: &[usize], i: usize, j: usize) -> bool {
    plan[i] > 0 && (plan[j] == 0 || plan[j] > plan[i])
}

fn each_missing(day: &LongDay, plan: &[usize]) -> (usize, usize) {
    let each = day.supplies().filter(|&(i, j, _)| missing(plan, i, j)).count();
    (each, counts(day, plan).1)
}

fn same_slot(day: &LongDay, plan: &[usize]) -> usize {
    count_if(day, |i, j| missing(plan, i, j) || plan[i] > 0 && plan[i] == plan[j])
}

fn later_alone(day: &LongDay, plan: &[usize]) -> usize {
    sum_if(day, |i, j| missing(plan, i, j))
}

fn direct(day: &LongDay, plan: &[usize]) -> usize {
    sum_if(day, |i, j| plan[i] > 0 && plan[i] == plan[j])
}

fn last_slot(day: &LongDay, plan: &[usize]) -> (usize, usize) {
    let last = plan.iter().copied().max().unwrap_or_default();
    let revisits = count_if(day, |i, j| plan[i] == last && missing(plan, i, j));
    (revisits, sum_if(day, |i, j| plan[i] > 0 && plan[i] == last && plan[j] != last))
}

fn sent(day: &LongDay, plan: &[usize]) -> (usize, usize) {
    (counts(day, plan).0, sum_if(day, |i, j| plan[j] > 0 && plan[i] != plan[j]))
}

// ---------------------------------------------------------------------------
// The order
// ---------------------------------------------------------------------------

fn served(plan: &[usize]) -> i64 {
    plan.iter().filter(|&&slot| slot > 0).count() as i64
}

/// Another number before the sum of slots.
fn with_third(day: &LongDay, rules: &Rules, plan: &[usize], number: i64) -> Vec<i64> {
    let mut numbers = key(day, rules, plan);
    numbers.insert(2, number);
    numbers
}

fn with_first(day: &LongDay, rules: &Rules, plan: &[usize], number: usize) -> Vec<i64> {
    let mut numbers = key(day, rules, plan);
    numbers[0] = number as i64;
    numbers
}

fn without(mut numbers: Vec<i64>, place: usize) -> Vec<i64> {
    numbers.remove(place);
    numbers
}

fn exchanged(mut numbers: Vec<i64>, place: usize, other: usize) -> Vec<i64> {
    numbers.swap(place, other);
    numbers
}

fn negated(mut numbers: Vec<i64>, places: std::ops::Range<usize>) -> Vec<i64> {
    numbers[places].iter_mut().for_each(|number| *number = -*number);
    numbers
}

fn from_the_last(day: &LongDay, rules: &Rules, plan: &[usize]) -> Vec<i64> {
    let mut numbers = key(day, rules, plan);
    numbers[3..].reverse();
    numbers
}

/// At the cut the set number of all trains covered, the larger one first.
fn by_cover(day: &LongDay, rules: &Rules, plan: &[usize]) -> Vec<i64> {
    let all: i64 = set_numbers(day, plan).iter().sum();
    let mut numbers = key(day, rules, plan);
    numbers.insert(3, -all);
    numbers
}

/// Thousandths of the cost, divided by the trains that it was paid for.
fn for_each_train(day: &LongDay, rules: &Rules, plan: &[usize]) -> Vec<i64> {
    let mut numbers = key(day, rules, plan);
    numbers[0] = 1000 * numbers[0] / served(plan).max(1);
    numbers
}

// ---------------------------------------------------------------------------
// What a slot serves
// ---------------------------------------------------------------------------

fn may<'a>(day: &'a LongDay, plan: &'a [usize], slot: usize) -> impl Iterator<Item = usize> + 'a {
    day.positions().filter(move |&k| plan[k] == 0 && day.within_window(k, slot))
}

/// As 000's (7) has it, the last slot apart, which takes what is left.
fn filled(day: &LongDay, plan: &[usize], slot: usize) -> Vec<Vec<usize>> {
    let wait = plan.iter().filter(|&&held| held == 0).count();
    let full = day.tracks.min(wait);
    choices(day, plan, slot).into_iter().filter(|set| set.len() == full).collect()
}

fn as_far_as_possible(day: &LongDay, plan: &[usize], slot: usize) -> Vec<Vec<usize>> {
    let full = day.tracks.min(may(day, plan, slot).count());
    choices(day, plan, slot).into_iter().filter(|set| set.len() == full).collect()
}

/// A set of one at least, where there is a train to serve.
fn not_empty(sets: Vec<Vec<usize>>) -> Vec<Vec<usize>> {
    match sets.len() {
        1 => sets,
        _ => sets.into_iter().filter(|set| !set.is_empty()).collect(),
    }
}

// ---------------------------------------------------------------------------
// Discarding, merging, counting
// ---------------------------------------------------------------------------

/// With another first slot for a waiting train, and so many places less.
fn overbooks_by(
    day: &LongDay,
    plan: &[usize],
    slot: usize,
    first: fn(&Train, usize) -> usize,
    less: usize,
) -> bool {
    let next = slot + 1;
    let overbooked = |a: usize, b: usize| {
        let bound = |train: &&Train| a <= first(train, next) && train.last <= b;
        waiting(day, plan).filter(bound).count() + less > day.tracks * (b - a + 1)
    };
    (next..=day.slots).any(|a| (a..=day.slots).any(|b| overbooked(a, b)))
}

fn one_slot(day: &LongDay, plan: &[usize], slot: usize) -> bool {
    let next = slot + 1;
    let bound = |at: usize| move |train: &&Train| train.first.max(next) == at && train.last == at;
    (next..=day.slots).any(|at| waiting(day, plan).filter(bound(at)).count() > day.tracks)
}

/// The plans that are not discarded, in their order.
fn left(day: &LongDay, rules: &Rules, plans: &[Partial], slot: usize) -> Vec<Partial> {
    let left = plans.iter().filter(|plan| !discarded(day, plan, slot));
    sorted(day, rules, left.cloned().collect())
}

fn sift_as(
    day: &LongDay,
    rules: &Rules,
    plans: Vec<Partial>,
    slot: usize,
    width: usize,
    merge: fn(Vec<Partial>) -> Vec<Partial>,
) -> (Vec<Partial>, bool) {
    let mut kept = sorted(day, rules, merge(left(day, rules, &plans, slot)));
    let counts = merged(left(day, rules, &plans, slot)).len() > width;
    kept.truncate(width);
    (kept, counts)
}

fn keep_last(mut plans: Vec<Partial>) -> Vec<Partial> {
    plans.reverse();
    merged(plans)
}

fn found_first(
    day: &LongDay,
    rules: &Rules,
    mut plans: Vec<Partial>,
    slot: usize,
    width: usize,
) -> (Vec<Partial>, bool) {
    plans.retain(|plan| !discarded(day, plan, slot));
    let mut kept = sorted(day, rules, merged(plans));
    let counts = kept.len() > width;
    kept.truncate(width);
    (kept, counts)
}

/// As many plans as the width, and of them those that cover the same trains merged.
fn cut_first(
    day: &LongDay,
    rules: &Rules,
    plans: Vec<Partial>,
    slot: usize,
    width: usize,
) -> (Vec<Partial>, bool) {
    let mut kept = left(day, rules, &plans, slot);
    let counts = merged(kept.clone()).len() > width;
    kept.truncate(width);
    (merged(kept), counts)
}

fn counted_all(
    day: &LongDay,
    rules: &Rules,
    plans: Vec<Partial>,
    slot: usize,
    width: usize,
) -> (Vec<Partial>, bool) {
    let mut covers: Vec<Vec<bool>> = plans.iter().map(|plan| cover(plan)).collect();
    covers.sort();
    covers.dedup();
    (sift(day, rules, plans, slot, width).0, covers.len() > width)
}
