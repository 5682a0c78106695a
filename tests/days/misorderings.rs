//! Mistakes in the order of plans (order 5 of 02), in which direct moves have no
//! part (order 6). Each has to choose otherwise than the papers on some of the
//! days that are planned, for else a library that makes it would pass.
//!
//! All boxes of a day being direct or split moves, more of the one kind first is
//! fewer of the other first.
//!
//! Masks belong to one assignment only, so what would come after them is never
//! asked: to put them before the sum is to ignore the sum, and to put them
//! before the revisits is 01's order alone.

use crate::model::{rank, revisiting, value, Day, Rank, MOST_SLOTS, MOST_TRAINS};
use crate::plan::{each_allowed, SEARCH};
use std::cmp::Reverse;

/// An allowed assignment, and what decides whether it comes first.
pub struct Tried {
    pub assignment: Vec<usize>,
    pub rank: Rank,
}

/// All allowed assignments of a day.
pub fn try_all(day: &Day) -> Vec<Tried> {
    let mut all = Vec::new();
    each_allowed(day, SEARCH, |assignment| {
        all.push(Tried { assignment: assignment.to_vec(), rank: rank(day, assignment) });
    });
    all
}

/// Which of a day's allowed assignments comes first, there being one.
type Misorder = fn(&Day, &[Tried]) -> Vec<usize>;

pub const MISORDERINGS: [(&str, Misorder); 31] = [
    ("01's order alone: masks before revisits", as_before),
    ("revisits before cost", revisits_first),
    ("revisits ignored", revisits_ignored),
    ("more revisits first", more_revisits),
    ("a revisit for each missing supplier", each_missing),
    ("split moves in the place of revisits", splits_for_revisits),
    ("split moves after the revisits", splits_after_revisits),
    ("the sum before cost", sum_first),
    ("the sum before the revisits", sum_before_revisits),
    ("the sum ignored: masks before it", sum_ignored),
    ("the larger sum first", larger_sum),
    ("the sum over the slots in use", slots_in_use),
    ("the number of slots in use for the sum", count_in_use),
    ("the last slot in use for the sum", last_in_use),
    ("the sum weighted by boxes", boxes_weighted),
    ("the sum over trains that revisit", over_revisiting),
    ("the sum over trains that don't revisit", over_others),
    ("a group once in the sum", group_once),
    ("the sum in 6 bits", sum_cut),
    ("the revisits in 3 bits", revisits_cut),
    ("the smaller mask first", smaller_masks),
    ("masks from the highest slot down", highest_slot_first),
    ("the lower slots by position for masks", lower_slots),
    ("more direct moves before cost", direct_first),
    ("direct moves as dear as split ones", direct_as_dear),
    ("more direct moves before the revisits", direct_before_revisits),
    ("fewer direct moves before the revisits", fewer_before_revisits),
    ("fewer direct moves after the revisits", fewer_after_revisits),
    ("more direct moves for the sum", direct_for_sum),
    ("more direct moves after the sum", direct_after_sum),
    ("fewer direct moves after the sum", fewer_after_sum),
];

/// The first one by what is mistaken for its rank.
fn first<R: Ord>(all: &[Tried], rank: impl Fn(&Tried) -> R) -> Vec<usize> {
    let first = all.iter().min_by_key(|tried| rank(tried)).expect("an allowed assignment");
    first.assignment.clone()
}

/// Something else in the place of the revisits.
fn for_revisits(all: &[Tried], count: impl Fn(&Tried) -> usize) -> Vec<usize> {
    first(all, |tried| Rank { revisits: count(tried), ..tried.rank })
}

/// Something else in the place of the sum.
fn for_sum(all: &[Tried], sum: impl Fn(&Tried) -> usize) -> Vec<usize> {
    first(all, |tried| Rank { sum: sum(tried), ..tried.rank })
}

pub fn as_before(_: &Day, all: &[Tried]) -> Vec<usize> {
    first(all, |tried| (tried.rank.cost, tried.rank.masks))
}

fn revisits_first(_: &Day, all: &[Tried]) -> Vec<usize> {
    first(all, |tried| (tried.rank.revisits, tried.rank))
}

fn revisits_ignored(_: &Day, all: &[Tried]) -> Vec<usize> {
    for_revisits(all, |_| 0)
}

fn more_revisits(_: &Day, all: &[Tried]) -> Vec<usize> {
    for_revisits(all, |tried| MOST_TRAINS - tried.rank.revisits)
}

fn each_missing(day: &Day, all: &[Tried]) -> Vec<usize> {
    for_revisits(all, |Tried { assignment, .. }| {
        let n = assignment.len();
        let missing = |i: usize, j: usize| day.boxes[i][j] > 0 && assignment[j] > assignment[i];
        (0..n * n).filter(|pair| missing(pair / n, pair % n)).count()
    })
}

fn splits_for_revisits(day: &Day, all: &[Tried]) -> Vec<usize> {
    for_revisits(all, |tried| value(day, &tried.assignment).splits)
}

fn splits_after_revisits(day: &Day, all: &[Tried]) -> Vec<usize> {
    let splits = |tried: &Tried| value(day, &tried.assignment).splits;
    first(all, |tried| (tried.rank.cost, tried.rank.revisits, splits(tried), tried.rank))
}

fn sum_first(_: &Day, all: &[Tried]) -> Vec<usize> {
    first(all, |tried| (tried.rank.sum, tried.rank))
}

fn sum_before_revisits(_: &Day, all: &[Tried]) -> Vec<usize> {
    first(all, |tried| (tried.rank.cost, tried.rank.sum, tried.rank))
}

fn sum_ignored(_: &Day, all: &[Tried]) -> Vec<usize> {
    for_sum(all, |_| 0)
}

fn larger_sum(_: &Day, all: &[Tried]) -> Vec<usize> {
    for_sum(all, |tried| MOST_TRAINS * MOST_SLOTS - tried.rank.sum)
}

/// The slots that hold a train, each once.
fn used(tried: &Tried) -> impl Iterator<Item = usize> + '_ {
    (1..=MOST_SLOTS).filter(|slot| tried.assignment.contains(slot))
}

fn slots_in_use(_: &Day, all: &[Tried]) -> Vec<usize> {
    for_sum(all, |tried| used(tried).sum())
}

fn count_in_use(_: &Day, all: &[Tried]) -> Vec<usize> {
    for_sum(all, |tried| used(tried).count())
}

fn last_in_use(_: &Day, all: &[Tried]) -> Vec<usize> {
    for_sum(all, |tried| used(tried).last().expect("a train"))
}

/// The sum over trains, each of which counts so often.
fn counted(all: &[Tried], times: impl Fn(&Tried, usize) -> usize) -> Vec<usize> {
    for_sum(all, |tried| {
        let slots = tried.assignment.iter().enumerate();
        slots.map(|(position, slot)| times(tried, position) * slot).sum()
    })
}

fn boxes_weighted(day: &Day, all: &[Tried]) -> Vec<usize> {
    counted(all, |_, position| day.boxes[position].iter().sum())
}

fn over_revisiting(day: &Day, all: &[Tried]) -> Vec<usize> {
    counted(all, |tried, position| usize::from(revisiting(day, &tried.assignment, position)))
}

fn over_others(day: &Day, all: &[Tried]) -> Vec<usize> {
    counted(all, |tried, position| usize::from(!revisiting(day, &tried.assignment, position)))
}

fn group_once(day: &Day, all: &[Tried]) -> Vec<usize> {
    let group = |position: usize| day.trains[position].group;
    let again = |position: usize| (0..position).any(|other| group(other) == group(position));
    counted(all, |_, position| usize::from(group(position) == 0 || !again(position)))
}

/// The greatest sum, 96, needs 7 bits.
fn sum_cut(_: &Day, all: &[Tried]) -> Vec<usize> {
    for_sum(all, |tried| tried.rank.sum % (1 << 6))
}

/// The most revisits, 11, need 4 bits.
fn revisits_cut(_: &Day, all: &[Tried]) -> Vec<usize> {
    for_revisits(all, |tried| tried.rank.revisits % (1 << 3))
}

/// Something else in the place of the masks.
fn for_masks<R: Ord>(all: &[Tried], masks: impl Fn(&Tried) -> R) -> Vec<usize> {
    let keys = |Rank { cost, revisits, sum, .. }: Rank| (cost, revisits, sum);
    first(all, |tried| (keys(tried.rank), masks(tried)))
}

fn smaller_masks(_: &Day, all: &[Tried]) -> Vec<usize> {
    for_masks(all, |tried| Reverse(tried.rank.masks))
}

fn highest_slot_first(_: &Day, all: &[Tried]) -> Vec<usize> {
    for_masks(all, |tried| {
        let Reverse(mut masks) = tried.rank.masks;
        masks.reverse();
        Reverse(masks)
    })
}

fn lower_slots(_: &Day, all: &[Tried]) -> Vec<usize> {
    for_masks(all, |tried| tried.assignment.clone())
}

fn direct(day: &Day, tried: &Tried) -> usize {
    value(day, &tried.assignment).direct
}

fn direct_first(day: &Day, all: &[Tried]) -> Vec<usize> {
    first(all, |tried| (Reverse(direct(day, tried)), tried.rank))
}

fn direct_as_dear(day: &Day, all: &[Tried]) -> Vec<usize> {
    first(all, |tried| (tried.rank.cost + day.split_weight * direct(day, tried), tried.rank))
}

fn direct_before_revisits(day: &Day, all: &[Tried]) -> Vec<usize> {
    first(all, |tried| (tried.rank.cost, Reverse(direct(day, tried)), tried.rank))
}

fn fewer_before_revisits(day: &Day, all: &[Tried]) -> Vec<usize> {
    first(all, |tried| (tried.rank.cost, direct(day, tried), tried.rank))
}

fn fewer_after_revisits(day: &Day, all: &[Tried]) -> Vec<usize> {
    first(all, |tried| (tried.rank.cost, tried.rank.revisits, direct(day, tried), tried.rank))
}

fn direct_for_sum(day: &Day, all: &[Tried]) -> Vec<usize> {
    let boxes: usize = day.boxes.iter().flatten().sum();
    for_sum(all, |tried| boxes - direct(day, tried))
}

fn direct_after_sum(day: &Day, all: &[Tried]) -> Vec<usize> {
    for_masks(all, |tried| (Reverse(direct(day, tried)), tried.rank.masks))
}

fn fewer_after_sum(day: &Day, all: &[Tried]) -> Vec<usize> {
    for_masks(all, |tried| (direct(day, tried), tried.rank.masks))
}
