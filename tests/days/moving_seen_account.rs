//! What has to be seen of the accounts of moving days: what cancelling, adding
//! and setting boxes do to a day, and what there is to choose in planning it.

use crate::account::{Account, Slots};
use crate::account_plan::{replanned, Replanned};
use crate::model::{rank, revisiting, Rank, MOST_BOXES, MOST_TRAINS};
use crate::moving_call::{Asked, Call};
use crate::moving_required::{on_slots, to_trains, with_closed};
use crate::moving_rules::{change, Reply};
use crate::moving_walk::Running;
use crate::plan::{each_allowed, first_overbooked, SEARCH};
use crate::seen::Seen;

pub const ACCOUNT: [&str; 44] = [
    "cancel: its group keeps one member",
    "cancel: its group keeps several",
    "cancel: the last group goes",
    "cancel: it receives and sends boxes, and others have some",
    "cancel: a train behind it is in another group",
    "cancel: a served train is behind it",
    "cancel: another train moves",
    "add: in front of all",
    "add: between two",
    "add: behind all",
    "add: a twelfth",
    "add: a grouped train is behind it",
    "add: a served train is behind it",
    "add: boxes between trains around it",
    "add: another train moves though it could stay",
    "add: the only slot of its window",
    "set boxes: to a served train",
    "set boxes: from a served train",
    "set boxes: from none to some",
    "set boxes: from some to none",
    "set boxes: the number that they have",
    "set boxes: 255",
    "set boxes: all slots are closed",
    "set boxes: a train moves",
    "close: trains are planned there",
    "close: no train is planned there",
    "close: the last slot",
    "close: all trains are served already",
    "close: a plan that isn't the best is kept",
    "a change: a plan that isn't the best is replaced",
    "a change: slots are closed, and trains are served",
    "a change: without closed slots the plan would be another",
    "a change: served trains would go elsewhere",
    "a change: a served train revisits for an unserved one",
    "a change: revisits decide",
    "a change: sums decide",
    "a change: masks decide",
    "a change: both weights are 0",
    "a change: a group has no choice but by its other members",
    "9: the stretch begins in a closed slot",
    "9: it is the first open slot, and others are closed",
    "9: by the windows as they are written there is none",
    "9: by them there is another one",
    "16: slots are closed",
];

/// Days of no more assignments are planned once more without what is closed.
const FREE_MOST: usize = 800;

fn note_if(seen: &mut Seen, place: usize, holds: bool) {
    seen.note_if(holds, ACCOUNT[place]);
}

fn note_cancel(seen: &mut Seen, before: &Account, number: usize, moved: bool) {
    let group = before.trains[&number].group;
    let left = before.members(group) - 1;
    let others = before.trains.iter().filter(|(other, _)| **other != number);
    let grouped = others.clone().any(|(_, listed)| listed.group > 0);
    let behind = |other: usize| other > number;
    let other_group = |listed: usize| listed > 0 && listed != group;
    let has = |pair: fn((usize, usize)) -> usize| before.boxes.keys().any(|&p| pair(p) == number);
    let rest = before.boxes.keys().any(|&(to, from)| to != number && from != number);
    note_if(seen, 0, group > 0 && left == 1);
    note_if(seen, 1, group > 0 && left > 1);
    note_if(seen, 2, group > 0 && !grouped);
    note_if(seen, 3, has(|pair| pair.0) && has(|pair| pair.1) && rest);
    note_if(seen, 4, others.clone().any(|(k, listed)| behind(*k) && other_group(listed.group)));
    note_if(seen, 5, before.served.keys().any(|&other| behind(other)));
    note_if(seen, 6, moved);
}

fn note_add(
    seen: &mut Seen,
    before: &Account,
    added: (usize, usize, usize),
    stays: bool,
    moved: bool,
) {
    let (number, first, last) = added;
    let (lower, higher) =
        (before.trains.keys().any(|k| *k < number), before.trains.keys().any(|k| *k > number));
    note_if(seen, 7, !lower);
    note_if(seen, 8, lower && higher);
    note_if(seen, 9, !higher);
    note_if(seen, 10, before.trains.len() + 1 == MOST_TRAINS);
    note_if(seen, 11, before.trains.iter().any(|(k, listed)| *k > number && listed.group > 0));
    note_if(seen, 12, before.served.keys().any(|k| *k > number));
    let around = |(to, from): &(usize, usize)| (*to < number) != (*from < number);
    note_if(seen, 13, before.boxes.keys().any(around));
    note_if(seen, 14, stays && moved);
    note_if(seen, 15, first == last);
}

fn note_set(
    seen: &mut Seen,
    before: &Account,
    (to, from, boxes): (usize, usize, usize),
    moved: bool,
) {
    let now = before.boxes.get(&(to, from)).copied().unwrap_or_default();
    note_if(seen, 16, before.served.contains_key(&to));
    note_if(seen, 17, before.served.contains_key(&from));
    note_if(seen, 18, now == 0 && boxes > 0);
    note_if(seen, 19, now > 0 && boxes == 0);
    note_if(seen, 20, now == boxes);
    note_if(seen, 21, boxes == MOST_BOXES);
    note_if(seen, 22, before.closed == before.slots);
    note_if(seen, 23, moved);
}

fn note_close(seen: &mut Seen, running: &Running) {
    let Running { account, plan, best } = running;
    let planned = plan.values().any(|&slot| slot == account.closed + 1);
    note_if(seen, 24, planned);
    note_if(seen, 25, !planned);
    note_if(seen, 26, account.closed + 1 == account.slots);
    note_if(seen, 27, account.served.len() == account.trains.len());
    note_if(seen, 28, !best);
}

/// The account as if every slot were open, or as if the served trains were free
/// to go to any closed slot of their windows.
fn freed(after: &Account) -> [Account; 2] {
    let mut open = after.clone();
    (open.closed, open.served) = (0, Slots::new());
    let mut within = after.clone();
    within.served.clear();
    for (number, listed) in &mut within.trains {
        match after.served.contains_key(number) {
            true => listed.last = listed.last.min(after.closed),
            false => listed.first = listed.first.max(after.closed + 1),
        }
    }
    within.closed = 0;
    [open, within]
}

/// What parts the cheapest rows: which keys of order 5 decide.
fn note_ties(seen: &mut Seen, after: &Account) {
    let day = after.bound_day();
    let mut ranks: Vec<Rank> = Vec::new();
    each_allowed(&day, SEARCH, |assignment| ranks.push(rank(&day, assignment)));
    let Some(&best) = ranks.iter().min() else { return };
    ranks.retain(|rank| rank.cost == best.cost);
    note_if(seen, 34, ranks.iter().any(|rank| rank.revisits > best.revisits));
    ranks.retain(|rank| rank.revisits == best.revisits);
    note_if(seen, 35, ranks.iter().any(|rank| rank.sum > best.sum));
    ranks.retain(|rank| rank.sum == best.sum);
    note_if(seen, 36, ranks.len() > 1);
}

fn note_change(seen: &mut Seen, running: &Running, after: &Account, plan: &Slots) {
    seen.note(&to_trains(after.trains.len()));
    seen.note(&on_slots(after.slots));
    seen.note(&with_closed(after.closed));
    note_if(seen, 29, !running.best && *plan != running.plan);
    note_if(seen, 30, after.closed > 0 && !after.served.is_empty());
    let small = after.day().assignments() <= FREE_MOST;
    let other = |account: &Account| replanned(account) != Replanned::Plan(plan.clone());
    if small && after.closed > 0 {
        let [open, within] = freed(after);
        note_if(seen, 31, other(&open));
        note_if(seen, 32, other(&within));
    }
    let day = after.day();
    let row: Vec<usize> = plan.values().copied().collect();
    let returns = |k: usize| {
        row[k] <= after.closed
            && revisiting(&day, &row, k)
            && (0..row.len()).any(|j| day.boxes[k][j] > 0 && row[j] > after.closed)
    };
    note_if(seen, 33, (0..row.len()).any(returns));
    note_ties(seen, after);
    note_if(seen, 37, after.weights == (0, 0));
    let bound = |number: &usize| after.bounds(*number);
    let narrowed = |(number, listed): (&usize, &crate::account::Listed)| {
        let (first, last) = bound(number);
        let others = after.trains.iter().filter(|(_, other)| other.group == listed.group);
        let inside = others.map(|(other, _)| bound(other)).all(|(a, b)| a <= first && last <= b);
        listed.group > 0 && first < last && !inside
    };
    note_if(seen, 38, after.trains.iter().any(narrowed));
}

/// What 9 names, beside the windows as they are written.
fn note_overbooked(seen: &mut Seen, after: &Account, numbers: [usize; 4]) {
    let (first, last) = (numbers[0], numbers[1]);
    note_if(seen, 39, first <= after.closed);
    note_if(seen, 40, after.closed > 0 && first == after.closed + 1);
    let written = first_overbooked(&after.day());
    note_if(seen, 41, written.is_none());
    note_if(seen, 42, written.is_some_and(|found| (found.first, found.last) != (first, last)));
}

/// Whether an added train could stand where the others are.
fn could_stay(running: &Running, (first, last): (usize, usize)) -> bool {
    let Running { account, plan, .. } = running;
    let load = |slot: usize| plan.values().filter(|&&held| held == slot).count();
    (first.max(account.closed + 1)..=last).any(|slot| load(slot) < account.tracks)
}

/// Of calls whose state is the running one.
pub fn note_account(seen: &mut Seen, call: &Call, reply: &Reply, running: &Running) {
    let before = &running.account;
    let own = call.state.text == before.text() && call.state.closed as usize == before.closed;
    if !own || call.asked == Asked::Begin || ![0, 9, 16].contains(&reply.outcome.refusal) {
        return;
    }
    let Some((after, plan)) = &reply.after else {
        let mut after = before.clone();
        change(&mut after, &call.asked, &running.plan);
        match reply.outcome.refusal {
            9 => note_overbooked(seen, &after, reply.outcome.numbers),
            _ => note_if(seen, 43, after.closed > 0),
        }
        return;
    };
    let moved = plan.iter().any(|(k, slot)| running.plan.get(k).is_some_and(|old| old != slot));
    let wide = |number: u32| number as usize;
    match call.asked {
        Asked::Cancel(train) => note_cancel(seen, before, wide(train), moved),
        Asked::Add(train, first, last) => {
            let stays = could_stay(running, (wide(first), wide(last)));
            note_add(seen, before, (wide(train), wide(first), wide(last)), stays, moved)
        }
        Asked::SetBoxes(to, from, boxes) => {
            note_set(seen, before, (wide(to), wide(from), wide(boxes)), moved)
        }
        _ => note_close(seen, running),
    }
    if call.asked.changes() {
        note_change(seen, running, after, plan);
    }
}
