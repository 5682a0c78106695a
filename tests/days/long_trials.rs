//! Rows of slots to be valued on a long day: allowed ones, and ones with one fault
//! or several at once.

use crate::draw::Random;
use crate::long_day::LongDay;
use crate::model::Train;

fn bytes(row: &[usize]) -> Vec<u8> {
    row.iter().map(|&slot| slot as u8).collect()
}

fn in_windows(random: &mut Random, day: &LongDay) -> Vec<usize> {
    day.trains.iter().map(|train| random.between(train.first, train.last)).collect()
}

/// Some steps away from an allowed row, in each of which a train goes to another slot
/// within windows and tracks.
fn wandered(random: &mut Random, day: &LongDay, allowed: &[usize]) -> Vec<usize> {
    let mut row = allowed.to_vec();
    for _ in 0..2 * row.len() {
        let (position, before) = (random.below(row.len()), row.clone());
        let Train { first, last, .. } = day.trains[position];
        row[position] = random.between(first, last);
        if !day.allows(&row) {
            row = before;
        }
    }
    row
}

/// Each train that can be is in one slot.
fn crowded(random: &mut Random, day: &LongDay) -> Vec<usize> {
    let slot = random.between(1, day.slots);
    let any = in_windows(random, day);
    let held = |k: usize| if day.within_window(k, slot) { slot } else { any[k] };
    day.positions().map(held).collect()
}

/// Slots outside a train's window: below all, above all, beside it, and ones that a
/// careless look at their low bits takes for a slot inside.
fn outside(random: &mut Random, day: &LongDay, position: usize) -> usize {
    let Train { first, last, .. } = day.trains[position];
    let low_bits = random.between(first, last) + random.pick(&[16, 32, 64, 128]);
    random.pick(&[0, day.slots + 1, 255, low_bits, first - 1, last + 1])
}

fn with_outside(random: &mut Random, day: &LongDay, row: &[u8], count: usize) -> Vec<u8> {
    let mut row = row.to_vec();
    for _ in 0..count {
        let position = random.below(row.len());
        row[position] = outside(random, day, position) as u8;
    }
    row
}

/// The row without its end, or with slots behind it that look like the others.
fn of_length(random: &mut Random, day: &LongDay, row: &[u8], length: usize) -> Vec<u8> {
    let mut row = row.to_vec();
    while row.len() < length {
        row.push(random.between(1, day.slots) as u8);
    }
    row.truncate(length);
    row
}

pub fn long_trials(random: &mut Random, day: &LongDay, planned: Option<&[usize]>) -> Vec<Vec<u8>> {
    let n = day.trains.len();
    let any = bytes(&in_windows(random, day));
    let full = bytes(&crowded(random, day));
    let mut rows = vec![any.clone(), full.clone()];
    if let Some(planned) = planned {
        rows.push(bytes(planned));
        for _ in 0..2 {
            rows.push(bytes(&wandered(random, day, planned)));
        }
        // One train moved within its window: allowed still, or one too many.
        let mut row = planned.to_vec();
        let position = random.below(n);
        let Train { first, last, .. } = day.trains[position];
        row[position] = random.between(first, last);
        rows.push(bytes(&row));
        rows.push(with_outside(random, day, &bytes(planned), 1));
    }
    let faulty = with_outside(random, day, &full, 2);
    rows.push(with_outside(random, day, &any, 1));
    rows.push(faulty.clone());
    let lengths = [0, n - 1, n + 1, n + 5, n + 256];
    for row in [&any, &faulty] {
        let length = random.pick(&lengths);
        rows.push(of_length(random, day, row, length));
    }
    rows.push((0..n).map(|_| random.byte()).collect());
    rows
}

/// Rows for a text that is no day file: any will do.
pub fn long_trials_unread(random: &mut Random) -> Vec<Vec<u8>> {
    let length = random.below(40);
    vec![Vec::new(), vec![1; 4], (0..length).map(|_| random.byte()).collect()]
}
