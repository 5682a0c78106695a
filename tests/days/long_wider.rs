//! Mode wider: a search, no test. Is there a day on which a greater width costs more
//! than a smaller one? Order 9 doesn't say that there is none. The smallest days are
//! gone through one by one; others are drawn, and those that are found are made
//! smaller as long as they stay ones.

use crate::below::{each_list, each_timetable};
use crate::draw::Random;
use crate::long_beam::search;
use crate::long_day::{write_long, LongDay};
use crate::long_draw::draw_small;
use crate::long_fast::search_fast;
use crate::long_plan::told;
use crate::plan::broken;

const DAYS: u64 = 60_000;
const SEED: u64 = 46_000_000;

/// Widths that are compared, each with each.
const WIDEST: usize = 12;

/// Two widths, the greater of which costs more.
#[derive(Clone, Copy, Debug)]
struct Pair {
    narrow: usize,
    wide: usize,
}

/// The costs at the widths from 1 on, up to the one from which nothing is cut.
fn costs(day: &LongDay) -> Vec<usize> {
    let mut costs = Vec::new();
    for width in 1..=WIDEST {
        let Some(found) = search_fast(day, width) else { break };
        costs.push(day.value(&found.row).cost);
        if found.full == 0 {
            break;
        }
    }
    costs
}

/// The first pair of them by the greater width.
fn pair(day: &LongDay) -> Option<Pair> {
    let costs = costs(day);
    let pairs = (1..costs.len()).flat_map(|wide| (0..wide).map(move |narrow| (narrow, wide)));
    let mut dearer = pairs.filter(|&(narrow, wide)| costs[wide] > costs[narrow]);
    dearer.next().map(|(narrow, wide)| Pair { narrow: narrow + 1, wide: wide + 1 })
}

/// What makes a day a small one.
fn size(day: &LongDay) -> [usize; 6] {
    let moves = day.supplies().count();
    let boxes = day.supplies().map(|(_, _, boxes)| boxes).sum();
    let closed = day.trains.iter().map(|train| day.slots - 1 - (train.last - train.first)).sum();
    let weights = day.revisit_weight + day.split_weight;
    [day.trains.len(), day.slots * day.tracks, moves, boxes, weights, closed]
}

fn without_train(day: &LongDay, k: usize) -> LongDay {
    let mut day = day.clone();
    day.trains.remove(k);
    day.boxes.remove(k);
    for row in &mut day.boxes {
        row.remove(k);
    }
    day
}

/// Days that are smaller by a step.
fn smaller(day: &LongDay) -> Vec<LongDay> {
    let mut days: Vec<LongDay> = match day.trains.len() {
        1 => Vec::new(),
        _ => day.positions().map(|k| without_train(day, k)).collect(),
    };
    if day.slots > 1 {
        // Without the last slot, or without the first.
        let mut shorter = day.clone();
        shorter.slots -= 1;
        shorter.trains.iter_mut().for_each(|train| {
            (train.first, train.last) =
                (train.first.min(day.slots - 1), train.last.min(day.slots - 1));
        });
        days.push(shorter);
        let mut later = day.clone();
        later.slots -= 1;
        later.trains.iter_mut().for_each(|train| {
            (train.first, train.last) = (train.first.max(2) - 1, train.last.max(2) - 1);
        });
        days.push(later);
    }
    if day.tracks > 1 {
        days.push(LongDay { tracks: day.tracks - 1, ..day.clone() });
    }
    for (i, j, boxes) in day.supplies() {
        for fewer in [0, 1, boxes / 2, boxes - 1] {
            let mut next = day.clone();
            next.boxes[i][j] = fewer;
            days.push(next);
        }
    }
    for (revisit_weight, split_weight) in [(0, 1), (1, 0), (1, 1), (2, 1), (1, 2)] {
        days.push(LongDay { revisit_weight, split_weight, ..day.clone() });
    }
    for k in day.positions() {
        for (first, last) in
            [(1, day.slots), (1, day.trains[k].last), (day.trains[k].first, day.slots)]
        {
            let mut next = day.clone();
            (next.trains[k].first, next.trains[k].last) = (first, last);
            days.push(next);
        }
    }
    days
}

/// As small as steps make it.
fn shrunk(day: LongDay) -> LongDay {
    let mut day = day;
    loop {
        let mut next: Vec<LongDay> =
            smaller(&day).into_iter().filter(|next| size(next) < size(&day)).collect();
        next.sort_by_key(size);
        match next.into_iter().find(|next| pair(next).is_some()) {
            Some(next) => day = next,
            None => break,
        }
    }
    for (number, train) in (1..).zip(&mut day.trains) {
        train.number = number;
    }
    day
}

fn print(day: &LongDay) {
    let Some(Pair { narrow, wide }) = pair(day) else { return };
    print!("{}", String::from_utf8_lossy(&write_long(day)));
    for width in [narrow, wide] {
        let found = search(day, width);
        if found != search_fast(day, width) {
            broken(&format!("{day:?}, width {width}: {found:?}"));
        }
        let plan = told(day, found).expect("a plan");
        let (row, value, full) = (plan.row, plan.value, plan.full);
        println!("  width {width}: {row:?}, {value:?}, {full} slots, lower {}", plan.lower);
    }
    println!("  costs from width 1 on: {:?}", costs(day));
}

/// All days of so many trains with at most so many slots, two tracks, one box for a
/// pair and small weights.
fn each_day(n: usize, most_slots: usize, visit: &mut dyn FnMut(&LongDay)) {
    for slots in 1..=most_slots {
        each_timetable(n, slots, &mut |trains| {
            each_list(n * (n - 1), 2, &mut |pairs| {
                let mut boxes = vec![vec![0; n]; n];
                for (place, &number) in pairs.iter().enumerate() {
                    let (to, from) = (place / (n - 1), place % (n - 1));
                    boxes[to][from + usize::from(from >= to)] = number;
                }
                for (tracks, weights) in [1, 2].iter().flat_map(|&g| WEIGHTS.map(|w| (g, w))) {
                    let (revisit_weight, split_weight) = weights;
                    let (trains, boxes) = (trains.to_vec(), boxes.clone());
                    let day =
                        LongDay { tracks, slots, revisit_weight, split_weight, trains, boxes };
                    visit(&day);
                }
            });
        });
    }
}

const WEIGHTS: [(usize, usize); 4] = [(0, 1), (1, 0), (1, 1), (2, 1)];

pub fn wider() -> bool {
    let (mut found, mut smallest) = (0, None::<LongDay>);
    for (n, slots) in [(2, 5), (3, 4)] {
        let (mut days, mut dearer) = (0, 0);
        each_day(n, slots, &mut |day| {
            days += 1;
            dearer += usize::from(pair(day).is_some());
        });
        println!("{n} trains, up to {slots} slots, a box at most: {dearer} of all {days} days");
    }
    for seed in SEED..SEED + DAYS {
        let day = draw_small(&mut Random(seed));
        if pair(&day).is_none() {
            continue;
        }
        found += 1;
        let day = shrunk(day);
        if smallest.as_ref().is_none_or(|smallest| size(&day) < size(smallest)) {
            smallest = Some(day);
        }
    }
    println!("a greater width, up to {WIDEST}, costs more: {found} of {DAYS} days");
    smallest.iter().for_each(print);
    true
}
