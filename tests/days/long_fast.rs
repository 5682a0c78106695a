//! The same search with sets of trains as words, for days of many trains. Mode
//! self and mode long hold it to long_beam.rs on small days.

use crate::long_beam::Found;
use crate::long_day::LongDay;
use std::cmp::Ordering;

/// Trains as bits, the first position lowest.
type Set = u64;

/// What a slot serves is chosen here; what the slots before serve is the parent's.
#[derive(Clone, Copy)]
struct Child {
    cost: usize,
    revisits: usize,
    sum: usize,
    parent: usize,
    served: Set,
    cover: Set,
}

/// A plan that is kept, with the sets of its slots so far.
#[derive(Clone)]
struct Kept {
    cost: usize,
    revisits: usize,
    sum: usize,
    cover: Set,
    sets: Vec<Set>,
}

/// Children are sifted when there are so many.
const BATCH: usize = 4096;

struct Stage<'a> {
    day: &'a LongDay,
    suppliers: Vec<Set>,
    incoming: Vec<usize>,
    kept: Vec<Kept>,
    slot: usize,
    width: usize,
    children: Vec<Child>,
    /// Whether more than the width were seen that cover different trains.
    full: bool,
    /// Numbers of the last one of those that are good enough, once there are as
    /// many as the width and the slot counts anyhow.
    worst: Option<(usize, usize, usize)>,
}

impl Stage<'_> {
    fn order(&self, one: &Child, other: &Child) -> Ordering {
        let numbers = |child: &Child| (child.cost, child.revisits, child.sum);
        let sets = |child: &Child| &self.kept[child.parent].sets;
        numbers(one)
            .cmp(&numbers(other))
            .then_with(|| sets(other).cmp(sets(one)))
            .then_with(|| other.served.cmp(&one.served))
    }

    /// Leaves the best that cover different trains, as many as the width.
    fn sift(&mut self) {
        let mut children = std::mem::take(&mut self.children);
        children.sort_unstable_by(|one, other| {
            one.cover.cmp(&other.cover).then_with(|| self.order(one, other))
        });
        children.dedup_by_key(|child| child.cover);
        self.full |= children.len() > self.width;
        children.sort_unstable_by(|one, other| self.order(one, other));
        children.truncate(self.width);
        if self.full && children.len() == self.width {
            self.worst = children.last().map(|child| (child.cost, child.revisits, child.sum));
        }
        self.children = children;
    }

    /// A waiting train whose last slot has passed is one too many for no slots; a
    /// stretch that begins later than the next slot holds trains that nobody could
    /// have served yet, and the day alone decides on it.
    fn discarded(&self, cover: Set) -> bool {
        let day = self.day;
        let waits = |k: &usize| cover >> k & 1 == 0;
        (self.slot..=day.slots).any(|last| {
            let bound = |k: &usize| day.trains[*k].last <= last;
            let bound = day.positions().filter(waits).filter(bound).count();
            bound > day.tracks * (last - self.slot)
        })
    }

    fn add(&mut self, parent: usize, served: Set) {
        let day = self.day;
        let Kept { cost, revisits, sum, cover, .. } = self.kept[parent];
        let all = cover | served;
        let (mut back, mut splits, mut trains, mut rest) = (0, 0, 0, served);
        while rest != 0 {
            let i = rest.trailing_zeros() as usize;
            rest &= rest - 1;
            trains += 1;
            back += usize::from(self.suppliers[i] & !all != 0);
            splits += self.incoming[i];
            let mut beside = self.suppliers[i] & served;
            while beside != 0 {
                splits -= day.boxes[i][beside.trailing_zeros() as usize];
                beside &= beside - 1;
            }
        }
        let child = Child {
            cost: cost + day.weighed(back, splits),
            revisits: revisits + back,
            sum: sum + self.slot * trains,
            parent,
            served,
            cover: all,
        };
        let worse = |worst| (child.cost, child.revisits, child.sum) > worst;
        if self.worst.is_some_and(worse) || self.discarded(all) {
            return;
        }
        self.children.push(child);
        if self.children.len() >= self.width + BATCH {
            self.sift();
        }
    }

    /// All sets of at most so many of these trains, with those that are in it already.
    fn add_all(&mut self, parent: usize, served: Set, trains: &[usize], most: usize) {
        self.add(parent, served);
        if most > 0 {
            for (index, k) in trains.iter().enumerate() {
                self.add_all(parent, served | 1 << k, &trains[index + 1..], most - 1);
            }
        }
    }

    fn next(mut self) -> (Vec<Kept>, bool) {
        for parent in 0..self.kept.len() {
            let (day, cover) = (self.day, self.kept[parent].cover);
            let may = |k: &usize| cover >> k & 1 == 0 && day.within_window(*k, self.slot);
            let trains: Vec<usize> = day.positions().filter(may).collect();
            self.add_all(parent, 0, &trains, day.tracks);
        }
        self.sift();
        let kept = |child: &Child| Kept {
            cost: child.cost,
            revisits: child.revisits,
            sum: child.sum,
            cover: child.cover,
            sets: [&self.kept[child.parent].sets[..], &[child.served]].concat(),
        };
        (self.children.iter().map(kept).collect(), self.full)
    }
}

pub fn search_fast(day: &LongDay, width: usize) -> Option<Found> {
    // Then no row is allowed, and `discarded` relies on it.
    if day.overbooked().is_some() {
        return None;
    }
    let suppliers = |i: usize| day.positions().filter(move |&j| day.boxes[i][j] > 0);
    let set = |i: usize| suppliers(i).map(|j| 1 << j).sum();
    let none = Kept { cost: 0, revisits: 0, sum: 0, cover: 0, sets: Vec::new() };
    let (mut kept, mut full) = (vec![none], 0);
    for slot in 1..=day.slots {
        let stage = Stage {
            day,
            suppliers: day.positions().map(set).collect(),
            incoming: day.positions().map(|i| day.boxes[i].iter().sum()).collect(),
            kept,
            slot,
            width,
            children: Vec::new(),
            full: false,
            worst: None,
        };
        let (next, counts) = stage.next();
        kept = next;
        full += usize::from(counts);
    }
    let Kept { sets, .. } = kept.first()?;
    let slot = |k: usize| 1 + sets.iter().position(|set| set >> k & 1 == 1).expect("a slot");
    Some(Found { row: day.positions().map(slot).collect(), full })
}

/// About how many children the search looks at: the sets that each slot may serve,
/// for each plan of the width.
pub fn work(day: &LongDay, width: usize) -> usize {
    let sets = |slot: usize| {
        let open = day.positions().filter(|&k| day.within_window(k, slot)).count();
        let mut sum = 1;
        let mut of_size = 1;
        for size in 1..=day.tracks.min(open) {
            of_size = of_size * (open + 1 - size) / size;
            sum += of_size;
        }
        sum
    };
    (1..=day.slots).map(sets).sum::<usize>() * width
}
