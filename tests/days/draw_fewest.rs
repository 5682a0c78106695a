//! Drawing days for order 8 of 02, whose allowed rows are few enough to go through
//! them all. The weights come later: they go by the boxes.

use crate::draw::{day_in, draw_crowded, draw_day, draw_grouped, places, Random, Window, Yard};
use crate::draw_ties::draw_tied;
use crate::model::{Boxes, Day, MOST_BOXES, MOST_SLOTS, MOST_TRACKS, MOST_TRAINS};

/// Rows within the windows to go through.
const SMALL_MOST: usize = 300;
const MIDDLE_MOST: usize = 5_000;
const LARGE_MOST: usize = 60_000;

const NO_BOXES: Boxes = [[0; MOST_TRAINS]; MOST_TRAINS];

pub struct Kind {
    pub name: &'static str,
    days: usize,
    pub draw: fn(&mut Random) -> Day,
}

const fn kind(name: &'static str, days: usize, draw: fn(&mut Random) -> Day) -> Kind {
    Kind { name, days, draw }
}

pub const KINDS: [Kind; 12] = [
    kind("small", 1000, |random| draw_any(random, SMALL_MOST)),
    kind("middle", 400, |random| draw_any(random, MIDDLE_MOST)),
    kind("large", 30, draw_large),
    kind("sets", 700, |random| draw_grouped(random, SMALL_MOST)),
    kind("ties", 400, draw_tied),
    kind("one way", 500, draw_one_way),
    kind("cycles", 500, draw_cycles),
    kind("none", 150, draw_boxless),
    kind("bought", 500, draw_bought),
    kind("tight", 200, draw_tight),
    kind("twelve", 150, draw_twelve),
    kind("great", 60, draw_great),
];

const SEED: u64 = 17_000_000;
const SEEDS_OF_A_KIND: u64 = 10_000;

impl Kind {
    /// The days of the kind at this place of `KINDS`, with their seeds.
    pub fn drawn(&self, place: usize) -> impl Iterator<Item = (u64, Day)> + '_ {
        let seeds = (SEED + place as u64 * SEEDS_OF_A_KIND..).take(self.days);
        seeds.map(|seed| (seed, (self.draw)(&mut Random(seed))))
    }
}

fn draw_any(random: &mut Random, most: usize) -> Day {
    let draw = random.pick(&[draw_day, draw_day, draw_crowded, draw_grouped]);
    draw(random, most)
}

/// More to go through than on the others.
fn draw_large(random: &mut Random) -> Day {
    loop {
        let day = draw_any(random, LARGE_MOST);
        if day.assignments() > LARGE_MOST / 4 {
            return day;
        }
    }
}

/// The positions of a day in drawn order.
fn shuffled(random: &mut Random, day: &Day) -> Vec<usize> {
    let mut order: Vec<usize> = (0..day.trains.len()).collect();
    random.shuffle(&mut order);
    order
}

/// Few boxes or many, each pair its own number of them.
fn draw_most(random: &mut Random) -> usize {
    random.pick(&[1, 3, 20, MOST_BOXES])
}

/// Each train receives only from such as come before it in a drawn order, so that
/// boxes alone make nobody come back: tracks and windows do.
fn draw_one_way(random: &mut Random) -> Day {
    let mut day = draw_any(random, SMALL_MOST);
    let order = shuffled(random, &day);
    let (most, one_in) = (draw_most(random), random.between(1, 3));
    day.boxes = NO_BOXES;
    for (place, &to) in order.iter().enumerate() {
        for &from in &order[..place] {
            if random.one_in(one_in) {
                day.boxes[to][from] = random.between(1, most);
            }
        }
    }
    day
}

/// Cycles of two trains or more, each train in one of them: where its trains are
/// not in one slot somebody comes back, and who does is a choice.
fn draw_cycles(random: &mut Random) -> Day {
    let mut day = draw_any(random, SMALL_MOST);
    let order = shuffled(random, &day);
    let most = draw_most(random);
    day.boxes = NO_BOXES;
    for cycle in order.chunks(random.between(2, 6)) {
        for (place, &to) in cycle.iter().enumerate() {
            let from = cycle[(place + 1) % cycle.len()];
            if from != to {
                day.boxes[to][from] = random.between(1, most);
            }
        }
    }
    day
}

fn draw_boxless(random: &mut Random) -> Day {
    Day { boxes: NO_BOXES, ..draw_any(random, SMALL_MOST) }
}

/// The positions of the trains bound to a slot, and of those that aren't bound.
fn bound_to(day: &Day, slot: usize) -> Vec<usize> {
    let bound = |k: &usize| (day.trains[*k].first, day.trains[*k].last) == (slot, slot);
    (0..day.trains.len()).filter(bound).collect()
}

fn unbound(day: &Day) -> Vec<usize> {
    (0..day.trains.len()).filter(|&k| day.trains[k].first < day.trains[k].last).collect()
}

/// So many trains in slots of their own.
fn bind(windows: &mut Vec<Window>, home: usize, trains: usize) {
    windows.extend(vec![Window { first: home, last: home, home }; trains]);
}

/// A day on which a revisit less is bought with split moves. Some trains are bound to
/// the first slot, some to the last, and others are torn between them: with the
/// one side goes a revisit for a few boxes, with the other many split moves.
pub fn draw_bought(random: &mut Random) -> Day {
    let (slots, tracks) = (random.between(2, 4), random.between(2, 4));
    let mut windows = Vec::new();
    bind(&mut windows, 1, random.between(1, tracks - 1));
    bind(&mut windows, slots, random.between(1, tracks));
    for home in places(random, 1..=slots, 1).into_iter().take(random.between(1, 3)) {
        windows.push(Window { first: 1, last: slots, home });
    }
    let mut day = day_in(random, &mut Yard { tracks, slots, windows }, SMALL_MOST);
    let (early, late) = (bound_to(&day, 1), bound_to(&day, slots));
    day.boxes = NO_BOXES;
    for torn in unbound(&day) {
        let (early, late) = (random.pick(&early), random.pick(&late));
        let few = random.between(1, 4);
        let many = few + random.pick(&[1, 2, 9, 60, MOST_BOXES - few]);
        // Beside the early one it comes back for what the late one supplies; or
        // beside the late one it makes the early one come back.
        let (with_early, with_late) = match random.one_in(2) {
            true => ((torn, early, many), (torn, late, few)),
            false => ((early, torn, few), (late, torn, many)),
        };
        for (to, from, boxes) in [with_early, with_late] {
            day.boxes[to][from] = boxes;
        }
    }
    day
}

/// The dearest revisit less that there is: one train comes back for the only box
/// that is split, or all boxes are split and nobody comes back. Here a weight that
/// is the sum less 2 gives another plan.
fn draw_tight(random: &mut Random) -> Day {
    let tracks = random.between(2, 4);
    let before = random.between(1, MOST_SLOTS - 2);
    let (full, after) = (before + 1, before + 2);
    // All boxes but one come from trains before the full slot, or go to trains
    // after it. The one comes from a train in it, or goes to one.
    let receives = random.one_in(2);
    let many = if receives { before } else { after };
    let mut windows = vec![Window { first: before, last: after, home: many }];
    bind(&mut windows, many, random.between(1, tracks - 1));
    bind(&mut windows, full, tracks);
    let mut day = day_in(random, &mut Yard { tracks, slots: after, windows }, SMALL_MOST);
    let torn = unbound(&day)[0];
    let (beside, apart) = (bound_to(&day, many), bound_to(&day, full));
    let most = draw_most(random);
    let mut given: Vec<(usize, usize)> =
        beside.into_iter().map(|other| (other, random.between(1, most))).collect();
    given.push((random.pick(&apart), 1));
    day.boxes = NO_BOXES;
    for (other, boxes) in given {
        let (to, from) = if receives { (torn, other) } else { (other, torn) };
        day.boxes[to][from] = boxes;
    }
    day
}

/// Twelve trains, with windows the narrower for it.
fn draw_twelve(random: &mut Random) -> Day {
    loop {
        let day = draw_any(random, MIDDLE_MOST);
        if day.trains.len() == MOST_TRAINS {
            return day;
        }
    }
}

/// Boxes for all pairs of twelve trains: their sum is 2^15 or more. More trains are
/// bound to the first slot than to the last, so that the others split fewer moves
/// with the former and make fewer come back with the latter.
fn draw_great(random: &mut Random) -> Day {
    let (early, slots) = (random.between(4, 8), random.between(2, 3));
    let late = random.between(1, early - 2).min(MOST_TRAINS - 1 - early);
    let mut windows = Vec::new();
    bind(&mut windows, 1, early);
    bind(&mut windows, slots, late);
    while windows.len() < MOST_TRAINS {
        windows.push(Window { first: 1, last: slots, home: 1 });
    }
    let tracks = random.between(MOST_TRAINS - late, MOST_TRACKS);
    let mut day = day_in(random, &mut Yard { tracks, slots, windows }, SMALL_MOST);
    for to in 0..MOST_TRAINS {
        for from in (0..MOST_TRAINS).filter(|&from| from != to) {
            day.boxes[to][from] = random.between(MOST_BOXES - 5, MOST_BOXES);
        }
    }
    day
}
