//! Drawing long days: small ones that the plain search can plan, and ones of many
//! trains.

use crate::draw::{draw_numbers, draw_weight, places, Random, Window};
use crate::long_day::{LongDay, LONG_SLOTS, LONG_TRACKS, LONG_TRAINS};
use crate::long_fast::work;
use crate::model::{Train, MOST_BOXES, MOST_WEIGHT};

/// A small day has no more trains and slots; the tracks are those of long days.
pub const SMALL_TRAINS: usize = 7;
pub const SMALL_SLOTS: usize = 5;

type Windows = Vec<Window>;

/// Boxes for so many trains: each pair with a chance of so many in a hundred.
fn draw_boxes(random: &mut Random, n: usize, chance: usize, most: usize) -> Vec<Vec<usize>> {
    let least = if random.one_in(6) { most } else { 1 };
    let mut number = |to: usize, from: usize| {
        let carries = random.below(100) < chance && to != from;
        let number = random.between(least, most);
        if carries {
            number
        } else {
            0
        }
    };
    (0..n).map(|to| (0..n).map(|from| number(to, from)).collect()).collect()
}

/// A day of these windows, in drawn order.
fn day_of(random: &mut Random, tracks: usize, slots: usize, mut windows: Windows) -> LongDay {
    random.shuffle(&mut windows);
    let numbers = draw_numbers(random, windows.len());
    let train = |(&number, window): (&usize, &Window)| Train {
        number,
        first: window.first,
        last: window.last,
        group: 0,
    };
    let chance = random.pick(&[0, 5, 10, 20, 20, 40, 60, 80, 100]);
    let most = random.pick(&[1, 2, 10, MOST_BOXES]);
    LongDay {
        tracks,
        slots,
        revisit_weight: draw_weight(random),
        split_weight: draw_weight(random),
        trains: numbers.iter().zip(&windows).map(train).collect(),
        boxes: draw_boxes(random, windows.len(), chance, most),
    }
}

/// Windows that hold a hidden row's slots, and reach so far beside them.
fn planted(random: &mut Random, homes: &[usize], slots: usize, reach: usize) -> Windows {
    homes.iter().map(|&home| Window::around(random, home, (1, slots), reach)).collect()
}

/// A small day: open windows, windows anywhere, windows around a hidden row, hidden
/// rows that leave hardly a place free; days on which many plans cost the same, and
/// overbooked ones.
pub fn draw_small(random: &mut Random) -> LongDay {
    match random.below(9) {
        0 => draw_overbooked(random),
        1 | 2 => draw_level(random),
        kind => draw_any(random, kind),
    }
}

fn draw_any(random: &mut Random, kind: usize) -> LongDay {
    let (tracks, slots) = (random.between(1, LONG_TRACKS), random.between(1, SMALL_SLOTS));
    let any = random.between(1, SMALL_TRAINS);
    let mut homes = places(random, 1..=slots, tracks);
    homes.truncate(SMALL_TRAINS);
    let crowded = homes.clone();
    homes.truncate(any);
    let windows = match kind {
        3 => open(homes.len(), slots),
        4 => {
            let homes: Vec<usize> = (0..any).map(|_| random.between(1, slots)).collect();
            let reach = random.pick(&[0, 1, 1, 2]);
            planted(random, &homes, slots, reach)
        }
        5 => {
            let reach = random.between(1, 3);
            planted(random, &homes, slots, reach)
        }
        6 => {
            // All trains are there early, and hardly one can stay.
            let reach = random.between(0, 1);
            let windows = planted(random, &crowded, slots, reach).into_iter();
            windows.map(|window| Window { first: 1, ..window }).collect()
        }
        _ => {
            let reach = random.between(1, SMALL_SLOTS);
            planted(random, &crowded, slots, reach)
        }
    };
    day_of(random, tracks, slots, windows)
}

fn open(n: usize, slots: usize) -> Windows {
    (0..n).map(|_| Window { first: 1, last: slots, home: 1 }).collect()
}

/// Few boxes, all of one number, small weights and hardly a window that binds: many
/// plans cost the same.
fn draw_level(random: &mut Random) -> LongDay {
    let (tracks, slots) = (random.between(1, 3), random.between(2, SMALL_SLOTS));
    let n = random.between(2, 6.min(tracks * slots));
    let mut homes = places(random, 1..=slots, tracks);
    homes.truncate(n);
    let reach = random.pick(&[1, 2, SMALL_SLOTS, SMALL_SLOTS]);
    let mut windows =
        if random.one_in(3) { open(n, slots) } else { planted(random, &homes, slots, reach) };
    if random.one_in(2) {
        // Some come later, and all can stay.
        for window in &mut windows {
            let late = random.between(1, slots);
            (window.first, window.last) = (random.pick(&[1, 1, window.first, late]), slots);
        }
    }
    let mut day = day_of(random, tracks, slots, windows);
    let chance = random.pick(&[0, 0, 10, 20, 30]);
    day.boxes = draw_boxes(random, n, chance, 1);
    (day.revisit_weight, day.split_weight) =
        random.pick(&[(0, 0), (0, 0), (0, 1), (1, 0), (1, 1), (2, 1)]);
    day
}

/// One or two stretches, each with some trains too many for it or just not; the
/// second may lie inside the first.
fn draw_overbooked(random: &mut Random) -> LongDay {
    let (tracks, slots) = (random.between(1, 2), random.between(2, SMALL_SLOTS));
    let mut windows = Vec::new();
    let (mut low, mut high) = (1, slots);
    for _ in 0..random.between(1, 3) {
        let first = random.between(low, high);
        let last = random.between(first, high);
        let inside = |window: &&Window| first <= window.first && window.last <= last;
        let held = windows.iter().filter(inside).count();
        let count = (tracks * (last - first + 1) + random.between(0, 2)).saturating_sub(held);
        for _ in 0..count {
            let home = random.between(first, last);
            windows.push(Window::around(random, home, (first, last), SMALL_SLOTS));
        }
        // The next one around it, or anywhere.
        (low, high) = random.pick(&[(1, slots), (1, last)]);
    }
    if windows.is_empty() {
        windows = open(1, slots);
    }
    day_of(random, tracks, slots, windows)
}

/// A day of as many trains as a day of 01 has, or a few less, which a width of about
/// 30 cuts.
pub fn draw_middle(random: &mut Random, most: usize) -> LongDay {
    loop {
        let (tracks, slots) = (random.between(1, LONG_TRACKS), random.between(3, 8));
        let mut homes = places(random, 1..=slots, tracks);
        homes.truncate(random.between(8, 13));
        let reach = random.between(1, slots);
        let windows = planted(random, &homes, slots, reach);
        let day = day_of(random, tracks, slots, windows);
        if day.trains.len() > SMALL_TRAINS && work(&day, 1) <= most {
            return day;
        }
    }
}

/// A day of more trains than a day of 01 has, whose search looks at no more children
/// than so many at the greatest width.
pub fn draw_great(random: &mut Random, most: usize) -> LongDay {
    loop {
        let n = random.between(13, LONG_TRAINS);
        let tracks = random.between(2, LONG_TRACKS);
        if n.div_ceil(tracks) > LONG_SLOTS {
            continue;
        }
        let slots = random.between(n.div_ceil(tracks), LONG_SLOTS);
        let mut homes = places(random, 1..=slots, tracks);
        homes.truncate(n);
        let reach = random.pick(&[0, 1, 2, 3, 5, LONG_SLOTS]);
        let mut windows = planted(random, &homes, slots, reach);
        if reach == LONG_SLOTS && random.one_in(2) {
            windows.iter_mut().for_each(|window| (window.first, window.last) = (1, slots));
        }
        if random.one_in(12) {
            // One more train for a window that may be full by now.
            let window = random.pick(&windows);
            windows[0] = window;
            windows[1] = window;
        }
        let mut day = day_of(random, tracks, slots, windows);
        if random.one_in(4) {
            // Costs of more than 32 bits.
            (day.revisit_weight, day.split_weight) = (MOST_WEIGHT, MOST_WEIGHT);
            let all = |to: usize, from: usize| if to == from { 0 } else { MOST_BOXES };
            day.boxes = match random.below(3) {
                0 => draw_boxes(random, n, 80, MOST_BOXES),
                _ => (0..n).map(|to| (0..n).map(|from| all(to, from)).collect()).collect(),
            };
        }
        if work(&day, 1) <= most {
            return day;
        }
    }
}

/// As many trains and boxes as there can be, with windows of a slot or two: its file
/// is long and its search short.
pub fn draw_dense(random: &mut Random) -> LongDay {
    let mut homes = places(random, 1..=LONG_SLOTS, LONG_TRACKS);
    homes.truncate(random.between(LONG_TRAINS - 4, LONG_TRAINS));
    let mut windows = planted(random, &homes, LONG_SLOTS, 0);
    for window in &mut windows {
        let wider = random.one_in(8) && window.last < LONG_SLOTS;
        window.last += usize::from(wider);
    }
    let mut day = day_of(random, LONG_TRACKS, LONG_SLOTS, windows);
    let n = day.trains.len();
    let chance = random.pick(&[30, 60, 100]);
    day.boxes = draw_boxes(random, n, chance, MOST_BOXES);
    day
}

/// Days drawn as in section 5.1 of source 000: all windows open, each train carries
/// boxes for each other one with this chance in a hundred, one to ten, weights 1.
pub fn draw_source(random: &mut Random, [n, tracks, slots]: [usize; 3], chance: usize) -> LongDay {
    let train = |k: usize| Train { number: k + 1, first: 1, last: slots, group: 0 };
    let mut boxes = vec![vec![0; n]; n];
    for (to, row) in boxes.iter_mut().enumerate() {
        for (from, number) in row.iter_mut().enumerate() {
            if to != from && random.below(100) < chance {
                *number = random.between(1, 10);
            }
        }
    }
    let trains = (0..n).map(train).collect();
    LongDay { tracks, slots, revisit_weight: 1, split_weight: 1, trains, boxes }
}
