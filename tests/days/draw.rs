//! Drawing numbers and sound days.

use crate::day_file::Limits;
use crate::draw_sets::group_trains;
use crate::model::{
    Boxes, Day, Train, MOST_BOXES, MOST_SLOTS, MOST_TRACKS, MOST_TRAINS, MOST_TRAIN_NUMBER,
    MOST_WEIGHT,
};
use std::collections::BTreeSet;

// ---------------------------------------------------------------------------
// Drawing numbers
// ---------------------------------------------------------------------------

/// The splitmix64 generator: each text has a seed of its own, so that it can
/// be drawn again alone.
pub struct Random(pub u64);

impl Random {
    fn next(&mut self) -> u64 {
        self.0 = self.0.wrapping_add(0x9E37_79B9_7F4A_7C15);
        let mut z = self.0;
        z = (z ^ (z >> 30)).wrapping_mul(0xBF58_476D_1CE4_E5B9);
        z = (z ^ (z >> 27)).wrapping_mul(0x94D0_49BB_1331_11EB);
        z ^ (z >> 31)
    }

    /// 0 up to, but without, `count`.
    pub fn below(&mut self, count: usize) -> usize {
        (self.next() % count as u64) as usize
    }

    /// Both ends included.
    pub fn between(&mut self, low: usize, high: usize) -> usize {
        low + self.below(high - low + 1)
    }

    pub fn one_in(&mut self, count: usize) -> bool {
        self.below(count) == 0
    }

    pub fn byte(&mut self) -> u8 {
        self.below(256) as u8
    }

    pub fn pick<T: Copy>(&mut self, items: &[T]) -> T {
        items[self.below(items.len())]
    }

    pub fn shuffle<T>(&mut self, items: &mut [T]) {
        for index in (1..items.len()).rev() {
            items.swap(index, self.below(index + 1));
        }
    }
}

// ---------------------------------------------------------------------------
// Drawing sound days
// ---------------------------------------------------------------------------

/// Assignments to try for most days, for a few (8^7 is within), and for the
/// days that are damaged.
pub const USUAL_MOST: usize = 60_000;
const LARGE_MOST: usize = 2_100_000;
pub const DAMAGED_MOST: usize = 5_000;
const LARGE_ONE_IN: usize = 100;

/// So many of the days of any kind have groups of trains.
const GROUPED_ONE_IN: usize = 3;

/// A drawn window; narrowing it keeps the home slot inside.
#[derive(Clone, Copy)]
pub struct Window {
    pub first: usize,
    pub last: usize,
    pub home: usize,
}

impl Window {
    /// Reaches up to `reach` slots to both sides of home, within low..high.
    pub fn around(random: &mut Random, home: usize, (low, high): Limits, reach: usize) -> Window {
        let first = home.saturating_sub(random.below(reach + 1)).max(low);
        let last = (home + random.below(reach + 1)).min(high);
        Window { first, last, home }
    }

    fn width(&self) -> usize {
        self.last - self.first + 1
    }

    /// One slot narrower at an end that isn't home.
    fn narrow(&mut self, random: &mut Random) {
        let from_below = self.first < self.home && (self.last == self.home || random.one_in(2));
        if from_below {
            self.first += 1;
        } else {
            self.last -= 1;
        }
    }
}

/// What decides whether a day is feasible.
pub struct Yard {
    pub tracks: usize,
    pub slots: usize,
    pub windows: Vec<Window>,
}

impl Yard {
    pub fn homes(&self) -> Vec<usize> {
        self.windows.iter().map(|window| window.home).collect()
    }
}

/// All windows open; tracks about as many as are needed.
fn open_yard(random: &mut Random, most: usize) -> Yard {
    let n = random.between(1, MOST_TRAINS);
    let enumerable = |slots: &usize| slots.pow(n as u32) <= most;
    let slots: Vec<usize> = (1..=MOST_SLOTS).filter(enumerable).collect();
    let slots = random.pick(&slots);
    let enough = n.div_ceil(slots);
    let any = random.between(1, MOST_TRACKS);
    let tracks = random.pick(&[enough, enough.max(2) - 1, (enough + 1).min(MOST_TRACKS), any]);
    let windows = (0..n).map(|_| Window { first: 1, last: slots, home: random.between(1, slots) });
    Yard { tracks, slots, windows: windows.collect() }
}

/// Windows anywhere, of any width; feasible or not, as it falls.
fn scattered_yard(random: &mut Random) -> Yard {
    let n = random.between(1, MOST_TRAINS);
    let slots = random.between(1, MOST_SLOTS);
    let any = random.between(1, MOST_TRACKS);
    let tracks = random.pick(&[1, 2, 3, 4, any]);
    let reach = random.pick(&[0, 1, 1, 2, 7]);
    let window = |_| {
        let home = random.between(1, slots);
        Window::around(random, home, (1, slots), reach)
    };
    Yard { tracks, slots, windows: (0..n).map(window).collect() }
}

/// The given slots, each as often as there are tracks, in drawn order.
pub fn places(
    random: &mut Random,
    slots: impl Iterator<Item = usize>,
    tracks: usize,
) -> Vec<usize> {
    let mut places: Vec<usize> = slots.flat_map(|slot| vec![slot; tracks]).collect();
    random.shuffle(&mut places);
    places
}

/// Feasible by a hidden assignment: each train's window holds its home.
fn planted_yard(random: &mut Random) -> Yard {
    let slots = random.between(1, MOST_SLOTS);
    let any = random.between(1, MOST_TRACKS);
    let tracks = random.pick(&[1, 2, 3, any]);
    planted_among(random, slots, tracks)
}

/// The same with many tracks and few slots, which large groups need.
fn roomy_yard(random: &mut Random) -> Yard {
    let (slots, tracks) = (random.between(1, 4), random.between(4, MOST_TRACKS));
    planted_among(random, slots, tracks)
}

fn planted_among(random: &mut Random, slots: usize, tracks: usize) -> Yard {
    let mut homes = places(random, 1..=slots, tracks);
    homes.truncate(random.between(1, homes.len().min(MOST_TRAINS)));
    let reach = random.pick(&[1, 2, 7]);
    let window = |&home: &usize| Window::around(random, home, (1, slots), reach);
    Yard { tracks, slots, windows: homes.iter().map(window).collect() }
}

/// Barely feasible: an interval with exactly as many trains bound inside as it
/// has places, and others around it that may not enter it.
fn full_yard(random: &mut Random) -> Yard {
    let slots = random.between(1, MOST_SLOTS);
    let tracks = random.between(1, 4);
    let width = random.between(1, slots.min(MOST_TRAINS / tracks));
    let first = random.between(1, slots - width + 1);
    let interval = (first, first + width - 1);
    let inside = places(random, interval.0..=interval.1, tracks);
    let outside = (1..=slots).filter(|&slot| slot < interval.0 || interval.1 < slot);
    let mut outside = places(random, outside, tracks);
    outside.truncate(random.below(outside.len().min(MOST_TRAINS - inside.len()) + 1));
    let reach = random.between(1, 3);
    let mut windows = Vec::new();
    for home in inside {
        windows.push(Window::around(random, home, interval, reach));
    }
    for home in outside {
        windows.push(Window::around(random, home, (1, slots), 7));
    }
    Yard { tracks, slots, windows }
}

/// Overbooked by one train in an interval that isn't the whole day, while the
/// whole day has places enough.
fn inner_overbooked_yard(random: &mut Random) -> Yard {
    let slots = random.between(2, MOST_SLOTS);
    let width = random.between(1, slots - 1);
    let tracks = random.between(1, (MOST_TRAINS - 1) / width);
    let first = random.between(1, slots - width + 1);
    let interval = (first, first + width - 1);
    let bound = tracks * width + 1;
    let n = random.between(bound, MOST_TRAINS.min(tracks * slots));
    let reach = random.between(0, 3);
    let mut windows = Vec::new();
    for index in 0..n {
        let limits = if index < bound { interval } else { (1, slots) };
        let home = random.between(limits.0, limits.1);
        windows.push(Window::around(random, home, limits, if index < bound { reach } else { 7 }));
    }
    Yard { tracks, slots, windows }
}

/// Feasible by a hidden assignment that leaves one place free at most, so that
/// whoever takes the trains one by one often leaves a train over.
fn crowded_yard(random: &mut Random) -> Yard {
    let tracks = random.between(1, 3);
    let slots = random.between(2, MOST_SLOTS.min(MOST_TRAINS / tracks));
    let mut homes = places(random, 1..=slots, tracks);
    homes.truncate(homes.len() - random.below(2));
    let reach = random.between(1, 3);
    let window = |&home: &usize| Window::around(random, home, (1, slots), reach);
    Yard { tracks, slots, windows: homes.iter().map(window).collect() }
}

/// Narrows windows until at most `most` assignments lie within them.
fn narrow_yard(random: &mut Random, yard: &mut Yard, most: usize) {
    while yard.windows.iter().map(Window::width).product::<usize>() > most {
        let chosen = random.below(yard.windows.len());
        if yard.windows[chosen].width() > 1 {
            yard.windows[chosen].narrow(random);
        }
    }
}

/// Any train number, or one of one to five digits, each count as often.
fn draw_number(random: &mut Random) -> usize {
    let power = 10_usize.pow(random.below(5) as u32);
    let of_size = random.between(power, 10 * power - 1);
    let any = random.between(1, MOST_TRAIN_NUMBER);
    random.pick(&[of_size, any])
}

/// Rising train numbers over the whole range, its two ends often among them,
/// or numbers whose low eight or sixteen bits are the same.
pub fn draw_numbers(random: &mut Random, n: usize) -> Vec<usize> {
    let apart = |start: usize, step: usize| (0..n).map(move |k| start + k * step);
    let mut numbers: BTreeSet<usize> = match random.below(7) {
        0 => (1..=n).collect(),
        1 => (MOST_TRAIN_NUMBER + 1 - n..=MOST_TRAIN_NUMBER).collect(),
        2 if n > 1 => BTreeSet::from([1, MOST_TRAIN_NUMBER]),
        3 => apart(random.between(1, MOST_TRAIN_NUMBER - 256 * n), 256).collect(),
        4 => apart(random.between(1, MOST_TRAIN_NUMBER - 65536), 65536).take(2.min(n)).collect(),
        _ => BTreeSet::new(),
    };
    while numbers.len() < n {
        numbers.insert(draw_number(random));
    }
    numbers.into_iter().collect()
}

/// None, a few, some or all pairs; few pairs of one box each make many ties.
fn draw_boxes(random: &mut Random, n: usize) -> Boxes {
    let all = n * (n - 1);
    let most = random.pick(&[1, 9, MOST_BOXES]);
    let least = if random.one_in(6) { most } else { 1 };
    let wanted = match random.below(7) {
        0 => 0,
        1 | 2 => all.min(3),
        3 => all,
        4 => random.between(0, all),
        _ => all / 4,
    };
    let mut pairs: Vec<(usize, usize)> = (0..n * n).map(|pair| (pair / n, pair % n)).collect();
    pairs.retain(|(to, from)| to != from);
    random.shuffle(&mut pairs);
    let mut boxes = [[0; MOST_TRAINS]; MOST_TRAINS];
    for &(to, from) in &pairs[..wanted] {
        boxes[to][from] = random.between(least, most);
    }
    boxes
}

pub fn draw_weight(random: &mut Random) -> usize {
    let (small, any) = (random.between(2, 100), random.between(0, MOST_WEIGHT));
    random.pick(&[0, 0, 1, 1, MOST_WEIGHT, small, small, any])
}

/// A sound day in the yard, with at most `most` assignments within its windows,
/// which the yard has afterwards by position.
pub fn day_in(random: &mut Random, yard: &mut Yard, most: usize) -> Day {
    narrow_yard(random, yard, most);
    random.shuffle(&mut yard.windows);
    let numbers = draw_numbers(random, yard.windows.len());
    let train = |(&number, window): (&usize, &Window)| Train {
        number,
        first: window.first,
        last: window.last,
        group: 0,
    };
    Day {
        tracks: yard.tracks,
        slots: yard.slots,
        revisit_weight: draw_weight(random),
        split_weight: draw_weight(random),
        boxes: draw_boxes(random, yard.windows.len()),
        trains: numbers.iter().zip(&yard.windows).map(train).collect(),
    }
}

/// A sound day of any kind.
pub fn draw_day(random: &mut Random, most: usize) -> Day {
    let mut yard = match random.below(6) {
        0 => open_yard(random, most),
        1 => scattered_yard(random),
        2 => full_yard(random),
        3 => inner_overbooked_yard(random),
        _ => planted_yard(random),
    };
    let mut day = day_in(random, &mut yard, most);
    if random.one_in(GROUPED_ONE_IN) {
        group_trains(random, &mut day, &yard.homes());
    }
    day
}

/// A sound day without groups that has a plan and hardly a place to spare.
pub fn draw_crowded(random: &mut Random, most: usize) -> Day {
    let mut yard = crowded_yard(random);
    day_in(random, &mut yard, most)
}

/// A sound day with groups, in yards that mostly have places enough.
pub fn draw_grouped(random: &mut Random, most: usize) -> Day {
    let mut yard = match random.below(10) {
        0 => open_yard(random, most),
        1 => scattered_yard(random),
        2 => full_yard(random),
        3 => inner_overbooked_yard(random),
        4..=6 => crowded_yard(random),
        7 => roomy_yard(random),
        _ => planted_yard(random),
    };
    let mut day = day_in(random, &mut yard, most);
    group_trains(random, &mut day, &yard.homes());
    day
}

/// A sound day with six tracks and two slots for twelve trains, in which a slot
/// costs about 2^bits: its 36 pairs have 228 boxes each on the average.
pub fn draw_heavy(random: &mut Random, bits: u32) -> Day {
    let windows = (0..MOST_TRAINS).map(|_| Window { first: 1, last: 2, home: 1 }).collect();
    let mut yard = Yard { tracks: 6, slots: 2, windows };
    let mut day = day_in(random, &mut yard, USUAL_MOST);
    day.split_weight = (1_usize << bits).div_ceil(36 * 228);
    for to in 0..MOST_TRAINS {
        for from in (0..MOST_TRAINS).filter(|&from| from != to) {
            day.boxes[to][from] = random.between(MOST_BOXES - 54, MOST_BOXES);
        }
    }
    day
}

/// A sound day; one in `LARGE_ONE_IN` has more assignments than usual to try.
pub fn draw_sound(random: &mut Random, index: usize) -> Day {
    if index % LARGE_ONE_IN != 0 {
        return draw_day(random, USUAL_MOST);
    }
    loop {
        let day = draw_day(random, LARGE_MOST);
        if day.assignments() > USUAL_MOST {
            return day;
        }
    }
}
