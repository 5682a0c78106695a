//! Drawing days on which allowed assignments cost the same, so that order 5 of
//! 02 has to choose: boxes that are alike, and weights that are zero or make
//! a revisit as dear as some boxes.

use crate::draw::{day_in, places, Random, Window, Yard};
use crate::draw_sets::{group_trains, of_one_home};
use crate::misorderings::{as_before, try_all};
use crate::model::{Boxes, Day, MOST_BOXES, MOST_SLOTS, MOST_TRACKS, MOST_TRAINS, MOST_WEIGHT};

/// Assignments to try; those of five trains with four slots each are within.
const TIED_MOST: usize = 1024;

/// Most trains of a small yard, and most that may pass others.
const FEW_TRAINS: usize = 7;
const MOST_PASSING: usize = 3;

const DEAR_ONE_IN: usize = 12;
const GROUPED_ONE_IN: usize = 3;

/// The window of a train that has no choice.
fn bound(home: usize) -> Window {
    Window { first: home, last: home, home }
}

/// Few trains, all with the same window, on few tracks.
fn small_yard(random: &mut Random) -> Yard {
    let (slots, tracks) = (random.between(2, 5), random.between(1, 3));
    open_among(random, slots, tracks)
}

/// The same with few slots, which trains that stay together compete for.
fn tight_yard(random: &mut Random) -> Yard {
    let (slots, tracks) = (random.between(2, 3), random.between(2, 4));
    open_among(random, slots, tracks)
}

fn open_among(random: &mut Random, slots: usize, tracks: usize) -> Yard {
    let mut homes = places(random, 1..=slots, tracks);
    homes.truncate(random.between(2, homes.len().min(FEW_TRAINS)));
    let window = |home| Window { first: 1, last: slots, home };
    Yard { tracks, slots, windows: homes.into_iter().map(window).collect() }
}

/// Bound trains, some of which fill a slot, and others that come before or after
/// it.
fn passing_yard(random: &mut Random) -> Yard {
    let slots = random.between(3, 5);
    let tracks = random.between(1, 3);
    let full = random.between(2, slots - 1);
    let mut outside = places(random, (1..=slots).filter(|&slot| slot != full), tracks);
    let passing = random.between(1, MOST_PASSING.min(outside.len() - 1));
    let passing = outside.split_off(outside.len() - passing);
    outside.truncate(random.between(1, outside.len().min(3)));
    let mut windows: Vec<Window> = outside.into_iter().map(bound).collect();
    windows.extend(vec![bound(full); tracks]);
    windows.extend(passing.into_iter().map(|home| Window { first: 1, last: slots, home }));
    Yard { tracks, slots, windows }
}

/// Many trains in the last slots: the sums are about 64, or still larger, and
/// there may be as many revisits as can be.
fn late_yard(random: &mut Random) -> Yard {
    let late = random.between(2, 4);
    let interval = (MOST_SLOTS + 1 - late, MOST_SLOTS);
    let tracks = random.between(MOST_TRAINS.div_ceil(late), MOST_TRACKS);
    let mut homes = places(random, interval.0..=interval.1, tracks);
    homes.truncate(random.pick(&[9, 9, 10, MOST_TRAINS]));
    let window = |&home: &usize| Window::around(random, home, interval, 1);
    Yard { tracks, slots: MOST_SLOTS, windows: homes.iter().map(window).collect() }
}

/// Who receives from whom.
type Pairs = Vec<(usize, usize)>;

fn all_pairs(positions: &[usize]) -> Pairs {
    let pairs = positions.iter().flat_map(|&to| positions.iter().map(move |&from| (to, from)));
    pairs.filter(|(to, from)| to != from).collect()
}

/// All from the train that comes last, as far as the windows say.
fn hub_pairs(day: &Day) -> Pairs {
    let n = day.trains.len();
    let hub = (0..n).max_by_key(|&k| day.trains[k].first).expect("a train");
    (0..n).filter(|&to| to != hub).map(|to| (to, hub)).collect()
}

/// Some pairs, one way or both ways. What two bound trains exchange decides
/// nothing.
fn some_pairs(random: &mut Random, day: &Day) -> Pairs {
    let free = |k: usize| day.trains[k].first < day.trains[k].last;
    let mut pairs = all_pairs(&Vec::from_iter(0..day.trains.len()));
    pairs.retain(|&(to, from)| free(to) || free(from));
    random.shuffle(&mut pairs);
    pairs.truncate(random.between(1, day.trains.len()));
    if random.one_in(4) {
        pairs.extend(pairs.clone().into_iter().map(|(to, from)| (from, to)));
    }
    pairs
}

/// Each free train receives from two bound ones, or they from it: it may have to
/// choose between a revisit and a split move.
fn torn_pairs(random: &mut Random, day: &Day) -> Pairs {
    let (free, mut bound): (Vec<usize>, Vec<usize>) =
        (0..day.trains.len()).partition(|&k| day.trains[k].first < day.trains[k].last);
    let mut pairs = Vec::new();
    for train in free {
        random.shuffle(&mut bound);
        let receives = random.one_in(2);
        let pair = |&other: &usize| if receives { (train, other) } else { (other, train) };
        pairs.extend(bound.iter().take(2).map(pair));
    }
    pairs
}

/// Trains of the same home among themselves: they can share a slot.
fn home_pairs(random: &mut Random, day: &Day, homes: &[usize]) -> Pairs {
    of_one_home(random, day, homes).iter().flat_map(|set| all_pairs(set)).collect()
}

fn any_pairs(random: &mut Random, day: &Day) -> Pairs {
    let n = day.trains.len();
    match random.below(5) {
        0 => Vec::new(),
        1 | 2 => (0..n).map(|to| (to, (to + 1) % n)).collect(),
        3 => all_pairs(&Vec::from_iter(0..n)),
        _ => some_pairs(random, day),
    }
}

/// The same number of boxes for each pair.
fn alike_boxes(pairs: &Pairs, number: usize) -> Boxes {
    let mut boxes = [[0; MOST_TRAINS]; MOST_TRAINS];
    for &(to, from) in pairs {
        boxes[to][from] = number;
    }
    boxes
}

/// The weights of a revisit and of a split move, pairs having this number of
/// boxes: none, one of them, such that a revisit is as dear as the boxes of one
/// or two pairs, or cheaper than a box.
fn tying_weights(random: &mut Random, number: usize) -> (usize, usize) {
    let boxes = number * random.pick(&[1, 1, 1, 2]);
    let weight = random.pick(&[1, MOST_WEIGHT / boxes]);
    let (dear, cheap) = ((boxes * weight, weight), (weight / 2, weight));
    random.pick(&[(0, 0), (0, weight), (weight, 0), dear, dear, cheap])
}

/// A day on which all plans are about as dear as can be.
fn draw_dear(random: &mut Random) -> Day {
    let mut yard = late_yard(random);
    let mut day = day_in(random, &mut yard, TIED_MOST);
    day.boxes = alike_boxes(&all_pairs(&Vec::from_iter(0..day.trains.len())), MOST_BOXES);
    (day.revisit_weight, day.split_weight) = (random.pick(&[0, MOST_WEIGHT]), MOST_WEIGHT);
    day
}

/// A day on which, mostly, plans cost the same.
pub fn draw_tied(random: &mut Random) -> Day {
    if random.one_in(DEAR_ONE_IN) {
        return draw_dear(random);
    }
    let kind = random.below(10);
    let mut yard = match kind {
        0 => small_yard(random),
        1..=4 => tight_yard(random),
        5..=7 => passing_yard(random),
        _ => late_yard(random),
    };
    let mut day = day_in(random, &mut yard, TIED_MOST);
    let pairs = match kind {
        1 | 2 => home_pairs(random, &day, &yard.homes()),
        5 => some_pairs(random, &day),
        6 | 7 => torn_pairs(random, &day),
        8 => hub_pairs(&day),
        _ => any_pairs(random, &day),
    };
    let number = random.pick(&[1, 1, 2, MOST_BOXES]);
    day.boxes = alike_boxes(&pairs, number);
    (day.revisit_weight, day.split_weight) = tying_weights(random, number);
    if kind == 3 || kind == 4 || random.one_in(GROUPED_ONE_IN) {
        group_trains(random, &mut day, &yard.homes());
    }
    day
}

/// A day whose plan order 5 changes: 01's order alone would choose another one.
pub fn draw_changed(random: &mut Random) -> Day {
    loop {
        let day = draw_tied(random);
        let all = try_all(&day);
        let first = all.iter().min_by_key(|tried| tried.rank);
        if first.is_some_and(|first| first.assignment != as_before(&day, &all)) {
            return day;
        }
    }
}
