//! Drawing days with many direct moves (order 6 of 02): slots of several trains
//! that exchange boxes one way or both ways, up to all boxes of a great day.

use crate::draw::{day_in, places, Random, Window, Yard};
use crate::draw_sets::group_trains;
use crate::model::{Boxes, Day, MOST_BOXES, MOST_SLOTS, MOST_TRAINS};

/// Assignments to try.
const DIRECT_MOST: usize = 1024;

const GATHERED_ONE_IN: usize = 6;
const GROUPED_ONE_IN: usize = 3;

/// Where boxes cost nothing, plans with more and with fewer direct moves tie.
const UNWEIGHED_ONE_IN: usize = 3;

/// Tracks for all trains, and one slot in which all windows begin: whatever the
/// weights, the plan has all trains there, and so have the baselines.
fn gathered_yard(random: &mut Random) -> Yard {
    let slots = random.between(1, 3);
    let first = random.between(1, slots);
    let window = |_| Window { first, last: random.between(first, slots), home: first };
    Yard { tracks: MOST_TRAINS, slots, windows: (0..MOST_TRAINS).map(window).collect() }
}

/// Slots of several trains, some of which may go to another slot.
fn bundled_yard(random: &mut Random) -> Yard {
    let (slots, tracks) = (random.between(2, 4), random.between(2, 5));
    let mut homes = places(random, 1..=slots, tracks);
    homes.truncate(random.between(3, homes.len().min(MOST_TRAINS)));
    let last = slots + random.below(MOST_SLOTS - slots);
    let reach = random.pick(&[0, 1, 1, 2]);
    let window = |&home: &usize| Window::around(random, home, (1, last), reach);
    Yard { tracks, slots: last, windows: homes.iter().map(window).collect() }
}

/// Boxes for each pair, if any: `draw` is told whether the two have one home.
fn boxes_by(homes: &[usize], mut draw: impl FnMut(bool) -> usize) -> Boxes {
    let mut boxes = [[0; MOST_TRAINS]; MOST_TRAINS];
    for to in 0..homes.len() {
        for from in (0..homes.len()).filter(|&from| from != to) {
            boxes[to][from] = draw(homes[to] == homes[from]);
        }
    }
    boxes
}

/// More for the trains of one home than for the others, or as seldom: then many
/// plans have no direct move.
fn bundled_boxes(random: &mut Random, homes: &[usize]) -> Boxes {
    let most = random.pick(&[1, 9, MOST_BOXES, MOST_BOXES]);
    let (at_home, elsewhere) = random.pick(&[(2, 6), (1, 4), (3, 3), (8, 4)]);
    boxes_by(homes, |same_home| {
        let given = random.one_in(if same_home { at_home } else { elsewhere });
        usize::from(given) * random.between(1, most)
    })
}

/// All pairs with about as many boxes as can be: more than 2^15 in all.
fn draw_gathered(random: &mut Random) -> Day {
    let mut yard = gathered_yard(random);
    let mut day = day_in(random, &mut yard, DIRECT_MOST);
    day.boxes = boxes_by(&yard.homes(), |_| random.between(MOST_BOXES - 4, MOST_BOXES));
    day
}

/// A day on which, mostly, the plan has direct moves.
pub fn draw_direct(random: &mut Random) -> Day {
    if random.one_in(GATHERED_ONE_IN) {
        return draw_gathered(random);
    }
    let mut yard = bundled_yard(random);
    let mut day = day_in(random, &mut yard, DIRECT_MOST);
    day.boxes = bundled_boxes(random, &yard.homes());
    if random.one_in(UNWEIGHED_ONE_IN) {
        day.split_weight = 0;
    }
    if random.one_in(GROUPED_ONE_IN) {
        group_trains(random, &mut day, &yard.homes());
    }
    day
}
