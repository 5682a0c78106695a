//! Drawing days that are begun, and what is asked of them then: good calls, and
//! ones with values that a careless look takes for good ones.

use crate::account::{Account, Slots};
use crate::draw::{day_in, draw_crowded, draw_day, draw_grouped, places, Random, Window, Yard};
use crate::draw_direct::draw_direct;
use crate::draw_ties::draw_tied;
use crate::model::{Day, MOST_BOXES, MOST_TRAINS, MOST_TRAIN_NUMBER};
use crate::moving_call::Asked;

/// Assignments to try when a day begins; added trains bring it up to the most.
const BEGUN_MOST: usize = 150;
const ADDED_MOST: usize = 1500;

/// Planning a day of many trains takes its time.
const MANY_TRAINS: usize = 10;
const MANY_ONE_IN: usize = 7;

/// Few trains: the only one of the day is soon left.
fn draw_few(random: &mut Random) -> Day {
    loop {
        let day = draw_day(random, BEGUN_MOST);
        if day.trains.len() <= 2 {
            return day;
        }
    }
}

/// Twelve trains, so that none can be added.
fn draw_full(random: &mut Random) -> Day {
    loop {
        let day = draw_grouped(random, BEGUN_MOST);
        if day.trains.len() == MOST_TRAINS && day.slots <= 4 {
            return day;
        }
    }
}

/// Groups that could go to other slots, beside trains that can't, and places for
/// hardly any other train: where one is added, the groups may be in its way.
fn draw_packed(random: &mut Random) -> Day {
    let (slots, tracks) = (random.pick(&[2, 3, 3, 3, 4]), random.pick(&[2, 2, 3]));
    let mut homes = places(random, 1..=slots, tracks);
    homes.truncate(homes.len() - 2);
    let windows = homes.iter().map(|&home| Window { first: home, last: home, home }).collect();
    let mut day = day_in(random, &mut Yard { tracks, slots, windows }, BEGUN_MOST);
    for home in 1..=slots {
        let (grouped, first) = (random.one_in(2), random.between(1, home));
        for train in day.trains.iter_mut().filter(|train| grouped && train.last == home) {
            train.group = home;
            train.first = first;
        }
    }
    // Only now, so that the homes above are those of all trains.
    for train in day.trains.iter_mut().filter(|train| train.group > 0) {
        train.last = slots;
    }
    day
}

fn draw_any(random: &mut Random) -> Day {
    match random.below(19) {
        12.. => draw_packed(random),
        0 => draw_day(random, BEGUN_MOST),
        1 | 2 => draw_crowded(random, BEGUN_MOST),
        3 => draw_few(random),
        4 => draw_direct(random),
        5..=7 => draw_tied(random),
        _ => draw_grouped(random, BEGUN_MOST),
    }
}

/// A day to begin with, of any kind; it need not have a plan.
pub fn draw_moving(random: &mut Random) -> Day {
    if random.one_in(40) {
        return draw_full(random);
    }
    loop {
        let day = draw_any(random);
        let many = day.trains.len() >= MANY_TRAINS;
        if day.assignments() <= ADDED_MOST && (!many || random.one_in(MANY_ONE_IN)) {
            return day;
        }
    }
}

// ---------------------------------------------------------------------------
// What is asked
// ---------------------------------------------------------------------------

fn listed(random: &mut Random, account: &Account) -> usize {
    let numbers: Vec<usize> = account.trains.keys().copied().collect();
    random.pick(&numbers)
}

/// Outside the limits, or not listed, or not what it seems: numbers whose low
/// 16 bits are a listed one's, a position, a neighbour.
fn odd_number(random: &mut Random, account: &Account) -> u32 {
    let near = listed(random, account) as u32;
    let position = random.between(1, account.trains.len()) as u32;
    let outside = random.pick(&[0, 0, 100_000, 100_000, 1 << 17, u32::MAX, near + (1 << 17)]);
    let any = random.between(1, MOST_TRAIN_NUMBER) as u32;
    let inside = random.pick(&[near + 1, near - 1, near ^ (1 << 16), position, any]);
    random.pick(&[outside, outside, inside, inside, inside])
}

/// A number that is not listed: a neighbour of a listed one, an end, or any.
fn new_number(random: &mut Random, account: &Account) -> u32 {
    loop {
        let near = listed(random, account);
        let any = random.between(1, MOST_TRAIN_NUMBER);
        let number = random.pick(&[near + 1, near - 1, 1, MOST_TRAIN_NUMBER, any, any, any]);
        let fits = (1..=MOST_TRAIN_NUMBER).contains(&number);
        if fits && !account.trains.contains_key(&number) {
            return number as u32;
        }
    }
}

fn draw_cancel(random: &mut Random, account: &Account, plan: &Slots) -> Asked {
    let waits = |(number, slot): (&usize, &usize)| (*slot > account.closed).then_some(*number);
    let waiting: Vec<usize> = plan.iter().filter_map(waits).collect();
    Asked::Cancel(match random.below(10) {
        0 => listed(random, account) as u32,
        1..=3 => odd_number(random, account),
        _ if waiting.is_empty() => listed(random, account) as u32,
        _ => random.pick(&waiting) as u32,
    })
}

/// A window in open slots, where one is open; narrow where many assignments are
/// to be tried already.
fn open_window(random: &mut Random, account: &Account) -> (u32, u32) {
    let low = if account.closed < account.slots { account.closed + 1 } else { 1 };
    let first = random.between(low, account.slots);
    let most = ADDED_MOST / account.day().assignments().max(1);
    let widest = (first + most.max(1) - 1).min(account.slots);
    let last = random.between(first, widest);
    (first as u32, random.pick(&[first, last]) as u32)
}

/// A window that begins in a closed slot, ends before it begins, or has an end
/// outside 1..T.
fn odd_window(random: &mut Random, account: &Account) -> (u32, u32) {
    let (first, last) = open_window(random, account);
    let slots = account.slots as u32;
    let outside = random.pick(&[0, 0, slots + 1, slots + 1, u32::MAX]);
    let closed = random.between(1, account.closed.max(1)) as u32;
    let any = random.between(1, account.slots) as u32;
    match random.below(12) {
        0 | 1 => (outside, last),
        2 => (first, outside),
        3 => (256 + first, last),
        4 => (first, 256 + last),
        5 => (slots, any),
        6 => (last + 1, first),
        7 => (last, last - 1),
        8 => (account.closed as u32, last),
        9 => (closed, closed),
        _ => (closed, last),
    }
}

fn draw_add(random: &mut Random, account: &Account) -> Asked {
    let train = match random.below(8) {
        0 => listed(random, account) as u32,
        1 => odd_number(random, account),
        _ => new_number(random, account),
    };
    let (first, last) = match random.below(10) {
        0..=2 => odd_window(random, account),
        _ => open_window(random, account),
    };
    Asked::Add(train, first, last)
}

/// Numbers up to the limit and beyond it, the one that the pair has, and ones
/// whose low bits are such.
fn draw_number_of_boxes(random: &mut Random, now: usize) -> u32 {
    let now = now as u32;
    let small = random.between(1, 9) as u32;
    let most = MOST_BOXES as u32;
    let beyond = random.pick(&[256, 257, 256 + now, 511, 65536, 65536 + small, u32::MAX]);
    match random.below(10) {
        0 | 1 => beyond,
        2 => 0,
        3 => most,
        4 => now,
        5 => random.between(0, MOST_BOXES) as u32,
        6 => random.pick(&[now.saturating_sub(1), (now + 1).min(most)]),
        _ => small,
    }
}

fn draw_set_boxes(random: &mut Random, account: &Account) -> Asked {
    let (to, mut from) = (listed(random, account), listed(random, account));
    for _ in 0..3 {
        from = if from == to { listed(random, account) } else { from };
    }
    let now = account.boxes.get(&(to, from)).copied().unwrap_or_default();
    let (listed_to, listed_from) = (to as u32, from as u32);
    let odd = odd_number(random, account);
    let (to, from) = match random.below(16) {
        0 => (odd, listed_from),
        1 => (listed_to, odd),
        2 => (odd, odd),
        3 => (listed_to, listed_to),
        4 => (odd, odd_number(random, account)),
        _ => (listed_to, listed_from),
    };
    // A pair that has boxes loses them now and then.
    let filled: Vec<(usize, usize)> = account.boxes.keys().copied().collect();
    if random.one_in(8) && !filled.is_empty() {
        let (to, from) = random.pick(&filled);
        return Asked::SetBoxes(to as u32, from as u32, 0);
    }
    Asked::SetBoxes(to, from, draw_number_of_boxes(random, now))
}

/// Something to ask of a moving day.
pub fn draw_asked(random: &mut Random, account: &Account, plan: &Slots) -> Asked {
    match random.below(26) {
        0 => Asked::Begin,
        1..=5 => Asked::Close,
        6..=10 => draw_cancel(random, account, plan),
        11..=19 => draw_add(random, account),
        _ => draw_set_boxes(random, account),
    }
}
