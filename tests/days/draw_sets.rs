//! Drawing the groups of trains of order 4: ones that a plan keeps, and ones
//! that no row or hardly any keeps.

use crate::draw::Random;
use crate::model::{Day, MOST_GROUP};

/// Positions of trains, counted from 0, that become a group.
type Set = Vec<usize>;

/// The positions in drawn order, cut into sets of one up to `most` trains.
fn cut(random: &mut Random, mut positions: Vec<usize>, most: usize) -> Vec<Set> {
    random.shuffle(&mut positions);
    let mut sets = Vec::new();
    while !positions.is_empty() {
        let size = random.between(1, most.min(positions.len()));
        sets.push(positions.split_off(positions.len() - size));
    }
    sets
}

/// Sets of trains of the same home: where the homes are an allowed assignment,
/// it keeps them.
pub fn of_one_home(random: &mut Random, day: &Day, homes: &[usize]) -> Vec<Set> {
    let most = random.pick(&[2, 3, homes.len()]);
    let at_home = |slot| (0..homes.len()).filter(|&k| homes[k] == slot).collect();
    (1..=day.slots).flat_map(|slot| cut(random, at_home(slot), most)).collect()
}

/// Sets of any trains.
fn any_sets(random: &mut Random, day: &Day) -> Vec<Set> {
    let most = random.pick(&[2, 3, 4]);
    cut(random, (0..day.trains.len()).collect(), most)
}

fn all_in_one(day: &Day) -> Vec<Set> {
    vec![(0..day.trains.len()).collect()]
}

/// One set with a train more than there are tracks, if there are as many; and
/// others.
fn larger_than_tracks(random: &mut Random, day: &Day) -> Vec<Set> {
    let mut positions: Vec<usize> = (0..day.trains.len()).collect();
    random.shuffle(&mut positions);
    let others = positions.split_off(positions.len().min(day.tracks + 1));
    let mut sets = cut(random, others, 2);
    sets.push(positions);
    sets
}

/// Two trains whose windows share no slot, if there are such; and others.
fn without_common_slot(random: &mut Random, day: &Day) -> Vec<Set> {
    let n = day.trains.len();
    let disjoint = |&(k, l): &(usize, usize)| day.trains[k].last < day.trains[l].first;
    let pairs = (0..n).flat_map(|k| (0..n).map(move |l| (k, l)));
    let pairs: Vec<(usize, usize)> = pairs.filter(disjoint).collect();
    if pairs.is_empty() {
        return any_sets(random, day);
    }
    let (k, l) = random.pick(&pairs);
    let mut sets = cut(random, (0..n).filter(|other| ![k, l].contains(other)).collect(), 2);
    sets.push(vec![k, l]);
    sets
}

fn singles(day: &Day) -> Vec<Set> {
    (0..day.trains.len()).map(|k| vec![k]).collect()
}

/// Numbers for so many groups: without gaps from the lowest or up to the
/// highest, or any; in drawn order.
fn draw_group_numbers(random: &mut Random, count: usize) -> Vec<usize> {
    let mut numbers: Vec<usize> = (1..=MOST_GROUP).collect();
    match random.below(4) {
        0 => numbers.truncate(count),
        1 => drop(numbers.drain(..MOST_GROUP - count)),
        _ => {}
    }
    random.shuffle(&mut numbers);
    numbers.truncate(count);
    numbers
}

/// Brings groups into a day; `homes` are the slots by position that its windows
/// were drawn around. One of the sets at least becomes a group, and a train
/// that is in none stays alone.
pub fn group_trains(random: &mut Random, day: &mut Day, homes: &[usize]) {
    let mut sets = match random.below(12) {
        0 | 1 => any_sets(random, day),
        2 => all_in_one(day),
        3 => larger_than_tracks(random, day),
        4 => without_common_slot(random, day),
        5 => singles(day),
        _ => of_one_home(random, day, homes),
    };
    // The last one may have been made on purpose, so the first ones go.
    let most_left_out = sets.len() - 1;
    sets.drain(..random.pick(&[0, 0, most_left_out / 2, most_left_out]));
    let numbers = draw_group_numbers(random, sets.len());
    for (set, number) in sets.iter().zip(numbers) {
        for &position in set {
            day.trains[position].group = number;
        }
    }
}
