//! Mistakes in refusing a row of slots that parts groups (order 4). Each has to
//! judge some of the rows that are valued otherwise than the paper, for else a
//! library that makes it would pass.

use crate::case::Outcome;
use crate::model::{Day, MOST_GROUP};
use crate::sets::{apart, groups, members};
use crate::valuing::{
    assignment, check_groups, check_length, check_tracks, check_windows, parted, valued_by, Check,
};

type Misjudge = fn(&Day, &[u8]) -> Outcome;

pub const MISJUDGINGS: [(&str, Misjudge); 13] = [
    ("a parted group valued", not_refused),
    ("17 before 13", before_tracks),
    ("17 before 12", before_windows),
    ("17 before 11", before_length),
    ("17 with the highest parted group", highest),
    ("17 with the group of the lowest position", of_lowest_position),
    ("17 with the lowest position apart", position_apart),
    ("17 with the slot of the lowest parted group", slot_carried),
    ("17 with 0", nothing_carried),
    ("17 with the group's place among the groups", place_carried),
    ("17 only where neighbours are apart", neighbours),
    ("17 for trains in no group that are apart", alone_together),
    ("the highest group number not looked at", highest_left_out),
];

/// The usual checks, but for the one of the groups.
fn misjudged(day: &Day, slots: &[u8], groups: Check) -> Outcome {
    valued_by(day, slots, &[check_length, check_windows, check_tracks, groups])
}

fn not_refused(day: &Day, slots: &[u8]) -> Outcome {
    misjudged(day, slots, |_, _| None)
}

fn before_tracks(day: &Day, slots: &[u8]) -> Outcome {
    valued_by(day, slots, &[check_length, check_windows, check_groups, check_tracks])
}

fn before_windows(day: &Day, slots: &[u8]) -> Outcome {
    valued_by(day, slots, &[check_length, check_groups, check_windows, check_tracks])
}

fn before_length(day: &Day, slots: &[u8]) -> Outcome {
    valued_by(day, slots, &[check_groups, check_length, check_windows, check_tracks])
}

fn carrying(carried: usize) -> Outcome {
    Outcome::carrying(17, carried)
}

fn highest(day: &Day, slots: &[u8]) -> Outcome {
    misjudged(day, slots, |day, slots| parted(day, slots).last().copied().map(carrying))
}

/// The lowest position whose group is parted, counted from 0.
fn lowest_of_parted(day: &Day, slots: &[u8]) -> Option<usize> {
    let parted = parted(day, slots);
    day.trains.iter().position(|train| parted.contains(&train.group))
}

fn of_lowest_position(day: &Day, slots: &[u8]) -> Outcome {
    misjudged(day, slots, |day, slots| {
        lowest_of_parted(day, slots).map(|k| carrying(day.trains[k].group))
    })
}

/// The first train that isn't where its group's first one is.
fn position_apart(day: &Day, slots: &[u8]) -> Outcome {
    misjudged(day, slots, |day, slots| {
        let slot_of_first = |k: usize| slots[members(day, day.trains[k].group)[0]];
        let apart = |&k: &usize| day.trains[k].group > 0 && slots[k] != slot_of_first(k);
        (0..slots.len()).find(apart).map(|k| carrying(k + 1))
    })
}

fn slot_carried(day: &Day, slots: &[u8]) -> Outcome {
    misjudged(day, slots, |day, slots| {
        let lowest = parted(day, slots).first().copied()?;
        Some(carrying(usize::from(slots[members(day, lowest)[0]])))
    })
}

fn nothing_carried(day: &Day, slots: &[u8]) -> Outcome {
    misjudged(day, slots, |day, slots| parted(day, slots).first().map(|_| carrying(0)))
}

fn place_carried(day: &Day, slots: &[u8]) -> Outcome {
    misjudged(day, slots, |day, slots| {
        let parted = parted(day, slots);
        let place = groups(day).iter().position(|group| parted.contains(group));
        place.map(|place| carrying(place + 1))
    })
}

fn neighbours(day: &Day, slots: &[u8]) -> Outcome {
    misjudged(day, slots, |day, slots| {
        let group = |k: usize| day.trains[k].group;
        let apart = |k: &usize| group(*k) == group(k - 1) && slots[*k] != slots[k - 1];
        let parted = (1..slots.len()).filter(apart).map(group).filter(|&group| group > 0);
        parted.min().map(carrying)
    })
}

fn alone_together(day: &Day, slots: &[u8]) -> Outcome {
    misjudged(day, slots, |day, slots| {
        let alone = apart(&assignment(slots), &members(day, 0));
        alone.then(|| carrying(0)).or(check_groups(day, slots))
    })
}

fn highest_left_out(day: &Day, slots: &[u8]) -> Outcome {
    misjudged(day, slots, |day, slots| {
        parted(day, slots).into_iter().find(|&group| group < MOST_GROUP).map(carrying)
    })
}
