//! The texts by groups: modes generated and calls run the same ones, the
//! program on its input and the functions of the library on lent memory.

use crate::damage::draw_damaged;
use crate::day_file::{read_day, write_day};
use crate::draw::{draw_day, draw_grouped, draw_sound, Random, DAMAGED_MOST};
use crate::draw_direct::draw_direct;
use crate::draw_ties::{draw_changed, draw_tied};
use crate::heavy::{draw_shown, SHOWN_BITS};
use crate::known::{BaselineDay, BASELINE_DAYS, EDGES, KNOWN_DAYS, SMALL_INPUTS, TEXTS};
use crate::known_direct::{DIRECT_BASELINE_DAYS, DIRECT_DAYS, DIRECT_TIES, GREAT_DAYS};
use crate::known_fewest::FEWEST_DAYS;
use crate::known_sets::{GROUPED_BASELINE_DAYS, GROUPED_DAYS, GROUP_EDGES, GROUP_TEXTS};
use crate::known_ties::TIED_DAYS;
use crate::model::Day;
use crate::plan::broken;
use crate::process::escaped;
use crate::special::{greatest_day, greatest_ungrouped, last_move, padded};

const SOUND_DAYS: usize = 2500;
const GROUPED_DAYS_DRAWN: usize = 1500;
const TIED_DAYS_DRAWN: usize = 900;
const CHANGED_DAYS: usize = 700;
const DIRECT_DAYS_DRAWN: usize = 400;
const DAMAGED_TEXTS: usize = 4000;
const HEAVY_DAYS: usize = 8;
const PIECED_TEXTS: usize = 24;

const SOUND_SEED: u64 = 1_000_000;
const DAMAGED_SEED: u64 = 2_000_000;
const PIECES_SEED: u64 = 3_000_000;
const HEAVY_SEED: u64 = 8_000_000;
const GROUPED_SEED: u64 = 11_000_000;
const TIED_SEED: u64 = 13_000_000;
const CHANGED_SEED: u64 = 14_000_000;
const DIRECT_SEED: u64 = 15_000_000;

/// How to find a text again, and the text.
pub type Named = (String, Vec<u8>);

pub fn known_texts() -> impl Iterator<Item = Named> {
    let days = KNOWN_DAYS.iter().chain(&SMALL_INPUTS).chain(&EDGES);
    let days = days.chain(&GROUPED_DAYS).chain(&GROUP_EDGES);
    let days = days.chain(TIED_DAYS.iter().chain(&DIRECT_TIES).map(|tied| &tied.day));
    let days = days.chain(&DIRECT_DAYS).chain(&FEWEST_DAYS);
    let days = days.map(|day| (day.name.to_string(), day.text()));
    let texts = TEXTS.iter().chain(&GROUP_TEXTS);
    let texts = texts.map(|(name, text, _)| (name.to_string(), text.as_bytes().to_vec()));
    let great = GREAT_DAYS.iter().map(|great| (great.name.to_string(), write_day(&(great.day)())));
    days.chain(texts).chain(great)
}

/// Days made for the baselines.
pub fn hand_made_days() -> impl Iterator<Item = &'static BaselineDay> {
    BASELINE_DAYS.iter().chain(&GROUPED_BASELINE_DAYS).chain(&DIRECT_BASELINE_DAYS)
}

/// The text of a drawn day, which has to read back as that day.
fn drawn(seed: u64, day: &Day) -> Named {
    let text = write_day(day);
    if read_day(&text).as_ref() != Ok(day) {
        broken(&format!("{day:?} is written as \"{}\"", escaped(&text)));
    }
    (format!("seed {seed}"), text)
}

pub fn sound_texts() -> impl Iterator<Item = Named> {
    (0..SOUND_DAYS).map(|index| {
        let seed = SOUND_SEED + index as u64;
        drawn(seed, &draw_sound(&mut Random(seed), index))
    })
}

/// Days with groups of trains.
pub fn grouped_texts() -> impl Iterator<Item = Named> {
    let seeds = (GROUPED_SEED..).take(GROUPED_DAYS_DRAWN);
    seeds.map(|seed| drawn(seed, &draw_grouped(&mut Random(seed), DAMAGED_MOST)))
}

/// Days on which plans cost the same, with their seeds: mode self holds that
/// the order of order 5 has to choose on them.
pub fn tied_days() -> impl Iterator<Item = (u64, Day)> {
    let (tied, changed) =
        ((TIED_SEED..).take(TIED_DAYS_DRAWN), (CHANGED_SEED..).take(CHANGED_DAYS));
    let tied = tied.map(|seed| (seed, draw_tied(&mut Random(seed))));
    tied.chain(changed.map(|seed| (seed, draw_changed(&mut Random(seed)))))
}

pub fn tied_texts() -> impl Iterator<Item = Named> {
    tied_days().map(|(seed, day)| drawn(seed, &day))
}

/// Days with direct moves, with their seeds: mode self holds that they have them.
pub fn direct_days() -> impl Iterator<Item = (u64, Day)> {
    let seeds = (DIRECT_SEED..).take(DIRECT_DAYS_DRAWN);
    seeds.map(|seed| (seed, draw_direct(&mut Random(seed))))
}

pub fn direct_texts() -> impl Iterator<Item = Named> {
    direct_days().map(|(seed, day)| drawn(seed, &day))
}

/// For each width days on which a sum of so many bits would show.
pub fn heavy_texts() -> impl Iterator<Item = Named> {
    SHOWN_BITS.flat_map(|bits| {
        (HEAVY_SEED..).take(HEAVY_DAYS).map(move |seed| {
            let text = write_day(&draw_shown(&mut Random(seed), bits));
            (format!("{bits} bits, seed {seed}"), text)
        })
    })
}

pub fn damaged_texts() -> impl Iterator<Item = Named> {
    (DAMAGED_SEED..).take(DAMAGED_TEXTS).map(|seed| {
        let (damages, text) = draw_damaged(&mut Random(seed));
        (format!("seed {seed}, {damages}"), text)
    })
}

/// Texts that mode generated cuts into pieces, which it draws next.
pub fn pieced_texts() -> impl Iterator<Item = (Named, Random)> {
    (0..PIECED_TEXTS).map(|index| {
        let seed = PIECES_SEED + index as u64;
        let mut random = Random(seed);
        let text = match index % 6 {
            0 => write_day(&greatest_day()),
            1 => padded(&write_day(&greatest_ungrouped()), last_move().as_bytes(), 6000),
            2 => draw_damaged(&mut random).1,
            _ => write_day(&draw_day(&mut random, DAMAGED_MOST)),
        };
        ((format!("seed {seed}"), text), random)
    })
}
