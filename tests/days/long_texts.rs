//! The texts of mode long by groups, as texts.rs has them for the other modes.

use crate::damage::damage;
use crate::day_file::write_day;
use crate::draft::Draft;
use crate::draw::{draw_grouped, Random, DAMAGED_MOST};
use crate::long_day::{read_long, write_long, LongDay};
use crate::long_draw::{draw_dense, draw_great, draw_middle, draw_small, draw_source};
use crate::long_fast::work;
use crate::long_known::{GREAT_LONG, KNOWN_LONG};
use crate::plan::broken;
use crate::process::escaped;
use crate::texts::Named;

const SMALL_SEED: u64 = 42_000_000;
const GREAT_SEED: u64 = 43_000_000;
const DAMAGED_SEED: u64 = 44_000_000;
const SOURCE_SEED: u64 = 47_000_000;
const MIDDLE_SEED: u64 = 48_000_000;

/// Children that a search at width 1 may look at on a great day, on a middling one,
/// and on a damaged text that has remained a day file.
const GREAT_MOST: usize = 60_000;
const MIDDLE_MOST: usize = 2_000;
const DAMAGED_WORK: usize = 4_000;

pub fn known_long_texts() -> impl Iterator<Item = Named> {
    let known = KNOWN_LONG.iter().map(|known| (known.name.to_string(), known.text()));
    known.chain(GREAT_LONG.iter().map(|great| (great.name.to_string(), great.text())))
}

/// The text of a drawn day, which has to read back as that day.
fn drawn(seed: u64, day: &LongDay) -> Named {
    let text = write_long(day);
    if read_long(&text).as_ref() != Ok(day) {
        broken(&format!("{day:?} is written as \"{}\"", escaped(&text)));
    }
    (format!("seed {seed}"), text)
}

pub fn small_texts() -> impl Iterator<Item = Named> {
    (SMALL_SEED..).map(|seed| drawn(seed, &draw_small(&mut Random(seed))))
}

pub fn middle_texts() -> impl Iterator<Item = Named> {
    (MIDDLE_SEED..).map(|seed| drawn(seed, &draw_middle(&mut Random(seed), MIDDLE_MOST)))
}

pub fn great_texts() -> impl Iterator<Item = Named> {
    (GREAT_SEED..).map(|seed| drawn(seed, &draw_great(&mut Random(seed), GREAT_MOST)))
}

/// Trains, tracks and slots of the source's instances, and between its cases.
const SOURCE_SIZES: [[usize; 3]; 6] =
    [[15, 3, 5], [18, 3, 6], [24, 4, 6], [28, 4, 7], [30, 3, 10], [36, 4, 9]];
const SOURCE_CHANCES: [usize; 4] = [20, 40, 60, 80];

/// Days as in section 5.1 of source 000, each size with each probability.
pub fn source_texts() -> impl Iterator<Item = Named> {
    let sized =
        SOURCE_CHANCES.into_iter().flat_map(|chance| SOURCE_SIZES.map(|size| (size, chance)));
    (SOURCE_SEED..)
        .zip(sized)
        .map(|(seed, (size, chance))| drawn(seed, &draw_source(&mut Random(seed), size, chance)))
}

/// A text damaged once, sometimes twice: of a small day, of one with many trains, or
/// of a day of 01 with groups, which is none here.
fn draw_damaged_long(random: &mut Random) -> (String, Vec<u8>) {
    loop {
        if random.one_in(20) {
            let day = draw_grouped(random, DAMAGED_MOST);
            return ("a day with groups".to_string(), write_day(&day));
        }
        let day = if random.one_in(6) { draw_dense(random) } else { draw_small(random) };
        let mut draft = Draft::long(&day);
        let sound = draft.text();
        let mut damages = damage(random, &mut draft).to_string();
        if random.one_in(4) {
            damages = format!("{damages}, {}", damage(random, &mut draft));
        }
        let text = draft.text();
        // A damage that turned a window wide may leave too much to search.
        let searchable = read_long(&text).map_or(true, |day| work(&day, 1) <= DAMAGED_WORK);
        if text != sound && searchable {
            return (damages, text);
        }
    }
}

pub fn damaged_long_texts() -> impl Iterator<Item = Named> {
    (DAMAGED_SEED..).map(|seed| {
        let (damages, text) = draw_damaged_long(&mut Random(seed));
        (format!("seed {seed}, {damages}"), text)
    })
}
