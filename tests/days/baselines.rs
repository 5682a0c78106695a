//! Mode baselines: the library's two baseline calls on known, drawn, crowded,
//! grouped and damaged days, on days with direct moves, and on special texts.

use crate::damage::draw_damaged;
use crate::day_file::write_day;
use crate::draw::{draw_crowded, draw_day, draw_grouped, Random, DAMAGED_MOST};
use crate::misreadings::{passed_boxes_left_out, passed_leave};
use crate::model::Day;
use crate::procedures::{myopic, myopic_by, Select, Slots};
use crate::reports::Run;
use crate::special::special_texts;
use crate::texts::{direct_texts, hand_made_days, known_texts};

const SOUND_DAYS: usize = 4000;
const CROWDED_DAYS: usize = 1500;
const PASSED_DAYS: usize = 80;
const GROUPED_DAYS: usize = 1500;
const DAMAGED_TEXTS: usize = 600;

const SOUND_SEED: u64 = 4_000_000;
const CROWDED_SEED: u64 = 5_000_000;
const PASSED_SEED: u64 = 6_000_000;
const DAMAGED_SEED: u64 = 7_000_000;
const GROUPED_SEED: u64 = 12_000_000;

/// Assignments to try for a sound day, and for a crowded one.
const SOUND_MOST: usize = 20_000;
const CROWDED_MOST: usize = DAMAGED_MOST;

fn known_group(run: &mut Run) {
    run.begin("known");
    for (which, text) in known_texts() {
        run.judge(&which, &text);
    }
    for day in hand_made_days() {
        run.judge(day.name, &day.text());
    }
}

fn sound_group(run: &mut Run) {
    run.begin("sound");
    for seed in (SOUND_SEED..).take(SOUND_DAYS) {
        let day = draw_day(&mut Random(seed), SOUND_MOST);
        run.judge(&format!("seed {seed}"), &write_day(&day));
    }
}

/// Days with a plan on which a baseline often leaves a train over.
fn crowded_group(run: &mut Run) {
    run.begin("crowded");
    for seed in (CROWDED_SEED..).take(CROWDED_DAYS) {
        let day = draw_crowded(&mut Random(seed), CROWDED_MOST);
        run.judge(&format!("seed {seed}"), &write_day(&day));
    }
}

/// Days with groups of trains, which a baseline often parts.
fn grouped_group(run: &mut Run) {
    run.begin("sets");
    for seed in (GROUPED_SEED..).take(GROUPED_DAYS) {
        let day = draw_grouped(&mut Random(seed), CROWDED_MOST);
        run.judge(&format!("seed {seed}"), &write_day(&day));
    }
}

fn direct_group(run: &mut Run) {
    run.begin("direct");
    for (which, text) in direct_texts() {
        run.judge(&which, &text);
    }
}

/// A day on which it shows in the report if a train whose window has passed
/// counts no longer. That train is left over in any case, so the day has to
/// leave another one of lower position or not: too seldom to wait for it.
fn draw_passed(random: &mut Random, misread: Select) -> Day {
    let left = |slots: Slots| slots.iter().position(Option::is_none);
    loop {
        let day = draw_crowded(random, CROWDED_MOST);
        if left(myopic(&day)) != left(myopic_by(&day, misread)) {
            return day;
        }
    }
}

fn passed_group(run: &mut Run) {
    run.begin("passed");
    let misreadings: [Select; 2] = [passed_leave, passed_boxes_left_out];
    for (seed, misread) in (PASSED_SEED..).zip(misreadings.into_iter().cycle().take(PASSED_DAYS)) {
        let day = draw_passed(&mut Random(seed), misread);
        run.judge(&format!("seed {seed}"), &write_day(&day));
    }
}

fn damaged_group(run: &mut Run) {
    run.begin("damaged");
    for seed in (DAMAGED_SEED..).take(DAMAGED_TEXTS) {
        let (damages, text) = draw_damaged(&mut Random(seed));
        run.judge(&format!("seed {seed}, {damages}"), &text);
    }
}

fn special_group(run: &mut Run) {
    run.begin("special");
    for (name, text) in special_texts() {
        run.judge(&name, &text);
    }
}

pub fn baselines() -> bool {
    let mut run = Run::new();
    known_group(&mut run);
    sound_group(&mut run);
    crowded_group(&mut run);
    grouped_group(&mut run);
    direct_group(&mut run);
    passed_group(&mut run);
    damaged_group(&mut run);
    special_group(&mut run);
    run.finish()
}
