//! Mode self, its part on order 8: known days, that the two ways to go through the
//! allowed rows agree, and that what mode fewest runs tells each mistake.

use crate::day_file::read_day;
use crate::draw_fewest::KINDS;
use crate::fewest::{counted, fewest, hold, Counts, Told};
use crate::fewest_moving::{List, LISTS, SEED};
use crate::fewest_plans::compare as compare_plan;
use crate::fewest_weights::{sum, weighed_by};
use crate::groups::Tests;
use crate::known::{KnownDay, KNOWN_DAYS};
use crate::known_fewest::FEWEST_DAYS;
use crate::known_sets::GROUPED_DAYS;
use crate::mismoving::SOUND;
use crate::mismoving_fewest;
use crate::misrewritings::{right, MISREWRITINGS};
use crate::misweighings::{all_rows, mistaken, mistakes, Row, MISREAD_ROWS, MISTAKEN_MOST};
use crate::model::Day;
use crate::moving_call::Call;
use crate::moving_memory::Memory;
use crate::moving_rules::{Replan, Rules};
use crate::moving_standin::{perform, stand_in};
use crate::plan::{best, each_allowed, SEARCH};
use crate::process::Ended;
use crate::weights::compare;
use crate::weights_texts::{all_texts, Given};

/// Drawn days on which a mistake has to be told, lists of calls, and texts for the
/// tool, of which two have too large a sum.
const LEAST_TOLD: usize = 30;
const LEAST_LISTS: usize = 20;
const LEAST_TEXTS: usize = 2;

/// Lists on which a planner without a mistake passes.
const SOUND_LISTS: usize = 300;

/// Revisits and split moves of 01's days, worked out by hand; nothing where a day
/// has 9.
const KNOWN_COUNTS: [Option<(usize, usize)>; KNOWN_DAYS.len()] = [
    Some((1, 7)),
    Some((1, 7)),
    Some((1, 7)),
    Some((1, 10)),
    Some((1, 10)),
    Some((0, 0)),
    None,
    None,
    Some((1, 2)),
    Some((0, 0)),
    Some((0, 1)),
];

fn check_known(tests: &mut Tests) {
    for (known, counts) in KNOWN_DAYS.iter().zip(KNOWN_COUNTS) {
        let found = fewest(&read_day(&known.text()).expect("a good day"));
        let counts = counts.map(|(revisits, splits)| Counts { revisits, splits });
        tests.check(found == counts, &format!("{}: {found:?}, not {counts:?}", known.name));
    }
    for known in &FEWEST_DAYS {
        tests.check_text(known.name, &known.text(), &known.outcome);
        let day = read_day(&known.text()).expect("a good day");
        // With a weight of the sum less 1 order 5 decides, with less nothing does.
        let promised = day.revisit_weight + 1 >= day.split_weight * sum(&day);
        let holds = best_told(&day).map(|told| counted(&day, &told.slots)) == fewest(&day);
        tests.check(holds == promised, &format!("{}: the fewest are {holds}", known.name));
    }
}

/// Where rows are allowed there is a plan, and where none is there is its refusal.
fn check_refusals(tests: &mut Tests) {
    let day = |known: &KnownDay| read_day(&known.text()).expect("a good day");
    let (planned, overbooked, unkept) =
        (day(&KNOWN_DAYS[0]), day(&KNOWN_DAYS[6]), day(&GROUPED_DAYS[13]));
    let plan = best_told(&planned).expect("a plan");
    for (day, right) in [(planned, 0), (overbooked, 9), (unkept, 16)] {
        for given in [0, 9, 16] {
            let answer = if given == 0 { Ok(plan.clone()) } else { Err(given) };
            let passes = compare_plan(&day, fewest(&day), &answer).is_ok();
            tests.check(passes == (given == right), &format!("{given} for {right}: {passes}"));
        }
    }
}

/// The plan of this program's own planner.
fn best_told(day: &Day) -> Option<Told> {
    let plan = best(day)?;
    let counts = Counts { revisits: plan.value.revisits, splits: plan.value.splits };
    Some(Told { slots: plan.assignment, counts })
}

/// The rows are those that plan.rs goes through, in its order, and their counts are
/// the model's.
fn check_rows(tests: &mut Tests, seed: u64, day: &Day, rows: &[Row]) {
    let mut others = Vec::new();
    each_allowed(day, SEARCH, |assignment| others.push(assignment.to_vec()));
    let alike = rows.iter().map(|row| &row.slots).eq(&others);
    tests.check(alike, &format!("seed {seed}: other rows than {others:?}"));
    let right = rows.iter().all(|row| row.counts == counted(day, &row.slots));
    tests.check(right, &format!("seed {seed}: other counts than the model's"));
}

/// On the drawn days: this program's own planner is held, and each mistake is told
/// on some.
fn check_drawn(tests: &mut Tests) {
    let mut told = vec![0; mistakes().len()];
    let mut misread = [0; MISREAD_ROWS.len()];
    let days = KINDS.iter().enumerate().flat_map(|(place, kind)| kind.drawn(place));
    for (seed, day) in days.filter(|(_, day)| day.assignments() <= MISTAKEN_MOST) {
        let day = weighed_by(&day, (sum(&day), 1));
        let rows = all_rows(&day);
        check_rows(tests, seed, &day, &rows);
        let least = rows.iter().map(|row| row.counts).min();
        for (count, (_, misread)) in misread.iter_mut().zip(MISREAD_ROWS) {
            let other = misread(&day);
            let few = other.assignments() <= MISTAKEN_MOST;
            *count += usize::from(few && fewest(&other) != least);
        }
        let (Some(least), Some(plan)) = (least, best_told(&day)) else { continue };
        let held = hold(&day, least, &plan);
        tests.check(held.is_ok(), &format!("seed {seed}: {held:?}"));
        for (count, plan) in told.iter_mut().zip(mistaken(&day, &rows)) {
            *count += usize::from(plan.is_some_and(|plan| hold(&day, least, &plan).is_err()));
        }
    }
    let names = mistakes().into_iter().chain(MISREAD_ROWS.map(|(name, _)| name.to_string()));
    for (name, count) in names.zip(told.into_iter().chain(misread)) {
        let what = format!("{name}: told on {count} drawn days, {LEAST_TOLD} are needed");
        tests.check(count >= LEAST_TOLD, &what);
    }
}

/// Whether a list of calls tells a planner.
fn tells(seed: u64, replan: Replan) -> bool {
    let by = stand_in(Rules { replan, ..SOUND });
    let made = |call: &Call, memory: &mut Memory| perform(&by, call, memory);
    List::new(seed, &made, None).run().is_err()
}

/// The same on the lists of calls of moving days.
fn check_moving(tests: &mut Tests) {
    for replan in [SOUND.replan, mismoving_fewest::no_mistake()] {
        let passes = (SEED..).take(SOUND_LISTS).all(|seed| !tells(seed, replan));
        tests.check(passes, "a planner of moving days without a mistake is told");
    }
    for (name, replan) in mismoving_fewest::mistakes() {
        let lists = (SEED..).take(LISTS).filter(|&seed| tells(seed, replan));
        let told = lists.take(LEAST_LISTS).count();
        let what = format!("fewest, {name}: told by {told} lists, {LEAST_LISTS} are needed");
        tests.check(told >= LEAST_LISTS, &what);
    }
}

/// The texts of mode weights tell each mistake of the tool, and no mistake on none.
fn check_rewriting(tests: &mut Tests) {
    let all = all_texts();
    let tells = |rewrite: fn(&Given) -> Ended| {
        let told = |given: &&Given| compare(&rewrite(given), &given.wanted).is_err();
        all.iter().filter(told).count()
    };
    tests.check(tells(right) == 0, "a tool without a mistake is told");
    for (name, misrewrite) in MISREWRITINGS {
        let told = tells(misrewrite);
        let what = format!("weights, {name}: told on {told} texts, {LEAST_TEXTS} are needed");
        tests.check(told >= LEAST_TEXTS, &what);
    }
}

pub fn check_fewest(tests: &mut Tests) {
    check_known(tests);
    check_refusals(tests);
    check_drawn(tests);
    check_moving(tests);
    check_rewriting(tests);
}
