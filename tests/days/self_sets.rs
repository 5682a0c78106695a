//! Mode self, its part on the groups of order 4: known days, what is drawn, and
//! that known days tell each mistake from the paper.

use crate::case::Outcome;
use crate::day_file::{read_day, write_day};
use crate::draw::{draw_grouped, Random, DAMAGED_MOST};
use crate::groups::Tests;
use crate::known::{day_text, P1_HEAD, P1_MOVES, P1_TRAINS};
use crate::known_sets::{GROUPED_DAYS, GROUPED_ROWS, GROUP_EDGES, GROUP_TEXTS, ROWS_GROUPS};
use crate::library::{planned, report, BASELINES};
use crate::misjudgings::MISJUDGINGS;
use crate::misplannings::MISPLANNINGS;
use crate::misreaders::MISREADERS;
use crate::misreports::{MISPLACINGS, MISREPORTS};
use crate::model::{within_windows, Day};
use crate::plan::{expected, plan, Answer, Plan};
use crate::procedures::first_come;
use crate::sets::{groups, keeps_groups, members, parted};
use crate::texts::{hand_made_days, known_texts};
use crate::trials::trials;
use crate::valuing::{assignment, valued};

const DRAWN_DAYS: u64 = 600;

fn check_known(tests: &mut Tests) {
    for day in GROUPED_DAYS.iter().chain(&GROUP_EDGES) {
        tests.check_text(day.name, &day.text(), &day.outcome);
    }
    for (name, text, known) in GROUP_TEXTS {
        tests.check_text(name, text.as_bytes(), &known);
    }
    // Writing keeps the numbers of the groups.
    for day in &GROUPED_DAYS {
        let read = read_day(&day.text()).map(|read| write_day(&read));
        tests.check(read == Ok(day.text()), &format!("{}: written otherwise", day.name));
    }
    let print = |text: &[u8]| String::from_utf8(expected(text)).expect("ASCII");
    let day = |rest: &[&str]| day_text("3 2 2 1 1", &["1 1 2", "2 1 2", "3 1 2"], rest);
    let unkept = print(&day(&["group train", "1 1", "1 2", "1 3"]));
    tests.check(unkept == "refusal line\n16 0\n", "refusal 16 is printed otherwise");
    let unlisted = print(&day(&["group train", "1 4"]));
    tests.check(unlisted == "refusal line\n15 9\n", "refusal 15 is printed otherwise");
}

fn rows_day() -> Day {
    let text = day_text(P1_HEAD, P1_TRAINS, &[P1_MOVES, ROWS_GROUPS].concat());
    read_day(&text).expect("a good day")
}

fn check_rows(tests: &mut Tests) {
    let day = rows_day();
    for (slots, refusal, carried) in GROUPED_ROWS {
        let (found, wanted) = (valued(&day, slots), Outcome::carrying(refusal, carried));
        tests.check(found == wanted, &format!("{slots:?}: {found:?}, but 02 says {wanted:?}"));
    }
    let found = valued(&day, &[2, 1, 2, 1]);
    let wanted = Outcome { refusal: 0, numbers: [1, 7, 9, 8] };
    tests.check(found == wanted, &format!("groups kept: {found:?}, not {wanted:?}"));
    // Group 12 alone is parted.
    let text = day_text(
        "3 2 2 1 1",
        &["1 1 2", "2 1 2", "3 1 2"],
        &["group train", "2 2", "12 1", "12 3"],
    );
    let found = valued(&read_day(&text).expect("a good day"), &[1, 1, 2]);
    tests.check(found == Outcome::carrying(17, 12), &format!("group 12 parted: {found:?}"));
}

/// What the draws of groups have to bring about, each on so many days.
const DRAWN: [&str; 12] = [
    "a plan",
    "9",
    "16",
    "a group of one",
    "a group of two",
    "a group of three",
    "a larger group",
    "a group larger than G",
    "all trains in one group",
    "a gap between group numbers",
    "group numbers against the positions",
    "windows without a common slot",
];

const LEAST_DRAWN: usize = 20;

/// Which of `DRAWN` a day is, by its answer and groups.
fn drawn_kinds(day: &Day, answer: &Answer) -> [bool; DRAWN.len()] {
    let groups = groups(day);
    let sets: Vec<Vec<usize>> = groups.iter().map(|&group| members(day, group)).collect();
    let sized = |wanted: fn(usize) -> bool| sets.iter().any(|set| wanted(set.len()));
    let first = |set: &Vec<usize>| set.iter().map(|&k| day.trains[k].first).max();
    let last = |set: &Vec<usize>| set.iter().map(|&k| day.trains[k].last).min();
    [
        matches!(answer, Answer::Plan(_)),
        matches!(answer, Answer::Overbooked(_)),
        *answer == Answer::Unkept,
        sized(|size| size == 1),
        sized(|size| size == 2),
        sized(|size| size == 3),
        sized(|size| size > 3),
        sets.iter().any(|set| set.len() > day.tracks),
        sets.iter().any(|set| set.len() == day.trains.len()),
        groups.windows(2).any(|two| two[0] + 1 < two[1]),
        sets.windows(2).any(|two| two[0][0] > two[1][0]),
        sets.iter().any(|set| first(set) > last(set)),
    ]
}

fn check_drawn(tests: &mut Tests) {
    let mut counts = [0; DRAWN.len()];
    for seed in 0..DRAWN_DAYS {
        let mut random = Random(seed);
        let day = draw_grouped(&mut random, DAMAGED_MOST / 10);
        let answer = plan(&day);
        for (count, holds) in counts.iter_mut().zip(drawn_kinds(&day, &answer)) {
            *count += usize::from(holds);
        }
        for row in trials(&mut random, &day, None, false) {
            let row = assignment(&row);
            if row.len() == day.trains.len() && within_windows(&day, &row) {
                let alike = keeps_groups(&day, &row) == parted(&day, &row).is_empty();
                tests.check(alike, &format!("seed {seed}: {row:?} keeps the groups, or not"));
            }
        }
    }
    for (count, name) in counts.into_iter().zip(DRAWN) {
        let seen = format!("{name}: drawn {count} times, {LEAST_DRAWN} are needed");
        tests.check(count >= LEAST_DRAWN, &seen);
    }
}

/// Each mistake has to show on a known text.
fn check_mistakes(tests: &mut Tests) {
    let texts: Vec<Vec<u8>> = known_texts().map(|(_, text)| text).collect();
    let days: Vec<Day> = texts.iter().filter_map(|text| read_day(text).ok()).collect();
    for (name, misread) in MISREADERS {
        let told = |text: &Vec<u8>| misread(text).err() != read_day(text).err();
        tests.check(texts.iter().any(told), &format!("{name}: no known text tells"));
    }
    for (name, misplan) in MISPLANNINGS {
        let told = |day: &Day| misplan(day) != plan(day);
        tests.check(days.iter().any(told), &format!("{name}: no known day tells"));
    }
    for (name, misjudge) in MISJUDGINGS {
        let rows = |day: &Day| trials(&mut Random(1), day, None, false);
        let told = |day: &Day| rows(day).iter().any(|row| misjudge(day, row) != valued(day, row));
        tests.check(days.iter().any(told), &format!("{name}: no row on a known day tells"));
    }
}

/// The same of mistakes in the baselines.
fn check_baseline_mistakes(tests: &mut Tests) {
    let texts = hand_made_days().map(|day| day.text());
    let planned: Vec<(Day, Plan)> = texts.filter_map(|text| planned(&text).ok()).collect();
    for (name, misplace) in MISPLACINGS {
        let told = |(day, plan): &(Day, Plan)| {
            report(day, plan, &misplace(day)) != report(day, plan, &first_come(day))
        };
        tests.check(planned.iter().any(told), &format!("{name}: no known day tells"));
    }
    for (name, misreport) in MISREPORTS {
        for baseline in &BASELINES {
            let told = |(day, plan): &(Day, Plan)| {
                let slots = (baseline.slots)(day);
                misreport(day, plan, &slots) != report(day, plan, &slots)
            };
            let what = format!("{}, {name}: no known day tells", baseline.name);
            tests.check(planned.iter().any(told), &what);
        }
    }
}

pub fn check_sets(tests: &mut Tests) {
    check_known(tests);
    check_rows(tests);
    check_drawn(tests);
    check_mistakes(tests);
    check_baseline_mistakes(tests);
}
