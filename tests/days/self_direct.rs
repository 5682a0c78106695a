//! Mode self, its part on direct moves (order 6): known days, assignments and
//! baselines, what is drawn, and that all of these tell each mistake from the
//! paper.

use crate::boxes::{add_up, all_boxes};
use crate::day_file::{read_day, write_day};
use crate::groups::Tests;
use crate::known::{KNOWN_DAYS, KNOWN_VALUES};
use crate::known_direct::{GreatDay, DIRECT_DAYS, DIRECT_VALUES, GREAT_DAYS};
use crate::known_sets::GROUPED_DAYS;
use crate::library::{complete, planned, Report, BASELINES};
use crate::miscountings::{direct_of, MISCOUNTINGS, OTHERS};
use crate::misorderings::try_all;
use crate::misvaluings::{supplied, Misvalue};
use crate::model::{value, Day, MOST_TRAINS};
use crate::plan::{best, plan, Answer, Plan};
use crate::texts::{direct_days, hand_made_days, known_texts};

fn check_known(tests: &mut Tests) {
    for day in &DIRECT_DAYS {
        tests.check_text(day.name, &day.text(), &day.outcome);
    }
    DIRECT_VALUES.iter().for_each(|known| tests.check_value(known));
    GREAT_DAYS.iter().for_each(|great| check_great(tests, great));
}

/// The plan of a great day, and both baselines: nothing is saved, or 14 with 0.
fn check_great(tests: &mut Tests, great: &GreatDay) {
    let (name, day) = (great.name, (great.day)());
    let found = best(&day).map(|plan| (plan.assignment, plan.value.numbers()));
    let wanted = Some((great.slots.to_vec(), great.numbers));
    tests.check(found == wanted, &format!("{name}: {found:?}, not {wanted:?}"));
    for baseline in &BASELINES {
        let report = baseline.expected(&planned(&write_day(&day)));
        let same = Report { refusal: 0, numbers: great.numbers, saving: 0 };
        let wanted = if great.parted { Report::carrying(14, 0) } else { same };
        tests.check(report == wanted, &format!("{name}, {}: {report:?}", baseline.name));
    }
}

/// The boxes of a text, by 01 and by hand; and that moves which don't add up to
/// them are seen, also where a sum goes round.
fn check_boxes(tests: &mut Tests) {
    let great = write_day(&(GREAT_DAYS[4].day)());
    let texts = [
        ("P1", KNOWN_DAYS[0].text(), 16),
        ("P8", KNOWN_DAYS[5].text(), 0),
        ("P1 with groups", GROUPED_DAYS[2].text(), 16),
        ("the greatest day", great, 33_660),
    ];
    for (name, text, boxes) in texts {
        let found = all_boxes(&text);
        tests.check(found == boxes, &format!("{name} has {found} boxes, not {boxes}"));
    }
    tests.check(add_up(16, &[1, 7, 9, 8]).is_ok(), "P1's moves don't add up");
    for wrong in [[1, 7, 8, 9], [1, 9, 8, 7], [16, 7, 0, 9], [0, u64::MAX, 17, 0]] {
        tests.check(add_up(16, &wrong).is_err(), &format!("{wrong:?} add up to 16"));
    }
}

/// What the draws have to bring about, each on so many days.
const DRAWN: [&str; 13] = [
    "direct moves in several slots",
    "three trains of a slot with boxes for each other",
    "direct moves both ways between two trains",
    "direct and split moves",
    "direct moves alone",
    "no direct move, but boxes",
    "direct moves of 2^8 or more",
    "direct moves of 2^15 or more",
    "direct moves within a group",
    "direct moves of a train that revisits",
    "equal cost, more direct moves later",
    "equal cost, fewer direct moves later",
    "as many trains as can be in one slot",
];

const LEAST_DRAWN: usize = 20;

/// Which of `DRAWN` a day is by its plan and the other allowed assignments.
fn drawn_kinds(day: &Day, plan: &Plan) -> [bool; DRAWN.len()] {
    let (slots, moves) = (&plan.assignment, plan.value);
    let beside: Vec<(usize, usize)> =
        supplied(day).filter(|&(i, j)| slots[i] == slots[j]).collect();
    let three = |&(i, j): &(usize, usize)| beside.iter().any(|&(k, l)| k == j && l != i);
    let group = |&(i, j): &(usize, usize)| {
        day.trains[i].group > 0 && day.trains[i].group == day.trains[j].group
    };
    let later =
        |&(i, _): &(usize, usize)| supplied(day).any(|(k, l)| k == i && slots[l] > slots[i]);
    let tied = try_all(day).into_iter().filter(|tried| tried.rank.cost == moves.cost);
    let tied: Vec<usize> = tied.map(|tried| value(day, &tried.assignment).direct).collect();
    [
        beside.iter().any(|&(i, _)| slots[i] != slots[beside[0].0]),
        beside.iter().any(three),
        beside.iter().any(|&(i, j)| beside.contains(&(j, i))),
        moves.direct > 0 && moves.splits > 0,
        moves.direct > 0 && moves.splits == 0,
        moves.direct == 0 && moves.splits > 0,
        moves.direct >= 1 << 8,
        moves.direct >= 1 << 15,
        beside.iter().any(group),
        beside.iter().any(later),
        tied.iter().any(|&direct| direct > moves.direct),
        tied.iter().any(|&direct| direct < moves.direct),
        slots.len() == MOST_TRAINS && slots.iter().all(|slot| *slot == slots[0]),
    ]
}

/// On all allowed assignments of a drawn day the moves add up to the boxes of its
/// text.
fn check_sums(tests: &mut Tests, seed: u64, day: &Day) {
    let boxes = all_boxes(&write_day(day));
    for tried in try_all(day) {
        let numbers = value(day, &tried.assignment).numbers().map(|number| number as u64);
        let sum = add_up(boxes, &numbers);
        tests.check(sum.is_ok(), &format!("seed {seed}, {:?}: {sum:?}", tried.assignment));
    }
}

/// On the drawn days: what there is to count, and which mistakes count otherwise.
fn check_drawn(tests: &mut Tests) {
    let mut counts = [0; DRAWN.len()];
    let mut told = [0; MISCOUNTINGS.len()];
    for (seed, day) in direct_days() {
        check_sums(tests, seed, &day);
        let Some(plan) = best(&day) else { continue };
        for (count, holds) in counts.iter_mut().zip(drawn_kinds(&day, &plan)) {
            *count += usize::from(holds);
        }
        for (count, (_, miscount)) in told.iter_mut().zip(MISCOUNTINGS) {
            *count += usize::from(miscount(&day, &plan.assignment) != plan.value);
        }
    }
    let mistakes = MISCOUNTINGS.iter().map(|(name, _)| *name);
    let all = DRAWN.into_iter().chain(mistakes).zip(counts.into_iter().chain(told));
    for (name, count) in all {
        let seen = format!("{name}: on {count} drawn days, {LEAST_DRAWN} are needed");
        tests.check(count >= LEAST_DRAWN, &seen);
    }
}

/// A day and an assignment whose numbers are known.
type Shown = (Day, Vec<usize>);

fn day_of(text: &[u8]) -> Day {
    read_day(text).expect("a good day")
}

fn known_plans() -> Vec<Shown> {
    let days = known_texts().filter_map(|(_, text)| read_day(&text).ok());
    let planned = days.filter_map(|day| match plan(&day) {
        Answer::Plan(plan) => Some((day, plan.assignment)),
        _ => None,
    });
    planned.collect()
}

fn known_values() -> Vec<Shown> {
    let values = KNOWN_VALUES.iter().chain(&DIRECT_VALUES);
    let values = values.map(|known| (day_of(&known.text()), known.slots.to_vec()));
    values.chain(GREAT_DAYS.iter().map(|great| ((great.day)(), great.slots.to_vec()))).collect()
}

/// Of the days made for the baselines and of the great ones those with a report.
fn known_baselines(place: usize) -> Vec<Shown> {
    let made = hand_made_days().map(|day| day.text());
    let texts = made.chain(GREAT_DAYS.iter().map(|great| write_day(&(great.day)())));
    let reported = texts.filter(|text| BASELINES[place].expected(&planned(text)).refusal == 0);
    let days = reported.map(|text| day_of(&text));
    let slots = |day: &Day| complete(&(BASELINES[place].slots)(day));
    days.map(|day| (day.clone(), slots(&day))).collect()
}

/// Each mistake has to show on a known plan, on a known assignment that is valued,
/// and on a known assignment of each baseline.
fn check_mistakes(tests: &mut Tests) {
    let kinds = [
        ("plan", known_plans()),
        ("valued assignment", known_values()),
        ("assignment of first come", known_baselines(0)),
        ("assignment of the myopic procedure", known_baselines(1)),
    ];
    for (kind, shown) in &kinds {
        for (name, miscount) in MISCOUNTINGS {
            let told = shown.iter().any(|(day, slots)| differs(miscount, day, slots));
            tests.check(told, &format!("{name}: no known {kind} tells"));
        }
    }
    for (name, other) in OTHERS {
        let told = |(day, slots): &Shown| {
            direct_of(day, other).is_some_and(|direct| direct != value(day, slots).direct)
        };
        tests.check(kinds[0].1.iter().any(told), &format!("{name}: no known plan tells"));
    }
}

fn differs(miscount: Misvalue, day: &Day, slots: &[usize]) -> bool {
    miscount(day, slots).numbers() != value(day, slots).numbers()
}

pub fn check_direct(tests: &mut Tests) {
    check_known(tests);
    check_boxes(tests);
    check_drawn(tests);
    check_mistakes(tests);
}
