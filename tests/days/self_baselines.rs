//! Mode self, its part on the baselines: Table 2 of source 000, and days made
//! by hand.

use crate::day_file::read_day;
use crate::groups::Tests;
use crate::known::BaselineDay;
use crate::library::{planned, Report, BASELINES};
use crate::misreadings::{earlier_left_out, group_first, group_passed_left_out, passed_leave};
use crate::model::Day;
use crate::procedures::{myopic_by, Point, Select, Set, Slots};
use crate::texts::hand_made_days;

/// P1's decision points in Table 2 of the source: the slot, the trains not yet
/// scheduled and those scheduled in the slot, and for each of the former what
/// (11) says. At slot 2 that is the table's value and 3 boxes more for train 3,
/// 6 boxes more for train 4: those that it leaves out.
const TABLE_2: [(usize, &[usize], &[usize], &[usize]); 4] = [
    (1, &[1, 2, 3, 4], &[], &[2, 0, 9, 8]),
    (1, &[1, 3, 4], &[2], &[2, 9, 2]),
    (2, &[3, 4], &[], &[9, 8]),
    (2, &[3], &[4], &[3]),
];

fn check_table_2(tests: &mut Tests) {
    let (_, day) = hand_made("P1");
    let set = |trains: &[usize]| -> Set { trains.iter().map(|train| train - 1).collect() };
    for (t, pos, in_t, values) in TABLE_2 {
        let point = Point { day: &day, t, pos: set(pos), in_t: set(in_t) };
        let found: Vec<usize> = point.pos.iter().map(|&i| point.increase(i)).collect();
        tests.check(found == values, &format!("(11) gives {found:?}, Table 2 with 01 {values:?}"));
    }
}

/// 0 stands for no slot.
fn shown(slots: Slots) -> Vec<usize> {
    slots.into_iter().map(Option::unwrap_or_default).collect()
}

fn hand_made(name: &str) -> (Vec<u8>, Day) {
    let named = |day: &&BaselineDay| day.name == name;
    let text = hand_made_days().find(named).expect("a day of this name").text();
    let day = read_day(&text).expect("a good day");
    (text, day)
}

fn check_days(tests: &mut Tests) {
    for known in hand_made_days() {
        let (text, day) = hand_made(known.name);
        for (baseline, (slots, refusal, numbers, saving)) in BASELINES.iter().zip(known.outcomes) {
            let name = format!("{}, {}", known.name, baseline.name);
            let found = shown((baseline.slots)(&day));
            tests.check(found == slots, &format!("{name}: slots {found:?}, not {slots:?}"));
            let report = Report { refusal, numbers, saving };
            let found = baseline.expected(&planned(&text));
            tests.check(found == report, &format!("{name}: {found:?}, not {report:?}"));
        }
    }
}

/// Misreadings that take another way, or by 01 the same, on days made by hand.
const MISREAD: [(&str, Select, &[usize]); 5] = [
    ("P1", earlier_left_out, &[1, 1, 2, 2]),
    ("boxes from earlier slots count", earlier_left_out, &[1, 2, 3]),
    ("window passed, still waiting", passed_leave, &[2, 3, 1, 0]),
    ("parted though places are free", group_passed_left_out, &[1, 1, 0]),
    ("parted though places are free", group_first, &[1, 2, 1]),
];

fn check_misreadings(tests: &mut Tests) {
    for (name, select, slots) in MISREAD {
        let found = shown(myopic_by(&hand_made(name).1, select));
        tests.check(found == slots, &format!("{name}, misread: slots {found:?}, not {slots:?}"));
    }
}

pub fn check_baselines(tests: &mut Tests) {
    check_table_2(tests);
    check_days(tests);
    check_misreadings(tests);
}
