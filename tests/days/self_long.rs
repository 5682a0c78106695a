//! Mode self, its part on long days (order 9): days worked out by hand, that the two
//! searches agree, that plans are held by all rows, and that what mode long runs
//! tells each mistake.

use crate::groups::Tests;
use crate::long_beam::{search, RULES};
use crate::long_calls::{
    compare_answer, compare_check, compare_refused, compare_value, compare_width,
};
use crate::long_case::{Asked, LongCase, LONG_NUMBERS};
use crate::long_day::{
    read_long, write_long, LONG_BYTES_ACCEPTED, LONG_BYTES_PRINTED, LONG_TRAINS, MOST_WIDTH,
};
use crate::long_fast::{search_fast, work};
use crate::long_known::{greatest_long, longest_plan_long, GREAT_LONG, KNOWN_LONG};
use crate::long_plan::{expected_long, planned};
use crate::long_rows::{best_row, hold_to, rows_within};
use crate::long_run::reply_of;
use crate::long_special::long_special_texts;
use crate::long_standin::{StandIn, SOUND};
use crate::long_texts::{
    damaged_long_texts, great_texts, known_long_texts, middle_texts, small_texts,
};
use crate::mislong_calls::{
    Miscall, MISANSWERED, MISCHECKED, MISFIGURES, MISNUMBERED, MISREAD, MISTOLD,
};
use crate::mislong_search::{Missearch, MISSEARCHES, MISWIDTHS};
use crate::seen::Seen;
use crate::texts::Named;

/// Texts on which a mistake has to be told: days of the drawn ones, and texts of any
/// kind, of which fewer are at a limit.
const LEAST_DAYS: usize = 8;
const LEAST_TEXTS: usize = 3;

const SEARCHED_DAYS: usize = 700;
const HELD_DAYS: usize = 300;
const MISTAKEN_DAYS: usize = 2000;
const MISTAKEN_SMALL: usize = 150;
const MISTAKEN_DAMAGED: usize = 300;
const MIDDLE_DAYS: usize = 100;
const GREAT_DAYS: usize = 40;

fn check_known(tests: &mut Tests) {
    let plain = StandIn { rules: Some(RULES), ..SOUND };
    for known in &KNOWN_LONG {
        for (width, plan) in known.plans {
            let asked = Asked { width: *width, row: LONG_TRAINS, numbers: LONG_NUMBERS };
            for by in [&plain, &SOUND] {
                let found = by.reply(&known.text(), &asked);
                let what = format!("{}, width {width}: {found:?}, by hand {plan:?}", known.name);
                tests.check(found == reply_of(plan), &what);
            }
        }
    }
    for great in &GREAT_LONG {
        for (width, plan) in great.plans {
            let asked = Asked { width: *width, row: LONG_TRAINS, numbers: LONG_NUMBERS };
            let found = SOUND.reply(&great.text(), &asked);
            let what = format!("{}, width {width}: {found:?}, by hand {plan:?}", great.name);
            tests.check(found == reply_of(plan), &what);
        }
    }
    let greatest = write_long(&greatest_long());
    tests.check(greatest.len() == LONG_BYTES_ACCEPTED, "the greatest long day has another length");
    tests.check(
        read_long(&greatest) == Ok(greatest_long()),
        "the greatest long day reads otherwise",
    );
    let printed = expected_long(&write_long(&longest_plan_long()));
    tests.check(printed.len() == LONG_BYTES_PRINTED, "the greatest long plan has another length");
}

/// The two searches find the same at all widths up to 12, and at greater ones.
fn check_searches(tests: &mut Tests) {
    for (which, text) in small_texts().take(SEARCHED_DAYS) {
        let day = read_long(&text).expect("a drawn day");
        for width in (1..=12).chain([20, 30, MOST_WIDTH]) {
            let (plain, fast) = (search(&day, width), search_fast(&day, width));
            let alike = plain == fast;
            tests.check(alike, &format!("{which}, width {width}: {plain:?}, but {fast:?}"));
        }
    }
    for (which, text) in middle_texts().take(MIDDLE_DAYS).chain(great_texts().take(GREAT_DAYS)) {
        let day = read_long(&text).expect("a drawn day");
        let widths = [1, 3, 30].into_iter().filter(|&width| work(&day, width) <= 40_000);
        for width in widths {
            let alike = search(&day, width) == search_fast(&day, width);
            tests.check(alike, &format!("{which}, width {width}: the searches differ"));
        }
    }
}

fn check_rows(tests: &mut Tests) {
    for (which, text) in small_texts().take(HELD_DAYS) {
        let day = read_long(&text).expect("a drawn day");
        if rows_within(&day) > 4000 {
            continue;
        }
        let best = best_row(&day);
        for width in [1, 2, 5, MOST_WIDTH] {
            let held = hold_to(&day, &best, &planned(&day, width));
            tests.check(held.is_ok(), &format!("{which}, width {width}: {held:?}"));
        }
    }
}

fn cases(texts: &[Named]) -> Vec<LongCase<'_>> {
    texts.iter().enumerate().map(|(index, (_, text))| LongCase::new(index, text)).collect()
}

/// Whether planning at some widths tells.
fn plans_tell(case: &LongCase, by: &StandIn) -> bool {
    let widths = [1, 2, 3, 4 + case.index % 6];
    let seen = &mut Seen::default();
    widths.into_iter().any(|width| compare_width(by, case, width, seen).is_err())
}

/// Whether anything tells.
fn tells(case: &LongCase, by: &StandIn) -> bool {
    let seen = &mut Seen::default();
    if compare_check(by, case).is_err() || compare_refused(by, case, seen).is_err() {
        return true;
    }
    if case.read.as_ref().is_ok_and(|day| work(day, 1) > 2000) {
        return false;
    }
    let row = case.planned(1).and_then(Result::ok).map(|plan| plan.row);
    compare_value(by, case, row.as_deref(), seen).is_err()
        || [1, 2, 3, MOST_WIDTH]
            .into_iter()
            .any(|width| compare_width(by, case, width, seen).is_err())
        || compare_answer(by, case, 3).is_err()
}

fn check_told(tests: &mut Tests, name: &str, told: usize, needed: usize) {
    let what = format!("long, {name}: told on {told} texts, {needed} are needed");
    tests.check(told >= needed, &what);
}

/// Mistakes in the search, on drawn small days.
fn check_searching(tests: &mut Tests) {
    let texts: Vec<Named> = small_texts().take(MISTAKEN_DAYS).collect();
    let cases = cases(&texts);
    let sound = StandIn { rules: Some(RULES), ..SOUND };
    let passes = !cases.iter().any(|case| plans_tell(case, &sound));
    tests.check(passes, "long: a search without a mistake is told");
    let told_by = |(_, rules): &Missearch| {
        let by = StandIn { rules: Some(*rules), ..SOUND };
        cases.iter().filter(|case| plans_tell(case, &by)).take(LEAST_DAYS).count()
    };
    for mistake in MISSEARCHES.iter().chain(&MISWIDTHS) {
        check_told(tests, mistake.0, told_by(mistake), LEAST_DAYS);
    }
    let told_by = |(_, by): &Miscall| {
        cases.iter().filter(|case| plans_tell(case, by)).take(LEAST_DAYS).count()
    };
    for mistake in &MISFIGURES {
        check_told(tests, mistake.0, told_by(mistake), LEAST_DAYS);
    }
}

/// Mistakes in everything around it, on texts of all kinds; of great days those in
/// numbers.
fn check_calling(tests: &mut Tests) {
    let texts = known_long_texts().chain(long_special_texts());
    let texts = texts.chain(small_texts().take(MISTAKEN_SMALL));
    let texts = texts.chain(middle_texts().take(MIDDLE_DAYS));
    let texts: Vec<Named> = texts.chain(damaged_long_texts().take(MISTAKEN_DAMAGED)).collect();
    let cases = cases(&texts);
    let passes = !cases.iter().any(|case| tells(case, &SOUND));
    tests.check(passes, "long: a stand-in without a mistake is told");
    let lists: [&[Miscall]; 4] = [&MISREAD, &MISCHECKED, &MISTOLD, &MISANSWERED];
    for (name, by) in lists.concat() {
        let told = cases.iter().filter(|case| tells(case, &by)).take(LEAST_TEXTS).count();
        check_told(tests, name, told, LEAST_TEXTS);
    }
    let texts: Vec<Named> = known_long_texts().chain(great_texts().take(GREAT_DAYS)).collect();
    let cases = self::cases(&texts);
    for (name, by) in MISNUMBERED {
        let seen = &mut Seen::default();
        let told = cases.iter().filter(|case| compare_width(&by, case, 1, seen).is_err());
        check_told(tests, name, told.take(LEAST_TEXTS).count(), LEAST_TEXTS);
    }
}

pub fn check_long(tests: &mut Tests) {
    check_known(tests);
    check_searches(tests);
    check_rows(tests);
    check_searching(tests);
    check_calling(tests);
}
