//! Mode self, its part on a season (order 10): seasons worked out by hand, parting held
//! to what it is, and that what mode season runs tells each mistake.

use crate::groups::Tests;
use crate::misseason::{Misseason, MISJUDGED, MISPARTED};
use crate::misseason_figures::{MISAVERAGED, MISSAVED, MISTOTALLED};
use crate::misseason_telling::{MISPRINTED, MISWRITTEN};
use crate::season::{
    days_of, expected_season, report_lines, season, Figures, MEANS, MOST_DAYS,
    SEASON_BYTES_ACCEPTED, SEASON_BYTES_PRINTED, SEASON_NUMBERS, TOO_MANY, TOTALS,
};
use crate::season_calls::{compare_answer, compare_numbers, SeasonCase};
use crate::season_draw::Store;
use crate::season_known::{of_format, EMPTY_REPORT, FORMAT_REPORT, KNOWN_SEASONS};
use crate::season_run::{drawn_seasons, many_seasons};
use crate::season_special::{greatest_season, known_seasons, special_seasons, very_long_seasons};
use crate::season_standin::{StandIn, SOUND};
use crate::seen::Seen;
use crate::texts::Named;

/// Texts on which a mistake has to be told; of those at a limit there are few.
const LEAST_TEXTS: usize = 3;

const DRAWN: usize = 500;

fn check_known(tests: &mut Tests) {
    for (name, text, report) in &KNOWN_SEASONS {
        let (found, told) = (season(&text()), report.as_ref().map(|report| report.figures()));
        tests.check(found == told, &format!("{name}: {found:?}, by hand {told:?}"));
    }
    let print = |text: &[u8]| String::from_utf8(expected_season(text)).expect("ASCII");
    tests.check(print(&of_format()) == FORMAT_REPORT, "the season of FORMAT is printed otherwise");
    tests.check(print(b"") == EMPTY_REPORT, "the empty text is printed otherwise");
    tests.check(print(&[b'\n'; 366]) == TOO_MANY, "22 is printed otherwise");
    let greatest = greatest_season();
    tests.check(greatest.len() == SEASON_BYTES_ACCEPTED, "the greatest season has another length");
    let longest = report_lines(&greatest_figures()).len();
    tests.check(longest <= SEASON_BYTES_PRINTED, &format!("a report of {longest} bytes"));
}

/// No report has greater numbers, and none has rows for other refusals than these ten.
fn greatest_figures() -> Figures {
    let mut told = [0; SEASON_NUMBERS];
    for number in [0, 1, 2, 3, 4, 5, 6, 7, 9, 15, 16] {
        told[number] = MOST_DAYS as u64;
    }
    let (moves, savings) = (MOST_DAYS as u64 * 33_660, MOST_DAYS as u64 * 2_206_694_520);
    told[TOTALS..MEANS].copy_from_slice(&[12 * MOST_DAYS as u64, moves, moves, moves, savings]);
    told[MEANS..].copy_from_slice(&[12, 365, 33_660, 365, 33_660, 365, 33_660, 365]);
    told
}

/// A byte 10 at the start of a line: the first of the text, or behind another one.
fn empty_lines(text: &[u8]) -> usize {
    let starts = |place: &usize| *place == 0 || text[place - 1] == b'\n';
    (0..text.len()).filter(|&place| text[place] == b'\n').filter(starts).count()
}

/// Days are one more than empty lines, none of them holds one, and joined they are the
/// text again.
fn check_parting(tests: &mut Tests, texts: &[Named]) {
    for (which, text) in texts {
        let days = days_of(text);
        let count = if text.is_empty() { 0 } else { empty_lines(text) + 1 };
        let whole = days.iter().all(|day| empty_lines(day) == 0);
        let holds = days.len() == count && whole && days.join(&b'\n') == *text;
        tests.check(holds, &format!("{which}: {} days, {count} by empty lines", days.len()));
    }
}

/// Whether a call tells.
fn tells(case: &SeasonCase, by: &StandIn) -> bool {
    let seen = &mut Seen::default();
    compare_numbers(by, case, seen).is_err() || compare_answer(by, case, 3, seen).is_err()
}

fn check_mistakes(tests: &mut Tests, texts: &[Named]) {
    let numbered = texts.iter().enumerate();
    let cases: Vec<SeasonCase> =
        numbered.map(|(index, (_, text))| SeasonCase::new(index, text)).collect();
    let passes = !cases.iter().any(|case| tells(case, &SOUND));
    tests.check(passes, "season: a stand-in without a mistake is told");
    let lists: [&[Misseason]; 7] =
        [&MISPARTED, &MISJUDGED, &MISTOTALLED, &MISSAVED, &MISAVERAGED, &MISPRINTED, &MISWRITTEN];
    for (name, by) in lists.concat() {
        let told = cases.iter().filter(|case| tells(case, &by)).take(LEAST_TEXTS).count();
        let what = format!("season, {name}: told on {told} texts, {LEAST_TEXTS} are needed");
        tests.check(told >= LEAST_TEXTS, &what);
    }
}

pub fn check_season(tests: &mut Tests) {
    check_known(tests);
    let store = Store::drawn();
    let texts = known_seasons().chain(drawn_seasons(&store).take(DRAWN));
    let texts = texts.chain(special_seasons()).chain(many_seasons(&store));
    // The longest last: few mistakes need them.
    let texts: Vec<Named> = texts.chain(very_long_seasons()).collect();
    check_parting(tests, &texts);
    check_mistakes(tests, &texts);
}
