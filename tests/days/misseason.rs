//! Mistakes in parting a text into days, in planning them, in the numbers that they are
//! refused under, and in 22 (order 10). Each is a stand-in that makes it.

use crate::day_file::{read_day, HEAD_NAMES};
use crate::model::{rank, value, Day, Rank};
use crate::plan::{first_by, plan, Answer, Plan, SEARCH};
use crate::season::{days_of, figures, lines_of, Figures, EMPTY_LINE, MOST_DAYS, TOTALS};
use crate::season_day::{facts_by, facts_of, Facts};
use crate::season_standin::{StandIn, SOUND};
use crate::sets::ungrouped;

pub type Misseason = (&'static str, StandIn);

// ---------------------------------------------------------------------------
// Parting
// ---------------------------------------------------------------------------

type Days = Vec<Vec<u8>>;

const fn parting(days: fn(&[u8]) -> Days) -> StandIn {
    StandIn { days, ..SOUND }
}

#[rustfmt::skip]
pub const MISPARTED: [Misseason; 21] = [
    ("an empty line at the end ignored", parting(|text| days_of(without_end(text)))),
    ("an empty line at the beginning ignored", parting(|text| days_of(text.strip_prefix(EMPTY_LINE).unwrap_or(text)))),
    ("a run of empty lines is one", parting(without_runs)),
    ("empty days left out", parting(|text| days_of(text).into_iter().filter(|day| !day.is_empty()).collect())),
    ("the empty text has a day", parting(|text| if text.is_empty() { vec![Vec::new()] } else { days_of(text) })),
    ("the empty line kept with the day before", parting(kept_before)),
    ("the empty line kept with the day behind", parting(kept_behind)),
    ("the last byte 10 of a day dropped", parting(|text| mapped(text, |day| day.strip_suffix(b"\n").unwrap_or(day).to_vec()))),
    ("a missing last byte 10 added", parting(|text| mapped(text, ended))),
    ("parted at every two bytes 10, none shared", parting(by_two)),
    ("a line of byte 13 is empty", parting(|text| nearly_empty(text, |line| line == b"\r\n"))),
    ("a line of blanks is empty", parting(|text| nearly_empty(text, |line| line.iter().all(u8::is_ascii_whitespace)))),
    ("byte 13 passed over", parting(|text| days_of(&without_byte(text, b'\r')))),
    ("byte 0 ends the text", parting(|text| days_of(text.split(|&byte| byte == 0).next().unwrap_or_default()))),
    ("the top bit passed over", parting(|text| days_of(&text.iter().map(|byte| byte & 127).collect::<Vec<_>>()))),
    ("a day begins with its names", parting(|text| by_names(text, true))),
    ("parted only where names follow", parting(|text| by_names(text, false))),
    ("the last day left out", parting(|text| { let mut days = days_of(text); days.pop(); days })),
    ("the first day left out", parting(|text| days_of(text).into_iter().skip(1).collect())),
    ("a day beyond the text", parting(|text| days_of(&[text, b"\n"].concat()))),
    ("the days in one", parting(|text| if text.is_empty() { Vec::new() } else { vec![text.to_vec()] })),
];

/// Without one empty line at the end.
fn without_end(text: &[u8]) -> &[u8] {
    match text {
        [b'\n'] => b"",
        [.., b'\n', b'\n'] => &text[..text.len() - 1],
        _ => text,
    }
}

fn mapped(text: &[u8], change: fn(&[u8]) -> Vec<u8>) -> Days {
    days_of(text).iter().map(|day| change(day)).collect()
}

fn without_byte(text: &[u8], passed: u8) -> Vec<u8> {
    text.iter().copied().filter(|&byte| byte != passed).collect()
}

fn without_runs(text: &[u8]) -> Days {
    let mut lines = lines_of(text);
    lines.dedup_by(|line, before| *line == EMPTY_LINE && *before == EMPTY_LINE);
    days_of(&lines.concat())
}

fn kept_before(text: &[u8]) -> Days {
    let mut days = days_of(text);
    let parted = days.len().max(1) - 1;
    days[..parted].iter_mut().for_each(|day| day.push(b'\n'));
    days
}

fn kept_behind(text: &[u8]) -> Days {
    let mut days = days_of(text);
    days.iter_mut().skip(1).for_each(|day| day.insert(0, b'\n'));
    days
}

fn ended(day: &[u8]) -> Vec<u8> {
    match day {
        [] | [.., b'\n'] => day.to_vec(),
        _ => [day, b"\n"].concat(),
    }
}

/// As a search for two bytes 10 finds them: it goes on behind both.
fn by_two(text: &[u8]) -> Days {
    let (mut days, mut day, mut rest) = (Vec::new(), Vec::new(), text);
    while let [first, behind @ ..] = rest {
        day.push(*first);
        rest = behind;
        if let (b'\n', Some(after)) = (first, behind.strip_prefix(b"\n")) {
            days.push(std::mem::take(&mut day));
            rest = after;
        }
    }
    if !text.is_empty() {
        days.push(day);
    }
    days
}

/// Other lines part days as well.
fn nearly_empty(text: &[u8], empty: fn(&[u8]) -> bool) -> Days {
    let lines = lines_of(text);
    let even: Vec<&[u8]> =
        lines.iter().map(|line| if empty(line) { EMPTY_LINE } else { *line }).collect();
    days_of(&even.concat())
}

/// A day wherever the first names line stands, behind an empty line or anywhere.
fn by_names(text: &[u8], anywhere: bool) -> Days {
    let names = format!("{HEAD_NAMES}\n");
    let mut days: Days = Vec::new();
    let mut after_empty = true;
    for line in lines_of(text) {
        let begins = line == names.as_bytes() && (anywhere || after_empty);
        after_empty = line == EMPTY_LINE;
        match days.last_mut() {
            Some(day) if !begins => day.extend(line),
            _ => days.push(line.to_vec()),
        }
    }
    // The empty line before the names of the next day is no part of either.
    let behind = days.len().max(1) - 1;
    for day in &mut days[..behind] {
        if day.ends_with(b"\n\n") {
            day.pop();
        }
    }
    days
}

// ---------------------------------------------------------------------------
// Days refused, and days too many
// ---------------------------------------------------------------------------

pub const fn telling(figures: fn(&[Facts]) -> Figures) -> StandIn {
    StandIn { figures, ..SOUND }
}

pub const fn judging(facts: fn(&[u8]) -> Facts) -> StandIn {
    StandIn { facts, ..SOUND }
}

const fn limiting(too_many: fn(&[Vec<u8>]) -> bool) -> StandIn {
    StandIn { too_many, ..SOUND }
}

#[rustfmt::skip]
pub const MISJUDGED: [Misseason; 30] = [
    ("refused days counted as planned too", telling(|days| { let mut told = figures(days); told[0] = days.len() as u64; told })),
    ("refused days counted under 1", judging(|text| renumbered(text, |_| 1))),
    ("refused days counted under 2", judging(|text| renumbered(text, |_| 2))),
    ("9 counted as 16", judging(|text| renumbered(text, |number| if number == 9 { 16 } else { number }))),
    ("16 counted as 9", judging(|text| renumbered(text, |number| if number == 16 { 9 } else { number }))),
    ("15 counted as 8", judging(|text| renumbered(text, |number| if number == 15 { 8 } else { number }))),
    ("15 counted as 7", judging(|text| renumbered(text, |number| if number == 15 { 7 } else { number }))),
    ("4 counted as 5", judging(|text| renumbered(text, |number| if number == 4 { 5 } else { number }))),
    ("counters one place too high", judging(|text| renumbered(text, |number| number + 1))),
    ("counters one place too low", judging(|text| renumbered(text, |number| number - 1))),
    ("an empty day gets 2", judging(|text| if text.is_empty() { Facts { refusal: 2, ..facts_of(text) } } else { facts_of(text) })),
    ("an empty day is nothing", judging(|text| if text.is_empty() { Facts { refusal: 26, ..facts_of(text) } } else { facts_of(text) })),
    ("the line added", telling(|days| { let mut told = figures(days); days.iter().for_each(|day| told[day.refusal] += day.line as u64); told })),
    ("counted by the line", judging(|text| { let facts = facts_of(text); if facts.line > 0 { Facts { refusal: facts.line.min(26), ..facts } } else { facts } })),
    ("whether, and not how many", telling(|days| { let mut told = figures(days); told[1..TOTALS].iter_mut().for_each(|days| *days = (*days).min(1)); told })),
    ("14 refuses the day", judging(|text| without_first_come(text, |facts| Facts { refusal: 14, ..facts }))),
    ("14 counted besides", telling(|days| { let mut told = figures(days); told[14] = days.iter().filter(|day| day.first_come.refusal == 14).count() as u64; told })),
    ("9 and 16 are planned days", judging(|text| { let facts = facts_of(text); if [9, 16].contains(&facts.refusal) { Facts { refusal: 0, boxes: 0, ..facts } } else { facts } })),
    ("groups passed over", judging(|text| facts_by(text, |day| plan(&ungrouped(day))))),
    ("plans of equal cost by set numbers alone", judging(|text| facts_by(text, |day| by_rank(day, |rank| (rank.cost, rank.masks))))),
    ("plans of equal cost without the sum of slots", judging(|text| facts_by(text, |day| by_rank(day, |rank| (rank.cost, rank.revisits, rank.masks))))),
    ("22 at 366 days", limiting(|days| days.len() >= MOST_DAYS)),
    ("22 at 368 days", limiting(|days| days.len() > MOST_DAYS + 1)),
    ("22 at 400 days", limiting(|days| days.len() >= 400)),
    ("22 never", limiting(|_| false)),
    ("empty days not counted for 22", limiting(|days| days.iter().filter(|day| !day.is_empty()).count() > MOST_DAYS)),
    ("bad files not counted for 22", limiting(|days| days.iter().filter(|day| read_day(day).is_ok()).count() > MOST_DAYS)),
    ("days without a plan not counted for 22", limiting(|days| days.iter().filter(|day| facts_of(day).refusal == 0).count() > MOST_DAYS)),
    ("days counted for 22 in 16 bits", limiting(|days| days.len() & 0xFFFF > MOST_DAYS)),
    ("the first 366 days in place of 22", StandIn { days: |text| days_of(text).into_iter().take(MOST_DAYS).collect(), ..SOUND }),
];

/// The plan that is first in another order of rows.
fn by_rank<R: Ord>(day: &Day, order: fn(Rank) -> R) -> Answer {
    match plan(day) {
        Answer::Plan(plan) => {
            let first = first_by(day, SEARCH, |row| order(rank(day, row)));
            let assignment = first.expect("a day with a plan");
            Answer::Plan(Plan { value: value(day, &assignment), assignment, ..plan })
        }
        answer => answer,
    }
}

/// Another number for a refused day.
fn renumbered(text: &[u8], number: fn(usize) -> usize) -> Facts {
    let facts = facts_of(text);
    match facts.refusal {
        0 => facts,
        refusal => Facts { refusal: number(refusal), ..facts },
    }
}

/// Something else of a planned day without an allowed first come.
fn without_first_come(text: &[u8], change: fn(Facts) -> Facts) -> Facts {
    let facts = facts_of(text);
    match facts.first_come.refusal {
        14 => change(facts),
        _ => facts,
    }
}
