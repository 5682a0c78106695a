//! Mistakes in what the functions of a season tell, print and write (order 10), each
//! as a stand-in that makes it.

use crate::misseason::Misseason;
use crate::moving_standin::put;
use crate::season::{
    count_lines, days_of, figures, refusal_rows, report_lines, savings_lines, total_lines, Figures,
    MEANS, MOST_DAYS, MOST_REFUSAL, SEASON_BYTES_ACCEPTED, SEASON_NUMBERS, TOTALS,
};
use crate::season_day::{facts_of, Facts};
use crate::season_functions::{AnswerMemory, SeasonMemory};
use crate::season_standin::{StandIn, SOUND};

// ---------------------------------------------------------------------------
// Lines
// ---------------------------------------------------------------------------

const fn printing(lines: fn(&Figures) -> String) -> StandIn {
    StandIn { lines, ..SOUND }
}

const fn too_many(no_lines: fn(&[Vec<u8>]) -> String) -> StandIn {
    StandIn { no_lines, ..SOUND }
}

#[rustfmt::skip]
pub const MISPRINTED: [Misseason; 19] = [
    ("rows of zero", printing(|told| with_rows(told, (1..=MOST_REFUSAL).map(|number| format!("{number} {}\n", told[number])).collect()))),
    ("rows falling", printing(|told| with_rows(told, refusal_rows(told).into_iter().rev().collect()))),
    ("rows by the number of days", printing(|told| with_rows(told, by_days(told)))),
    ("9 and 16 in no row", printing(|told| with_rows(told, refusal_rows(told).into_iter().filter(|row| !row.starts_with("9 ") && !row.starts_with("16 ")).collect()))),
    ("one row only", printing(|told| with_rows(told, refusal_rows(told).into_iter().take(1).collect()))),
    ("no names where no day is refused", printing(|told| if refusal_rows(told).is_empty() { report_lines(told).replace("refusal days\n", "") } else { report_lines(told) })),
    ("a row for planned days", printing(|told| with_rows(told, [vec![format!("0 {}\n", told[0])], refusal_rows(told)].concat()))),
    ("direct before split moves", printing(|told| in_order(told, [0, 2, 1, 3]))),
    ("boxes first", printing(|told| in_order(told, [3, 0, 1, 2]))),
    ("savings before boxes", printing(|told| report_lines(told).replace(&total_lines(told, 3), "") + &total_lines(told, 3))),
    ("refused before planned", printing(|told| report_lines(told).replacen(&counts(told), &recounted(told, |planned, refused| [planned + refused, refused, planned]), 1))),
    ("days without the refused ones", printing(|told| report_lines(told).replacen(&counts(told), &recounted(told, |planned, refused| [planned, planned, refused]), 1))),
    ("no means", printing(|told| report_lines(told).lines().map(|line| format!("{}\n", line.trim_end_matches(" mean remainder"))).collect())),
    ("a mean of savings", printing(|told| report_lines(told).replace(&savings_lines(told), &format!("savings mean remainder\n{} {} {}\n", told[TOTALS + 4], told[MEANS], told[MEANS + 1])))),
    ("the last byte 10 missing", printing(|told| report_lines(told).trim_end().to_string())),
    ("an empty line behind the rows", printing(|told| report_lines(told).replace("revisits", "\nrevisits"))),
    ("22 printed with the number of days", too_many(|days| format!("refusal line\n22 {}\n", days.len()))),
    ("22 as 9 is printed", too_many(|_| "refusal first last trains\n22 0 0 0\n".to_string())),
    ("22 with a report", too_many(|_| format!("refusal line\n22 0\n{}", report_lines(&[0; SEASON_NUMBERS])))),
];

/// The report with other rows under `refusal days`.
fn with_rows(told: &Figures, rows: Vec<String>) -> String {
    let totals: String = (0..4).map(|which| total_lines(told, which)).collect();
    format!("{}refusal days\n{}{totals}{}", count_lines(told), rows.concat(), savings_lines(told))
}

fn by_days(told: &Figures) -> Vec<String> {
    let mut numbers: Vec<usize> = (1..=MOST_REFUSAL).filter(|&number| told[number] > 0).collect();
    numbers.sort_by_key(|&number| std::cmp::Reverse(told[number]));
    numbers.into_iter().map(|number| format!("{number} {}\n", told[number])).collect()
}

/// The report with its totals in another order.
fn in_order(told: &Figures, order: [usize; 4]) -> String {
    let lines = |order: [usize; 4]| order.map(|which| total_lines(told, which)).concat();
    report_lines(told).replace(&lines([0, 1, 2, 3]), &lines(order))
}

fn recounted(told: &Figures, numbers: fn(u64, u64) -> [u64; 3]) -> String {
    let [days, planned, refused] = numbers(told[0], told[1..TOTALS].iter().sum());
    format!("refused\n{days} {planned} {refused}\n")
}

fn counts(told: &Figures) -> String {
    recounted(told, |planned, refused| [planned + refused, planned, refused])
}

// ---------------------------------------------------------------------------
// Checks and memory
// ---------------------------------------------------------------------------

const fn checking(checks: fn(bool, bool) -> u64) -> StandIn {
    StandIn { checks, ..SOUND }
}

const fn touching(touch: fn(u64, &mut SeasonMemory)) -> StandIn {
    StandIn { touch, ..SOUND }
}

const fn touching_answer(touch_answer: fn(&[u8], &mut AnswerMemory)) -> StandIn {
    StandIn { touch_answer, ..SOUND }
}

/// The figures of all days, told beside 22.
fn all_figures(days: &[Vec<u8>]) -> Figures {
    let facts: Vec<Facts> = days.iter().map(|day| facts_of(day)).collect();
    figures(&facts)
}

#[rustfmt::skip]
pub const MISWRITTEN: [Misseason; 29] = [
    ("22 before 10", checking(|short, too_many| if too_many { 22 } else { u64::from(short) * 10 })),
    ("0 in place of 22", checking(|short, _| u64::from(short) * 10)),
    ("3 in place of 22", checking(|short, too_many| if short { 10 } else { u64::from(too_many) * 3 })),
    ("10 in place of 22", checking(|short, too_many| u64::from(short || too_many) * 10)),
    ("0 in place of 10", checking(|short, too_many| u64::from(!short && too_many) * 22)),
    ("22 with all totals", StandIn { no_figures: all_figures, ..SOUND }),
    ("22 with the totals of 366 days", StandIn { no_figures: |days| all_figures(&days[..MOST_DAYS]), ..SOUND }),
    ("22 with the number of days", StandIn { no_figures: |days| { let mut told = [0; SEASON_NUMBERS]; told[0] = days.len() as u64; told }, ..SOUND }),
    ("22 counted under 22", StandIn { no_figures: |_| { let mut told = [0; SEASON_NUMBERS]; told[22] = 1; told }, ..SOUND }),
    ("numbers kept after 22", touching(|returned, memory| if returned == 22 { memory.1.undo() })),
    ("39 numbers suffice", StandIn { numbers_needed: SEASON_NUMBERS - 1, ..SOUND }),
    ("32 numbers suffice", StandIn { numbers_needed: 32, ..SOUND }),
    ("any room suffices", StandIn { numbers_needed: 0, ..SOUND }),
    ("41 numbers asked for", StandIn { numbers_needed: SEASON_NUMBERS + 1, ..SOUND }),
    ("as many numbers as fit", touching(|returned, memory| if returned == 10 { let length = memory.1.length(); put(&mut memory.1, 0, &vec![0; length]) })),
    ("a 41st number cleared", touching(|_, memory| if memory.1.length() > SEASON_NUMBERS { put(&mut memory.1, SEASON_NUMBERS, &[0]) })),
    ("all numbers lent cleared", touching(|returned, memory| { let length = memory.1.length(); if returned != 10 && length > 200 { put(&mut memory.1, 200, &vec![0; length - 200]) } })),
    ("the text changed", touching(|_, memory| if memory.0.length() > 0 { put(&mut memory.0, 0, b"T") })),
    ("the text cut at what accepted files have", StandIn { days: |text| days_of(&text[..text.len().min(SEASON_BYTES_ACCEPTED)]), ..SOUND }),
    ("the text cut at 65,536 bytes", StandIn { days: |text| days_of(&text[..text.len().min(65_536)]), ..SOUND }),
    ("512 bytes asked for", StandIn { bytes_needed: |_| 512, ..SOUND }),
    ("a byte less suffices", StandIn { bytes_needed: |bytes| bytes - 1, ..SOUND }),
    ("a byte more asked for", StandIn { bytes_needed: |bytes| bytes + 1, ..SOUND }),
    ("22 returned beside its lines", StandIn { answer_checks: |short, too_many| if short { 10 } else { u64::from(too_many) * 22 }, ..SOUND }),
    ("as much of an answer as fits", touching_answer(|answer, memory| { let length = memory.1.length().min(answer.len()); put(&mut memory.1, 0, &answer[..length]) })),
    ("bytes told beside 10", touching_answer(|answer, memory| put(&mut memory.2, 0, &[answer.len()]))),
    ("bytes kept beside 10", touching_answer(|answer, memory| if memory.1.length() < answer.len() { memory.2.undo() })),
    ("a byte 0 behind the answer", touching_answer(|answer, memory| if memory.1.length() > answer.len() { put(&mut memory.1, answer.len(), &[0]) })),
    ("one byte more told", touching_answer(|answer, memory| if memory.1.length() >= answer.len() { put(&mut memory.2, 0, &[answer.len() + 1]) })),
];
