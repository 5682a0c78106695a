//! Order 10 of 02, the season in exact figures: a text parted into days, the report
//! as numbers in the order of yard.h, and as the lines of docs/FORMAT.md. What one
//! day adds stands in season_day.rs.

use crate::plan::broken;
use crate::season_day::{facts_of, Facts};

/// A 367th day gets 22.
pub const MOST_DAYS: usize = 366;

/// Days are counted under each of the numbers 1 to 26.
pub const MOST_REFUSAL: usize = 26;

/// Days planned, a counter for each refusal, five totals, four means of two numbers.
pub const SEASON_NUMBERS: usize = 1 + MOST_REFUSAL + 5 + 4 * 2;

/// The program reads no more of its input, and their reading decides.
pub const SEASON_BYTES_READ: usize = 1_048_576;

/// Bytes that suffice for each report.
pub const SEASON_BYTES_PRINTED: usize = 512;

/// 366 of the greatest files and the empty lines between them.
pub const SEASON_BYTES_ACCEPTED: usize = 892_307;

// ---------------------------------------------------------------------------
// Parting
// ---------------------------------------------------------------------------

/// A line of nothing but its byte 10.
pub const EMPTY_LINE: &[u8] = b"\n";

/// The lines of a text, each with its byte 10; the last one may lack it.
pub fn lines_of(text: &[u8]) -> Vec<&[u8]> {
    text.split_inclusive(|&byte| byte == b'\n').collect()
}

/// Every empty line parts two days, and belongs to neither. An empty text has none.
pub fn days_of(text: &[u8]) -> Vec<Vec<u8>> {
    if text.is_empty() {
        return Vec::new();
    }
    let lines = lines_of(text);
    lines.split(|line| *line == EMPTY_LINE).map(|lines| lines.concat()).collect()
}

// ---------------------------------------------------------------------------
// The figures
// ---------------------------------------------------------------------------

/// The numbers of a report, in the order of yard.h.
pub type Figures = [u64; SEASON_NUMBERS];

/// Where the five totals begin, and the four means.
pub const TOTALS: usize = 1 + MOST_REFUSAL;
pub const MEANS: usize = TOTALS + 5;

/// A quotient and a remainder; without a planned day both are 0.
pub fn mean(total: u64, planned: u64) -> [u64; 2] {
    [total.checked_div(planned).unwrap_or(0), total.checked_rem(planned).unwrap_or(0)]
}

/// The figures over days: each column is collected and added up by itself, and the
/// numbers stand one after the other.
pub fn figures(days: &[Facts]) -> Figures {
    let under = |number: usize| days.iter().filter(|day| day.refusal == number).count() as u64;
    let planned: Vec<&Facts> = days.iter().filter(|day| day.refusal == 0).collect();
    let column = |of: fn(&Facts) -> usize| planned.iter().map(|day| of(day) as u64).sum::<u64>();
    let moves = [
        column(|day| day.value.revisits),
        column(|day| day.value.splits),
        column(|day| day.value.direct),
        column(|day| day.boxes),
    ];
    let savings: i64 = planned.iter().filter_map(|day| day.saving()).sum();
    let means = moves.map(|total| mean(total, under(0)));
    let mut numbers: Vec<u64> = (0..=MOST_REFUSAL).map(under).collect();
    numbers.extend(moves);
    numbers.push(savings as u64);
    numbers.extend(means.concat());
    numbers.try_into().expect("as many numbers as there are")
}

/// What order 10 says of the figures of any season; if it doesn't hold, it is this
/// test program that is wrong.
fn sound(days: usize, told: &Figures) -> bool {
    let counted: u64 = told[..TOTALS].iter().sum();
    let (totals, means) = (&told[TOTALS..MEANS], told[MEANS..].chunks(2));
    let back = |(total, mean): (&u64, &[u64])| match told[0] {
        0 => [*total, mean[0], mean[1]] == [0; 3],
        planned => mean[0] * planned + mean[1] == *total && mean[1] < planned,
    };
    counted == days as u64
        && totals[1] + totals[2] == totals[3]
        && totals.iter().zip(means).all(back)
}

/// The report over the days of a text; nothing where they are too many, which is
/// found before any of them is read.
pub fn season(text: &[u8]) -> Option<Figures> {
    let days = days_of(text);
    if days.len() > MOST_DAYS {
        return None;
    }
    let facts: Vec<Facts> = days.iter().map(|day| facts_of(day)).collect();
    let told = figures(&facts);
    if !sound(days.len(), &told) {
        broken(&format!("{told:?} over {} days", days.len()));
    }
    Some(told)
}

// ---------------------------------------------------------------------------
// The lines
// ---------------------------------------------------------------------------

/// The totals that have a mean.
pub const NAMES: [&str; 4] = ["revisits", "splits", "direct", "boxes"];

/// What is printed in place of a report.
pub const TOO_MANY: &str = "refusal line\n22 0\n";

/// The rows under `refusal days`, rising, none for a number that refused no day.
pub fn refusal_rows(told: &Figures) -> Vec<String> {
    let counted = (1..=MOST_REFUSAL).filter(|&number| told[number] > 0);
    counted.map(|number| format!("{number} {}\n", told[number])).collect()
}

/// A total with its mean.
pub fn total_lines(told: &Figures, which: usize) -> String {
    let (total, mean) = (told[TOTALS + which], &told[MEANS + 2 * which..]);
    format!("{} mean remainder\n{total} {} {}\n", NAMES[which], mean[0], mean[1])
}

pub fn count_lines(told: &Figures) -> String {
    let (planned, refused) = (told[0], told[1..TOTALS].iter().sum::<u64>());
    format!("days planned refused\n{} {planned} {refused}\n", planned + refused)
}

pub fn savings_lines(told: &Figures) -> String {
    format!("savings\n{}\n", told[TOTALS + 4])
}

/// The report as yard-season prints it.
pub fn report_lines(told: &Figures) -> String {
    let mut text = count_lines(told) + "refusal days\n" + &refusal_rows(told).concat();
    for which in 0..NAMES.len() {
        text += &total_lines(told, which);
    }
    text + &savings_lines(told)
}

/// What yard_season_answer writes for a text.
pub fn answered_season(text: &[u8]) -> Vec<u8> {
    let lines = season(text).map(|told| report_lines(&told));
    lines.unwrap_or(TOO_MANY.to_string()).into_bytes()
}

/// The bytes that yard-season reads of a text.
pub fn part_read(text: &[u8]) -> &[u8] {
    &text[..text.len().min(SEASON_BYTES_READ)]
}

/// The exact bytes that yard-season prints for an input.
pub fn expected_season(text: &[u8]) -> Vec<u8> {
    answered_season(part_read(text))
}
