//! Mistakes of a tool that writes a day file anew with the weights of order 8 of 02.
//! Mode weights has to tell each of them.

use crate::boxes::all_boxes;
use crate::day_file::{read_day, GROUP_NAMES};
use crate::misweighings::moves;
use crate::model::{MOST_TRAINS, MOST_WEIGHT};
use crate::process::Ended;
use crate::weights_texts::{rewritten, with_weights, Given, Wanted};
use std::os::unix::process::ExitStatusExt;
use std::process::ExitStatus;

/// What a tool that makes a mistake leaves.
type Misrewrite = fn(&Given) -> Ended;

#[rustfmt::skip]
pub const MISREWRITINGS: [(&str, Misrewrite); 24] = [
    ("the revisit weight stays", |given| weighed(given, |text, _| (head(text)[3], 1))),
    ("the split weight stays", |given| weighed(given, |text, sum| (sum, head(text)[4]))),
    ("the weights exchanged", |given| weighed(given, |_, sum| (1, sum))),
    ("both weights the sum", |given| weighed(given, |_, sum| (sum, sum))),
    ("the number of moves", |given| weighed(given, |text, _| (boxes(text).len(), 1))),
    ("the largest number of boxes", |given| weighed(given, |text, _| (boxes(text).into_iter().max().unwrap_or_default(), 1))),
    ("the sum without the last move", |given| weighed(given, |text, sum| (sum - boxes(text).last().unwrap_or(&0), 1))),
    ("1 where there are no boxes", |given| weighed(given, |_, sum| (sum.max(1), 1))),
    ("the sum in 16 bits", |given| whatever_sum(given, |sum| sum % (1 << 16))),
    ("65535 for a larger sum", |given| whatever_sum(given, |sum| sum.min(MOST_WEIGHT))),
    ("a larger sum written", |given| whatever_sum(given, |sum| sum)),
    ("a larger sum not named", sum_not_named),
    ("held to twelve trains", held_to_twelve),
    ("weights not looked at", weights_not_looked_at),
    ("groups left out", |given| edited(given, |text| text.split(GROUP_NAMES).take(1).collect())),
    ("no byte 10 at the end", |given| edited(given, |text| text.trim_end().to_string())),
    ("one byte 10 more at the end", |given| edited(given, |text| text + "\n")),
    ("bytes 13 before bytes 10", |given| edited(given, |text| text.replace('\n', "\r\n"))),
    ("a message beside what is written", |given| where_status(0, given, |ended| ended.errors = b"written\n".to_vec())),
    ("status 1 beside what is written", |given| where_status(0, given, |ended| ended.status = status(1))),
    ("refused with status 0", |given| where_status(1, given, |ended| ended.status = status(0))),
    ("refused with status 2", |given| where_status(1, given, |ended| ended.status = status(2))),
    ("refused in two lines", |given| where_status(1, given, |ended| ended.errors.extend(b"refused\n"))),
    ("refused without a word", |given| where_status(1, given, |ended| ended.errors.clear())),
];

fn status(code: i32) -> ExitStatus {
    // The code stands above what a signal would leave.
    ExitStatus::from_raw(code << 8)
}

fn written(text: Vec<u8>) -> Ended {
    Ended { status: status(0), output: text, errors: Vec::new() }
}

fn refused(errors: &str) -> Ended {
    Ended { status: status(1), output: Vec::new(), errors: errors.as_bytes().to_vec() }
}

/// Without a mistake.
pub fn right(given: &Given) -> Ended {
    match &given.wanted {
        Wanted::Written(text) => written(text.clone()),
        Wanted::Refused(words) => refused(&(words.join(" ") + "\n")),
        Wanted::RefusedLike(_) => refused("no day file\n"),
    }
}

/// The values of line 2.
fn head(text: &[u8]) -> Vec<usize> {
    let text = String::from_utf8_lossy(text);
    let line = text.lines().nth(1).unwrap_or_default();
    line.split(' ').filter_map(|field| field.parse().ok()).collect()
}

/// The boxes of each move; none of a day that is larger than yard-plan takes.
fn boxes(text: &[u8]) -> Vec<usize> {
    read_day(text).map_or(Vec::new(), |day| moves(&day).collect())
}

/// Other weights for a text and the sum of its boxes, where it is written.
fn weighed(given: &Given, weigh: fn(&[u8], usize) -> (usize, usize)) -> Ended {
    if !matches!(given.wanted, Wanted::Written(_)) {
        return right(given);
    }
    let (revisit, split) = weigh(&given.text, all_boxes(&given.text));
    written(with_weights(&given.text, &format!("{revisit} {split}")))
}

/// Another revisit weight, and none is refused.
fn whatever_sum(given: &Given, weigh: fn(usize) -> usize) -> Ended {
    match given.wanted {
        Wanted::RefusedLike(_) => right(given),
        _ => {
            let weight = weigh(all_boxes(&given.text));
            written(with_weights(&given.text, &format!("{weight} 1")))
        }
    }
}

fn sum_not_named(given: &Given) -> Ended {
    match given.wanted {
        Wanted::Refused(_) => refused("too many boxes\n"),
        _ => right(given),
    }
}

fn held_to_twelve(given: &Given) -> Ended {
    match head(&given.text).first() {
        Some(trains) if *trains > MOST_TRAINS => refused("too many trains\n"),
        _ => right(given),
    }
}

/// Written, since with the new weights it is a day file.
fn weights_not_looked_at(given: &Given) -> Ended {
    if given.text.iter().filter(|&&byte| byte == b'\n').count() < 2 {
        return right(given);
    }
    let other = with_weights(&given.text, "0 1");
    match read_day(&other) {
        Ok(_) => written(rewritten(&other)),
        Err(_) => right(given),
    }
}

/// Something else written than what should be.
fn edited(given: &Given, edit: fn(String) -> String) -> Ended {
    match &given.wanted {
        Wanted::Written(text) => written(edit(String::from_utf8_lossy(text).into()).into_bytes()),
        _ => right(given),
    }
}

/// Something else left where the status should be this.
fn where_status(code: i32, given: &Given, change: fn(&mut Ended)) -> Ended {
    let mut ended = right(given);
    if ended.status == status(code) {
        change(&mut ended);
    }
    ended
}
