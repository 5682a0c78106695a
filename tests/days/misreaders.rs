//! Mistakes in reading the groups of order 4. Each has to read some of the
//! texts that are run otherwise than the paper, for else a library that makes
//! it would pass.

use crate::day_file::{
    judge_pair, not_rising, placed_before, read_day, read_day_by, unlisted, GroupRules, JudgePair,
    Pair, Refusal, GROUP_LIMITS, GROUP_NAMES,
};
use crate::model::{Day, Train, MOST_GROUP, MOST_TRAIN_NUMBER};
use crate::sets::{groups, members};

type Read = Result<Day, Refusal>;
type Misread = fn(&[u8]) -> Read;

pub const MISREADERS: [(&str, Misread); 17] = [
    ("15 before 3", limits_last),
    ("an equal pair accepted", equal_accepted),
    ("pairs in any order accepted", any_order),
    ("trains of a group in any order accepted", any_order_in_group),
    ("a train in two groups accepted", second_accepted),
    ("an unlisted train accepted", unlisted_accepted),
    ("train numbers rise throughout", trains_rise),
    ("group numbers without gaps", gaps_refused),
    ("group 0 accepted", zero_accepted),
    ("group 13 accepted", thirteen_accepted),
    ("groups up to the number of trains", up_to_trains),
    ("a section without rows accepted", no_rows_accepted),
    ("an absent row counts as the names line", names_for_absent),
    ("names without byte 10 open the section", unended_names),
    ("names before the moves get 2", names_out_of_place),
    ("names once more passed over", names_again),
    ("a group of one gets 15", one_refused),
];

fn judged_by(text: &[u8], judge: JudgePair) -> Read {
    read_day_by(text, &GroupRules { limits: GROUP_LIMITS, judge })
}

fn fifteen(broken: bool) -> Option<usize> {
    broken.then_some(15)
}

fn limits_last(text: &[u8]) -> Read {
    let limits = [(0, MOST_TRAIN_NUMBER); 2];
    let judge = |trains: &[Train], before, pair: Pair| {
        let within = (1..=MOST_GROUP).contains(&pair.0) && pair.1 > 0;
        judge_pair(trains, before, pair).or((!within).then_some(3))
    };
    read_day_by(text, &GroupRules { limits, judge })
}

fn equal_accepted(text: &[u8]) -> Read {
    judged_by(text, |trains, before, pair| match before == Some(pair) {
        true => None,
        false => judge_pair(trains, before, pair),
    })
}

fn any_order(text: &[u8]) -> Read {
    judged_by(text, |trains, _, pair| judge_pair(trains, None, pair))
}

fn any_order_in_group(text: &[u8]) -> Read {
    judged_by(text, |trains, before, pair| {
        let falling = before.is_some_and(|before| pair.0 < before.0);
        fifteen(falling || unlisted(trains, pair) || placed_before(trains, pair))
    })
}

fn second_accepted(text: &[u8]) -> Read {
    judged_by(text, |trains, before, pair| {
        fifteen(not_rising(before, pair) || unlisted(trains, pair))
    })
}

fn unlisted_accepted(text: &[u8]) -> Read {
    judged_by(text, |trains, before, pair| {
        fifteen(not_rising(before, pair) || placed_before(trains, pair))
    })
}

fn trains_rise(text: &[u8]) -> Read {
    judged_by(text, |trains, before, pair| {
        let falling = before.is_some_and(|before| pair.1 <= before.1);
        fifteen(falling).or(judge_pair(trains, before, pair))
    })
}

fn gaps_refused(text: &[u8]) -> Read {
    judged_by(text, |trains, before, pair| {
        let next = before.map_or(1, |before| before.0 + 1);
        fifteen(pair.0 > next).or(judge_pair(trains, before, pair))
    })
}

fn up_to_trains(text: &[u8]) -> Read {
    judged_by(text, |trains, before, pair| match pair.0 > trains.len() {
        true => Some(3),
        false => judge_pair(trains, before, pair),
    })
}

fn zero_accepted(text: &[u8]) -> Read {
    let limits = [(0, GROUP_LIMITS[0].1), GROUP_LIMITS[1]];
    read_day_by(text, &GroupRules { limits, judge: judge_pair })
}

fn thirteen_accepted(text: &[u8]) -> Read {
    let limits = [(GROUP_LIMITS[0].0, MOST_GROUP + 1), GROUP_LIMITS[1]];
    read_day_by(text, &GroupRules { limits, judge: judge_pair })
}

/// The text before the groups' names, where it ends with them and this.
fn before_names<'a>(text: &'a [u8], end: &str) -> Option<&'a [u8]> {
    let before = text.strip_suffix(end.as_bytes())?.strip_suffix(GROUP_NAMES.as_bytes())?;
    before.ends_with(b"\n").then_some(before)
}

fn no_rows_accepted(text: &[u8]) -> Read {
    read_day(before_names(text, "\n").unwrap_or(text))
}

fn names_for_absent(text: &[u8]) -> Read {
    let lines = text.iter().filter(|&&byte| byte == b'\n').count();
    match (read_day(text), before_names(text, "\n")) {
        (Err(Refusal { number: 2, line }), Some(_)) if line > lines => {
            Err(Refusal { number: 2, line: lines })
        }
        (read, _) => read,
    }
}

fn unended_names(text: &[u8]) -> Read {
    match before_names(text, "") {
        Some(_) => read_day(&[text, b"\n"].concat()),
        None => read_day(text),
    }
}

fn names_out_of_place(text: &[u8]) -> Read {
    let read = read_day(text);
    match read {
        Err(Refusal { number: 1, line }) => {
            let found = text.split(|&byte| byte == b'\n').nth(line - 1);
            let number = if found == Some(GROUP_NAMES.as_bytes()) { 2 } else { 1 };
            Err(Refusal { number, line })
        }
        _ => read,
    }
}

fn names_again(text: &[u8]) -> Read {
    let mut seen = false;
    let once = |line: &&[u8]| {
        let again = seen && *line == GROUP_NAMES.as_bytes();
        seen |= *line == GROUP_NAMES.as_bytes();
        !again
    };
    let lines: Vec<&[u8]> = text.split(|&byte| byte == b'\n').filter(once).collect();
    read_day(&lines.join(&b'\n'))
}

/// At the last line, for only there the group is known to have no other row.
fn one_refused(text: &[u8]) -> Read {
    let day = read_day(text)?;
    let line = text.iter().filter(|&&byte| byte == b'\n').count();
    match groups(&day).into_iter().any(|group| members(&day, group).len() == 1) {
        true => Err(Refusal { number: 15, line }),
        false => Ok(day),
    }
}
