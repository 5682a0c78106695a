//! What has to be seen of the calls of a moving day: each refusal of each, which
//! check comes before which, and each way to lend memory.

use crate::day_file::READING_REFUSALS;
use crate::model::{MOST_SLOTS, MOST_TRAINS};
use crate::moving_call::{Asked, NAMES};
use crate::moving_rules::named_checks;
use crate::moving_seen_account::ACCOUNT;

/// One of each function.
pub const EACH: [Asked; 5] =
    [Asked::Begin, Asked::Close, Asked::Cancel(1), Asked::Add(1, 1, 1), Asked::SetBoxes(1, 2, 1)];

pub const PLANNING: &str = "9 or 16";

pub const UNSOUND: [&str; 13] = [
    "8: one slot more is closed than there are",
    "8: the low 8 bits of the closed slots are fine",
    "8: the greatest number of closed slots",
    "8: the row is one shorter",
    "8: the row is one longer",
    "8: no row",
    "8: a row of thirteen",
    "8: a row of twelve, zeros behind the trains",
    "8: only a slot outside its window",
    "8: only a slot with too many trains",
    "8: only a parted group",
    "8: as many slots are closed as there are, and the row is bad",
    "8: a slot of the day outside the window",
];

pub const NAMED: [&str; 22] = [
    "3: train 0",
    "3: train 100000",
    "3: train 4294967295",
    "3: the low 16 bits of the train are listed",
    "3: first 0",
    "3: first T + 1",
    "3: the low 8 bits of first are fine",
    "3: last 0",
    "3: last T + 1",
    "3: the low 8 bits of last are fine",
    "3: only from",
    "3: 256 boxes",
    "3: 4294967295 boxes",
    "18: not listed, but its low 16 bits",
    "18: a served train",
    "18: the only train",
    "18: to alone is not listed",
    "18: from alone is not listed",
    "19: listed, the day not full",
    "19: a thirteenth train, not listed",
    "5: first above last, in open slots",
    "5: first in the last closed slot, last in an open one",
];

pub const LENDINGS: [&str; 15] = [
    "0 numbers",
    "1 numbers",
    "2 numbers",
    "3 numbers",
    "4 numbers",
    "more numbers",
    "a day of 2436",
    "a day of 2437",
    "a longer day",
    "a next of 11",
    "a next of 12",
    "a longer next",
    "areas of 4096 and 32768",
    "4095 cost words",
    "32767 choice words",
];

pub const LONGER: [&str; 2] = ["more cost words", "more choice words"];

pub fn by(name: &str, what: &str) -> String {
    format!("{name}: {what}")
}

pub fn before(first: &str, later: &str) -> String {
    format!("{first} before {later}")
}

/// Whether a text that is no day file hides what the later check asks for.
pub fn hidden(first: &str, later: &str) -> bool {
    first == "1 to 7 or 15" && ["18", "19"].contains(&later)
}

/// Changes to so many trains, on so many slots, and with so many of them closed.
pub fn to_trains(n: usize) -> String {
    format!("a change to {n} trains")
}

pub fn on_slots(slots: usize) -> String {
    format!("a change on {slots} slots")
}

pub fn with_closed(closed: usize) -> String {
    format!("a change with {closed} closed slots")
}

pub fn required() -> Vec<String> {
    let mut required: Vec<String> =
        READING_REFUSALS.map(|number| by("text", &number.to_string())).to_vec();
    for asked in EACH {
        let (name, checks) = (asked.name(), named_checks(&asked));
        required.push(by(name, "taken"));
        for (index, (first, _)) in checks.iter().enumerate() {
            required.push(by(name, first));
            let later = checks[index + 1..].iter().map(|(later, _)| *later);
            let later = later.filter(|later| !hidden(first, later));
            required.extend(later.map(|later| by(name, &before(first, later))));
        }
        if matches!(asked, Asked::Begin | Asked::Add(..)) {
            required.extend(["9", "16"].map(|refusal| by(name, refusal)));
            let lent = ["10 (numbers)", "10 (day, next)", "10 (areas)"];
            required.extend(lent.map(|first| by(name, &before(first, PLANNING))));
        }
    }
    required.extend(UNSOUND.iter().chain(&NAMED).chain(&ACCOUNT).map(|what| what.to_string()));
    required.extend((1..=MOST_TRAINS).map(to_trains));
    required.extend((1..=MOST_SLOTS).map(on_slots));
    required.extend((0..=MOST_SLOTS).map(with_closed));
    for name in NAMES {
        let lent = |what: &&&str| match **what {
            what if what.contains("day") => !["yard_begin", "yard_close"].contains(&name),
            what => name != "yard_close" || what.contains("numbers"),
        };
        required.extend(LENDINGS.iter().filter(lent).map(|what| by(name, what)));
        required.extend(LONGER.iter().filter(lent).map(|what| by(name, what)));
    }
    required
}
