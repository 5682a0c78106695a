//! Mistakes in the order of a moving day's checks, in what memory suffices, and
//! in which states are refused with 8.

use crate::account::Account;
use crate::account_plan::{replanned, Replanned};
use crate::case::Outcome;
use crate::header::{CHOICE_WORDS, COST_WORDS, DAY_BYTES, MOST_TRAINS};
use crate::mismoving::SOUND;
use crate::model::{Day, MOST_SLOTS};
use crate::moving_call::{Asked, Call, EXACT};
use crate::moving_rules::{
    areas_lent, checks, named_checks, refuse_if, reply, row_allowed, sound_state, Check, Given,
};
use crate::valuing::{outside, overfull, parted};

pub type Checks = fn(&Asked) -> Vec<Check>;

/// The check of this name in front of another one's; as the papers say where a
/// call doesn't have both.
pub fn earlier(asked: &Asked, name: &str, place: &str) -> Vec<Check> {
    let mut checks = named_checks(asked);
    let at = |wanted: &str| checks.iter().position(|(name, _)| *name == wanted);
    if let (Some(from), Some(to)) = (at(name), at(place)) {
        let moved = checks.remove(from);
        checks.insert(to, moved);
    }
    checks.into_iter().map(|(_, check)| check).collect()
}

/// Another check in the place of that name.
pub fn instead(asked: &Asked, name: &str, other: Check) -> Vec<Check> {
    let chosen = |(found, check): (&str, Check)| if found == name { other } else { check };
    named_checks(asked).into_iter().map(chosen).collect()
}

const NUMBERS: &str = "10 (numbers)";
const OUTPUTS: &str = "10 (day, next)";
const TEXT: &str = "1 to 7 or 15";
const AREAS: &str = "10 (areas)";

#[rustfmt::skip]
pub const MISCHECKS: [(&str, Checks); 49] = [
    ("the text before the numbers", |asked| earlier(asked, TEXT, NUMBERS)),
    ("the text before day and next", |asked| earlier(asked, TEXT, OUTPUTS)),
    ("8 before the text", |asked| earlier(asked, "8", TEXT)),
    ("8 before day and next", |asked| earlier(asked, "8", OUTPUTS)),
    ("areas before the text", |asked| earlier(asked, AREAS, TEXT)),
    ("areas before 8", |asked| earlier(asked, AREAS, "8")),
    ("3 before the areas", |asked| earlier(asked, "3", AREAS)),
    ("3 before 8", |asked| earlier(asked, "3", "8")),
    ("3 before the text", |asked| earlier(asked, "3", TEXT)),
    ("18 before 3", |asked| earlier(asked, "18", "3")),
    ("18 before the areas", |asked| earlier(asked, "18", AREAS)),
    ("18 before 8", |asked| earlier(asked, "18", "8")),
    ("19 before 3", |asked| earlier(asked, "19", "3")),
    ("19 before the areas", |asked| earlier(asked, "19", AREAS)),
    ("19 before 8", |asked| earlier(asked, "19", "8")),
    ("19 after 5", |asked| earlier(asked, "5", "19")),
    ("5 before 3", |asked| earlier(asked, "5", "3")),
    ("5 before 8", |asked| earlier(asked, "5", "8")),
    ("18 after 6", |asked| earlier(asked, "6", "18")),
    ("6 before 3", |asked| earlier(asked, "6", "3")),
    ("6 before the areas", |asked| earlier(asked, "6", AREAS)),
    ("20 before 8", |asked| earlier(asked, "20", "8")),
    ("20 before the text", |asked| earlier(asked, "20", TEXT)),
    ("9 or 16 before the areas", |asked| instead(asked, AREAS, planned_first)),
    ("three numbers suffice", |asked| instead(asked, NUMBERS, |given| refuse_if(given.call.room.numbers < 3, 10))),
    ("any numbers suffice", |asked| instead(asked, NUMBERS, |_| None)),
    ("a next of n bytes suffices", |asked| instead(asked, OUTPUTS, next_of_trains)),
    ("a next of 11 suffices", |asked| instead(asked, OUTPUTS, |given| outputs(given, DAY_BYTES, 11))),
    ("a next of 13 is needed", |asked| instead(asked, OUTPUTS, |given| outputs(given, DAY_BYTES, 13))),
    ("a day of 2436 suffices", |asked| instead(asked, OUTPUTS, |given| outputs(given, 2436, MOST_TRAINS))),
    ("a day of 2438 is needed", |asked| instead(asked, OUTPUTS, |given| outputs(given, 2438, MOST_TRAINS))),
    ("a day as long as the text suffices", |asked| instead(asked, OUTPUTS, day_of_text)),
    ("areas of 2^n and T x 2^n suffice", |asked| instead(asked, AREAS, areas_of_day)),
    ("any cost words suffice", |asked| instead(asked, AREAS, |given| areas(given, 0, CHOICE_WORDS))),
    ("any choice words suffice", |asked| instead(asked, AREAS, |given| areas(given, COST_WORDS, 0))),
    ("more than 4096 cost words are needed", |asked| instead(asked, AREAS, |given| areas(given, COST_WORDS + 1, CHOICE_WORDS))),
    ("more than 32768 choice words are needed", |asked| instead(asked, AREAS, |given| areas(given, COST_WORDS, CHOICE_WORDS + 1))),
    ("8: closed slots not asked", |asked| instead(asked, "8", |given| unsound(given, |_, _| false, bad_row))),
    ("8: closed slots in 8 bits", |asked| instead(asked, "8", |given| unsound(given, |day, closed| closed % 256 > day.slots, bad_row))),
    ("8: more than eight closed slots", |asked| instead(asked, "8", |given| unsound(given, |_, closed| closed > MOST_SLOTS, bad_row))),
    ("8: as many closed as there are", |asked| instead(asked, "8", |given| unsound(given, |day, closed| closed >= day.slots, bad_row))),
    ("8: a longer row passes", |asked| instead(asked, "8", |given| unsound(given, too_many, longer_passes))),
    ("8: a row with zeros behind passes", |asked| instead(asked, "8", |given| unsound(given, too_many, zeros_pass))),
    ("8: a shorter row passes", |asked| instead(asked, "8", |given| unsound(given, too_many, shorter_passes))),
    ("8: windows not asked", |asked| instead(asked, "8", |given| unsound(given, too_many, windows_not_asked))),
    ("8: tracks not asked", |asked| instead(asked, "8", |given| unsound(given, too_many, tracks_not_asked))),
    ("8: groups not asked", |asked| instead(asked, "8", |given| unsound(given, too_many, groups_not_asked))),
    ("8: a row that isn't the best", |asked| instead(asked, "8", best_only)),
    ("8: close asks for the length alone", close_asks_less),
];

/// Where with memory enough planning would refuse, it does so first.
fn planned_first(given: &Given) -> Option<Outcome> {
    let outcome = reply(&SOUND, &Call { room: EXACT, ..given.call.clone() }).outcome;
    areas_lent(given).map(|short| if matches!(outcome.refusal, 9 | 16) { outcome } else { short })
}

fn outputs(given: &Given, day: usize, next: usize) -> Option<Outcome> {
    let Call { asked, room, .. } = given.call;
    refuse_if(asked.changes() && room.day < day || asked.plans() && room.next < next, 10)
}

fn next_of_trains(given: &Given) -> Option<Outcome> {
    let trains = given.read.as_ref().map_or(MOST_TRAINS, |day| day.trains.len());
    outputs(given, DAY_BYTES, trains)
}

fn day_of_text(given: &Given) -> Option<Outcome> {
    outputs(given, given.call.state.text.len(), MOST_TRAINS)
}

fn areas(given: &Given, cost: usize, choice: usize) -> Option<Outcome> {
    let room = &given.call.room;
    refuse_if(room.cost < cost || room.choice < choice, 10)
}

fn areas_of_day(given: &Given) -> Option<Outcome> {
    let day = given.read.as_ref().ok()?;
    areas(given, 1 << day.trains.len(), day.slots << day.trains.len())
}

/// 8 by other rules for the closed slots and for the row.
fn unsound(
    given: &Given,
    closed: fn(&Day, usize) -> bool,
    row: fn(&Day, &[u8]) -> bool,
) -> Option<Outcome> {
    let state = &given.call.state;
    let bad = |day: &Day| closed(day, state.closed as usize) || row(day, &state.row);
    refuse_if(given.day_is(bad), 8)
}

fn too_many(day: &Day, closed: usize) -> bool {
    closed > day.slots
}

fn other_length(day: &Day, row: &[u8]) -> bool {
    row.len() != day.trains.len()
}

fn bad_row(day: &Day, row: &[u8]) -> bool {
    other_length(day, row) || !row_allowed(day, row)
}

fn zeros_pass(day: &Day, row: &[u8]) -> bool {
    let n = day.trains.len();
    let zeros = row.len() == MOST_TRAINS && row[n..].iter().all(|&slot| slot == 0);
    bad_row(day, if zeros { &row[..n] } else { row })
}

/// Any slot of the day passes.
fn windows_not_asked(day: &Day, row: &[u8]) -> bool {
    let of_day = |&slot: &u8| (1..=day.slots).contains(&usize::from(slot));
    let slots = row.iter().all(of_day);
    other_length(day, row)
        || !slots
        || !overfull(day, row).is_empty()
        || !parted(day, row).is_empty()
}

fn best_only(given: &Given) -> Option<Outcome> {
    let refused = sound_state(given);
    let state = &given.call.state;
    let (Ok(day), None) = (&given.read, refused) else { return refused };
    let (account, plan) = Account::given(day, state.closed as usize, &state.row);
    refuse_if(replanned(&account) != Replanned::Plan(plan), 8)
}

fn longer_passes(day: &Day, row: &[u8]) -> bool {
    let n = day.trains.len();
    row.len() < n || bad_row(day, &row[..n])
}

fn shorter_passes(day: &Day, row: &[u8]) -> bool {
    row.len() >= day.trains.len() && bad_row(day, row)
}

fn tracks_not_asked(day: &Day, row: &[u8]) -> bool {
    other_length(day, row) || !outside(day, row).is_empty() || !parted(day, row).is_empty()
}

fn groups_not_asked(day: &Day, row: &[u8]) -> bool {
    other_length(day, row) || !outside(day, row).is_empty() || !overfull(day, row).is_empty()
}

fn close_asks_less(asked: &Asked) -> Vec<Check> {
    match asked {
        Asked::Close => instead(asked, "8", |given| unsound(given, too_many, other_length)),
        _ => checks(asked),
    }
}
