//! yard_plan_in_workspace: as yard_plan, with the two areas lent. Areas that
//! suffice are never refused; after a refusal but 9 and 16 no word of them has
//! changed, and words beyond those needed never.

use crate::boxes::add_up;
use crate::call_plan::planned;
use crate::case::{Case, KINDS};
use crate::header::{self, CHOICE_WORDS, COST_WORDS};
use crate::lent::{lent_text, returned, Lent, Marks};
use crate::model::{MOST_SLOTS, MOST_TRAINS, NUMBERS};
use crate::rotation::{chosen, seldom, supposed};
use crate::seen::Seen;
use crate::sys;

/// What planning needs: 2^n words of cost, T x 2^n of choice and n slots.
#[derive(Clone, Copy)]
pub struct Need {
    cost: usize,
    choice: usize,
    row: usize,
}

/// The lengths of cost, choice, row and numbers.
type Lengths = (usize, usize, usize, usize);

impl Need {
    pub fn of(n: usize, slots: usize) -> Need {
        Need { cost: 1 << n, choice: slots << n, row: n }
    }

    /// The choice words of one slot.
    fn layer(&self) -> usize {
        self.cost
    }

    pub fn met_by(&self, (cost, choice, row, _): Lengths) -> bool {
        cost >= self.cost && choice >= self.choice && row >= self.row
    }
}

type Lending = (&'static str, fn(Need) -> Lengths);

/// What always suffices for a row.
const ROW_BYTES: usize = header::MOST_TRAINS;

/// With these the day is planned. The last is lent seldom; 65,536 has no low
/// bits.
#[rustfmt::skip]
const SUFFICIENT: [Lending; 6] = [
    ("just enough", |need| (need.cost, need.choice, need.row, NUMBERS)),
    ("just enough, 6 numbers", |need| (need.cost, need.choice, need.row, 6)),
    ("one more of each", |need| (need.cost + 1, need.choice + 1, need.row + 1, NUMBERS)),
    ("a slot's words more", |need| (2 * need.cost, need.choice + need.layer(), need.row, 5)),
    ("what always suffices", |_| (COST_WORDS, CHOICE_WORDS, ROW_BYTES, NUMBERS)),
    ("much more", |_| (65536, 65536, 65536, 65536)),
];

#[rustfmt::skip]
const SHORT: [Lending; 19] = [
    ("cost one short", |need| (need.cost - 1, need.choice, need.row, NUMBERS)),
    ("choice one short", |need| (need.cost, need.choice - 1, need.row, NUMBERS)),
    ("row one short", |need| (need.cost, need.choice, need.row - 1, NUMBERS)),
    ("only cost short", |need| (need.cost - 1, CHOICE_WORDS, ROW_BYTES, 5)),
    ("only choice short", |need| (COST_WORDS, need.choice - 1, ROW_BYTES, 5)),
    ("only row short", |need| (COST_WORDS, CHOICE_WORDS, need.row - 1, 5)),
    ("half the cost", |need| (need.cost / 2, need.choice, need.row, NUMBERS)),
    ("choice without a slot's words", |need| (need.cost, need.choice - need.layer(), need.row, NUMBERS)),
    ("all one short", |need| (need.cost - 1, need.choice - 1, need.row - 1, 5)),
    ("no cost", |need| (0, need.choice, need.row, NUMBERS)),
    ("no choice", |need| (need.cost, 0, need.row, NUMBERS)),
    ("no row", |need| (need.cost, need.choice, 0, NUMBERS)),
    ("nothing but numbers", |_| (0, 0, 0, 5)),
    ("no number", |need| (need.cost, need.choice, need.row, 0)),
    ("1 number", |need| (need.cost, need.choice, need.row, 1)),
    ("2 numbers", |need| (need.cost, need.choice, need.row, 2)),
    ("3 numbers", |need| (need.cost, need.choice, need.row, 3)),
    ("3 numbers, the rest ample", |_| (COST_WORDS, CHOICE_WORDS, ROW_BYTES, 3)),
    ("3 numbers and nothing else", |_| (0, 0, 0, 3)),
];

/// Lendings that are to be seen on days of each number of trains and of slots.
const AT_EACH_SIZE: [&str; 4] =
    ["just enough", "cost one short", "choice one short", "row one short"];

const GREATEST: &str = "just enough on a day of most trains and most slots";

fn on_kind(name: &str, kind: &str) -> String {
    format!("{name} on {kind}")
}

fn on_size(name: &str, size: usize, of: &str) -> String {
    format!("{name} on a day of {size} {of}")
}

pub fn required() -> Vec<String> {
    let mut required = vec![GREATEST.to_string()];
    for (name, _) in SUFFICIENT.iter().chain(&SHORT) {
        required.extend(KINDS.map(|kind| on_kind(name, kind)));
    }
    for name in AT_EACH_SIZE {
        required.extend((1..=MOST_TRAINS).map(|n| on_size(name, n, "trains")));
        required.extend((1..=MOST_SLOTS).map(|slots| on_size(name, slots, "slots")));
    }
    required
}

fn note(seen: &mut Seen, case: &Case, name: &str) {
    seen.note(&on_kind(name, case.kind()));
    if let (Ok(day), true) = (&case.read, AT_EACH_SIZE.contains(&name)) {
        seen.note(&on_size(name, day.trains.len(), "trains"));
        seen.note(&on_size(name, day.slots, "slots"));
        let greatest = (day.trains.len(), day.slots) == (MOST_TRAINS, MOST_SLOTS);
        seen.note_if(greatest && name == AT_EACH_SIZE[0], GREATEST);
    }
}

fn compare_one(case: &Case, need: Need, lent: Lengths, marks: Marks) -> Result<(), String> {
    let mut text = lent_text(case.text, marks);
    let mut cost = Lent::marked_room("cost", lent.0, COST_WORDS, marks);
    let mut choice = Lent::marked_room("choice", lent.1, CHOICE_WORDS, marks);
    let mut row = Lent::marked_room("row", lent.2, ROW_BYTES, marks);
    let mut numbers = Lent::marked("numbers", lent.3, marks);
    let mut trains = Lent::marked("trains", 1, marks);
    let (outcome, slots) = planned(case, need.met_by(lent), lent.3);
    let got = unsafe {
        sys::yard_plan_in_workspace(
            text.pointer(),
            text.length(),
            cost.pointer(),
            cost.length(),
            choice.pointer(),
            choice.length(),
            row.pointer(),
            row.length(),
            numbers.pointer(),
            numbers.length(),
            trains.pointer(),
        )
    };
    returned(got, outcome.refusal)?;
    numbers.holds(&outcome.written(numbers.length()))?;
    if got == 0 {
        add_up(case.boxes, numbers.words())?;
    }
    trains.holds(&[slots.len()])?;
    row.holds(&slots)?;
    let worked = matches!(outcome.refusal, 0 | 9 | 16);
    cost.kept_beyond(if worked { need.cost } else { 0 })?;
    choice.kept_beyond(if worked { need.choice } else { 0 })?;
    text.kept()
}

pub fn compare(case: &Case, seen: &mut Seen) -> Result<(), String> {
    let (n, slots) = supposed(case);
    let need = Need::of(n, slots);
    let ways = SUFFICIENT.len();
    // Areas that just suffice are what 01 speaks of: with them each is planned.
    let sufficient = SUFFICIENT.iter().enumerate().filter(|&(way, _)| match way {
        0 => true,
        _ => chosen(case, way, ways) && (way + 1 < ways || seldom(case)),
    });
    for (turn, (name, lengths)) in sufficient.chain(SHORT.iter().enumerate()) {
        note(seen, case, name);
        compare_one(case, need, lengths(need), Marks::of(case.index + turn))
            .map_err(|what| format!("{name} for {n} trains, {slots} slots: {what}"))?;
    }
    Ok(())
}
