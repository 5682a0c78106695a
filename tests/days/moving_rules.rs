//! What a call of a moving day has to give: its checks in their order, the
//! account so changed, and its plan. Mode self puts mistakes in the places of
//! these rules.

use crate::account::{row, Account, Slots};
use crate::account_plan::{replanned, Replanned};
use crate::case::Outcome;
use crate::day_file::{read_day, Refusal};
use crate::header::{CHOICE_WORDS, COST_WORDS, DAY_BYTES, MOST_TRAINS};
use crate::model::{Day, MOST_BOXES, MOST_SLOTS, MOST_TRAIN_NUMBER, NUMBERS};
use crate::moving_call::{Asked, Call};
use crate::plan::Interval;
use crate::valuing::{outside, overfull, parted};

/// A call with what its text reads to.
pub struct Given<'a> {
    pub call: &'a Call,
    pub read: Result<Day, Refusal>,
}

impl Given<'_> {
    pub fn new(call: &Call) -> Given<'_> {
        Given { call, read: read_day(&call.state.text) }
    }

    /// The position of a train, if it is listed.
    pub fn position(&self, number: u32) -> Option<usize> {
        let day = self.read.as_ref().ok()?;
        day.trains.iter().position(|train| train.number == number as usize)
    }

    pub fn unlisted(&self, number: u32) -> bool {
        self.read.is_ok() && self.position(number).is_none()
    }

    /// Whether a train's planned slot is closed.
    pub fn is_served(&self, number: u32) -> bool {
        let slot = self.position(number).and_then(|k| self.call.state.row.get(k));
        slot.is_some_and(|&slot| u32::from(slot) <= self.call.state.closed)
    }

    /// Whether a condition on the day holds; not where there is none.
    pub fn day_is(&self, holds: impl Fn(&Day) -> bool) -> bool {
        self.read.as_ref().is_ok_and(holds)
    }
}

// ---------------------------------------------------------------------------
// The checks
// ---------------------------------------------------------------------------

/// The refusal by one rule, if the call breaks it. Each looks at its own matter
/// only, so that it shows which rules a call breaks besides the first.
pub type Check = fn(&Given) -> Option<Outcome>;

pub fn refuse_if(broken: bool, refusal: usize) -> Option<Outcome> {
    broken.then(|| Outcome::carrying(refusal, 0))
}

pub fn numbers_lent(given: &Given) -> Option<Outcome> {
    refuse_if(given.call.room.numbers < NUMBERS, 10)
}

pub fn outputs_lent(given: &Given) -> Option<Outcome> {
    let Call { asked, room, .. } = given.call;
    let day = asked.changes() && room.day < DAY_BYTES;
    refuse_if(day || asked.plans() && room.next < MOST_TRAINS, 10)
}

pub fn day_file(given: &Given) -> Option<Outcome> {
    given.read.as_ref().err().map(|refusal| Outcome::unread(*refusal))
}

/// Where the text is no day file, a state that is none on any day.
pub fn sound_state(given: &Given) -> Option<Outcome> {
    let state = &given.call.state;
    let (closed, length) = (state.closed as usize, state.row.len());
    let unsound = match &given.read {
        Ok(day) => {
            closed > day.slots
                || length != day.trains.len()
                || !row_allowed(day, state.row.as_slice())
        }
        Err(_) => closed > MOST_SLOTS || length == 0 || length > MOST_TRAINS,
    };
    refuse_if(unsound, 8)
}

pub fn row_allowed(day: &Day, row: &[u8]) -> bool {
    outside(day, row).is_empty() && overfull(day, row).is_empty() && parted(day, row).is_empty()
}

pub fn areas_lent(given: &Given) -> Option<Outcome> {
    let room = &given.call.room;
    refuse_if(room.cost < COST_WORDS || room.choice < CHOICE_WORDS, 10)
}

/// Which values of a call are outside their limits, in the order of the
/// arguments.
pub fn beyond_limits(given: &Given) -> [bool; 3] {
    let number = |number: u32| number == 0 || number as usize > MOST_TRAIN_NUMBER;
    let slot = |slot: u32| slot == 0 || given.day_is(|day| slot as usize > day.slots);
    match given.call.asked {
        Asked::Begin | Asked::Close => [false; 3],
        Asked::Cancel(train) => [number(train), false, false],
        Asked::Add(train, first, last) => [number(train), slot(first), slot(last)],
        Asked::SetBoxes(to, from, boxes) => [number(to), number(from), boxes as usize > MOST_BOXES],
    }
}

pub fn within_limits(given: &Given) -> Option<Outcome> {
    refuse_if(beyond_limits(given).contains(&true), 3)
}

/// 18 of cancel: not listed, served, or the only one of the day.
pub fn cancellable(given: &Given) -> Option<Outcome> {
    let Asked::Cancel(train) = given.call.asked else { return None };
    let only = given.day_is(|day| day.trains.len() == 1);
    refuse_if(given.unlisted(train) || given.is_served(train) || only, 18)
}

/// 18 of set boxes.
pub fn both_listed(given: &Given) -> Option<Outcome> {
    let Asked::SetBoxes(to, from, _) = given.call.asked else { return None };
    refuse_if(given.unlisted(to) || given.unlisted(from), 18)
}

pub fn addable(given: &Given) -> Option<Outcome> {
    let Asked::Add(train, ..) = given.call.asked else { return None };
    let full = given.day_is(|day| day.trains.len() == MOST_TRAINS);
    refuse_if(given.position(train).is_some() || full, 19)
}

/// Where the text is no day file, more are closed than any day has open.
pub fn slot_open(given: &Given) -> Option<Outcome> {
    let slots = given.read.as_ref().map_or(MOST_SLOTS, |day| day.slots);
    refuse_if(given.call.state.closed as usize >= slots, 20)
}

pub fn open_window(given: &Given) -> Option<Outcome> {
    let Asked::Add(_, first, last) = given.call.asked else { return None };
    refuse_if(first > last || first <= given.call.state.closed, 5)
}

pub fn not_itself(given: &Given) -> Option<Outcome> {
    let Asked::SetBoxes(to, from, _) = given.call.asked else { return None };
    refuse_if(to == from, 6)
}

/// The checks of a call before planning, in their order, with names to speak of
/// them by.
pub fn named_checks(asked: &Asked) -> Vec<(&'static str, Check)> {
    const NUMBERS_LENT: (&str, Check) = ("10 (numbers)", numbers_lent);
    const OUTPUTS: (&str, Check) = ("10 (day, next)", outputs_lent);
    const TEXT: (&str, Check) = ("1 to 7 or 15", day_file);
    const STATE: (&str, Check) = ("8", sound_state);
    const AREAS: (&str, Check) = ("10 (areas)", areas_lent);
    const LIMITS: (&str, Check) = ("3", within_limits);
    let last: &[(&str, Check)] = match asked {
        Asked::Begin => return vec![NUMBERS_LENT, OUTPUTS, TEXT, AREAS],
        Asked::Close => return vec![NUMBERS_LENT, TEXT, STATE, ("20", slot_open)],
        Asked::Cancel(_) => &[("18", cancellable)],
        Asked::Add(..) => &[("19", addable), ("5", open_window)],
        Asked::SetBoxes(..) => &[("18", both_listed), ("6", not_itself)],
    };
    [&[NUMBERS_LENT, OUTPUTS, TEXT, STATE, AREAS, LIMITS], last].concat()
}

pub fn checks(asked: &Asked) -> Vec<Check> {
    named_checks(asked).into_iter().map(|(_, check)| check).collect()
}

// ---------------------------------------------------------------------------
// The change and the reply
// ---------------------------------------------------------------------------

/// The account after a call that is taken; close takes the plan of before.
pub fn change(account: &mut Account, asked: &Asked, plan: &Slots) {
    match *asked {
        Asked::Begin => {}
        Asked::Close => account.close(plan),
        Asked::Cancel(train) => account.cancel(train as usize),
        Asked::Add(train, first, last) => {
            account.add(train as usize, first as usize, last as usize)
        }
        Asked::SetBoxes(to, from, boxes) => {
            account.set_boxes(to as usize, from as usize, boxes as usize)
        }
    }
}

/// What a call gives: its refusal or 0 and its numbers, the bytes of the new
/// day and of the new row; and the account and plan where it is taken.
#[derive(Clone, Debug)]
pub struct Reply {
    pub outcome: Outcome,
    pub day: Vec<u8>,
    pub next: Vec<u8>,
    pub after: Option<(Account, Slots)>,
}

impl Reply {
    pub fn refused(outcome: Outcome) -> Reply {
        Reply { outcome, day: Vec::new(), next: Vec::new(), after: None }
    }

    /// After begin and close the text is the one that was given, and after close
    /// the row as well, so that these are not written.
    fn taken(call: &Call, account: Account, plan: Slots) -> Reply {
        let text = account.text();
        let numbers = [account.closed, account.trains.len(), text.len(), 0];
        Reply {
            outcome: Outcome { refusal: 0, numbers },
            day: if call.asked.changes() { text } else { Vec::new() },
            next: if call.asked.plans() { row(&plan) } else { Vec::new() },
            after: Some((account, plan)),
        }
    }
}

pub type Change = fn(&mut Account, &Asked, &Slots);

/// The plan of the account after a call, the plan before it being at hand.
pub type Replan = fn(&Account, &Asked, &Slots) -> Replanned;

/// Rules by which a call is answered.
#[derive(Clone, Copy)]
pub struct Rules {
    pub checks: fn(&Asked) -> Vec<Check>,
    pub change: Change,
    pub replan: Replan,
}

/// Those of the papers.
pub const RULES: Rules = Rules { checks, change, replan: |account, _, _| replanned(account) };

pub fn reply(rules: &Rules, call: &Call) -> Reply {
    let given = Given::new(call);
    if let Some(outcome) = (rules.checks)(&call.asked).iter().find_map(|check| check(&given)) {
        return Reply::refused(outcome);
    }
    let Ok(day) = &given.read else { return Reply::refused(Outcome::carrying(0, 0)) };
    let (mut account, plan) = match call.asked {
        Asked::Begin => (Account::begun(day), Slots::new()),
        _ => Account::given(day, call.state.closed as usize, &call.state.row),
    };
    (rules.change)(&mut account, &call.asked, &plan);
    if call.asked == Asked::Close {
        return Reply::taken(call, account, plan);
    }
    match (rules.replan)(&account, &call.asked, &plan) {
        Replanned::Plan(plan) => Reply::taken(call, account, plan),
        Replanned::Overbooked(Interval { first, last, bound }) => {
            Reply::refused(Outcome { refusal: 9, numbers: [first, last, bound, 0] })
        }
        Replanned::Unkept => Reply::refused(Outcome::carrying(16, 0)),
    }
}
