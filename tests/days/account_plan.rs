//! The plan of an account (order 7 of 02): the best of all allowed rows that keep
//! the served trains where they were and put all others into open slots; or 9
//! with its stretch, or 16.

use crate::account::{Account, Slots};
use crate::model::{rank, Day, Rank};
use crate::plan::{allowed, broken, each_allowed, plan, try_each, Answer, Interval};

#[derive(Clone, Debug, PartialEq)]
pub enum Replanned {
    Plan(Slots),
    /// 9 with the stretch and the trains bound inside.
    Overbooked(Interval),
    /// 16: no stretch is overbooked, and still there is no such row.
    Unkept,
}

/// Days of no more assignments are planned by the letter as well.
const LETTER_MOST: usize = 1500;

impl Account {
    /// The slots that a train may have: its own where it is served, and the open
    /// ones of its window where it isn't.
    pub fn bounds(&self, number: usize) -> (usize, usize) {
        match self.served.get(&number) {
            Some(&slot) => (slot, slot),
            None => {
                let listed = &self.trains[&number];
                (listed.first.max(self.closed + 1), listed.last)
            }
        }
    }

    /// The day in which the windows are these bounds. It is planned and never
    /// written: the windows of the account stay as they are.
    pub fn bound_day(&self) -> Day {
        let mut day = self.day();
        for train in &mut day.trains {
            (train.first, train.last) = self.bounds(train.number);
        }
        day
    }

    /// The slots of an assignment by train number.
    pub fn by_number(&self, assignment: &[usize]) -> Slots {
        self.trains.keys().copied().zip(assignment.iter().copied()).collect()
    }
}

/// Whether a row keeps the served trains and puts all others into open slots.
pub fn keeps_served(account: &Account, slots: &Slots) -> bool {
    slots.iter().all(|(number, &slot)| match account.served.get(number) {
        Some(&kept) => slot == kept,
        None => slot > account.closed,
    })
}

/// The overbooked stretch that 9 names, by 01's words on the bounds: a stretch
/// may begin in closed slots.
fn overbooked(account: &Account) -> Option<Interval> {
    let stretches = (1..=account.slots).flat_map(|a| (a..=account.slots).map(move |b| (a, b)));
    let over = |(a, b): (usize, usize)| {
        let inside = |number: &&usize| {
            let (first, last) = account.bounds(**number);
            a <= first && last <= b
        };
        let bound = account.trains.keys().filter(inside).count();
        let room = account.tracks * (b - a + 1);
        (bound > room).then_some(Interval { first: a, last: b, bound })
    };
    stretches.into_iter().find_map(over)
}

/// By the letter: all allowed rows of the edited day with its own windows are
/// gone through, and those that don't keep the served trains are passed over.
fn by_the_letter(account: &Account) -> Option<Slots> {
    let day = account.day();
    let mut first: Option<(Rank, Slots)> = None;
    each_allowed(&day, try_each(allowed), |assignment| {
        let slots = account.by_number(assignment);
        if keeps_served(account, &slots) {
            let rank = rank(&day, assignment);
            if first.as_ref().is_none_or(|(lowest, _)| rank < *lowest) {
                first = Some((rank, slots));
            }
        }
    });
    first.map(|(_, slots)| slots)
}

/// The planner on the day of the bounds, and the stretch by the account's own
/// words; on small days the plan by the letter too. If they disagree, it is this
/// test program that is wrong.
pub fn replanned(account: &Account) -> Replanned {
    let found = match plan(&account.bound_day()) {
        Answer::Plan(plan) => Replanned::Plan(account.by_number(&plan.assignment)),
        Answer::Overbooked(interval) => Replanned::Overbooked(interval),
        Answer::Unkept => Replanned::Unkept,
        Answer::Refused(refusal) => broken(&format!("{account:?} is refused: {refusal:?}")),
    };
    let stretch = overbooked(account);
    let alike = match &found {
        Replanned::Overbooked(interval) => stretch == Some(*interval),
        _ => stretch.is_none(),
    };
    if !alike {
        broken(&format!("{account:?} has {found:?}, yet {stretch:?} is overbooked"));
    }
    if account.day().assignments() <= LETTER_MOST {
        let letter = by_the_letter(account);
        let plan = if let Replanned::Plan(slots) = &found { Some(slots) } else { None };
        if letter.as_ref() != plan {
            broken(&format!("{account:?} has {found:?}, but by the letter {letter:?}"));
        }
    }
    found
}
