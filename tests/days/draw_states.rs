//! Drawing what goes wrong around a call: memory that is too short, a damaged
//! text, a state that no call returns; and states made by hand that are good.

use crate::account::{row, Account, Slots};
use crate::damage::damage;
use crate::day_file::read_day;
use crate::draft::Draft;
use crate::draw::Random;
use crate::header::{CHOICE_WORDS, COST_WORDS, DAY_BYTES, MOST_TRAINS};
use crate::model::{Day, NUMBERS};
use crate::moving_call::{Call, Room, State};
use crate::moving_rules::row_allowed;
use crate::trials::trials;
use crate::valuing::load;

/// A damaged text may read to a day with more to try.
const DAMAGED_MOST: usize = 3000;

/// Where a call is spoiled, in the order of the checks.
pub const FAULTS: [fn(&mut Random, &Account, &mut Call); 5] =
    [short_numbers, short_outputs, damaged_text, unsound_state, short_areas];

/// Just what suffices, a little more, or much more, each by itself. Lengths of
/// 2^16 have no low bits.
pub fn ample(random: &mut Random) -> Room {
    let mut more = |length: usize| match random.below(60) {
        0 => 65536,
        1..=10 => length + 1,
        11..=13 => length + 7,
        _ => length,
    };
    Room {
        numbers: more(NUMBERS),
        day: more(DAY_BYTES),
        next: more(MOST_TRAINS),
        cost: more(COST_WORDS),
        choice: more(CHOICE_WORDS),
    }
}

fn short_numbers(random: &mut Random, _: &Account, call: &mut Call) {
    call.room.numbers = random.below(NUMBERS);
}

/// One short, none, or what the new state would take.
fn short_outputs(random: &mut Random, account: &Account, call: &mut Call) {
    let day = random.pick(&[DAY_BYTES - 1, DAY_BYTES - 1, 0, call.state.text.len() + 20]);
    let next = random.pick(&[MOST_TRAINS - 1, MOST_TRAINS - 1, 0, account.trains.len()]);
    match random.below(4) {
        0 => (call.room.day, call.room.next) = (day, next),
        1 => call.room.day = day.min(DAY_BYTES - 1),
        _ => call.room.next = next.min(MOST_TRAINS - 1),
    }
    if !call.asked.changes() {
        call.room.next = next.min(MOST_TRAINS - 1);
    }
}

fn damaged_text(random: &mut Random, _: &Account, call: &mut Call) {
    let Ok(day) = read_day(&call.state.text) else { return };
    for _ in 0..4 {
        let mut draft = Draft::new(day.clone());
        damage(random, &mut draft);
        if random.one_in(4) {
            damage(random, &mut draft);
        }
        let text = draft.text();
        let enumerable = read_day(&text).map_or(true, |day| day.assignments() <= DAMAGED_MOST);
        if text != call.state.text && enumerable {
            call.state.text = text;
            return;
        }
    }
}

/// One short, none, half, or what this day alone would need.
fn short_areas(random: &mut Random, account: &Account, call: &mut Call) {
    let sets = 1 << account.trains.len().min(MOST_TRAINS - 1);
    let one_slot_less = CHOICE_WORDS - COST_WORDS;
    let cost = random.pick(&[COST_WORDS - 1, COST_WORDS - 1, 0, COST_WORDS / 2, sets]);
    let needed = (account.slots * sets).min(CHOICE_WORDS - 1);
    let choice = random.pick(&[CHOICE_WORDS - 1, CHOICE_WORDS - 1, 0, one_slot_less, needed]);
    match random.below(5) {
        0 => (call.room.cost, call.room.choice) = (cost, choice),
        1 | 2 => call.room.cost = cost,
        _ => call.room.choice = choice,
    }
}

/// More closed slots than the day has, also such that the low bits are fine.
fn too_many_closed(random: &mut Random, account: &Account) -> u32 {
    let fine = random.between(0, account.slots) as u32;
    let more = account.slots as u32 + 1;
    random.pick(&[more, more, 256 + fine, 65536 + fine, u32::MAX, u32::MAX - fine])
}

/// A train of a group moved within its window to another slot with a track free.
fn parting(random: &mut Random, day: &Day, good: &[u8]) -> Option<Vec<u8>> {
    let mut rows = Vec::new();
    for (position, train) in day.trains.iter().enumerate() {
        let grouped = day.trains.iter().filter(|other| other.group == train.group).count() > 1;
        let others = (train.first..=train.last).filter(|&slot| slot != usize::from(good[position]));
        for slot in
            others.filter(|&slot| grouped && train.group > 0 && load(day, good, slot) < day.tracks)
        {
            let mut row = good.to_vec();
            row[position] = slot as u8;
            rows.push(row);
        }
    }
    (!rows.is_empty()).then(|| rows.swap_remove(random.below(rows.len())))
}

/// A row that is not allowed: one of the kinds that valuing refuses, or one of
/// twelve or thirteen slots with zeros behind the trains'.
fn bad_row(random: &mut Random, day: &Day, plan: &[usize], good: &[u8]) -> Vec<u8> {
    let mut longer = good.to_vec();
    match random.below(12) {
        4 => longer.clear(),
        5..=7 => longer = parting(random, day, good).unwrap_or_default(),
        0 if longer.len() < MOST_TRAINS => longer.resize(MOST_TRAINS, 0),
        1 => longer.resize(MOST_TRAINS + 1, random.pick(&[0, 1])),
        2 => longer.push(0),
        3 => longer.truncate(longer.len() - 1),
        _ => {
            let bad = |row: &Vec<u8>| row.len() != good.len() || !row_allowed(day, row);
            let mut rows = trials(random, day, Some(plan), false);
            rows.retain(bad);
            // Rows of the right length are wanted as often as the others.
            let whole: Vec<Vec<u8>> =
                rows.iter().filter(|row| row.len() == good.len()).cloned().collect();
            let of = if random.one_in(4) || whole.is_empty() { &rows } else { &whole };
            return of[random.below(of.len())].clone();
        }
    }
    longer
}

fn unsound_state(random: &mut Random, account: &Account, call: &mut Call) {
    let kind = random.below(8);
    if kind < 3 {
        call.state.closed = too_many_closed(random, account);
    }
    if kind > 1 {
        let Ok(day) = read_day(&call.state.text) else { return };
        let good = call.state.row.clone();
        let plan: Vec<usize> = good.iter().map(|&slot| usize::from(slot)).collect();
        if plan.len() == day.trains.len() && row_allowed(&day, &good) {
            call.state.row = bad_row(random, &day, &plan, &good);
        }
    }
    if kind == 7 {
        call.state.closed = account.slots as u32;
    }
}

/// A state of this day that a program might have made by hand: another allowed
/// row, and any number of closed slots. It need not be the best, and isn't
/// where the closed slots leave a choice.
pub fn by_hand(random: &mut Random, account: &Account, plan: &Slots) -> State {
    let day = account.day();
    let good = row(plan);
    let slots: Vec<usize> = plan.values().copied().collect();
    let mut rows = trials(random, &day, Some(&slots), false);
    rows.retain(|row| row.len() == good.len() && row_allowed(&day, row) && *row != good);
    let any = random.between(0, account.slots);
    // On a long day a list alone seldom comes to the last slots.
    let late = account.slots - random.below(account.slots.min(3));
    let closed = match account.slots > 5 && random.below(3) > 0 {
        true => late,
        false => random.pick(&[0, 0, account.closed, any]),
    };
    let chosen = if rows.is_empty() { good } else { rows[random.below(rows.len())].clone() };
    State { text: account.text(), closed: closed as u32, row: chosen }
}
