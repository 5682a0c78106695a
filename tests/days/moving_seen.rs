//! Noting what is seen of the calls of a moving day, by the names of
//! moving_required.rs.

use crate::header::{CHOICE_WORDS, COST_WORDS, DAY_BYTES, MOST_TRAINS};
use crate::model::{Day, NUMBERS};
use crate::moving_call::{Asked, Call, Room, EXACT};
use crate::moving_required::{before, by, hidden, LENDINGS, LONGER, NAMED, PLANNING, UNSOUND};
use crate::moving_rules::{beyond_limits, named_checks, reply, Check, Given, Reply, RULES};
use crate::moving_seen_account::note_account;
use crate::moving_walk::Running;
use crate::seen::Seen;
use crate::valuing::{outside, overfull, parted};

// ---------------------------------------------------------------------------
// Noting
// ---------------------------------------------------------------------------

/// The checks that a call breaks, in their order.
fn broken_checks(given: &Given) -> Vec<&'static str> {
    let holds = |(name, check): (&'static str, Check)| check(given).map(|_| name);
    named_checks(&given.call.asked).into_iter().filter_map(holds).collect()
}

/// The first check that is broken, and those that it comes before. With memory
/// enough the call might still get 9 or 16.
fn note_order(seen: &mut Seen, given: &Given, reply_given: &Reply) {
    let (call, name) = (given.call, given.call.asked.name());
    let broken = broken_checks(given);
    let Some((first, rest)) = broken.split_first() else {
        let refusal = reply_given.outcome.refusal.to_string();
        seen.note(&by(name, if refusal == "0" { "taken" } else { &refusal }));
        return;
    };
    seen.note(&by(name, first));
    for later in rest.iter().filter(|later| !hidden(first, later)) {
        seen.note(&by(name, &before(first, later)));
    }
    let plans = matches!(call.asked, Asked::Begin | Asked::Add(..));
    if plans && broken.iter().all(|check| check.starts_with("10")) {
        let ample = Call { room: EXACT, ..call.clone() };
        let refusal = reply(&RULES, &ample).outcome.refusal;
        seen.note_if(matches!(refusal, 9 | 16), &by(name, &before(first, PLANNING)));
    }
}

fn note_unsound(seen: &mut Seen, given: &Given, day: &Day) {
    let state = &given.call.state;
    let (closed, slots, row) = (state.closed as usize, day.slots, &state.row[..]);
    let (n, length) = (day.trains.len(), row.len());
    let good_closed = closed <= slots;
    let faults = [
        length == n && !outside(day, row).is_empty(),
        length == n && !overfull(day, row).is_empty(),
        length == n && !parted(day, row).is_empty(),
    ];
    let sound_row = length == n && faults == [false; 3];
    let zeros = length == MOST_TRAINS && n < length && row[n..].iter().all(|&slot| slot == 0);
    let beside = |k: &usize| (1..=slots).contains(&usize::from(row[*k]));
    let found = [
        closed == slots + 1 && sound_row,
        closed > 255 && closed % 256 <= slots && sound_row,
        state.closed == u32::MAX && sound_row,
        good_closed && length + 1 == n,
        good_closed && length == n + 1,
        good_closed && length == 0,
        good_closed && length == MOST_TRAINS + 1,
        good_closed && zeros,
        good_closed && faults == [true, false, false],
        good_closed && faults == [false, true, false],
        good_closed && faults == [false, false, true],
        closed == slots && !sound_row,
        good_closed && faults[0] && outside(day, row).iter().all(beside),
    ];
    found.into_iter().zip(UNSOUND).for_each(|(holds, what)| seen.note_if(holds, what));
}

/// Which of `NAMED` a call is that gets 3, 18, 19 or 5.
fn note_named(seen: &mut Seen, given: &Given, day: &Day, refusal: usize) {
    let [one, two, three] = beyond_limits(given);
    let state = &given.call.state;
    let (n, slots) = (day.trains.len(), day.slots as u32);
    let low_bits = |train: u32| {
        let alike = |number: usize| number as u32 & 0xffff == train & 0xffff;
        given.unlisted(train) && day.trains.iter().any(|train| alike(train.number))
    };
    let fine = |slot: u32| slot > 255 && (1..=slots).contains(&(slot & 255));
    let (train, first, last) = match given.call.asked {
        Asked::Cancel(train) => (train, 1, 1),
        Asked::Add(train, first, last) => (train, first, last),
        Asked::SetBoxes(to, ..) => (to, 1, 1),
        _ => return,
    };
    let add = matches!(given.call.asked, Asked::Add(..));
    let (to_off, from_off, boxes) = match given.call.asked {
        Asked::SetBoxes(to, from, boxes) => (given.unlisted(to), given.unlisted(from), boxes),
        _ => (false, false, 0),
    };
    let cancel = matches!(given.call.asked, Asked::Cancel(_));
    let found = [
        refusal == 3 && train == 0,
        refusal == 3 && train == 100_000,
        refusal == 3 && train == u32::MAX,
        refusal == 3 && one && train > 0 && low_bits(train),
        refusal == 3 && first == 0,
        refusal == 3 && first == slots + 1,
        refusal == 3 && fine(first),
        refusal == 3 && last == 0,
        refusal == 3 && last == slots + 1,
        refusal == 3 && fine(last),
        refusal == 3 && !add && !one && two && !three,
        refusal == 3 && !one && !two && boxes == 256,
        refusal == 3 && !one && !two && boxes == u32::MAX,
        refusal == 18 && low_bits(train),
        refusal == 18 && cancel && given.is_served(train) && n > 1,
        refusal == 18 && cancel && n == 1 && !given.unlisted(train) && !given.is_served(train),
        refusal == 18 && to_off && !from_off,
        refusal == 18 && from_off && !to_off,
        refusal == 19 && !given.unlisted(train) && n < MOST_TRAINS,
        refusal == 19 && given.unlisted(train),
        refusal == 5 && first > last && first > state.closed,
        refusal == 5 && first == state.closed && last > state.closed,
    ];
    found.into_iter().zip(NAMED).for_each(|(holds, what)| seen.note_if(holds, what));
}

fn note_lent(seen: &mut Seen, asked: &Asked, room: &Room) {
    let mut note = |holds: bool, what: &str| seen.note_if(holds, &by(asked.name(), what));
    (0..=NUMBERS).for_each(|count| note(room.numbers == count, LENDINGS[count]));
    note(room.numbers > NUMBERS, LENDINGS[5]);
    let lengths = [(room.day, DAY_BYTES, asked.changes()), (room.next, MOST_TRAINS, asked.plans())];
    for (place, (length, needed, lent)) in lengths.into_iter().enumerate() {
        let found = [length + 1 == needed, length == needed, length > needed];
        let names = LENDINGS[6 + 3 * place..].iter();
        found.into_iter().zip(names).for_each(|(holds, what)| note(lent && holds, what));
    }
    let (cost, choice) = (room.cost, room.choice);
    let plans = asked.plans();
    note(plans && (cost, choice) == (COST_WORDS, CHOICE_WORDS), LENDINGS[12]);
    note(plans && cost + 1 == COST_WORDS && choice >= CHOICE_WORDS, LENDINGS[13]);
    note(plans && cost >= COST_WORDS && choice + 1 == CHOICE_WORDS, LENDINGS[14]);
    note(plans && cost > COST_WORDS, LONGER[0]);
    note(plans && choice > CHOICE_WORDS, LONGER[1]);
}

pub fn note(seen: &mut Seen, call: &Call, reply: &Reply, running: Option<&Running>) {
    let given = Given::new(call);
    note_order(seen, &given, reply);
    note_lent(seen, &call.asked, &call.room);
    match &given.read {
        Ok(day) if reply.outcome.refusal == 8 => note_unsound(seen, &given, day),
        Ok(day) => note_named(seen, &given, day, reply.outcome.refusal),
        Err(refusal) if call.room.numbers >= NUMBERS => {
            let shown = reply.outcome.refusal == refusal.number;
            seen.note_if(shown, &by("text", &refusal.number.to_string()));
        }
        Err(_) => {}
    }
    if let Some(running) = running {
        note_account(seen, call, reply, running);
    }
}
