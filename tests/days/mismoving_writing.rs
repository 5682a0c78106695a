//! Mistakes in what a call of a moving day tells, and in which lent memory it
//! writes.

use crate::account::Slots;
use crate::day_file::{GROUP_NAMES, MOVE_NAMES};
use crate::header::{CHOICE_WORDS, COST_WORDS, DAY_BYTES, MOST_TRAINS};
use crate::lent::{Lent, Word};
use crate::model::NUMBERS;
use crate::moving_call::{Asked, Call};
use crate::moving_memory::Memory;
use crate::moving_rules::{Given, Reply};
use crate::moving_standin::put;
use crate::valuing::valued;

pub type Retell = fn(&Call, Reply) -> Reply;
pub type Touch = fn(&Call, &Reply, &mut Memory);

#[rustfmt::skip]
pub const MISTOLD: [(&str, Retell); 31] = [
    ("told: no closed slots", |_, r| number(r, 0, |_| 0)),
    ("told: a closed slot more", |_, r| number(r, 0, |now| now + 1)),
    ("told: the trains of before", |call, r| Reply { outcome: trains_before(call, &r), ..r }),
    ("told: the bytes of before", |call, r| { let bytes = call.state.text.len(); told(r, 2, bytes) }),
    ("told: a byte fewer", |_, r| number(r, 2, |now| now - 1)),
    ("told: no bytes by begin and close", |call, r| if call.asked.changes() { r } else { number(r, 2, |_| 0) }),
    ("told: no trains by close", |call, r| if call.asked == Asked::Close { number(r, 1, |_| 0) } else { r }),
    ("told: a fourth number", |_, r| number(r, 3, |_| 1)),
    ("8 carries a number", |_, r| carry(r, &[8], 1)),
    ("8 told as 11, 12, 13 or 17", as_valued),
    ("10 carries a number", |_, r| carry(r, &[10], 1)),
    ("3, 5 and 6 carry a line", |_, r| carry(r, &[3, 5, 6], 4)),
    ("18 to 20 carry a number", |_, r| carry(r, &[18, 19, 20], 1)),
    ("16 carries a number", |_, r| carry(r, &[16], 1)),
    ("9 carries zeros", |_, mut r| { if r.outcome.refusal == 9 { r.outcome.numbers = [0; 4]; } r }),
    ("9 carries the tracks as well", |_, mut r| { if r.outcome.refusal == 9 { r.outcome.numbers[3] = 1; } r }),
    ("1 to 7 and 15 carry 0", |call, r| if unread(call, &r) { let number = r.outcome.refusal; refusal(r, number) } else { r }),
    ("a text that is no day file gets 8", |call, r| if unread(call, &r) { refusal(r, 8) } else { r }),
    ("zeros in next after a refusal", |call, r| handed(call, r, |call| (Vec::new(), vec![0; call.state.row.len()]))),
    ("twelve zeros in next after a refusal", |call, r| handed(call, r, |_| (Vec::new(), vec![0; MOST_TRAINS]))),
    ("the state handed back after a refusal", |call, r| handed(call, r, |call| (call.state.text.clone(), call.state.row.clone()))),
    ("the day written after 9 or 16", |call, r| if [9, 16].contains(&r.outcome.refusal) { handed(call, r, |call| (call.state.text.clone(), Vec::new())) } else { r }),
    ("next filled up with zeros", |_, mut r| { if !r.next.is_empty() { r.next.resize(MOST_TRAINS, 0); } r }),
    ("the day as it was", |call, mut r| { if !r.day.is_empty() { r.day = call.state.text.clone(); } r }),
    ("the day without its last byte", |_, mut r| { r.day.pop(); r }),
    ("the day without groups", |_, mut r| { r.day = cut_groups(&r.day); r }),
    ("the groups' names without rows", names_without_rows),
    ("the added train listed last", listed_last),
    ("the added train's slot last", slot_last),
    ("served trains have slot 0", served_at_0),
    ("the row by slots", |_, mut r| { r.next.sort_unstable(); r }),
];

#[rustfmt::skip]
pub const MISWRITTEN: [(&str, Touch); 27] = [
    ("numbers left after a refusal", |_, r, m| if r.outcome.refusal > 0 { m.numbers.undo() }),
    ("numbers left after 9", |_, r, m| if r.outcome.refusal == 9 { m.numbers.undo() }),
    ("numbers left after 10", |_, r, m| if r.outcome.refusal == 10 { m.numbers.undo() }),
    ("too few numbers are cleared", |_, _, m| if m.numbers.length() < NUMBERS { clear(&mut m.numbers) }),
    ("four numbers where fewer are lent", |_, _, m| if m.numbers.length() < NUMBERS { put(&mut m.numbers, 0, &[0; NUMBERS]) }),
    ("a fifth number is cleared", |_, _, m| if m.numbers.length() > NUMBERS { put(&mut m.numbers, NUMBERS, &[0]) }),
    ("a number before the first", |_, _, m| put(&mut m.numbers, usize::MAX, &[0])),
    ("a zero ends the day", |_, r, m| if !r.day.is_empty() { put(&mut m.day, r.day.len(), &[0]) }),
    ("the day is filled up", |_, r, m| if !r.day.is_empty() { put(&mut m.day, r.day.len(), &vec![0; DAY_BYTES - r.day.len()]) }),
    ("the day is cleared after a refusal", |call, r, m| if call.asked.changes() && r.outcome.refusal > 0 { put(&mut m.day, 0, &vec![0; DAY_BYTES]) }),
    ("a byte of next after a refusal", |call, r, m| if call.asked.plans() && r.outcome.refusal > 0 { put(&mut m.next, 0, &[0]) }),
    ("a byte of next beyond the trains", |_, r, m| if !r.next.is_empty() { put(&mut m.next, r.next.len(), &[0]) }),
    ("a byte behind next", |call, _, m| if call.asked.plans() { let end = m.next.length(); put(&mut m.next, end, &[0]) }),
    ("areas used before 3", |call, r, m| worked(call, r, m, |r| r.outcome.refusal == 3)),
    ("areas used before 18", |call, r, m| worked(call, r, m, |r| r.outcome.refusal == 18)),
    ("areas used before 19", |call, r, m| worked(call, r, m, |r| r.outcome.refusal == 19)),
    ("areas used before 5", |call, r, m| worked(call, r, m, |r| r.outcome.refusal == 5)),
    ("areas used before 6", |call, r, m| worked(call, r, m, |r| r.outcome.refusal == 6)),
    ("areas used before 8", |call, r, m| worked(call, r, m, |r| r.outcome.refusal == 8)),
    ("areas used before 10", |call, r, m| worked(call, r, m, |r| r.outcome.refusal == 10)),
    ("areas used before the text is read", |call, r, m| if call.asked.plans() && Given::new(call).read.is_err() { worked(call, r, m, |_| true) }),
    ("a cost word beyond 4096", |call, _, m| if call.asked.plans() && m.cost.length() >= COST_WORDS { put(&mut m.cost, COST_WORDS, &[1]) }),
    ("a choice word beyond 32768", |call, _, m| if call.asked.plans() && m.choice.length() >= CHOICE_WORDS { put(&mut m.choice, CHOICE_WORDS, &[1]) }),
    ("the new plan goes into the given row", |call, r, m| if call.asked.changes() { put(&mut m.row, 0, &r.next) }),
    ("the given row is cleared where trains are served", |call, r, m| if call.asked == Asked::Close && r.outcome.refusal == 0 { clear(&mut m.row) }),
    ("the new day goes into the given text", |_, r, m| { let fits = r.day.len().min(m.text.length()); put(&mut m.text, 0, &r.day[..fits]) }),
    ("a byte of the text is changed and left", |_, _, m| { let last = m.text.length().wrapping_sub(1); put(&mut m.text, last, &[0]) }),
];

fn number(mut reply: Reply, place: usize, other: fn(usize) -> usize) -> Reply {
    if reply.outcome.refusal == 0 {
        reply.outcome.numbers[place] = other(reply.outcome.numbers[place]);
    }
    reply
}

fn told(mut reply: Reply, place: usize, other: usize) -> Reply {
    if reply.outcome.refusal == 0 {
        reply.outcome.numbers[place] = other;
    }
    reply
}

fn trains_before(call: &Call, reply: &Reply) -> crate::case::Outcome {
    let before = if call.asked == Asked::Begin { 0 } else { call.state.row.len() };
    told(reply.clone(), 1, before).outcome
}

fn refusal(mut reply: Reply, refusal: usize) -> Reply {
    (reply.outcome.refusal, reply.outcome.numbers) = (refusal, [0; 4]);
    reply
}

fn carry(mut reply: Reply, refusals: &[usize], carried: usize) -> Reply {
    if refusals.contains(&reply.outcome.refusal) {
        reply.outcome.numbers[0] = carried;
    }
    reply
}

fn as_valued(call: &Call, reply: Reply) -> Reply {
    match (&Given::new(call).read, reply.outcome.refusal) {
        (Ok(day), 8) => match valued(day, &call.state.row) {
            found if found.refusal > 0 => Reply { outcome: found, ..reply },
            _ => reply,
        },
        _ => reply,
    }
}

/// After a refusal a day and a row are written, where they have room.
fn handed(call: &Call, reply: Reply, state: fn(&Call) -> (Vec<u8>, Vec<u8>)) -> Reply {
    let (day, next) = state(call);
    let room = call.room.lent_by(&call.asked);
    let fits = day.len() <= room.day && next.len() <= room.next;
    let refused = reply.outcome.refusal > 0 && reply.outcome.refusal != 10;
    match call.asked.changes() && refused && fits {
        true => Reply { day, next, ..reply },
        false => reply,
    }
}

fn lines(text: &[u8]) -> Vec<Vec<u8>> {
    text.split_inclusive(|&byte| byte == b'\n').map(<[u8]>::to_vec).collect()
}

fn is_names(line: &[u8], names: &str) -> bool {
    line.strip_suffix(b"\n") == Some(names.as_bytes())
}

fn has_names(text: &[u8], names: &str) -> bool {
    lines(text).iter().any(|line| is_names(line, names))
}

fn cut_groups(text: &[u8]) -> Vec<u8> {
    lines(text).into_iter().take_while(|line| !is_names(line, GROUP_NAMES)).flatten().collect()
}

/// The train's line behind those of the others.
fn listed_last(call: &Call, mut reply: Reply) -> Reply {
    let Asked::Add(train, first, last) = call.asked else { return reply };
    let own = format!("{train} {first} {last}\n").into_bytes();
    let mut moved = lines(&reply.day);
    moved.retain(|line| *line != own);
    if let Some(end) = moved.iter().position(|line| is_names(line, MOVE_NAMES)) {
        moved.insert(end, own);
    }
    reply.day = moved.concat();
    reply
}

fn slot_last(call: &Call, mut reply: Reply) -> Reply {
    let (Asked::Add(train, ..), Some((_, plan))) = (call.asked, &reply.after) else { return reply };
    let mut others: Slots = plan.clone();
    let own = others.remove(&(train as usize));
    reply.next = others.into_values().chain(own).map(|slot| slot as u8).collect();
    reply
}

/// A word of each area that has one is used.
fn worked(call: &Call, reply: &Reply, memory: &mut Memory, such: fn(&Reply) -> bool) {
    if call.asked.plans() && such(reply) {
        if memory.cost.length() > 0 {
            put(&mut memory.cost, 0, &[1_000_000]);
        }
        if memory.choice.length() > 0 {
            put(&mut memory.choice, 0, &[30_000]);
        }
    }
}

fn clear<W: Word + Default>(lent: &mut Lent<W>) {
    let zeros = vec![W::default(); lent.length()];
    put(lent, 0, &zeros);
}

/// Whether the text was refused.
fn unread(call: &Call, reply: &Reply) -> bool {
    Given::new(call).read.is_err() && reply.outcome.refusal != 10
}

fn names_without_rows(_: &Call, mut reply: Reply) -> Reply {
    if !reply.day.is_empty() && !has_names(&reply.day, GROUP_NAMES) {
        reply.day.extend(format!("{GROUP_NAMES}\n").into_bytes());
    }
    reply
}

fn served_at_0(_: &Call, mut reply: Reply) -> Reply {
    if let (Some((account, plan)), false) = (&reply.after, reply.next.is_empty()) {
        let served = |number: &usize| account.served.contains_key(number);
        let shown = |(k, slot): (&usize, &usize)| if served(k) { 0 } else { *slot as u8 };
        reply.next = plan.iter().map(shown).collect();
    }
    reply
}
