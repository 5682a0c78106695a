//! Mistakes in what the functions of long days read, check, tell and write, each as
//! a stand-in that makes it.

use crate::case::Outcome;
use crate::day_file::{Form, Refusal, GROUP_NAMES, GROUP_RULES, HEAD_LIMITS};
use crate::long_case::{Reply, LONG_NUMBERS};
use crate::long_day::{
    read_long, read_long_by, sure_revisits, sure_splits_of, LongDay, LONG_LIMITS, LONG_TRAINS,
    MOST_WIDTH,
};
use crate::long_standin::{good_width, Check, StandIn, CHECKS, SOUND};
use crate::model::Train;
use crate::moving_standin::put;
use crate::plan::Interval;

pub type Miscall = (&'static str, StandIn);

// ---------------------------------------------------------------------------
// Reading at the limits
// ---------------------------------------------------------------------------

type Read = Result<LongDay, Refusal>;

const fn reading(read: fn(&[u8]) -> Read) -> StandIn {
    StandIn { read, ..SOUND }
}

#[rustfmt::skip]
pub const MISREAD: [Miscall; 13] = [
    ("37 trains accepted", reading(|text| limited(text, 0, 37))),
    ("36 trains refused", reading(|text| limited(text, 0, 35))),
    ("12 trains at most", reading(|text| limited(text, 0, 12))),
    ("5 tracks accepted", reading(|text| limited(text, 1, 5))),
    ("12 tracks accepted", reading(|text| limited(text, 1, 12))),
    ("4 tracks refused", reading(|text| limited(text, 1, 3))),
    ("13 slots accepted", reading(|text| limited(text, 2, 13))),
    ("12 slots refused", reading(|text| limited(text, 2, 11))),
    ("8 slots at most", reading(|text| limited(text, 2, 8))),
    ("the limits of 01", reading(|text| read_long_by(text, &Form { head: HEAD_LIMITS, groups: None }))),
    ("a group section accepted", reading(|text| read_long_by(text, &Form { head: LONG_LIMITS, groups: Some(&GROUP_RULES) }))),
    ("the names of groups get 1", reading(|text| renumbered(text, 1))),
    ("the names of groups get 15", reading(|text| renumbered(text, 15))),
];

/// Another greatest value of a field of the first row.
fn limited(text: &[u8], field: usize, most: usize) -> Read {
    let mut head = LONG_LIMITS;
    head[field].1 = most;
    read_long_by(text, &Form { head, groups: None })
}

fn renumbered(text: &[u8], number: usize) -> Read {
    let read = read_long(text);
    match read {
        Err(Refusal { number: 2, line }) => {
            let found = text.split(|&byte| byte == b'\n').nth(line - 1);
            let named = found == Some(GROUP_NAMES.as_bytes());
            Err(Refusal { number: if named { number } else { 2 }, line })
        }
        _ => read,
    }
}

// ---------------------------------------------------------------------------
// The lower figure, and the stretch of 9
// ---------------------------------------------------------------------------

const fn lower(lower: fn(&LongDay) -> usize) -> StandIn {
    StandIn { lower, ..SOUND }
}

const fn stretch(stretch: fn(&LongDay) -> Option<Interval>) -> StandIn {
    StandIn { stretch, ..SOUND }
}

#[rustfmt::skip]
pub const MISFIGURES: [Miscall; 19] = [
    ("lower figure: G largest supplies", lower(|day| figure(day, sure_revisits(day), day.tracks))),
    ("lower figure: G - 2 largest supplies", lower(|day| figure(day, sure_revisits(day), day.tracks.max(2) - 2))),
    ("lower figure: none taken off", lower(|day| figure(day, sure_revisits(day), 0))),
    ("lower figure: the smallest supplies", lower(|day| by_splits(day, smallest))),
    ("lower figure: boxes sent", lower(|day| by_splits(day, sent))),
    ("lower figure: of the day's supplies the largest", lower(of_the_day)),
    ("lower figure: w1 where first equals last", lower(|day| by_revisits(day, |i, j| j.first >= i.last))),
    ("lower figure: w1 by the supplier's last slot", lower(|day| by_revisits(day, |i, j| j.last > i.last))),
    ("lower figure: w1 by the train's first slot", lower(|day| by_revisits(day, |i, j| j.first > i.first))),
    ("lower figure: w1 for each such supplier", lower(each_supplier)),
    ("lower figure: w1 whoever supplies", lower(whoever)),
    ("lower figure: without w1", lower(|day| figure(day, 0, day.tracks - 1))),
    ("lower figure: without w2", lower(|day| day.weighed(sure_revisits(day), 0))),
    ("lower figure: weights exchanged", lower(|day| day.revisit_weight * splits(day, day.tracks - 1) + day.split_weight * sure_revisits(day))),
    ("lower figure: 0", lower(|_| 0)),
    ("9 names the whole day", stretch(|day| day.overbooked().map(|_| Interval { first: 1, last: day.slots, bound: day.trains.len() }))),
    ("9 names the smallest last slot", stretch(|day| least(day, |found| (found.last, found.first)))),
    ("9 names the shortest stretch", stretch(|day| least(day, |found| (found.last - found.first, found.first)))),
    ("9 names the largest first slot", stretch(|day| least(day, |found| (usize::MAX - found.first, found.last)))),
];

fn splits(day: &LongDay, largest: usize) -> usize {
    day.positions().map(|i| sure_splits_of(day, i, largest)).sum()
}

fn figure(day: &LongDay, revisits: usize, largest: usize) -> usize {
    day.weighed(revisits, splits(day, largest))
}

fn by_splits(day: &LongDay, of_train: fn(&LongDay, usize) -> usize) -> usize {
    let splits = day.positions().map(|i| of_train(day, i)).sum();
    day.weighed(sure_revisits(day), splits)
}

fn smallest(day: &LongDay, i: usize) -> usize {
    let mut supplies: Vec<usize> =
        day.boxes[i].iter().copied().filter(|&boxes| boxes > 0).collect();
    supplies.sort_unstable();
    supplies.iter().skip(day.tracks - 1).sum()
}

fn sent(day: &LongDay, j: usize) -> usize {
    let mut sent: Vec<usize> = day.positions().map(|i| day.boxes[i][j]).collect();
    sent.sort_unstable_by(|one, other| other.cmp(one));
    sent.iter().skip(day.tracks - 1).sum()
}

fn of_the_day(day: &LongDay) -> usize {
    let mut all: Vec<usize> = day.supplies().map(|(_, _, boxes)| boxes).collect();
    all.sort_unstable_by(|one, other| other.cmp(one));
    day.weighed(sure_revisits(day), all.iter().skip(day.tracks - 1).sum())
}

fn by_revisits(day: &LongDay, sure: fn(&Train, &Train) -> bool) -> usize {
    let sure = |i: usize, j: usize| sure(&day.trains[i], &day.trains[j]);
    let back = |i: usize| day.supplies().any(|(to, from, _)| to == i && sure(i, from));
    figure(day, day.positions().filter(|&i| back(i)).count(), day.tracks - 1)
}

fn each_supplier(day: &LongDay) -> usize {
    let after = |i: usize, j: usize| day.trains[j].first > day.trains[i].last;
    let each = day.supplies().filter(|&(i, j, _)| after(i, j)).count();
    figure(day, each, day.tracks - 1)
}

/// Any train with a first slot that late, whether it supplies or not.
fn whoever(day: &LongDay) -> usize {
    let back = |i: &usize| day.trains.iter().any(|train| train.first > day.trains[*i].last);
    figure(day, day.positions().filter(back).count(), day.tracks - 1)
}

/// The overbooked stretch that has least of something.
fn least<Key: Ord>(day: &LongDay, key: fn(&Interval) -> Key) -> Option<Interval> {
    let stretches =
        (1..=day.slots).flat_map(|first| (first..=day.slots).map(move |last| (first, last)));
    let overbooked = stretches.filter_map(|(first, last)| {
        let inside = |train: &&Train| first <= train.first && train.last <= last;
        let bound = day.trains.iter().filter(inside).count();
        (bound > day.tracks * (last + 1 - first)).then_some(Interval { first, last, bound })
    });
    overbooked.min_by_key(key)
}

// ---------------------------------------------------------------------------
// Checks, telling, writing
// ---------------------------------------------------------------------------

const fn checking(checks: [Check; 5]) -> StandIn {
    StandIn { checks, ..SOUND }
}

const fn width(width: fn(u32) -> Option<usize>) -> StandIn {
    StandIn { width, ..SOUND }
}

const fn telling(retell: fn(Reply) -> Reply) -> StandIn {
    StandIn { retell, ..SOUND }
}

use Check::{Numbers, Row, Stretch, Text, Width};

#[rustfmt::skip]
pub const MISCHECKED: [Miscall; 17] = [
    ("21 after 10", checking([Numbers, Text, Row, Width, Stretch])),
    ("21 after 9", checking([Numbers, Text, Row, Stretch, Width])),
    ("9 before 21", checking([Numbers, Text, Stretch, Width, Row])),
    ("9 before 10", checking([Numbers, Text, Width, Stretch, Row])),
    ("21 before the text", checking([Numbers, Width, Text, Row, Stretch])),
    ("21 before the numbers", checking([Width, Numbers, Text, Row, Stretch])),
    ("the text before the numbers", checking([Text, Numbers, Width, Row, Stretch])),
    ("the row before the text", StandIn { checks: [Numbers, Row, Text, Width, Stretch], row_needed: |n| n.max(1), ..SOUND }),
    ("width 64 refused", width(|width| good_width(width).filter(|width| *width < MOST_WIDTH))),
    ("width 1 refused", width(|width| good_width(width).filter(|width| *width > 1))),
    ("width 0 accepted", width(|width| good_width(width.max(1)))),
    ("width 65 accepted", width(|width| if width == 65 { Some(65) } else { good_width(width) })),
    ("width in 8 bits", width(|width| good_width(width & 255))),
    ("width in 16 bits", width(|width| good_width(width & 65_535))),
    ("greater widths taken for 64", width(|width| good_width(width.min(64)))),
    ("36 bytes of row asked for", StandIn { row_needed: |_| LONG_TRAINS, ..SOUND }),
    ("a byte of row less suffices", StandIn { row_needed: |n| n.max(1) - 1, ..SOUND }),
];

#[rustfmt::skip]
pub const MISTOLD: [Miscall; 24] = [
    ("four numbers suffice", StandIn { numbers_needed: 4, checks: CHECKS, ..SOUND }),
    ("five numbers suffice", StandIn { numbers_needed: LONG_NUMBERS - 1, ..SOUND }),
    ("seven numbers asked for", StandIn { numbers_needed: LONG_NUMBERS + 1, ..SOUND }),
    ("number of slots and lower figure exchanged", telling(|reply| swapped(reply, 4, 5))),
    ("split and direct moves exchanged", telling(|reply| swapped(reply, 1, 2))),
    ("direct moves and cost exchanged", telling(|reply| swapped(reply, 2, 3))),
    ("whether, and not how many slots", telling(|reply| renumber(reply, 4, |full| full.min(1)))),
    ("one slot more counted", telling(|reply| renumber(reply, 4, |full| full + 1))),
    ("the cost for the lower figure", telling(|mut reply| { if reply.refusal == 0 { reply.numbers[5] = reply.numbers[3]; } reply })),
    ("9 without the number of trains", telling(|reply| if reply.refusal == 9 { renumber_any(reply, 2, |_| 0) } else { reply })),
    ("slots counted from 0", telling(|mut reply| { reply.slots.iter_mut().for_each(|slot| *slot -= 1); reply })),
    ("slots of the last two trains exchanged", telling(|mut reply| { let n = reply.slots.len(); if n > 1 { reply.slots.swap(n - 1, n - 2); } reply })),
    ("the line told for 21", telling(|reply| if reply.refusal == 21 { renumber_any(reply, 0, |_| 1) } else { reply })),
    ("10 in place of 21", telling(|mut reply| { if reply.refusal == 21 { reply.refusal = 10; } reply })),
    ("3 in place of 21", telling(|mut reply| { if reply.refusal == 21 { reply.refusal = 3; } reply })),
    ("trains kept after a refusal", StandIn { touch: |reply, memory| if reply.refusal > 0 { memory.trains.undo() }, ..SOUND }),
    ("trains kept where numbers are too few", StandIn { touch: |reply, memory| if reply.numbers.is_empty() { memory.trains.undo() }, ..SOUND }),
    ("numbers kept after 21", StandIn { touch: |reply, memory| if reply.refusal == 21 { memory.numbers.undo() }, ..SOUND }),
    ("numbers kept after 10", StandIn { touch: |reply, memory| if reply.refusal == 10 { memory.numbers.undo() }, ..SOUND }),
    ("a seventh number cleared", StandIn { touch: |_, memory| if memory.numbers.length() > LONG_NUMBERS { put(&mut memory.numbers, LONG_NUMBERS, &[0]) }, ..SOUND }),
    ("the row cleared beyond n", StandIn { touch: |reply, memory| { let (n, length) = (reply.slots.len(), memory.row.length()); if n > 0 { put(&mut memory.row, n, &vec![0; length - n]) } }, ..SOUND }),
    ("36 slots written", StandIn { touch: |reply, memory| { let n = reply.slots.len(); if n > 0 { put(&mut memory.row, n, &vec![0; LONG_TRAINS - n]) } }, ..SOUND }),
    ("the row cleared after 9", StandIn { touch: |reply, memory| { let length = memory.row.length(); if reply.refusal == 9 { put(&mut memory.row, 0, &vec![0; length]) } }, ..SOUND }),
    ("the row written after 21", StandIn { touch: |reply, memory| if reply.refusal == 21 && memory.row.length() > 0 { put(&mut memory.row, 0, &[1]) }, ..SOUND }),
];

fn renumber_any(mut reply: Reply, place: usize, number: fn(usize) -> usize) -> Reply {
    if let Some(told) = reply.numbers.get_mut(place) {
        *told = number(*told);
    }
    reply
}

/// Another number of a plan.
fn renumber(reply: Reply, place: usize, number: fn(usize) -> usize) -> Reply {
    match reply.refusal {
        0 => renumber_any(reply, place, number),
        _ => reply,
    }
}

fn swapped(mut reply: Reply, place: usize, other: usize) -> Reply {
    if reply.refusal == 0 {
        reply.numbers.swap(place, other);
    }
    reply
}

// ---------------------------------------------------------------------------
// Valuing, answering, checking
// ---------------------------------------------------------------------------

const fn valuing(valued: fn(&LongDay, &[u8]) -> Outcome) -> StandIn {
    StandIn { valued, ..SOUND }
}

#[rustfmt::skip]
pub const MISANSWERED: [Miscall; 18] = [
    ("valuing: 13 before 12", valuing(thirteen_first)),
    ("valuing: 12 counts from 0", valuing(|day, slots| carrying_less(day, slots, 12))),
    ("valuing: 13 names the last slot", valuing(last_overfull)),
    ("valuing: a longer row passes", valuing(|day, slots| day.valued(&slots[..slots.len().min(day.trains.len())]))),
    ("valuing: returns take a track", valuing(with_returns)),
    ("valuing: G + 1 trains pass", valuing(|day, slots| LongDay { tracks: day.tracks + 1, ..day.clone() }.valued(slots))),
    ("valuing: split and direct moves exchanged", valuing(|day, slots| exchanged(day.valued(slots)))),
    ("width 64 for answers", StandIn { usual_width: 64, ..SOUND }),
    ("width 5 for answers", StandIn { usual_width: 5, ..SOUND }),
    ("width 29 for answers", StandIn { usual_width: 29, ..SOUND }),
    ("width 31 for answers", StandIn { usual_width: 31, ..SOUND }),
    ("the number of slots and the lower figure printed", StandIn { reprint: |plan, text| format!("{text}{} {}\n", plan.full, plan.lower), ..SOUND }),
    ("direct moves not printed", StandIn { reprint: |plan, text| text.replacen(&format!(" {} {}\n", plan.value.direct, plan.value.cost), &format!(" {}\n", plan.value.cost), 1), ..SOUND }),
    ("as much of an answer as fits", StandIn { touch_answer: |answer, memory| { let length = memory.1.length().min(answer.len()); put(&mut memory.1, 0, &answer[..length]) }, ..SOUND }),
    ("bytes told beside 10", StandIn { touch_answer: |answer, memory| put(&mut memory.2, 0, &[answer.len()]), ..SOUND }),
    ("the number told for the line", StandIn { retell_check: |number, _| (number, number), ..SOUND }),
    ("lines counted from 0", StandIn { retell_check: |number, line| (number, line - 1), ..SOUND }),
    ("the line in 8 bits", StandIn { retell_check: |number, line| (number, line & 255), ..SOUND }),
];

fn row_of(slots: &[u8]) -> Vec<usize> {
    slots.iter().map(|&slot| usize::from(slot)).collect()
}

fn overfull(day: &LongDay, slots: &[u8]) -> Vec<usize> {
    let row = row_of(slots);
    (1..=day.slots).filter(|&slot| day.load(&row, slot) > day.tracks).collect()
}

fn thirteen_first(day: &LongDay, slots: &[u8]) -> Outcome {
    match (day.valued(slots), overfull(day, slots).first()) {
        (Outcome { refusal: 12, .. }, Some(&slot)) => Outcome::carrying(13, slot),
        (outcome, _) => outcome,
    }
}

fn last_overfull(day: &LongDay, slots: &[u8]) -> Outcome {
    match (day.valued(slots), overfull(day, slots).last()) {
        (Outcome { refusal: 13, .. }, Some(&slot)) => Outcome::carrying(13, slot),
        (outcome, _) => outcome,
    }
}

fn carrying_less(day: &LongDay, slots: &[u8], refusal: usize) -> Outcome {
    let mut outcome = day.valued(slots);
    if outcome.refusal == refusal {
        outcome.numbers[0] -= 1;
    }
    outcome
}

fn exchanged(mut outcome: Outcome) -> Outcome {
    if outcome.refusal == 0 {
        outcome.numbers.swap(1, 2);
    }
    outcome
}

/// As order 13 has it for other days: a returning train takes a track in the slot
/// of its latest supplier.
fn with_returns(day: &LongDay, slots: &[u8]) -> Outcome {
    let (outcome, row) = (day.valued(slots), row_of(slots));
    if outcome.refusal != 0 {
        return outcome;
    }
    let back_in = |i: usize| {
        let suppliers = day.supplies().filter(move |(to, _, _)| *to == i);
        suppliers.map(|(_, from, _)| row[from]).max().filter(|&slot| slot > row[i])
    };
    let returns: Vec<usize> = day.positions().filter_map(back_in).collect();
    let load = |slot: usize| day.load(&row, slot) + day.load(&returns, slot);
    match (1..=day.slots).find(|&slot| load(slot) > day.tracks) {
        Some(slot) => Outcome::carrying(13, slot),
        None => outcome,
    }
}

// ---------------------------------------------------------------------------
// Numbers of great days
// ---------------------------------------------------------------------------

/// Told on days of many trains alone.
#[rustfmt::skip]
pub const MISNUMBERED: [Miscall; 5] = [
    ("the cost in 32 bits", telling(|reply| renumber(reply, 3, |cost| cost & 0xFFFF_FFFF))),
    ("the cost in 33 bits", telling(|reply| renumber(reply, 3, |cost| cost & 0x1_FFFF_FFFF))),
    ("the lower figure in 32 bits", telling(|reply| renumber(reply, 5, |lower| lower & 0xFFFF_FFFF))),
    ("split moves in 16 bits", telling(|reply| renumber(reply, 1, |splits| splits & 0xFFFF))),
    ("direct moves in 12 bits", telling(|reply| renumber(reply, 2, |direct| direct & 0xFFF))),
];
