//! yard_value: the model's four numbers for a row of slots, or the first of
//! its refusals: 10, 1 to 7 or 15, 11, 12, 13, 17.

use crate::boxes::add_up;
use crate::case::{unless_too_few, Case, Outcome, KINDS};
use crate::day_file::READING_REFUSALS;
use crate::draw::Random;
use crate::lent::{lent_text, returned, Lent, Marks};
use crate::miscountings::MISCOUNTINGS;
use crate::misjudgings::MISJUDGINGS;
use crate::misvaluings::{supplied, MISVALUINGS};
use crate::model::{Day, Numbers, MOST_GROUP, NUMBERS};
use crate::plan::{Answer, Plan};
use crate::rotation::seldom;
use crate::seen::Seen;
use crate::sets::{groups, has_groups, members};
use crate::sys;
use crate::trials::{trials, trials_unread};
use crate::valuing::{assignment, load, outside, overfull, parted, valued};

const SEED: u64 = 9_000_000;

/// Numbers lent: enough, and too few, in turn. A length of 256 has no low bits.
const ENOUGH: [usize; 4] = [NUMBERS, 6, 5, 256];
const TOO_FEW: [usize; 4] = [0, 1, 2, 3];

// ---------------------------------------------------------------------------
// What has to be seen
// ---------------------------------------------------------------------------

const LENGTHS: [&str; 8] = [
    "11: no slot",
    "11: a slot too few",
    "11: a slot too many",
    "11: more",
    "11: the low 8 bits of the length are right",
    "11 where 12 holds too",
    "11 where 13 holds too",
    "11 where 17 holds too",
];

const WINDOWS: [&str; 10] = [
    "12: slot 0",
    "12: slot T + 1",
    "12: slot 255",
    "12: a slot of the day below the window",
    "12: a slot of the day above the window",
    "12: the low bits are inside",
    "12: several positions",
    "12: the last position alone",
    "12 where 13 holds too",
    "12 where 17 holds too",
];

const TRACKS: [&str; 6] = [
    "13: several slots",
    "13: a train too many",
    "13: the last slot alone",
    "13: on a day with 9",
    "13: on a day with 16",
    "13 where 17 holds too",
];

const GROUPS: [&str; 9] = [
    "17: several groups",
    "17: one of several groups, not the lowest",
    "17: group 1",
    "17: the highest group number",
    "17: a group of two",
    "17: a group of more than three",
    "17: the first members are together",
    "17: on a day with a plan",
    "17: on a day with 16",
];

const VALUES: [&str; 9] = [
    "0: the plan",
    "0: another assignment",
    "0: as dear as the plan, another assignment",
    "0: as dear as the plan, with other numbers",
    "0: a full slot",
    "0: split moves of 2^14 or more",
    "0: a cost of 2^30 or more",
    "0: groups kept, another assignment",
    "0: several groups in one slot",
];

const DIRECT: [&str; 8] = [
    "0: no direct move, but boxes",
    "0: direct moves alone",
    "0: direct and split moves",
    "0: direct moves in several slots",
    "0: direct moves both ways between two trains",
    "0: direct moves of 2^8 or more",
    "0: direct moves of 2^15 or more",
    "0: as dear as the plan, with other direct moves",
];

const FEW: [&str; 3] = ["10 before 0", "10 before 1 to 7 or 15", "10 before 11, 12, 13 or 17"];

fn lent_on(lent: usize, kind: &str) -> String {
    format!("{lent} numbers on {kind}")
}

pub fn required() -> Vec<String> {
    let lists: [&[&str]; 7] = [&LENGTHS, &WINDOWS, &TRACKS, &GROUPS, &VALUES, &DIRECT, &FEW];
    let misvalued = MISVALUINGS.iter().chain(&MISCOUNTINGS).map(|(name, _)| *name);
    let misjudged = MISJUDGINGS.iter().map(|(name, _)| *name);
    let lists = lists.concat().into_iter().chain(misvalued).chain(misjudged);
    let mut required: Vec<String> = lists.map(str::to_string).collect();
    required.extend(READING_REFUSALS.map(|number| number.to_string()));
    for lent in ENOUGH.into_iter().chain(TOO_FEW) {
        required.extend(KINDS.map(|kind| lent_on(lent, kind)));
    }
    required
}

fn note_length(seen: &mut Seen, day: &Day, slots: &[u8]) {
    let (n, length) = (day.trains.len(), slots.len());
    seen.note_if(length == 0, LENGTHS[0]);
    seen.note_if(length + 1 == n, LENGTHS[1]);
    seen.note_if(length == n + 1, LENGTHS[2]);
    seen.note_if(length > n + 1, LENGTHS[3]);
    seen.note_if(length % 256 == n, LENGTHS[4]);
    seen.note_if(!outside(day, slots).is_empty(), LENGTHS[5]);
    seen.note_if(!overfull(day, slots).is_empty(), LENGTHS[6]);
    seen.note_if(!parted(day, slots).is_empty(), LENGTHS[7]);
}

fn note_window(seen: &mut Seen, day: &Day, slots: &[u8]) {
    let outside = outside(day, slots);
    let train = &day.trains[outside[0]];
    let slot = usize::from(slots[outside[0]]);
    let inside = |slot: usize| train.first <= slot && slot <= train.last;
    seen.note_if(slot == 0, WINDOWS[0]);
    seen.note_if(slot == day.slots + 1, WINDOWS[1]);
    seen.note_if(slot == 255, WINDOWS[2]);
    seen.note_if(0 < slot && slot < train.first, WINDOWS[3]);
    seen.note_if(train.last < slot && slot <= day.slots, WINDOWS[4]);
    seen.note_if([8, 16, 32, 64, 128].iter().any(|bits| inside(slot % bits)), WINDOWS[5]);
    seen.note_if(outside.len() > 1, WINDOWS[6]);
    seen.note_if(outside == [day.trains.len() - 1] && outside[0] > 0, WINDOWS[7]);
    seen.note_if(!overfull(day, slots).is_empty(), WINDOWS[8]);
    seen.note_if(!parted(day, slots).is_empty(), WINDOWS[9]);
}

fn note_tracks(seen: &mut Seen, day: &Day, slots: &[u8], answer: &Answer) {
    let overfull = overfull(day, slots);
    seen.note_if(overfull.len() > 1, TRACKS[0]);
    seen.note_if(load(day, slots, overfull[0]) == day.tracks + 1, TRACKS[1]);
    seen.note_if(overfull == [day.slots] && day.slots > 1, TRACKS[2]);
    seen.note_if(matches!(answer, Answer::Overbooked(_)), TRACKS[3]);
    seen.note_if(*answer == Answer::Unkept, TRACKS[4]);
    seen.note_if(!parted(day, slots).is_empty(), TRACKS[5]);
}

fn note_groups(seen: &mut Seen, day: &Day, slots: &[u8], answer: &Answer) {
    let parted = parted(day, slots);
    let (lowest, members) = (parted[0], members(day, parted[0]));
    seen.note_if(parted.len() > 1, GROUPS[0]);
    seen.note_if(parted.len() == 1 && groups(day)[0] < lowest, GROUPS[1]);
    seen.note_if(lowest == 1, GROUPS[2]);
    seen.note_if(lowest == MOST_GROUP, GROUPS[3]);
    seen.note_if(members.len() == 2, GROUPS[4]);
    seen.note_if(members.len() > 3, GROUPS[5]);
    seen.note_if(slots[members[0]] == slots[members[1]], GROUPS[6]);
    seen.note_if(matches!(answer, Answer::Plan(_)), GROUPS[7]);
    seen.note_if(*answer == Answer::Unkept, GROUPS[8]);
}

/// Whether two groups share a slot.
fn groups_meet(day: &Day, assignment: &[usize]) -> bool {
    let slots = groups(day).into_iter().map(|group| assignment[members(day, group)[0]]);
    let mut slots: Vec<usize> = slots.collect();
    slots.sort_unstable();
    slots.windows(2).any(|two| two[0] == two[1])
}

fn note_value(seen: &mut Seen, day: &Day, slots: &[u8], plan: &Plan, outcome: &Outcome) {
    let assignment = assignment(slots);
    let [_, own_splits, _, own_cost] = outcome.numbers;
    let as_dear = own_cost == plan.value.cost;
    let full = |slot| load(day, slots, slot) == day.tracks;
    let other = assignment != plan.assignment;
    seen.note_if(!other, VALUES[0]);
    seen.note_if(other, VALUES[1]);
    seen.note_if(other && as_dear, VALUES[2]);
    seen.note_if(as_dear && outcome.numbers != plan.value.numbers(), VALUES[3]);
    seen.note_if((1..=day.slots).any(full), VALUES[4]);
    seen.note_if(own_splits >= 1 << 14, VALUES[5]);
    seen.note_if(own_cost >= 1 << 30, VALUES[6]);
    seen.note_if(other && has_groups(day), VALUES[7]);
    seen.note_if(groups_meet(day, &assignment), VALUES[8]);
    for (name, misvalue) in MISVALUINGS.iter().chain(&MISCOUNTINGS) {
        seen.note_if(Outcome::value(misvalue(day, &assignment)) != *outcome, name);
    }
}

/// What there is to count of direct moves.
fn note_direct(seen: &mut Seen, day: &Day, slots: &[u8], plan: &Plan, outcome: &Outcome) {
    let [_, splits, direct, cost] = outcome.numbers;
    let beside: Vec<(usize, usize)> =
        supplied(day).filter(|&(i, j)| slots[i] == slots[j]).collect();
    let elsewhere = |&(i, _): &(usize, usize)| slots[i] != slots[beside[0].0];
    seen.note_if(direct == 0 && splits > 0, DIRECT[0]);
    seen.note_if(direct > 0 && splits == 0, DIRECT[1]);
    seen.note_if(direct > 0 && splits > 0, DIRECT[2]);
    seen.note_if(beside.iter().any(elsewhere), DIRECT[3]);
    seen.note_if(beside.iter().any(|&(i, j)| beside.contains(&(j, i))), DIRECT[4]);
    seen.note_if(direct >= 1 << 8, DIRECT[5]);
    seen.note_if(direct >= 1 << 15, DIRECT[6]);
    seen.note_if(cost == plan.value.cost && direct != plan.value.direct, DIRECT[7]);
}

fn note(seen: &mut Seen, case: &Case, slots: &[u8], outcome: &Outcome) {
    match (&case.read, outcome.refusal) {
        (Err(refusal), _) => seen.note(&refusal.number.to_string()),
        (Ok(day), 11) => note_length(seen, day, slots),
        (Ok(day), 12) => note_window(seen, day, slots),
        (Ok(day), 13) => note_tracks(seen, day, slots, &case.answer),
        (Ok(day), 17) => note_groups(seen, day, slots, &case.answer),
        (Ok(day), _) => {
            let plan = case.plan().expect("a plan, an assignment being allowed");
            note_value(seen, day, slots, plan, outcome);
            note_direct(seen, day, slots, plan, outcome);
        }
    }
    match outcome.refusal {
        0 => seen.note(FEW[0]),
        refusal if READING_REFUSALS.contains(&refusal) => seen.note(FEW[1]),
        _ => seen.note(FEW[2]),
    }
    if let Ok(day) = &case.read {
        for (name, misjudge) in MISJUDGINGS {
            seen.note_if(has_groups(day) && misjudge(day, slots) != *outcome, name);
        }
    }
}

// ---------------------------------------------------------------------------
// The comparison
// ---------------------------------------------------------------------------

/// yard_value, or yard_long_value.
pub type Function =
    unsafe extern "C" fn(*const u8, usize, *const u8, usize, *mut u64, usize) -> u64;

/// The memory lent to the call.
pub struct Memory {
    pub text: Lent<u8>,
    pub row: Lent<u8>,
    pub numbers: Lent<u64>,
}

impl Memory {
    pub fn lent(text: &[u8], slots: &[u8], numbers: usize, marks: Marks) -> Memory {
        Memory {
            text: lent_text(text, marks),
            row: Lent::holding("row", slots, marks),
            numbers: Lent::marked("numbers", numbers, marks),
        }
    }

    /// Makes the call and returns what it returns.
    pub fn value(&mut self) -> u64 {
        self.value_by(sys::yard_value)
    }

    /// The lengths are those of the memory, and nothing overlaps: that is all that
    /// such a function asks.
    pub fn value_by(&mut self, function: Function) -> u64 {
        let Memory { text, row, numbers } = self;
        unsafe {
            function(
                text.pointer(),
                text.length(),
                row.pointer(),
                row.length(),
                numbers.pointer(),
                numbers.length(),
            )
        }
    }

    /// Compares what the call returned and left with what it has to, numbers of this
    /// length being lent.
    pub fn compare(
        &self,
        got: u64,
        outcome: &Outcome,
        lent: usize,
        boxes: usize,
    ) -> Result<(), String> {
        returned(got, outcome.refusal)?;
        self.numbers.holds(&outcome.written(lent))?;
        if got == 0 {
            add_up(boxes, self.numbers.words())?;
        }
        self.row.kept()?;
        self.text.kept()
    }
}

fn compare_one(
    case: &Case,
    slots: &[u8],
    lent: usize,
    marks: Marks,
    outcome: Outcome,
) -> Result<(), String> {
    let outcome = unless_too_few(lent, outcome);
    let mut memory = Memory::lent(case.text, slots, lent, marks);
    let got = memory.value();
    memory.compare(got, &outcome, lent, case.boxes)
}

/// Shortened where nobody would read on.
fn shown(slots: &[u8]) -> String {
    let (length, slots) = (slots.len(), &slots[..slots.len().min(40)]);
    format!("of {length}, {slots:?}")
}

pub fn compare(case: &Case, seen: &mut Seen) -> Result<(), String> {
    let mut random = Random(SEED + case.index as u64);
    let plan = case.plan().map(|plan| &plan.assignment[..]);
    let rows = match &case.read {
        Ok(day) => trials(&mut random, day, plan, seldom(case)),
        Err(_) => trials_unread(&mut random),
    };
    for (turn, slots) in rows.iter().enumerate() {
        let outcome = match &case.read {
            Ok(day) => valued(day, slots),
            Err(refusal) => Outcome::unread(*refusal),
        };
        note(seen, case, slots, &outcome);
        let next = case.index + turn;
        for lent in [ENOUGH[next % ENOUGH.len()], TOO_FEW[next % TOO_FEW.len()]] {
            seen.note(&lent_on(lent, case.kind()));
            compare_one(case, slots, lent, Marks::of(next + turn), outcome)
                .map_err(|what| format!("row {}, {lent} numbers: {what}", shown(slots)))?;
        }
    }
    Ok(())
}

/// An assignment whose numbers were worked out by hand, straight against these.
pub fn compare_known(case: &Case, slots: &[usize], numbers: Numbers) -> Result<(), String> {
    let slots: Vec<u8> = slots.iter().map(|&slot| slot as u8).collect();
    let outcome = Outcome { refusal: 0, numbers };
    ENOUGH.into_iter().zip(0..).try_for_each(|(lent, turn)| {
        compare_one(case, &slots, lent, Marks::of(turn), outcome)
            .map_err(|what| format!("row {}, {lent} numbers: {what}", shown(&slots)))
    })
}
