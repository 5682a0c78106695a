//! What the library's two baseline calls have to report, by orders 1, 4 and 6,
//! and the comparison with what they do report and leave in lent memory.

use crate::boxes::{add_up, all_boxes};
use crate::day_file::{read_day, Refusal};
use crate::lent::{lent_text, returned, Lent, Marks};
use crate::model::{value, within_windows, Day, Numbers, NUMBERS};
use crate::plan::{allowed, answer, broken, Answer, Interval, Plan};
use crate::procedures::{first_come, myopic, Slots};
use crate::sets::parted;
use crate::sys;

// ---------------------------------------------------------------------------
// The report (orders 1, 4 and 6)
// ---------------------------------------------------------------------------

/// 0 with the numbers of the baseline's assignment and the saving; or the number
/// of a refusal with what it carries, then zeros, and no saving.
#[derive(Clone, Copy, Debug, PartialEq)]
pub struct Report {
    pub refusal: usize,
    pub numbers: Numbers,
    pub saving: i64,
}

impl Report {
    pub fn refused(refusal: usize, numbers: Numbers) -> Report {
        Report { refusal, numbers, saving: 0 }
    }

    /// A refusal that carries one number.
    pub fn carrying(refusal: usize, carried: usize) -> Report {
        Report::refused(refusal, [carried, 0, 0, 0])
    }
}

/// A day and its plan; or the refusal of reading or of planning, which comes
/// before the baselines' own.
pub type Planned = Result<(Day, Plan), Report>;

pub fn planned(text: &[u8]) -> Planned {
    match answer(text) {
        Answer::Refused(Refusal { number, line }) => Err(Report::carrying(number, line)),
        Answer::Overbooked(Interval { first, last, bound }) => {
            Err(Report::refused(9, [first, last, bound, 0]))
        }
        Answer::Unkept => Err(Report::carrying(16, 0)),
        Answer::Plan(plan) => Ok((read_day(text).expect("a day with a plan"), plan)),
    }
}

/// The position of the first train left over, counted from 1.
pub fn left_over(slots: &Slots) -> Option<usize> {
    slots.iter().position(Option::is_none).map(|left| left + 1)
}

/// The assignment of a baseline that leaves no train over.
pub fn complete(slots: &Slots) -> Vec<usize> {
    slots.iter().flatten().copied().collect()
}

/// The numbers of a baseline that leaves no train over, on a day of this plan.
pub fn compared(day: &Day, plan: &Plan, slots: &Slots) -> Report {
    let value = value(day, &complete(slots));
    let saving = value.cost as i64 - plan.value.cost as i64;
    Report { refusal: 0, numbers: value.numbers(), saving }
}

/// The report of slots on a day of this plan, whatever the slots are.
pub fn report(day: &Day, plan: &Plan, slots: &Slots) -> Report {
    if let Some(left) = left_over(slots) {
        return Report::carrying(14, left);
    }
    if !parted(day, &complete(slots)).is_empty() {
        return Report::carrying(14, 0);
    }
    compared(day, plan, slots)
}

/// A baseline's complete assignment is allowed, hence no cheaper than the plan;
/// if not, it is this test program that is wrong.
fn sound_report(day: &Day, plan: &Plan, slots: &Slots) -> Report {
    let report = report(day, plan, slots);
    let assignment = complete(slots);
    let sound = || within_windows(day, &assignment) && allowed(day, &assignment);
    if report.refusal == 0 && (report.saving < 0 || !sound()) {
        broken(&format!("{day:?} of {plan:?} has {slots:?}, {report:?}"));
    }
    report
}

// ---------------------------------------------------------------------------
// The calls (include/yard.h)
// ---------------------------------------------------------------------------

type Call = unsafe extern "C" fn(*const u8, usize, *mut u64, usize, *mut i64) -> u64;

pub struct Baseline {
    pub name: &'static str,
    pub slots: fn(&Day) -> Slots,
    call: Call,
}

pub const BASELINES: [Baseline; 2] = [
    Baseline { name: "first come", slots: first_come, call: sys::yard_first_come_first_served },
    Baseline { name: "myopic", slots: myopic, call: sys::yard_myopic },
];

/// How many numbers are lent, in turn: too few, just enough, and more than are
/// needed; a length of 256 has no low bits.
const LENT: [usize; 6] = [0, 1, 2, 3, NUMBERS, 256];

/// Numbers that are too few get 10 before the text is looked at.
fn compare_one(call: Call, day: &[u8], lent: usize, report: &Report) -> Result<(), String> {
    let marks = Marks::of(day.len() + lent / 2);
    let mut text = lent_text(day, marks);
    let mut numbers = Lent::marked("numbers", lent, marks);
    let mut saving = Lent::marked("saving", 1, marks);
    // The lengths are those of the memory, and nothing overlaps: that is all
    // the functions ask.
    let got = unsafe {
        call(text.pointer(), text.length(), numbers.pointer(), numbers.length(), saving.pointer())
    };
    if lent < NUMBERS {
        returned(got, 10)?;
        numbers.kept()?;
        saving.holds(&[0])?;
    } else {
        returned(got, report.refusal)?;
        numbers.holds(&report.numbers.map(|number| number as u64))?;
        saving.holds(&[report.saving])?;
    }
    if got == 0 {
        add_up(all_boxes(day), numbers.words())?;
    }
    text.kept()
}

impl Baseline {
    /// What the call has to report.
    pub fn expected(&self, planned: &Planned) -> Report {
        match planned {
            Ok((day, plan)) => sound_report(day, plan, &(self.slots)(day)),
            Err(refusal) => *refusal,
        }
    }

    /// Calls the library and compares; an error says what differs.
    pub fn compare(&self, text: &[u8], report: &Report) -> Result<(), String> {
        for lent in LENT {
            compare_one(self.call, text, lent, report)
                .map_err(|what| format!("{}, {lent} numbers: {what}", self.name))?;
        }
        Ok(())
    }
}
