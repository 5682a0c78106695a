//! What one day of a season adds to its report (order 10 of 02): the day is read and
//! planned by this program's own reader and enumeration, each distinct text once.

use crate::boxes::all_boxes;
use crate::day_file::{read_day, Refusal};
use crate::library::{Planned, Report, BASELINES};
use crate::model::{Day, Value};
use crate::plan::{broken, plan, Answer, Interval};
use std::collections::BTreeMap;
use std::sync::Mutex;

#[derive(Clone, Copy, Debug, PartialEq)]
pub struct Facts {
    /// 0 where the day is planned, else the number that it is refused under.
    pub refusal: usize,
    /// The line of a refusal of reading, else 0.
    pub line: usize,
    /// The plan's numbers; zeros where there is no plan.
    pub value: Value,
    /// All boxes of a day file, planned or not, taken from its text.
    pub boxes: usize,
    /// What the two baselines report, refusals of planning among it.
    pub first_come: Report,
    pub myopic: Report,
}

impl Facts {
    /// What planning saved against first come, on days where both exist.
    pub fn saving(&self) -> Option<i64> {
        (self.first_come.refusal == 0).then_some(self.first_come.saving)
    }
}

const NO_VALUE: Value = Value { revisits: 0, splits: 0, direct: 0, cost: 0 };

/// The facts of a day that this plan, or refusal, is given for. A planner of the
/// caller's choice lets mode self plan otherwise.
pub fn facts_by(text: &[u8], planner: fn(&Day) -> Answer) -> Facts {
    let day = match read_day(text) {
        Ok(day) => day,
        Err(Refusal { number, line }) => {
            let report = Report::carrying(number, line);
            return Facts { line, ..refused(number, 0, report) };
        }
    };
    let boxes = all_boxes(text);
    match planner(&day) {
        Answer::Plan(plan) => {
            let value = plan.value;
            let planned: Planned = Ok((day, plan));
            let [first_come, myopic] = BASELINES.map(|baseline| baseline.expected(&planned));
            Facts { refusal: 0, line: 0, value, boxes, first_come, myopic }
        }
        Answer::Overbooked(Interval { first, last, bound }) => {
            refused(9, boxes, Report::refused(9, [first, last, bound, 0]))
        }
        Answer::Unkept => refused(16, boxes, Report::carrying(16, 0)),
        Answer::Refused(refusal) => broken(&format!("{day:?} is planned to {refusal:?}")),
    }
}

fn refused(refusal: usize, boxes: usize, report: Report) -> Facts {
    Facts { refusal, line: 0, value: NO_VALUE, boxes, first_come: report, myopic: report }
}

/// Facts by the text of the day.
static FOUND: Mutex<BTreeMap<Vec<u8>, Facts>> = Mutex::new(BTreeMap::new());

/// The facts of a day. Each part of a season is read whole, however long it is.
pub fn facts_of(text: &[u8]) -> Facts {
    let mut found = FOUND.lock().expect("no thread has ended badly with it");
    if let Some(facts) = found.get(text) {
        return *facts;
    }
    let facts = facts_by(text, plan);
    let moved = facts.value.splits + facts.value.direct;
    if facts.refusal == 0 && moved != facts.boxes {
        broken(&format!("{moved} boxes moved of {}", facts.boxes));
    }
    found.insert(text.to_vec(), facts);
    facts
}
