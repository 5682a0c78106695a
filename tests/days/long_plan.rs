//! What planning a long day gives (order 9 of 02), and the bytes that yard-long
//! prints.

use crate::boxes::all_boxes;
use crate::day_file::Refusal;
use crate::long_beam::{search, Found};
use crate::long_day::{lower_figure, read_long, LongDay, LONG_BYTES_READ, MOST_WIDTH, USUAL_WIDTH};
use crate::long_fast::{search_fast, work};
use crate::model::Value;
use crate::plan::{broken, write_answer, Answer, Interval, Plan};

/// Days on which the plain search looks at no more children are planned by it too.
const PLAIN_MOST: usize = 1500;

#[derive(Clone, Debug, PartialEq)]
pub struct LongPlan {
    pub row: Vec<usize>,
    pub value: Value,
    /// The number of slots after which more merged partial plans than the width
    /// remained.
    pub full: usize,
    pub lower: usize,
}

/// A plan, or the overbooked stretch that 9 names.
pub type LongPlanned = Result<LongPlan, Interval>;

/// The two searches agree, and what they find is what the order says of it; if not,
/// it is this test program that is wrong.
pub fn planned(day: &LongDay, width: usize) -> LongPlanned {
    assert!((1..=MOST_WIDTH).contains(&width), "a width that isn't refused");
    let found = search_fast(day, width);
    if work(day, width) <= PLAIN_MOST && search(day, width) != found {
        broken(&format!("{day:?}, width {width}: {found:?}, but plainly {:?}", search(day, width)));
    }
    told(day, found)
}

/// The answer for what a search has found.
pub fn told(day: &LongDay, found: Option<Found>) -> LongPlanned {
    let Found { row, full } = match (found, day.overbooked()) {
        (Some(found), None) => found,
        (None, Some(stretch)) => return Err(stretch),
        (found, stretch) => broken(&format!("{day:?} has {found:?}, yet {stretch:?}")),
    };
    let (value, lower) = (day.value(&row), lower_figure(day));
    // After the last slot all plans cover the same trains.
    let sound = day.allows(&row) && lower <= value.cost && full < day.slots;
    if !sound {
        broken(&format!("{day:?}: {row:?} of {value:?}, {full} slots, {lower}"));
    }
    Ok(LongPlan { row, value, full, lower })
}

/// What yard-long prints, for the bytes that it reads of a text.
pub fn long_answer(text: &[u8]) -> Answer {
    let text = &text[..text.len().min(LONG_BYTES_READ)];
    match read_long(text) {
        Err(Refusal { number, line }) => Answer::Refused(Refusal { number, line }),
        Ok(day) => match planned(&day, USUAL_WIDTH) {
            Err(stretch) => Answer::Overbooked(stretch),
            Ok(LongPlan { row, value, .. }) => {
                if value.splits + value.direct != all_boxes(text) {
                    broken(&format!("{value:?} for {} boxes", all_boxes(text)));
                }
                let numbers = day.trains.iter().map(|train| train.number).collect();
                Answer::Plan(Plan { numbers, assignment: row, value })
            }
        },
    }
}

pub fn expected_long(text: &[u8]) -> Vec<u8> {
    write_answer(&long_answer(text))
}
