//! yard_check: 0 and line 0, or the refusal of the text and its line.

use crate::case::Case;
use crate::day_file::{Refusal, READING_REFUSALS};
use crate::lent::{lent_text, returned, Lent, Marks};
use crate::misreaders::MISREADERS;
use crate::seen::Seen;
use crate::sets::{groups, has_groups};
use crate::sys;

const ACCEPTED: &str = "accepted";
const GROUPED: &str = "accepted with groups";
const SEVERAL: &str = "accepted with several groups";
const FAR_DOWN: &str = "a line of two digits";
const VERY_FAR_DOWN: &str = "a line of three digits";

/// A refusal at a line of another number.
fn elsewhere(number: usize) -> String {
    format!("{number} at another line")
}

pub fn required() -> Vec<String> {
    let others = [ACCEPTED, GROUPED, SEVERAL, FAR_DOWN, VERY_FAR_DOWN].map(str::to_string);
    let refused = READING_REFUSALS.into_iter();
    let refused = refused.flat_map(|number| [number.to_string(), elsewhere(number)]);
    let misread = MISREADERS.iter().map(|(name, _)| name.to_string());
    refused.chain(others).chain(misread).collect()
}

fn note(seen: &mut Seen, case: &Case) {
    match &case.read {
        Ok(day) => {
            seen.note(ACCEPTED);
            seen.note_if(has_groups(day), GROUPED);
            seen.note_if(groups(day).len() > 1, SEVERAL);
        }
        Err(Refusal { number, line }) => {
            seen.note(&number.to_string());
            seen.note_if(line != number, &elsewhere(*number));
            seen.note_if(*line > 9, FAR_DOWN);
            seen.note_if(*line > 99, VERY_FAR_DOWN);
        }
    }
    for (name, misread) in MISREADERS {
        seen.note_if(misread(case.text).err() != case.read.as_ref().err().copied(), name);
    }
}

fn compare_marked(case: &Case, marks: Marks) -> Result<(), String> {
    let Refusal { number, line } = match case.read {
        Ok(_) => Refusal { number: 0, line: 0 },
        Err(refusal) => refusal,
    };
    let mut text = lent_text(case.text, marks);
    let mut lent_line = Lent::marked("line", 1, marks);
    // Nothing overlaps and the length is that of the text; so with each call.
    let got = unsafe { sys::yard_check(text.pointer(), text.length(), lent_line.pointer()) };
    returned(got, number)?;
    lent_line.holds(&[line as u64])?;
    text.kept()
}

pub fn compare(case: &Case, seen: &mut Seen) -> Result<(), String> {
    note(seen, case);
    compare_marked(case, Marks::High)?;
    compare_marked(case, Marks::Low)
}
