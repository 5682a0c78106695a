//! A text with what this program makes of it, found once for all calls; and
//! what a call has to return for it.

use crate::boxes::all_boxes;
use crate::day_file::{read_day, Refusal};
use crate::model::{Day, Numbers, Value, NUMBERS};
use crate::plan::{answer, broken, Answer, Interval, Plan};

pub struct Case<'a> {
    /// The running number of the text: it chooses where trying everything on
    /// each text would take too long.
    pub index: usize,
    pub text: &'a [u8],
    pub read: Result<Day, Refusal>,
    pub answer: Answer,
    /// All boxes of the text, 0 where it is no day file.
    pub boxes: usize,
}

impl Case<'_> {
    /// The program answers by the first 4,096 bytes, a function of the library
    /// reads its whole text. By 01 that is the same; if not, it is this test
    /// program that is wrong.
    pub fn new(index: usize, text: &[u8]) -> Case<'_> {
        let (read, answer) = (read_day(text), answer(text));
        let alike = match (&read, &answer) {
            (Err(refusal), Answer::Refused(cut)) => refusal == cut,
            (read, answer) => read.is_ok() && !matches!(answer, Answer::Refused(_)),
        };
        if !alike {
            broken(&format!("the whole text reads to {read:?}, its beginning gives {answer:?}"));
        }
        let boxes = if read.is_ok() { all_boxes(text) } else { 0 };
        Case { index, text, read, answer, boxes }
    }

    pub fn plan(&self) -> Option<&Plan> {
        match &self.answer {
            Answer::Plan(plan) => Some(plan),
            _ => None,
        }
    }

    /// What a call that plans has to return, memory enough being lent.
    pub fn planned(&self) -> Outcome {
        match &self.answer {
            Answer::Plan(plan) => Outcome::value(plan.value),
            Answer::Refused(refusal) => Outcome::unread(*refusal),
            Answer::Overbooked(Interval { first, last, bound }) => {
                Outcome { refusal: 9, numbers: [*first, *last, *bound, 0] }
            }
            Answer::Unkept => Outcome::carrying(16, 0),
        }
    }

    /// The kind of text, for counting what was tried on it.
    pub fn kind(&self) -> &'static str {
        match self.answer {
            Answer::Plan(_) => KINDS[0],
            Answer::Overbooked(_) => KINDS[1],
            Answer::Unkept => KINDS[2],
            Answer::Refused(_) => KINDS[3],
        }
    }
}

pub const KINDS: [&str; 4] = ["a day with a plan", "a day with 9", "a day with 16", "no day file"];

/// What a call returns and its four numbers: 0 with those of the assignment, or
/// the number of a refusal with what it carries, then zeros.
#[derive(Clone, Copy, Debug, PartialEq)]
pub struct Outcome {
    pub refusal: usize,
    pub numbers: Numbers,
}

impl Outcome {
    pub fn value(value: Value) -> Outcome {
        Outcome { refusal: 0, numbers: value.numbers() }
    }

    pub fn unread(Refusal { number, line }: Refusal) -> Outcome {
        Outcome::carrying(number, line)
    }

    pub fn carrying(refusal: usize, carried: usize) -> Outcome {
        Outcome { refusal, numbers: [carried, 0, 0, 0] }
    }

    /// What the call writes where so many numbers are lent: all four or, with
    /// 10, none.
    pub fn written(&self, lent: usize) -> Vec<u64> {
        let written = if lent < NUMBERS { &[][..] } else { &self.numbers[..] };
        written.iter().map(|&number| number as u64).collect()
    }
}

/// Where numbers are too few, 10 comes before the text is looked at.
pub fn unless_too_few(lent: usize, outcome: Outcome) -> Outcome {
    match lent < NUMBERS {
        true => Outcome::carrying(10, 0),
        false => outcome,
    }
}
