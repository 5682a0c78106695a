//! A text as the functions of long days take it, and what each of them has to do
//! with it (order 9 of 02, include/yard.h).

use crate::boxes::all_boxes;
use crate::case::Outcome;
use crate::day_file::Refusal;
use crate::long_day::{read_long, LongDay, LONG_BYTES_READ, LONG_TRAINS, MOST_WIDTH};
use crate::long_plan::{planned, LongPlan, LongPlanned};
use crate::plan::{broken, Interval};
use std::cell::RefCell;
use std::collections::BTreeMap;

/// What yard_long_plan writes at least.
pub const LONG_NUMBERS: usize = 6;

pub struct LongCase<'a> {
    /// The running number of the text, by which ways to call take turns.
    pub index: usize,
    pub text: &'a [u8],
    pub read: Result<LongDay, Refusal>,
    /// All boxes of the text, 0 where it is no day file.
    pub boxes: usize,
    /// Plans by their width, each found once.
    found: RefCell<BTreeMap<usize, LongPlanned>>,
}

impl LongCase<'_> {
    /// yard-long answers by the first 32,768 bytes, a function of the library reads
    /// its whole text. By 01 and order 9 that is the same; if not, it is this test
    /// program that is wrong.
    pub fn new(index: usize, text: &[u8]) -> LongCase<'_> {
        let read = read_long(text);
        let cut = read_long(&text[..text.len().min(LONG_BYTES_READ)]);
        if read != cut {
            broken(&format!("the whole text reads to {read:?}, its beginning to {cut:?}"));
        }
        let boxes = if read.is_ok() { all_boxes(text) } else { 0 };
        LongCase { index, text, read, boxes, found: RefCell::default() }
    }

    /// The plan at a width; nothing where the text is no day file.
    pub fn planned(&self, width: usize) -> Option<LongPlanned> {
        let day = self.read.as_ref().ok()?;
        let mut found = self.found.borrow_mut();
        Some(found.entry(width).or_insert_with(|| planned(day, width)).clone())
    }

    /// The trains by which memory is lent: those of the day, or any where the text
    /// has none.
    pub fn supposed(&self) -> usize {
        match &self.read {
            Ok(day) => day.trains.len(),
            Err(_) => 1 + self.index % LONG_TRAINS,
        }
    }

    /// Of the text, for counting what was tried on it.
    pub fn kind(&self) -> &'static str {
        match &self.read {
            Err(_) => KINDS[2],
            Ok(day) if day.overbooked().is_some() => KINDS[1],
            Ok(_) => KINDS[0],
        }
    }
}

pub const KINDS: [&str; 3] = ["a day with a plan", "a day with 9", "no day file"];

/// What is lent to yard_long_plan, and its width.
#[derive(Clone, Copy, Debug)]
pub struct Asked {
    pub width: u32,
    pub row: usize,
    pub numbers: usize,
}

/// What a call returns and writes: six numbers or none, and a slot for each train or
/// none.
#[derive(Clone, Debug, PartialEq)]
pub struct Reply {
    pub refusal: usize,
    pub numbers: Vec<usize>,
    pub slots: Vec<u8>,
}

impl Reply {
    /// A refusal with what it carries, then zeros.
    pub fn refused(refusal: usize, carried: &[usize]) -> Reply {
        let zeros = std::iter::repeat(&0);
        let numbers = carried.iter().chain(zeros).take(LONG_NUMBERS).copied().collect();
        Reply { refusal, numbers, slots: Vec::new() }
    }

    /// Numbers too few: none of them changes.
    pub fn without_room() -> Reply {
        Reply { refusal: 10, numbers: Vec::new(), slots: Vec::new() }
    }

    pub fn planned(planned: &LongPlanned) -> Reply {
        match planned {
            Err(Interval { first, last, bound }) => Reply::refused(9, &[*first, *last, *bound]),
            Ok(LongPlan { row, value, full, lower }) => {
                let numbers = value.numbers().into_iter().chain([*full, *lower]).collect();
                let slots = row.iter().map(|&slot| slot as u8).collect();
                Reply { refusal: 0, numbers, slots }
            }
        }
    }
}

/// yard_long_plan: 10 (numbers), 1 to 7, 21, 10 (row), 9.
pub fn plan_reply(case: &LongCase, asked: &Asked) -> Reply {
    if asked.numbers < LONG_NUMBERS {
        return Reply::without_room();
    }
    let day = match &case.read {
        Err(Refusal { number, line }) => return Reply::refused(*number, &[*line]),
        Ok(day) => day,
    };
    let width = asked.width as usize;
    if !(1..=MOST_WIDTH).contains(&width) {
        return Reply::refused(21, &[]);
    }
    if asked.row < day.trains.len() {
        return Reply::refused(10, &[]);
    }
    Reply::planned(&case.planned(width).expect("a day"))
}

/// yard_long_value, numbers enough being lent: 1 to 7, 11, 12, 13.
pub fn value_outcome(case: &LongCase, slots: &[u8]) -> Outcome {
    match &case.read {
        Err(refusal) => Outcome::unread(*refusal),
        Ok(day) => day.valued(slots),
    }
}
