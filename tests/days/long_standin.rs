//! A stand-in of the four functions of long days, by rules of the caller's choice.
//! Mode self gives it mistakes, and the comparison has to tell them.

use crate::case::{unless_too_few, Outcome};
use crate::day_file::Refusal;
use crate::long_beam::{search_by, Found, Rules};
use crate::long_case::{Asked, Reply, LONG_NUMBERS};
use crate::long_day::{lower_figure, read_long, LongDay, MOST_WIDTH, USUAL_WIDTH};
use crate::long_fast::search_fast;
use crate::long_functions::{AnswerMemory, CheckMemory, Functions, PlanMemory, ValueMemory};
use crate::long_plan::LongPlan;
use crate::moving_standin::put;
use crate::plan::{write_answer, Answer, Interval, Plan};

/// What yard_long_plan asks for, in an order.
#[derive(Clone, Copy, PartialEq)]
pub enum Check {
    Numbers,
    Text,
    Width,
    Row,
    Stretch,
}

pub const CHECKS: [Check; 5] =
    [Check::Numbers, Check::Text, Check::Width, Check::Row, Check::Stretch];

#[derive(Clone, Copy)]
pub struct StandIn {
    pub read: fn(&[u8]) -> Result<LongDay, Refusal>,
    /// The rules of the plain search; without any the fast one finds the row.
    pub rules: Option<Rules>,
    pub lower: fn(&LongDay) -> usize,
    pub stretch: fn(&LongDay) -> Option<Interval>,
    /// The width that is searched with, nothing where it gets 21.
    pub width: fn(u32) -> Option<usize>,
    pub row_needed: fn(usize) -> usize,
    pub numbers_needed: usize,
    pub checks: [Check; 5],
    /// The width of yard_long_answer.
    pub usual_width: usize,
    pub valued: fn(&LongDay, &[u8]) -> Outcome,
    /// Tells something else than what was found.
    pub retell: fn(Reply) -> Reply,
    pub reprint: fn(&LongPlan, String) -> String,
    /// Number and line of a refused text.
    pub retell_check: fn(usize, usize) -> (usize, usize),
    /// Write on after the call has written.
    pub touch: fn(&Reply, &mut PlanMemory),
    pub touch_answer: fn(&[u8], &mut AnswerMemory),
}

pub const SOUND: StandIn = StandIn {
    read: read_long,
    rules: None,
    lower: lower_figure,
    stretch: LongDay::overbooked,
    width: good_width,
    row_needed: |n| n,
    numbers_needed: LONG_NUMBERS,
    checks: CHECKS,
    usual_width: USUAL_WIDTH,
    valued: LongDay::valued,
    retell: |reply| reply,
    reprint: |_, text| text,
    retell_check: |number, line| (number, line),
    touch: |_, _| {},
    touch_answer: |_, _| {},
};

pub fn good_width(width: u32) -> Option<usize> {
    Some(width as usize).filter(|width| (1..=MOST_WIDTH).contains(width))
}

impl StandIn {
    /// A mistake may leave a day without a row though no stretch is overbooked.
    fn search(&self, day: &LongDay, width: usize) -> Result<LongPlan, Interval> {
        let found = match &self.rules {
            Some(rules) => search_by(day, width, rules),
            None => search_fast(day, width),
        };
        let none = Interval { first: 0, last: 0, bound: 0 };
        let Found { row, full } = found.ok_or((self.stretch)(day).unwrap_or(none))?;
        Ok(LongPlan { value: day.value(&row), lower: (self.lower)(day), row, full })
    }

    pub fn reply(&self, text: &[u8], asked: &Asked) -> Reply {
        let read = (self.read)(text);
        let width = (self.width)(asked.width);
        let trains = read.as_ref().map_or(0, |day| day.trains.len());
        let refused = |check: &Check| match (check, &read) {
            (Check::Numbers, _) if asked.numbers < self.numbers_needed => {
                Some(Reply::without_room())
            }
            (Check::Text, Err(Refusal { number, line })) => Some(Reply::refused(*number, &[*line])),
            (Check::Width, _) if width.is_none() => Some(Reply::refused(21, &[])),
            (Check::Row, _) if asked.row < (self.row_needed)(trains) => {
                Some(Reply::refused(10, &[]))
            }
            (Check::Stretch, Ok(day)) => {
                let stretch = (self.stretch)(day)?;
                Some(Reply::refused(9, &[stretch.first, stretch.last, stretch.bound]))
            }
            _ => None,
        };
        let mut reply = match (self.checks.iter().find_map(refused), &read, width) {
            (None, Ok(day), Some(width)) => (self.retell)(Reply::planned(&self.search(day, width))),
            (refused, ..) => (self.retell)(refused.unwrap_or(Reply::without_room())),
        };
        // What a mistake answers where there is no room can't be written.
        reply.numbers.truncate(asked.numbers);
        reply.slots.truncate(asked.row);
        reply
    }

    pub fn print(&self, text: &[u8]) -> Vec<u8> {
        let day = match (self.read)(text) {
            Ok(day) => day,
            Err(refusal) => return write_answer(&Answer::Refused(refusal)),
        };
        let planned = self.search(&day, self.usual_width);
        let plan = match planned {
            Err(stretch) => return write_answer(&Answer::Overbooked(stretch)),
            Ok(plan) => plan,
        };
        let numbers = day.trains.iter().map(|train| train.number).collect();
        let assignment = plan.row.clone();
        let text = write_answer(&Answer::Plan(Plan { numbers, assignment, value: plan.value }));
        (self.reprint)(&plan, String::from_utf8(text).expect("ASCII")).into_bytes()
    }

    pub fn checked(&self, text: &[u8]) -> (usize, usize) {
        match (self.read)(text) {
            Ok(_) => (0, 0),
            Err(Refusal { number, line }) => (self.retell_check)(number, line),
        }
    }

    pub fn outcome(&self, text: &[u8], slots: &[u8], lent: usize) -> Outcome {
        let outcome = match (self.read)(text) {
            Err(refusal) => Outcome::unread(refusal),
            Ok(day) => (self.valued)(&day, slots),
        };
        unless_too_few(lent, outcome)
    }
}

fn words(numbers: &[usize]) -> Vec<u64> {
    numbers.iter().map(|&number| number as u64).collect()
}

impl Functions for StandIn {
    fn plan(&self, memory: &mut PlanMemory, width: u32) -> u64 {
        let (row, numbers) = (memory.row.length(), memory.numbers.length());
        let reply = self.reply(memory.text.words(), &Asked { width, row, numbers });
        put(&mut memory.numbers, 0, &words(&reply.numbers));
        put(&mut memory.trains, 0, &[reply.slots.len()]);
        put(&mut memory.row, 0, &reply.slots);
        (self.touch)(&reply, memory);
        reply.refusal as u64
    }

    fn value(&self, memory: &mut ValueMemory) -> u64 {
        let lent = memory.numbers.length();
        let outcome = self.outcome(memory.text.words(), memory.row.words(), lent);
        put(&mut memory.numbers, 0, &outcome.written(lent));
        outcome.refusal as u64
    }

    fn answer(&self, memory: &mut AnswerMemory) -> u64 {
        let answer = self.print(memory.0.words());
        let fits = answer.len() <= memory.1.length();
        let written = if fits { &answer[..] } else { &[] };
        put(&mut memory.1, 0, written);
        put(&mut memory.2, 0, &[written.len()]);
        (self.touch_answer)(&answer, memory);
        if fits {
            0
        } else {
            10
        }
    }

    fn check(&self, (text, lent_line): &mut CheckMemory) -> u64 {
        let (number, line) = self.checked(text.words());
        put(lent_line, 0, &[line as u64]);
        number as u64
    }
}
