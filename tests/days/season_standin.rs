//! A stand-in of the two functions of a season, by rules of the caller's choice. Mode
//! self gives it mistakes, and the comparison has to tell them.

use crate::moving_standin::put;
use crate::season::{days_of, figures, report_lines, Figures, MOST_DAYS, SEASON_NUMBERS, TOO_MANY};
use crate::season_day::{facts_of, Facts};
use crate::season_functions::{AnswerMemory, Functions, SeasonMemory};

#[derive(Clone, Copy)]
pub struct StandIn {
    pub days: fn(&[u8]) -> Vec<Vec<u8>>,
    pub facts: fn(&[u8]) -> Facts,
    /// Whether there are too many of these days.
    pub too_many: fn(&[Vec<u8>]) -> bool,
    pub figures: fn(&[Facts]) -> Figures,
    /// What is told after 22.
    pub no_figures: fn(&[Vec<u8>]) -> Figures,
    pub lines: fn(&Figures) -> String,
    pub no_lines: fn(&[Vec<u8>]) -> String,
    /// Numbers that suffice, and bytes for an answer of so many.
    pub numbers_needed: usize,
    pub bytes_needed: fn(usize) -> usize,
    /// What is returned where memory is short or not, days are too many or not.
    pub checks: fn(bool, bool) -> u64,
    pub answer_checks: fn(bool, bool) -> u64,
    /// Write on after the call has written; they know what is returned, and the answer.
    pub touch: fn(u64, &mut SeasonMemory),
    pub touch_answer: fn(&[u8], &mut AnswerMemory),
}

pub const SOUND: StandIn = StandIn {
    days: days_of,
    facts: facts_of,
    too_many: |days| days.len() > MOST_DAYS,
    figures,
    no_figures: |_| [0; SEASON_NUMBERS],
    lines: report_lines,
    no_lines: |_| TOO_MANY.to_string(),
    numbers_needed: SEASON_NUMBERS,
    bytes_needed: |bytes| bytes,
    checks: |short, too_many| if short { 10 } else { u64::from(too_many) * 22 },
    answer_checks: |short, _| if short { 10 } else { 0 },
    touch: |_, _| {},
    touch_answer: |_, _| {},
};

impl StandIn {
    fn figures_of(&self, days: &[Vec<u8>]) -> Figures {
        let facts: Vec<Facts> = days.iter().map(|day| (self.facts)(day)).collect();
        (self.figures)(&facts)
    }

    /// The figures, zeros beside 22, and whether days are too many.
    pub fn report(&self, text: &[u8]) -> (Figures, bool) {
        let days = (self.days)(text);
        match (self.too_many)(&days) {
            true => ((self.no_figures)(&days), true),
            false => (self.figures_of(&days), false),
        }
    }

    pub fn print(&self, text: &[u8]) -> (Vec<u8>, bool) {
        let days = (self.days)(text);
        let too_many = (self.too_many)(&days);
        let lines = match too_many {
            true => (self.no_lines)(&days),
            false => (self.lines)(&self.figures_of(&days)),
        };
        (lines.into_bytes(), too_many)
    }
}

impl Functions for StandIn {
    fn season(&self, memory: &mut SeasonMemory) -> u64 {
        let short = memory.1.length() < self.numbers_needed;
        let (told, too_many) = self.report(memory.0.words());
        if !short {
            put(&mut memory.1, 0, &told);
        }
        let returned = (self.checks)(short, too_many);
        (self.touch)(returned, memory);
        returned
    }

    fn answer(&self, memory: &mut AnswerMemory) -> u64 {
        let (answer, too_many) = self.print(memory.0.words());
        let short = memory.1.length() < (self.bytes_needed)(answer.len());
        let written = if short { &[][..] } else { &answer[..] };
        put(&mut memory.1, 0, written);
        put(&mut memory.2, 0, &[written.len()]);
        (self.touch_answer)(&answer, memory);
        (self.answer_checks)(short, too_many)
    }
}
