//! The plans of a day as yard_plan returns and as yard-plan prints them, held to
//! order 8 of 02.

use crate::call_plan::Memory;
use crate::fewest::{hold, Counts, Told};
use crate::header::MOST_TRAINS;
use crate::lent::Marks;
use crate::model::{Day, NUMBERS};
use crate::plan::first_overbooked;
use crate::process::{escaped, run, Feed};
use crate::valuing::assignment;

/// A plan, or the number of the refusal.
pub type Planned = Result<Told, usize>;

/// What yard_plan returns for a text.
pub fn by_library(text: &[u8], marks: Marks) -> Planned {
    let mut memory = Memory::lent(text, MOST_TRAINS, NUMBERS, marks);
    match memory.plan() {
        0 => {
            let (row, trains) = (memory.row.words(), memory.trains.words()[0]);
            let numbers = memory.numbers.words().iter().map(|&number| number as usize);
            let numbers: Vec<usize> = numbers.collect();
            // A number of slots that isn't the day's is no allowed row.
            Ok(told(&numbers, assignment(&row[..trains.min(MOST_TRAINS)])))
        }
        refusal => Err(refusal as usize),
    }
}

/// The first two of the numbers are the counts.
fn told(numbers: &[usize], slots: Vec<usize>) -> Told {
    Told { slots, counts: Counts { revisits: numbers[0], splits: numbers[1] } }
}

fn values(line: &str) -> Option<Vec<usize>> {
    line.split(' ').map(|field| field.parse().ok()).collect()
}

/// What an answer of yard-plan says. Each byte of it is the affair of mode
/// generated.
fn read_answer(answer: &str) -> Option<Planned> {
    let mut lines = answer.lines();
    let (names, numbers) = (lines.next()?, values(lines.next()?)?);
    if names.starts_with("refusal") {
        return Some(Err(*numbers.first()?));
    }
    let rows: Vec<Vec<usize>> = lines.skip(1).map(values).collect::<Option<_>>()?;
    let slots = rows.iter().map(|row| row.get(1).copied()).collect::<Option<_>>()?;
    (numbers.len() == NUMBERS).then(|| Ok(told(&numbers, slots)))
}

/// What the program prints for a text.
pub fn by_program(program: &str, text: &[u8]) -> Result<Planned, String> {
    let output = run(program, Feed::whole(text))?;
    let answer = String::from_utf8_lossy(&output);
    read_answer(&answer).ok_or_else(|| format!("\"{}\" is no answer", escaped(&output)))
}

/// The refusal of a day without an allowed row.
pub fn refusal(day: &Day) -> usize {
    if first_overbooked(day).is_some() {
        9
    } else {
        16
    }
}

/// Order 8 where rows are allowed, and the refusal where none is.
pub fn compare(day: &Day, least: Option<Counts>, planned: &Planned) -> Result<(), String> {
    match (least, planned) {
        (Some(least), Ok(told)) => hold(day, least, told),
        (None, Err(refused)) if *refused == refusal(day) => Ok(()),
        _ => Err(format!("{planned:?}, but {least:?} are fewest")),
    }
}
