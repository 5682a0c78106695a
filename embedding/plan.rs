//! Plans a day from Rust, through the C interface: reads a day file, prints the answer, then checks the text, plans it as slots and values
//! P1's row; what is refused it says in words.
//!
//!     tools/build yard
//!     rustc -O --edition 2021 -L target/staticlib -o target/plan_rs embedding/plan.rs
//!     target/plan_rs examples/p01.day

use std::io::Write;

/// The functions of include/yard.h, where their contracts stand.
mod sys {
    #[link(name = "yard", kind = "static")]
    extern "C" {
        pub fn yard_answer(text: *const u8, text_length: usize, out: *mut u8, out_length: usize, bytes: *mut usize) -> u64;
        pub fn yard_plan(
            text: *const u8,
            text_length: usize,
            row: *mut u8,
            row_length: usize,
            numbers: *mut u64,
            numbers_length: usize,
            trains: *mut usize,
        ) -> u64;
        pub fn yard_check(text: *const u8, text_length: usize, line: *mut u64) -> u64;
        pub fn yard_value(
            text: *const u8,
            text_length: usize,
            row: *const u8,
            row_length: usize,
            numbers: *mut u64,
            numbers_length: usize,
        ) -> u64;
    }
}

/// A refusal: its number and what it carries.
struct Refusal {
    number: u64,
    carries: [u64; NUMBERS],
}

impl std::fmt::Display for Refusal {
    fn fmt(&self, words: &mut std::fmt::Formatter) -> std::fmt::Result {
        let [first, last, trains, _] = self.carries;
        match self.number {
            1..=7 | 15 => write!(words, "no day file: refusal {}, line {first}", self.number),
            9 => write!(words, "no plan: {trains} trains are bound to the slots {first} to {last}"),
            16 => write!(words, "no plan keeps the groups"),
            17 => write!(words, "the row parts group {first}"),
            number => write!(words, "refusal {number}, {first}"),
        }
    }
}

/// YARD_ANSWER_BYTES, YARD_NUMBERS and YARD_MOST_TRAINS of yard.h: bytes that suffice for every answer, numbers of a row, trains that a day
/// has at most.
const ANSWER_BYTES: usize = 161;
const NUMBERS: usize = 4;
const MOST_TRAINS: usize = 12;

/// What yard-plan prints for a text.
fn answer(text: &[u8]) -> Vec<u8> {
    let mut out = vec![0u8; ANSWER_BYTES];
    let mut bytes = 0usize;
    // A slice has the length that it says, and the three do not overlap: that is all the function asks.
    let refusal = unsafe { sys::yard_answer(text.as_ptr(), text.len(), out.as_mut_ptr(), out.len(), &mut bytes) };
    assert_eq!(refusal, 0);
    out.truncate(bytes);
    out
}

/// Whether a text is a day file.
fn check(text: &[u8]) -> Result<(), Refusal> {
    let mut line = 0u64;
    match unsafe { sys::yard_check(text.as_ptr(), text.len(), &mut line) } {
        0 => Ok(()),
        number => Err(Refusal { number, carries: [line, 0, 0, 0] }),
    }
}

/// The slots of the plan, in the order of the day file.
fn plan(text: &[u8]) -> Result<Vec<u8>, Refusal> {
    let (mut row, mut numbers, mut trains) = (vec![0u8; MOST_TRAINS], [0u64; NUMBERS], 0usize);
    let (slots, four) = (row.as_mut_ptr(), numbers.as_mut_ptr());
    match unsafe { sys::yard_plan(text.as_ptr(), text.len(), slots, MOST_TRAINS, four, numbers.len(), &mut trains) } {
        0 => {
            row.truncate(trains);
            Ok(row)
        }
        number => Err(Refusal { number, carries: numbers }),
    }
}

/// Revisits, split moves, direct moves and cost of a row of slots.
fn value(text: &[u8], row: &[u8]) -> Result<[u64; NUMBERS], Refusal> {
    let mut numbers = [0u64; NUMBERS];
    let refusal = unsafe { sys::yard_value(text.as_ptr(), text.len(), row.as_ptr(), row.len(), numbers.as_mut_ptr(), numbers.len()) };
    match refusal {
        0 => Ok(numbers),
        number => Err(Refusal { number, carries: numbers }),
    }
}

/// Prints what the functions give for a text, up to the first refusal.
fn print_results(text: &[u8]) -> Result<(), Refusal> {
    check(text)?;
    println!("slots {:?}", plan(text)?);
    println!("row 2 1 1 2: {:?}", value(text, &[2, 1, 1, 2])?);
    Ok(())
}

fn main() -> std::io::Result<()> {
    let name = std::env::args().nth(1).expect("usage: plan_rs DAY");
    let text = std::fs::read(name)?;
    std::io::stdout().write_all(&answer(&text))?;
    if let Err(refusal) = print_results(&text) {
        println!("{refusal}");
    }
    Ok(())
}
