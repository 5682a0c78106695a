//! Little stack: the functions run in what yard.h says they need. Where it is
//! not enough a process ends at once, so each function has one of its own.

use crate::calls::CALLS;
use crate::case::Case;
use crate::day_file::write_day;
use crate::groups::Tests;
use crate::header::{CHOICE_WORDS, COST_WORDS};
use crate::lent::Marks;
use crate::library::{planned, BASELINES};
use crate::moving_great::great_calls;
use crate::moving_memory::by_library;
use crate::seen::Seen;
use crate::special::{dearest_day, greatest_day, greatest_ungrouped};
use crate::{moving_call, moving_walk};
use std::process::Command;
use std::thread::Builder;

/// The stack that yard.h says the functions need.
const STACK: usize = 160 << 10;

/// The function that is lent the two work areas, and what they take: it has to
/// run where they would not fit.
const AREAS_LENT: &str = "yard_plan_in_workspace";
const AREAS: usize = COST_WORDS * size_of::<u64>() + CHOICE_WORDS * size_of::<u16>();

/// The same of the functions of a moving day, in the stack that yard.h says.
const MOVING_STACK: usize = 64 << 10;

/// What a thread and the comparison take besides.
const OWN: usize = 12 << 10;

fn names() -> impl Iterator<Item = &'static str> {
    CALLS.iter().map(|call| call.name).chain(BASELINES.iter().map(|baseline| baseline.name))
}

fn is_moving(name: &str) -> bool {
    moving_call::NAMES.contains(&name)
}

/// Calls the function of this name on a text.
fn compare(name: &str, text: &[u8]) -> Result<(), String> {
    for call in CALLS.iter().filter(|call| call.name == name) {
        (call.compare)(&Case::new(0, text), &mut Seen::default())?;
    }
    for baseline in BASELINES.iter().filter(|baseline| baseline.name == name) {
        baseline.compare(text, &baseline.expected(&planned(text)))?;
    }
    Ok(())
}

/// Mode stack: the function in a thread of little stack, on days that need the
/// most memory.
pub fn little_stack(name: &str) -> bool {
    if is_moving(name) {
        return little_moving_stack(name);
    }
    if !names().any(|known| known == name) {
        println!("no function {name}");
        return false;
    }
    let stack = if name == AREAS_LENT { AREAS - OWN } else { STACK };
    let name = name.to_string();
    let days = [greatest_day(), greatest_ungrouped(), dearest_day()];
    let texts = days.map(|day| write_day(&day));
    in_stack(stack, move || texts.iter().try_for_each(|text| compare(&name, text)))
}

/// What the calls have to give is found before, for that takes stack as well.
fn little_moving_stack(name: &str) -> bool {
    let calls = great_calls(name);
    in_stack(MOVING_STACK, move || {
        calls.iter().try_for_each(|(call, wanted)| {
            moving_walk::compare(call, wanted, &by_library, Marks::High).map(drop)
        })
    })
}

/// Runs this in a thread of so much stack.
fn in_stack(stack: usize, run: impl FnOnce() -> Result<(), String> + Send + 'static) -> bool {
    let thread = Builder::new().stack_size(stack + OWN).spawn(run);
    match thread.map(|thread| thread.join()) {
        Ok(Ok(Ok(()))) => true,
        found => {
            println!("{found:?}");
            false
        }
    }
}

/// Runs mode stack in this program again, for each function of mode calls and of
/// the baselines.
pub fn compare_in_little_stack(tests: &mut Tests) {
    run_again(tests, names());
}

/// The same for the functions of a moving day.
pub fn compare_moving_in_little_stack(tests: &mut Tests) {
    run_again(tests, moving_call::NAMES.into_iter());
}

fn run_again(tests: &mut Tests, names: impl Iterator<Item = &'static str>) {
    for name in names {
        let again = std::env::current_exe();
        let status = again.and_then(|program| Command::new(program).args(["stack", name]).status());
        match status {
            Ok(status) if status.success() => tests.passed += 1,
            found => tests.fail(&format!("{name} in little stack: {found:?}")),
        }
    }
}
