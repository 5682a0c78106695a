//! Mode moving: lists of calls of order 7's five functions on moving days, each
//! call in marked memory; and lists worked out by hand.

use crate::groups::{Tests, MOST_DIFFERENCES};
use crate::known_moving::KNOWN_LISTS;
use crate::lent::Marks;
use crate::moving_call::{Room, EXACT};
use crate::moving_memory::by_library;
use crate::moving_required::{by, required, EACH};
use crate::moving_rules::named_checks;
use crate::moving_texts::compare_texts;
use crate::moving_walk::{compare, Walk};
use crate::seen::{require_all, Seen, LEAST_SEEN};
use crate::stack::compare_moving_in_little_stack;
use crate::threads::move_at_once;

pub const LISTS: u64 = 5000;
pub const SEED: u64 = 16_000_000;

/// More of everything than suffices.
const MORE: Room = Room {
    numbers: EXACT.numbers + 3,
    day: EXACT.day + 1,
    next: EXACT.next + 1,
    cost: EXACT.cost + 1,
    choice: EXACT.choice + 1,
};

/// The library against what was worked out by hand.
fn known_lists(tests: &mut Tests) {
    for list in KNOWN_LISTS {
        let ways = [(EXACT, Marks::High), (MORE, Marks::Low), (EXACT, Marks::Zeros)];
        for (room, marks) in ways {
            for (call, wanted) in list.calls(room) {
                let compared = compare(&call, &wanted, &by_library, marks);
                tests.check(compared.is_ok(), &format!("{}\n  {compared:?}", list.name));
            }
        }
    }
}

fn drawn_lists(tests: &mut Tests, seen: &mut Seen) {
    let (mut lists, mut calls) = (0, 0);
    for seed in (SEED..).take(LISTS as usize) {
        if tests.stopped() {
            println!("stopped after {MOST_DIFFERENCES} differences");
            break;
        }
        let mut walk = Walk::new(seed, &by_library, Some(&mut *seen));
        let compared = walk.list();
        (lists, calls) = (lists + 1, calls + walk.calls);
        tests.passed += walk.calls;
        if let Err(what) = compared {
            tests.fail(&format!("seed {seed}, call {}\n  {what}", walk.calls + 1));
        }
    }
    println!("{lists} lists, {calls} calls");
}

/// How often each function was taken, and refused with what.
fn print_counts(seen: &Seen) {
    for asked in EACH {
        let checks = named_checks(&asked).into_iter().map(|(name, _)| name);
        let names = ["taken"].into_iter().chain(checks).chain(["9", "16"]);
        let counted = names.map(|name| (name, seen.count(&by(asked.name(), name))));
        let counted = counted.filter(|(_, count)| *count > 0);
        let shown: Vec<String> = counted.map(|(name, count)| format!("{name}: {count}")).collect();
        println!("{}: {}", asked.name(), shown.join(", "));
    }
}

pub fn moving() -> bool {
    let mut tests = Tests::new("");
    let mut seen = Seen::default();
    known_lists(&mut tests);
    compare_texts(&mut tests);
    drawn_lists(&mut tests, &mut seen);
    if !tests.stopped() {
        require_all(&mut tests, &seen, &required(), LEAST_SEEN);
        move_at_once(&mut tests);
        compare_moving_in_little_stack(&mut tests);
    }
    print_counts(&seen);
    tests.finish()
}
