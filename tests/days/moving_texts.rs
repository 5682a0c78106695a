//! The five functions on texts of any kind: those of mode calls that no list
//! comes to, and the greatest days.

use crate::case::Case;
use crate::groups::Tests;
use crate::lent::Marks;
use crate::moving_call::{Call, State, EXACT, NAMES};
use crate::moving_great::great_calls;
use crate::moving_memory::by_library;
use crate::moving_required::EACH;
use crate::moving_rules::{reply, RULES};
use crate::moving_walk::compare;
use crate::special::special_texts;
use crate::texts::{damaged_texts, known_texts};

const DAMAGED: usize = 700;

/// Each function on the text. The row is the plan, where there is one, and the
/// closed slots are none or one.
fn compare_on(tests: &mut Tests, which: &str, text: &[u8], index: usize) {
    let plan = Case::new(index, text).plan().map(|plan| plan.assignment.clone());
    let row: Vec<u8> = plan.unwrap_or(vec![1]).iter().map(|&slot| slot as u8).collect();
    for (turn, asked) in EACH.into_iter().enumerate() {
        let closed = (index % 2) as u32;
        let state = State { text: text.to_vec(), closed, row: row.clone() };
        let call = Call { asked, state, room: EXACT };
        let wanted = reply(&RULES, &call);
        match compare(&call, &wanted, &by_library, Marks::of(index + turn)) {
            Ok(_) => tests.passed += 1,
            Err(what) => tests.fail(&format!("{which}\n  {what}")),
        }
    }
}

pub fn compare_texts(tests: &mut Tests) {
    let texts = known_texts().chain(special_texts()).chain(damaged_texts().take(DAMAGED));
    for (index, (which, text)) in texts.enumerate() {
        if !tests.stopped() {
            compare_on(tests, &which, &text, index);
        }
    }
    for (turn, (call, wanted)) in NAMES.into_iter().flat_map(great_calls).enumerate() {
        let compared = compare(&call, &wanted, &by_library, Marks::of(turn));
        tests.check(compared.is_ok(), &format!("a great day\n  {compared:?}"));
    }
}
