//! Mode self, its part on the calls: 01's examples of refusals 10 to 13, the
//! order of a planning call's refusals, and memory that watches itself.

use crate::call_plan::planned;
use crate::call_workspace::Need;
use crate::case::{Case, Outcome};
use crate::day_file::read_day;
use crate::groups::Tests;
use crate::header::{prototypes, VERSION};
use crate::known::{day_text, KnownDay, KNOWN_DAYS, P1_MOVES, P1_TRAINS};
use crate::known_sets::GROUPED_DAYS;
use crate::lent::{lent_text, Lent, Marks};
use crate::model::Numbers;
use crate::valuing::valued;

fn known(name: &str) -> Vec<u8> {
    let named = |day: &&KnownDay| day.name == name;
    KNOWN_DAYS.iter().chain(&GROUPED_DAYS).find(named).expect("a day of this name").text()
}

/// Rows on P1's day, 2 tracks and 2 slots; the refusal and what it carries.
/// The first three are 01's.
const REFUSED_ROWS: [(&[u8], usize, usize); 11] = [
    (&[1, 1, 2], 11, 0),
    (&[0, 1, 2, 2], 12, 1),
    (&[1, 1, 1, 2], 13, 1),
    (&[], 11, 0),
    (&[1, 1, 2, 2, 2], 11, 0),
    (&[2, 1, 3, 255], 12, 3),
    (&[2, 1, 2, 3], 12, 4),
    (&[2, 1, 2, 2], 13, 2),
    (&[0, 1, 1, 1, 1], 11, 0),
    (&[1, 1, 1, 3], 12, 4),
    (&[1, 1, 1, 1], 13, 1),
];

fn check_valuing(tests: &mut Tests) {
    let day = read_day(&known("P1")).expect("a good day");
    for (slots, refusal, carried) in REFUSED_ROWS {
        let (found, wanted) = (valued(&day, slots), Outcome::carrying(refusal, carried));
        tests.check(found == wanted, &format!("{slots:?}: {found:?}, but 01 says {wanted:?}"));
    }
    let found = valued(&day, &[2, 1, 1, 2]);
    let wanted = Outcome { refusal: 0, numbers: [1, 15, 1, 16] };
    tests.check(found == wanted, &format!("P2: {found:?}, but 01 says {wanted:?}"));
    // One track, and each of two slots holds two trains.
    let day = read_day(&day_text("4 1 2 1 1", P1_TRAINS, P1_MOVES)).expect("a good day");
    let found = valued(&day, &[2, 1, 2, 1]);
    tests.check(found == Outcome::carrying(13, 1), &format!("the lower slot: {found:?}"));
}

/// The text, whether memory enough is lent, and how many numbers; the refusal,
/// the numbers and how many slots are written.
type Planning = (&'static str, bool, usize, usize, Numbers, usize);

const PLANNINGS: [Planning; 12] = [
    ("P1", true, 4, 0, [1, 7, 9, 8], 4),
    ("P1", false, 4, 10, [0, 0, 0, 0], 0),
    ("P1", true, 3, 10, [0, 0, 0, 0], 0),
    ("P9", true, 4, 9, [1, 1, 3, 0], 0),
    ("P9", false, 4, 10, [0, 0, 0, 0], 0),
    ("P9", true, 0, 10, [0, 0, 0, 0], 0),
    ("a group larger than G", true, 4, 16, [0, 0, 0, 0], 0),
    ("a group larger than G", false, 4, 10, [0, 0, 0, 0], 0),
    ("a group larger than G", true, 3, 10, [0, 0, 0, 0], 0),
    ("none", true, 6, 1, [1, 0, 0, 0], 0),
    ("none", false, 6, 1, [1, 0, 0, 0], 0),
    ("none", false, 3, 10, [0, 0, 0, 0], 0),
];

fn check_planning(tests: &mut Tests) {
    for (name, suffices, lent, refusal, numbers, trains) in PLANNINGS {
        let text = if name == "none" { Vec::new() } else { known(name) };
        let (found, slots) = planned(&Case::new(0, &text), suffices, lent);
        let holds = found == Outcome { refusal, numbers } && slots.len() == trains;
        tests.check(holds, &format!("{name}, {suffices}, {lent}: {found:?}, {slots:?}"));
        let written = found.written(lent).len();
        tests.check(written == if lent < 4 { 0 } else { 4 }, "numbers too few are written");
    }
    // 01's example of 10: 15 cost words, n = 4.
    let need = Need::of(4, 2);
    tests.check(need.met_by((16, 32, 4, 4)), "P1's areas don't suffice");
    for short in [(15, 32, 4, 4), (16, 31, 4, 4), (16, 32, 3, 4)] {
        tests.check(!need.met_by(short), &format!("{short:?} suffices for P1"));
    }
}

/// Writes one word at a place, counted from the first lent, and returns what
/// the memory says of it when its first two words were to be 7 and 8, when
/// none was to change, and when the first two were open.
fn after_writing(place: isize, marks: Marks) -> [bool; 3] {
    let mut lent: Lent<u16> = Lent::marked("lent", 4, marks);
    unsafe { *lent.pointer().wrapping_offset(place) = 0 };
    let mut written: Lent<u16> = Lent::marked("lent", 4, marks);
    for (word, at) in [(7, 0), (8, 1), (0, place)] {
        unsafe { *written.pointer().wrapping_offset(at) = word };
    }
    [written.holds(&[7, 8]).is_ok(), lent.kept().is_ok(), lent.kept_beyond(2).is_ok()]
}

fn check_lent(tests: &mut Tests) {
    for marks in [Marks::Low, Marks::High] {
        for place in [-64, -1, 0, 1, 2, 3, 4, 67] {
            let open = (0..2).contains(&place);
            let seen = after_writing(place, marks) == [false, false, open];
            tests.check(seen, &format!("a word written at {place} isn't seen, or is"));
        }
        let mut lent: Lent<u64> = Lent::marked("lent", 1, marks);
        tests.check(lent.kept().is_ok(), "memory has changed by itself");
        unsafe { *lent.pointer() = 7 };
        tests.check(lent.holds(&[7]).is_ok(), "what was written isn't there");
        let mut text = lent_text(b"7", marks);
        let byte = |text: &mut Lent<u8>, at| unsafe { *text.pointer().wrapping_offset(at) };
        let bytes = [byte(&mut text, 0), byte(&mut text, 1)];
        tests.check(bytes == *b"7\n" && text.length() == 1, "no byte 10 behind the text");
    }
}

fn check_header(tests: &mut Tests) {
    tests.check(VERSION == 3, "yard.h has another version than that of four numbers");
    let first = prototypes().first().cloned().unwrap_or_default();
    tests.check(first == "yard_version(void)", &format!("yard.h begins with {first}"));
}

pub fn check_calls(tests: &mut Tests) {
    check_valuing(tests);
    check_planning(tests);
    check_lent(tests);
    check_header(tests);
}
