//! The comparison of the four functions of long days with what they have to return
//! and leave in lent memory.

use crate::boxes::add_up;
use crate::case::unless_too_few;
use crate::day_file::Refusal;
use crate::draw::Random;
use crate::header::{LONG_ANSWER_BYTES, LONG_MOST_TRAINS};
use crate::lent::{lent_text, returned, Lent, Marks};
use crate::long_case::{plan_reply, value_outcome, Asked, LongCase, KINDS, LONG_NUMBERS};
use crate::long_functions::{plan_memory, Functions, PlanMemory, ValueMemory};
use crate::long_plan::expected_long;
use crate::long_trials::{long_trials, long_trials_unread};
use crate::model::NUMBERS;
use crate::seen::Seen;

// ---------------------------------------------------------------------------
// yard_long_plan
// ---------------------------------------------------------------------------

/// Lengths of row and numbers, for a day of so many trains, and whether they
/// suffice.
struct Lending {
    name: &'static str,
    row: fn(usize) -> usize,
    numbers: usize,
}

const fn lending(name: &'static str, row: fn(usize) -> usize, numbers: usize) -> Lending {
    Lending { name, row, numbers }
}

/// With these the day is planned. A length of 256 has no low bits.
const SUFFICIENT: [Lending; 5] = [
    lending("row n", |n| n, LONG_NUMBERS),
    lending("row n, 8 numbers", |n| n, 8),
    lending("row n + 5", |n| n + 5, LONG_NUMBERS),
    lending("row YARD_LONG_MOST_TRAINS, 7 numbers", |_| LONG_MOST_TRAINS, 7),
    lending("row 256, 256 numbers", |_| 256, 256),
];

const SHORT: [Lending; 9] = [
    lending("row n - 1", |n| n - 1, LONG_NUMBERS),
    lending("row n - 1, 9 numbers", |n| n - 1, 9),
    lending("no row", |_| 0, LONG_NUMBERS),
    lending("row n, no number", |n| n, 0),
    lending("row n, 1 number", |n| n, 1),
    lending("row n, 4 numbers", |n| n, NUMBERS),
    lending("row n, 5 numbers", |n| n, LONG_NUMBERS - 1),
    lending("row YARD_LONG_MOST_TRAINS, 5 numbers", |_| LONG_MOST_TRAINS, LONG_NUMBERS - 1),
    lending("no row, 3 numbers", |_| 0, 3),
];

/// Widths that get 21: beside the limits, and ones whose low bits are a width.
pub const BAD_WIDTHS: [u32; 8] = [0, 65, 66, 128, 256 + 30, 65_536 + 30, (1 << 31) + 1, u32::MAX];

fn on_kind(name: &str, kind: &str) -> String {
    format!("{name} on {kind}")
}

pub fn of_width(width: u32) -> String {
    format!("width {width}")
}

/// Of each bad width, whether the row suffices.
fn bad_width(width: u32, enough: bool) -> String {
    format!("width {width}, the row {}", if enough { "suffices" } else { "is short" })
}

pub fn required_plans() -> Vec<String> {
    let on_kinds = |lending: &Lending| KINDS.map(|kind| on_kind(lending.name, kind));
    let mut required: Vec<String> = SUFFICIENT.iter().chain(&SHORT).flat_map(on_kinds).collect();
    required.extend(BAD_WIDTHS.iter().flat_map(|&w| [true, false].map(|row| bad_width(w, row))));
    required
}

/// One call, and all memory as it has to be.
pub fn compare_plan(
    by: &dyn Functions,
    case: &LongCase,
    asked: &Asked,
    marks: Marks,
) -> Result<(), String> {
    let mut memory = plan_memory(case.text, asked.row, asked.numbers, marks);
    let got = by.plan(&mut memory, asked.width);
    let reply = plan_reply(case, asked);
    let PlanMemory { text, row, numbers, trains } = &memory;
    let complain = |what: String| format!("yard_long_plan, {asked:?}: {what}");
    returned(got, reply.refusal).map_err(complain)?;
    let wanted: Vec<u64> = reply.numbers.iter().map(|&number| number as u64).collect();
    numbers.holds(&wanted).map_err(complain)?;
    if got == 0 {
        add_up(case.boxes, numbers.words()).map_err(complain)?;
    }
    trains.holds(&[reply.slots.len()]).map_err(complain)?;
    row.holds(&reply.slots).map_err(complain)?;
    text.kept().map_err(complain)
}

/// The text at a width, with memory that suffices.
pub fn compare_width(
    by: &dyn Functions,
    case: &LongCase,
    width: usize,
    seen: &mut Seen,
) -> Result<(), String> {
    let turn = case.index + width;
    let Lending { name, row, numbers } = &SUFFICIENT[turn % SUFFICIENT.len()];
    seen.note(&on_kind(name, case.kind()));
    let asked = Asked { width: width as u32, row: row(case.supposed()), numbers: *numbers };
    compare_plan(by, case, &asked, Marks::of(turn / 2))
}

/// Where nothing is planned: memory that is too short, and widths that get 21, also
/// both at once.
pub fn compare_refused(by: &dyn Functions, case: &LongCase, seen: &mut Seen) -> Result<(), String> {
    let n = case.supposed();
    for (turn, Lending { name, row, numbers }) in SHORT.iter().enumerate() {
        seen.note(&on_kind(name, case.kind()));
        let turn = case.index + turn;
        let width = if turn % 3 == 0 { BAD_WIDTHS[turn % BAD_WIDTHS.len()] } else { 1 };
        for width in [width, 1] {
            let asked = Asked { width, row: row(n), numbers: *numbers };
            compare_plan(by, case, &asked, Marks::of(turn))?;
        }
    }
    for (turn, width) in BAD_WIDTHS.into_iter().enumerate() {
        for row in [n, n - 1] {
            seen.note_if(case.read.is_ok(), &bad_width(width, row == n));
            let asked = Asked { width, row, numbers: LONG_NUMBERS };
            compare_plan(by, case, &asked, Marks::of(case.index + turn))?;
        }
    }
    Ok(())
}

// ---------------------------------------------------------------------------
// yard_long_check, yard_long_value and yard_long_answer
// ---------------------------------------------------------------------------

pub fn compare_check(by: &dyn Functions, case: &LongCase) -> Result<(), String> {
    let (number, line) = match case.read {
        Ok(_) => (0, 0),
        Err(Refusal { number, line }) => (number, line),
    };
    for marks in [Marks::High, Marks::Low] {
        let mut memory = (lent_text(case.text, marks), Lent::marked("line", 1, marks));
        let got = by.check(&mut memory);
        let (text, lent_line) = &memory;
        let compared = returned(got, number);
        let compared = compared.and_then(|()| lent_line.holds(&[line as u64]));
        compared.and_then(|()| text.kept()).map_err(|what| format!("yard_long_check: {what}"))?;
    }
    Ok(())
}

const SEED: u64 = 41_000_000;

/// Numbers lent to valuing: enough, and too few, in turn.
const ENOUGH: [usize; 4] = [NUMBERS, 6, 5, 256];
const TOO_FEW: [usize; 4] = [0, 1, 2, 3];

/// What valuing has to be seen to return.
const VALUED: [&str; 5] = ["valued: 0", "valued: 1 to 7", "valued: 11", "valued: 12", "valued: 13"];

pub fn required_values() -> Vec<String> {
    VALUED.map(str::to_string).to_vec()
}

fn note_value(seen: &mut Seen, refusal: usize) {
    seen.note(match refusal {
        0 => VALUED[0],
        11 => VALUED[2],
        12 => VALUED[3],
        13 => VALUED[4],
        _ => VALUED[1],
    });
}

fn compare_value_of(
    by: &dyn Functions,
    case: &LongCase,
    slots: &[u8],
    lent: usize,
    marks: Marks,
) -> Result<(), String> {
    let outcome = unless_too_few(lent, value_outcome(case, slots));
    let mut memory = ValueMemory::lent(case.text, slots, lent, marks);
    let got = by.value(&mut memory);
    memory.compare(got, &outcome, lent, case.boxes)
}

/// Rows of all kinds; `planned` is an allowed one, where there is one.
pub fn compare_value(
    by: &dyn Functions,
    case: &LongCase,
    planned: Option<&[usize]>,
    seen: &mut Seen,
) -> Result<(), String> {
    let mut random = Random(SEED + case.index as u64);
    let rows = match &case.read {
        Ok(day) => long_trials(&mut random, day, planned),
        Err(_) => long_trials_unread(&mut random),
    };
    for (turn, slots) in rows.iter().enumerate() {
        note_value(seen, value_outcome(case, slots).refusal);
        let next = case.index + turn;
        for lent in [ENOUGH[next % ENOUGH.len()], TOO_FEW[next % TOO_FEW.len()]] {
            compare_value_of(by, case, slots, lent, Marks::of(next))
                .map_err(|what| format!("yard_long_value, {slots:?}, {lent} numbers: {what}"))?;
        }
    }
    Ok(())
}

/// Bytes lent, for an answer of so many; the last length has no low bits.
const OUTS: [fn(usize) -> usize; 6] =
    [|bytes| bytes, |bytes| bytes - 1, |_| 0, |bytes| bytes + 1, |_| LONG_ANSWER_BYTES, |_| 65_536];

/// So many of the lengths in turn, for each plans the day again.
pub fn compare_answer(by: &dyn Functions, case: &LongCase, tried: usize) -> Result<(), String> {
    let answer = expected_long(case.text);
    for turn in (case.index..).take(tried) {
        let (lent, marks) = (OUTS[turn % OUTS.len()](answer.len()), Marks::of(turn));
        let mut memory = (
            lent_text(case.text, marks),
            Lent::marked_room("out", lent, LONG_ANSWER_BYTES, marks),
            Lent::marked("bytes", 1, marks),
        );
        let got = by.answer(&mut memory);
        let (text, out, bytes) = &memory;
        let (refusal, written) = if lent < answer.len() { (10, &[][..]) } else { (0, &answer[..]) };
        let compared = returned(got, refusal).and_then(|()| bytes.holds(&[written.len()]));
        let compared = compared.and_then(|()| out.holds(written)).and_then(|()| text.kept());
        compared.map_err(|what| format!("yard_long_answer, {lent} bytes lent: {what}"))?;
    }
    Ok(())
}
