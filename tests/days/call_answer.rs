//! yard_answer: the bytes that yard-plan prints, or 10 where they don't fit.

use crate::case::{Case, KINDS};
use crate::header::ANSWER_BYTES;
use crate::lent::{lent_text, returned, Lent, Marks};
use crate::plan::write_answer;
use crate::rotation::chosen;
use crate::seen::Seen;
use crate::sys;

/// Bytes lent, for an answer of so many.
type Lending = (&'static str, fn(usize) -> usize);

/// The last lengths have no low bits.
const LENDINGS: [Lending; 7] = [
    ("as many as the answer has", |bytes| bytes),
    ("one fewer", |bytes| bytes - 1),
    ("none", |_| 0),
    ("one more", |bytes| bytes + 1),
    ("YARD_ANSWER_BYTES", |_| ANSWER_BYTES),
    ("256", |_| 256),
    ("65,536", |_| 65536),
];

pub fn required() -> Vec<String> {
    let tried = |(name, _): &Lending| KINDS.map(|kind| format!("{name} on {kind}"));
    LENDINGS.iter().flat_map(tried).collect()
}

fn compare_one(case: &Case, answer: &[u8], lent: usize, marks: Marks) -> Result<(), String> {
    let mut text = lent_text(case.text, marks);
    let mut out = Lent::marked_room("out", lent, ANSWER_BYTES, marks);
    let mut bytes = Lent::marked("bytes", 1, marks);
    let got = unsafe {
        sys::yard_answer(
            text.pointer(),
            text.length(),
            out.pointer(),
            out.length(),
            bytes.pointer(),
        )
    };
    let (refusal, written) = if lent < answer.len() { (10, &[][..]) } else { (0, answer) };
    returned(got, refusal)?;
    bytes.holds(&[written.len()])?;
    out.holds(written)?;
    text.kept()
}

pub fn compare(case: &Case, seen: &mut Seen) -> Result<(), String> {
    let answer = write_answer(&case.answer);
    for (turn, (name, length)) in LENDINGS.iter().enumerate() {
        // Whatever is lent, the call has to plan to know.
        if !chosen(case, turn, LENDINGS.len()) {
            continue;
        }
        seen.note(&format!("{name} on {}", case.kind()));
        let lent = length(answer.len());
        compare_one(case, &answer, lent, Marks::of(case.index + turn))
            .map_err(|what| format!("{lent} bytes lent: {what}"))?;
    }
    Ok(())
}
