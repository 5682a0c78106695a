//! The comparison of the two functions of a season with what they have to return and
//! leave in lent memory (order 10 of 02, include/yard.h).

use crate::header::SEASON_ANSWER_BYTES;
use crate::lent::{lent_text, returned, Lent, Marks};
use crate::season::{answered_season, season, Figures, SEASON_BYTES_READ, SEASON_NUMBERS};
use crate::season_functions::{season_memory, Functions};
use crate::seen::Seen;

/// A text with its report, found once for all calls.
pub struct SeasonCase<'a> {
    /// The running number of the text, by which ways to call take turns.
    pub index: usize,
    pub text: &'a [u8],
    /// Nothing where there are too many days.
    pub told: Option<Figures>,
    pub answer: Vec<u8>,
}

impl SeasonCase<'_> {
    pub fn new(index: usize, text: &[u8]) -> SeasonCase<'_> {
        let told = season(text);
        SeasonCase { index, text, told, answer: answered_season(text) }
    }

    /// Of the text, for counting what was tried on it.
    pub fn kind(&self) -> &'static str {
        match self.told {
            None => KINDS[2],
            Some(told) if told[0] == 0 => KINDS[1],
            Some(_) => KINDS[0],
        }
    }
}

pub const KINDS: [&str; 3] = ["a season", "a season without a plan", "days too many"];

// ---------------------------------------------------------------------------
// yard_season
// ---------------------------------------------------------------------------

/// Numbers lent: just enough, and more; a length of 256 has no low bits.
const ENOUGH: [usize; 5] =
    [SEASON_NUMBERS, SEASON_NUMBERS + 1, SEASON_NUMBERS + 7, 256, 65_536 + 39];

/// Too few: the next one to enough, none, and as many as parts of the report.
const TOO_FEW: [usize; 7] = [SEASON_NUMBERS - 1, 0, 1, 4, 27, 32, 38];

fn lent_on(lent: usize, kind: &str) -> String {
    format!("{lent} numbers on {kind}")
}

pub fn required_numbers() -> Vec<String> {
    let lent = ENOUGH.iter().chain(&TOO_FEW);
    lent.flat_map(|&lent| KINDS.map(|kind| lent_on(lent, kind))).collect()
}

/// One call, and all memory as it has to be. 10 comes before 22.
pub fn compare_numbers_lent(
    by: &dyn Functions,
    case: &SeasonCase,
    lent: usize,
    marks: Marks,
) -> Result<(), String> {
    let mut memory = season_memory(case.text, lent, marks);
    let got = by.season(&mut memory);
    let (text, numbers) = &memory;
    let (refusal, written) = match case.told {
        _ if lent < SEASON_NUMBERS => (10, &[][..]),
        None => (22, &[0; SEASON_NUMBERS][..]),
        Some(ref told) => (0, &told[..]),
    };
    let compared = returned(got, refusal).and_then(|()| numbers.holds(written));
    compared.and_then(|()| text.kept()).map_err(|what| format!("yard_season, {lent} lent: {what}"))
}

/// Just enough numbers and one more way that suffices, 39 and one more that doesn't.
/// How many calls were compared.
pub fn compare_numbers(
    by: &dyn Functions,
    case: &SeasonCase,
    seen: &mut Seen,
) -> Result<usize, String> {
    let turn = |lent: &[usize]| lent[1 + case.index % (lent.len() - 1)];
    let rooms = [ENOUGH[0], turn(&ENOUGH), TOO_FEW[0], turn(&TOO_FEW)];
    for (place, lent) in rooms.into_iter().enumerate() {
        seen.note(&lent_on(lent, case.kind()));
        compare_numbers_lent(by, case, lent, Marks::of(case.index + place))?;
    }
    Ok(rooms.len())
}

// ---------------------------------------------------------------------------
// yard_season_answer
// ---------------------------------------------------------------------------

/// Bytes lent, for an answer of so many; the last length has no low bits.
type Out = (&'static str, fn(usize) -> usize);

const OUTS: [Out; 6] = [
    ("just enough", |bytes| bytes),
    ("one byte short", |bytes| bytes - 1),
    ("none", |_| 0),
    ("one byte more", |bytes| bytes + 1),
    ("YARD_SEASON_ANSWER_BYTES", |_| SEASON_ANSWER_BYTES),
    ("65,536", |_| 65_536),
];

pub fn required_answers() -> Vec<String> {
    OUTS.iter().flat_map(|(name, _)| KINDS.map(|kind| format!("{name} on {kind}"))).collect()
}

pub fn compare_answer_lent(
    by: &dyn Functions,
    case: &SeasonCase,
    lent: usize,
    marks: Marks,
) -> Result<(), String> {
    let mut memory = (
        lent_text(case.text, marks),
        Lent::marked_room("out", lent, SEASON_ANSWER_BYTES, marks),
        Lent::marked("bytes", 1, marks),
    );
    let got = by.answer(&mut memory);
    let (text, out, bytes) = &memory;
    let answer = &case.answer;
    let (refusal, written) = if lent < answer.len() { (10, &[][..]) } else { (0, &answer[..]) };
    let compared = returned(got, refusal).and_then(|()| bytes.holds(&[written.len()]));
    let compared = compared.and_then(|()| out.holds(written)).and_then(|()| text.kept());
    compared.map_err(|what| format!("yard_season_answer, {lent} bytes lent: {what}"))
}

/// So many of the lengths in turn. For texts that the program doesn't read whole yard.h
/// leaves open what the function writes.
pub fn compare_answer(
    by: &dyn Functions,
    case: &SeasonCase,
    tried: usize,
    seen: &mut Seen,
) -> Result<usize, String> {
    if case.text.len() > SEASON_BYTES_READ {
        return Ok(0);
    }
    for turn in (case.index..).take(tried) {
        let (name, length) = OUTS[turn % OUTS.len()];
        seen.note(&format!("{name} on {}", case.kind()));
        compare_answer_lent(by, case, length(case.answer.len()), Marks::of(turn))?;
    }
    Ok(tried)
}
