//! Mode long: long days through the four functions of the library and through
//! yard-long.

use crate::day_file::Refusal;
use crate::draw::Random;
use crate::generated::draw_pieces;
use crate::groups::{Tests, MOST_DIFFERENCES};
use crate::header;
use crate::lent::Marks;
use crate::long_calls::{
    compare_answer, compare_check, compare_plan, compare_refused, compare_value, compare_width,
    of_width, required_plans, required_values,
};
use crate::long_case::{Asked, LongCase, Reply, LONG_NUMBERS};
use crate::long_day::{
    write_long, LONG_BYTES_ACCEPTED, LONG_BYTES_PRINTED, LONG_BYTES_READ, LONG_TRAINS, MOST_WIDTH,
    USUAL_WIDTH,
};
use crate::long_fast::work;
use crate::long_functions::Library;
use crate::long_known::{greatest_long, longest_plan_long, KnownPlan, GREAT_LONG, KNOWN_LONG};
use crate::long_plan::{expected_long, LongPlan};
use crate::long_rows::{best_row, hold_to, rows_within, MOST_ROWS};
use crate::long_special::{long_line_end_texts, long_special_texts, very_long_texts};
use crate::long_texts::{
    damaged_long_texts, great_texts, known_long_texts, middle_texts, small_texts, source_texts,
};
use crate::process::{compare, compare_file, escaped, Feed};
use crate::seen::{require_all, Seen};
use crate::special::tiny_texts;
use crate::texts::Named;
use crate::threads::at_once;
use std::fs;
use std::time::Instant;

const SMALL_DAYS: usize = 2000;
const MIDDLE_DAYS: usize = 200;
const GREAT_DAYS: usize = 150;
const DAMAGED_TEXTS: usize = 2500;

/// One in so many small days is planned at all widths.
const ALL_WIDTHS: usize = 12;

/// Widths of the middling days.
const MIDDLE_WIDTHS: [usize; 6] = [1, 6, USUAL_WIDTH - 1, USUAL_WIDTH, USUAL_WIDTH + 1, MOST_WIDTH];

/// Widths of the days of many trains. The greatest ones are tried where a search
/// looks at no more children than this.
const GREAT_WIDTHS: [usize; 5] = [1, 2, 5, USUAL_WIDTH, MOST_WIDTH];
const GREAT_WORK: usize = 1_200_000;

/// Texts that the program runs of each group, and texts cut into pieces.
const RUN_SMALL: usize = 500;
const RUN_MIDDLE: usize = 100;
const RUN_GREAT: usize = 40;
const RUN_DAMAGED: usize = 1000;
const PIECED: usize = 16;
const PIECES_SEED: u64 = 45_000_000;

/// What has to be seen of plans, each so often.
const LEAST_SEEN: usize = 20;

/// The width of the answers is told from its neighbours on few days.
const LEAST_RARE: usize = 4;

const SMALL_PLANS: [&str; 9] = [
    "number 0",
    "number 1",
    "number 2 or more",
    "dearer than the best row",
    "as cheap as the best row, another one",
    "the best row though the number isn't 0",
    "the lower figure is the cost",
    "a lower figure between 0 and the cost",
    "a lower figure 0, yet a cost",
];

const WIDER: [&str; 2] = ["a greater width is cheaper", "a greater width gives another row"];

const MIDDLE: [&str; 2] = ["width 29 isn't width 30", "width 31 isn't width 30"];

const GREAT_PLANS: [&str; 9] = [
    "great: a cost of 2^32 or more",
    "great: a lower figure of 2^32 or more",
    "great: slots 10 to 12",
    "great: 30 trains or more",
    "great: more than 9 revisits",
    "great: split moves of 2^16 or more",
    "great: direct moves of 2^12 or more",
    "great: number 5 or more",
    "great: number 0",
];

const LINES: [&str; 3] =
    ["a line of two digits", "a line of three digits", "a line of four digits"];

fn refused(number: usize) -> String {
    format!("refusal {number}")
}

fn at_great_width(width: usize) -> String {
    format!("great: width {width}")
}

fn required() -> Vec<String> {
    let lists: [&[&str]; 4] = [&SMALL_PLANS, &WIDER, &GREAT_PLANS, &LINES];
    let mut required: Vec<String> = lists.concat().into_iter().map(str::to_string).collect();
    required.extend((1..=MOST_WIDTH as u32).map(of_width));
    required.extend(GREAT_WIDTHS.map(at_great_width));
    required.extend((1..=7).map(refused));
    required.extend(required_plans());
    required.extend(required_values());
    required
}

/// The running test: texts through the functions.
struct Run {
    tests: Tests<'static>,
    seen: Seen,
    /// What a day shows seldom.
    rare: Seen,
    index: usize,
    started: Instant,
}

/// How often something was compared, with what was seen, and what of it is rare.
type Judge = fn(&LongCase, &mut Seen, &mut Seen) -> Result<usize, String>;

impl Run {
    /// Each text by the comparison, which counts.
    fn group(&mut self, name: &str, texts: impl Iterator<Item = Named>, judge: Judge) {
        let (mut count, before) = (0, self.tests.passed);
        for (which, text) in texts {
            if self.tests.stopped() {
                break;
            }
            let case = LongCase::new(self.index, &text);
            self.index += 1;
            count += 1;
            match judge(&case, &mut self.seen, &mut self.rare) {
                Ok(compared) => self.tests.passed += compared,
                Err(what) => {
                    let text = escaped(&text);
                    self.tests.fail(&format!("group {name}, {which}\n  text \"{text}\"\n  {what}"));
                }
            }
        }
        self.told(name, count, before);
    }

    fn told(&self, name: &str, count: usize, before: usize) {
        let (compared, seconds) = (self.tests.passed - before, self.started.elapsed().as_secs());
        println!("{name:<10} {count:>5} texts, {compared:>6} comparisons, {seconds:>3} s so far");
    }
}

// ---------------------------------------------------------------------------
// Through the functions
// ---------------------------------------------------------------------------

/// What every text goes through beside planning at widths that aren't refused.
fn judge_text(case: &LongCase, seen: &mut Seen, answers: usize) -> Result<usize, String> {
    if let Err(Refusal { number, line }) = case.read {
        seen.note(&refused(number));
        let digits = [line > 9, line > 99, line > 999];
        LINES.into_iter().zip(digits).for_each(|(what, holds)| seen.note_if(holds, what));
    }
    let row = case.planned(1).and_then(Result::ok).map(|plan| plan.row);
    compare_check(&Library, case)?;
    compare_refused(&Library, case, seen)?;
    compare_value(&Library, case, row.as_deref(), seen)?;
    compare_answer(&Library, case, answers)?;
    Ok(4)
}

fn note_small(seen: &mut Seen, plan: &LongPlan, best: &[usize], least: usize) {
    let cost = plan.value.cost;
    let kinds = [
        plan.full == 0,
        plan.full == 1,
        plan.full > 1,
        cost > least,
        cost == least && plan.row != best,
        plan.full > 0 && plan.row == best,
        plan.lower == cost && cost > 0,
        0 < plan.lower && plan.lower < cost,
        plan.lower == 0 && cost > 0,
    ];
    SMALL_PLANS.into_iter().zip(kinds).for_each(|(what, holds)| seen.note_if(holds, what));
}

/// Some widths, or all; and what order 9 says of each plan, beside all rows.
fn judge_small(case: &LongCase, seen: &mut Seen, _: &mut Seen) -> Result<usize, String> {
    let day = case.read.as_ref().expect("a drawn day");
    let widths: Vec<usize> = match case.index % ALL_WIDTHS {
        0 => (1..=MOST_WIDTH).collect(),
        _ => vec![1, 2, 3, 4 + case.index % 5, 1 + case.index * 7 % MOST_WIDTH],
    };
    let mut count = judge_text(case, seen, 2)?;
    let best = (rows_within(day) <= MOST_ROWS).then(|| best_row(day));
    let mut before: Option<LongPlan> = None;
    for width in widths {
        seen.note(&of_width(width as u32));
        compare_width(&Library, case, width, seen)?;
        let planned = case.planned(width).expect("a day");
        count += 1;
        if let Some(best) = &best {
            hold_to(day, best, &planned).map_err(|what| format!("width {width}: {what}"))?;
            count += 1;
            if let (Some(best), Ok(plan)) = (best, &planned) {
                note_small(seen, plan, best, day.value(best).cost);
            }
        }
        if let Ok(plan) = planned {
            if let Some(before) = before {
                seen.note_if(plan.value.cost < before.value.cost, WIDER[0]);
                seen.note_if(plan.row != before.row, WIDER[1]);
            }
            before = Some(plan);
        }
    }
    Ok(count)
}

/// Widths around that of the answers, which each of them cuts.
fn judge_middle(case: &LongCase, seen: &mut Seen, rare: &mut Seen) -> Result<usize, String> {
    let mut count = judge_text(case, seen, 2)?;
    let mut rows: Vec<Vec<usize>> = Vec::new();
    for width in MIDDLE_WIDTHS {
        seen.note(&of_width(width as u32));
        compare_width(&Library, case, width, seen)?;
        count += 1;
        if let Ok(plan) = case.planned(width).expect("a day") {
            rows.push(plan.row);
        }
    }
    for (what, other) in MIDDLE.into_iter().zip([2, 4]) {
        rare.note_if(rows.len() == MIDDLE_WIDTHS.len() && rows[3] != rows[other], what);
    }
    Ok(count)
}

fn judge_great(case: &LongCase, seen: &mut Seen, _: &mut Seen) -> Result<usize, String> {
    let day = case.read.as_ref().expect("a drawn day");
    let mut count = 0;
    for width in GREAT_WIDTHS {
        if work(day, width) > GREAT_WORK {
            continue;
        }
        seen.note(&at_great_width(width));
        compare_width(&Library, case, width, seen)?;
        count += 1;
        let Ok(LongPlan { row, value, full, lower }) = case.planned(width).expect("a day") else {
            continue;
        };
        let kinds = [
            value.cost >= 1 << 32,
            lower >= 1 << 32,
            row.iter().any(|&slot| slot > 9),
            row.len() >= 30,
            value.revisits > 9,
            value.splits >= 1 << 16,
            value.direct >= 1 << 12,
            full > 4,
            full == 0,
        ];
        GREAT_PLANS.into_iter().zip(kinds).for_each(|(what, holds)| seen.note_if(holds, what));
    }
    compare_check(&Library, case)?;
    compare_refused(&Library, case, seen)?;
    let row = case.planned(1).and_then(Result::ok).map(|plan| plan.row);
    compare_value(&Library, case, row.as_deref(), seen)?;
    Ok(count + 3)
}

fn judge_damaged(case: &LongCase, seen: &mut Seen, _: &mut Seen) -> Result<usize, String> {
    let count = judge_text(case, seen, 2)?;
    compare_width(&Library, case, 1, seen)?;
    compare_width(&Library, case, 2, seen)?;
    Ok(count + 2)
}

/// Texts made by hand: in full where they are no day or a small one.
fn judge_special(case: &LongCase, seen: &mut Seen, rare: &mut Seen) -> Result<usize, String> {
    let small = case.read.as_ref().map_or(true, |day| work(day, 1) < 1000);
    match small {
        true => judge_damaged(case, seen, rare),
        false => compare_check(&Library, case).map(|()| 1),
    }
}

/// The answers worked out by hand, straight against the library, and all memory.
fn check_known(tests: &mut Tests) {
    let known = KNOWN_LONG.iter().map(|known| (known.name, known.text(), known.plans));
    let great = GREAT_LONG.iter().map(|great| (great.name, great.text(), great.plans));
    for (index, (name, text, plans)) in known.chain(great).enumerate() {
        let case = LongCase::new(index, &text);
        for (width, plan) in plans {
            let asked = Asked { width: *width, row: LONG_TRAINS, numbers: LONG_NUMBERS };
            let compared = compare_plan(&Library, &case, &asked, Marks::of(index));
            let alike = crate::long_case::plan_reply(&case, &asked) == reply_of(plan);
            let what = format!("{name}, width {width}: {compared:?}, by hand {plan:?}");
            tests.check(compared.is_ok() && alike, &what);
        }
    }
}

/// What a plan by hand says a call has to reply.
pub fn reply_of(plan: &KnownPlan) -> Reply {
    match plan {
        KnownPlan::Refused(refusal, carried) => Reply::refused(*refusal, carried),
        KnownPlan::Row(row, numbers) => {
            let slots = row.iter().map(|&slot| slot as u8).collect();
            Reply { refusal: 0, numbers: numbers.to_vec(), slots }
        }
    }
}

/// The sizes of the header are those of the papers, and they are reached.
fn check_sizes(tests: &mut Tests) {
    let sizes = [
        ("YARD_LONG_MOST_TRAINS", header::LONG_MOST_TRAINS, LONG_TRAINS),
        ("YARD_LONG_DAY_BYTES", header::LONG_DAY_BYTES, LONG_BYTES_ACCEPTED),
        ("YARD_LONG_ANSWER_BYTES", header::LONG_ANSWER_BYTES, LONG_BYTES_PRINTED),
        ("YARD_LONG_NUMBERS", header::LONG_NUMBERS, LONG_NUMBERS),
        ("YARD_LONG_WIDTH", header::LONG_WIDTH, USUAL_WIDTH),
        ("YARD_LONG_MOST_WIDTH", header::LONG_MOST_WIDTH, MOST_WIDTH),
        ("the greatest file", write_long(&greatest_long()).len(), LONG_BYTES_ACCEPTED),
        (
            "the greatest plan file",
            expected_long(&write_long(&longest_plan_long())).len(),
            LONG_BYTES_PRINTED,
        ),
    ];
    for (name, size, wanted) in sizes {
        tests.check(size == wanted, &format!("{name} is {size}, not {wanted}"));
    }
}

/// By yard.h the functions keep no state: each thread takes the same days, beginning
/// at a place of its own.
fn compare_threads(tests: &mut Tests) {
    let texts: Vec<Named> = small_texts().take(120).collect();
    at_once(tests, |index| {
        for (turn, (which, text)) in texts.iter().cycle().skip(index * 30).take(120).enumerate() {
            let case = LongCase::new(turn, text);
            let compared = compare_width(&Library, &case, 1 + turn % 9, &mut Seen::default());
            compared.map_err(|what| format!("{which}: {what}"))?;
        }
        Ok(())
    });
}

// ---------------------------------------------------------------------------
// Through the program
// ---------------------------------------------------------------------------

/// The program on one text, fed in some way.
fn run_program(tests: &mut Tests, which: &str, text: &[u8], feed: Feed) {
    if tests.stopped() {
        return;
    }
    let expected = expected_long(text);
    match compare(tests.program, feed, &expected) {
        Ok(()) => tests.passed += 1,
        Err(got) => {
            let (text, expected) = (escaped(text), escaped(&expected));
            let what = format!("text \"{text}\"\n  expected \"{expected}\"\n  got {got}");
            tests.fail(&format!("yard-long, {which}\n  {what}"));
        }
    }
}

fn run_all(tests: &mut Tests, texts: impl Iterator<Item = Named>) {
    for (which, text) in texts {
        run_program(tests, &which, &text, Feed::whole(&text));
    }
}

/// Input that arrives bit by bit.
fn run_pieces(tests: &mut Tests) {
    let mut texts: Vec<Named> = long_line_end_texts();
    texts.extend(small_texts().take(PIECED));
    texts.extend(damaged_long_texts().take(PIECED));
    for (seed, (which, text)) in (PIECES_SEED..).zip(texts) {
        let pieces = draw_pieces(&mut Random(seed), &text);
        run_program(tests, &format!("pieces, {which}"), &text, Feed::Pipe(pieces));
    }
}

/// From a file, whose place shows how much was read.
fn run_files(tests: &mut Tests) {
    let path = std::env::temp_dir().join(format!("yard-long-days-{}", std::process::id()));
    for (name, text) in [tiny_texts(), long_line_end_texts(), very_long_texts()].concat() {
        if tests.stopped() {
            break;
        }
        let expected = expected_long(&text);
        let stored = fs::write(&path, &text).map_err(|error| error.to_string());
        let program = tests.program;
        let compared =
            stored.and_then(|()| compare_file(program, &path, &expected, LONG_BYTES_READ));
        tests.check(compared.is_ok(), &format!("yard-long from a file, {name}: {compared:?}"));
    }
    // Left behind it would do no harm.
    let _ = fs::remove_file(&path);
}

pub fn long(program: &str) -> bool {
    let (tests, started) = (Tests::new(""), Instant::now());
    let mut run = Run { tests, seen: Seen::default(), rare: Seen::default(), index: 0, started };
    check_sizes(&mut run.tests);
    check_known(&mut run.tests);
    run.group("known", known_long_texts(), judge_special);
    run.group("small", small_texts().take(SMALL_DAYS), judge_small);
    run.group("middle", middle_texts().take(MIDDLE_DAYS), judge_middle);
    run.group("great", great_texts().take(GREAT_DAYS), judge_great);
    run.group("source", source_texts(), judge_great);
    run.group("damaged", damaged_long_texts().take(DAMAGED_TEXTS), judge_damaged);
    run.group("special", long_special_texts().into_iter(), judge_special);
    if run.tests.stopped() {
        println!("stopped after {MOST_DIFFERENCES} differences");
        return run.tests.finish();
    }
    require_all(&mut run.tests, &run.seen, &required(), LEAST_SEEN);
    require_all(&mut run.tests, &run.rare, &MIDDLE.map(str::to_string), LEAST_RARE);
    compare_threads(&mut run.tests);
    let before = run.tests.passed;
    let mut tests = Tests::new(program);
    run_all(&mut tests, known_long_texts());
    run_all(&mut tests, small_texts().take(RUN_SMALL));
    run_all(&mut tests, middle_texts().take(RUN_MIDDLE));
    run_all(&mut tests, great_texts().take(RUN_GREAT));
    run_all(&mut tests, damaged_long_texts().take(RUN_DAMAGED));
    run_all(&mut tests, long_special_texts().into_iter());
    run_pieces(&mut tests);
    run_files(&mut tests);
    run.tests.add(&tests);
    run.told("yard-long", run.tests.passed - before, before);
    run.tests.finish()
}
