//! Mode season: texts of many days through the two functions of the library and
//! through yard-season.

use crate::draw::Random;
use crate::generated::draw_pieces;
use crate::groups::{Tests, MOST_DIFFERENCES};
use crate::header;
use crate::process::{compare, compare_file, escaped, Feed};
use crate::season::{
    expected_season, MEANS, MOST_DAYS, SEASON_BYTES_ACCEPTED, SEASON_BYTES_PRINTED,
    SEASON_BYTES_READ, SEASON_NUMBERS, TOTALS,
};
use crate::season_calls::{
    compare_answer, compare_numbers, required_answers, required_numbers, SeasonCase,
};
use crate::season_draw::{draw_many, draw_season, Store};
use crate::season_functions::Library;
use crate::season_known::KNOWN_SEASONS;
use crate::season_seen::{note_season, required_seasons};
use crate::season_special::{greatest_season, known_seasons, special_seasons, very_long_seasons};
use crate::seen::{require_all, Seen};
use crate::special::tiny_texts;
use crate::texts::Named;
use crate::threads::at_once;
use std::fs;
use std::time::Instant;

const SEASONS: usize = 1500;
const SEASON_SEED: u64 = 52_000_000;

/// Seasons of about 366 days.
const MANY: usize = 40;
const MANY_SEED: u64 = 54_000_000;

/// Lengths of output tried on each text.
const ANSWERS: usize = 3;

/// Drawn seasons that the program runs, and texts cut into pieces.
const RUN_SEASONS: usize = 500;
const PIECED: usize = 20;
const PIECES_SEED: u64 = 53_000_000;

/// Seasons for threads at once.
const AT_ONCE: usize = 60;

const LEAST_SEEN: usize = 10;

/// Seasons drawn each by a seed of its own.
pub fn drawn_seasons(store: &Store) -> impl Iterator<Item = Named> + '_ {
    let drawn = |seed| (format!("seed {seed}"), draw_season(&mut Random(seed), store));
    (SEASON_SEED..).map(drawn)
}

pub fn many_seasons(store: &Store) -> impl Iterator<Item = Named> + '_ {
    let drawn = |seed| (format!("seed {seed}"), draw_many(&mut Random(seed), store));
    (MANY_SEED..).take(MANY).map(drawn)
}

/// The sizes and places of the header are those of order 10, and they suffice.
fn check_sizes(tests: &mut Tests) {
    let sizes = [
        ("YARD_SEASON_MOST_DAYS", header::SEASON_MOST_DAYS, MOST_DAYS),
        ("YARD_SEASON_ANSWER_BYTES", header::SEASON_ANSWER_BYTES, SEASON_BYTES_PRINTED),
        ("YARD_SEASON_NUMBERS", header::SEASON_NUMBERS, SEASON_NUMBERS),
        ("the greatest season", greatest_season().len(), SEASON_BYTES_ACCEPTED),
    ];
    for (name, size, wanted) in sizes {
        tests.check(size == wanted, &format!("{name} is {size}, not {wanted}"));
    }
    let means = (MEANS..SEASON_NUMBERS).step_by(2);
    let places: Vec<usize> = [0].into_iter().chain(TOTALS..MEANS).chain(means).collect();
    for ((name, place), wanted) in header::SEASON_PLACES.into_iter().zip(places) {
        tests.check(place == wanted, &format!("YARD_SEASON_{name} is {place}, not {wanted}"));
    }
}

/// Seasons worked out by hand, straight against the library.
fn check_known(tests: &mut Tests) {
    for (index, (name, text, report)) in KNOWN_SEASONS.iter().enumerate() {
        let (text, told) = (text(), report.as_ref().map(|report| report.figures()));
        let mut case = SeasonCase::new(index, &text);
        let alike = case.told == told;
        case.told = told;
        let compared = compare_numbers(&Library, &case, &mut Seen::default());
        tests.check(compared.is_ok() && alike, &format!("{name}: {compared:?}, by hand {told:?}"));
    }
}

// ---------------------------------------------------------------------------
// Through the functions
// ---------------------------------------------------------------------------

/// The running test: texts through the functions.
struct Run {
    tests: Tests<'static>,
    seen: Seen,
    index: usize,
    started: Instant,
}

impl Run {
    /// Several calls of both functions for each text.
    fn group(&mut self, name: &str, texts: impl Iterator<Item = Named>) {
        let (mut count, before) = (0, self.tests.passed);
        for (which, text) in texts {
            if self.tests.stopped() {
                break;
            }
            let case = SeasonCase::new(self.index, &text);
            self.index += 1;
            count += 1;
            note_season(&mut self.seen, &case);
            let numbers = compare_numbers(&Library, &case, &mut self.seen);
            let answer = compare_answer(&Library, &case, ANSWERS, &mut self.seen);
            for compared in [numbers, answer] {
                let text = || escaped(&text);
                match compared {
                    Ok(calls) => self.tests.passed += calls,
                    Err(what) => self
                        .tests
                        .fail(&format!("group {name}, {which}\n  text \"{}\"\n  {what}", text())),
                }
            }
        }
        self.told(name, count, before);
    }

    fn told(&self, name: &str, count: usize, before: usize) {
        let (compared, seconds) = (self.tests.passed - before, self.started.elapsed().as_secs());
        println!("{name:<11} {count:>5} texts, {compared:>6} comparisons, {seconds:>3} s so far");
    }
}

/// By yard.h the functions keep no state: each thread takes the same seasons, beginning
/// at a place of its own. What they have to give is found before.
fn compare_threads(tests: &mut Tests, store: &Store) {
    let texts: Vec<Named> = drawn_seasons(store).take(AT_ONCE).collect();
    let numbered = texts.iter().enumerate();
    let cases: Vec<SeasonCase> =
        numbered.map(|(index, (_, text))| SeasonCase::new(index, text)).collect();
    at_once(tests, |index| {
        for case in cases.iter().cycle().skip(index * AT_ONCE / 4).take(AT_ONCE) {
            let seen = &mut Seen::default();
            let compared = compare_numbers(&Library, case, seen);
            let compared = compared.and_then(|_| compare_answer(&Library, case, 1, seen));
            compared.map_err(|what| format!("{}: {what}", texts[case.index].0))?;
        }
        Ok(())
    });
}

// ---------------------------------------------------------------------------
// Through the program
// ---------------------------------------------------------------------------

/// The program on one text, fed in some way.
fn run_program(tests: &mut Tests, which: &str, text: &[u8], feed: Feed) {
    if tests.stopped() {
        return;
    }
    let expected = expected_season(text);
    match compare(tests.program, feed, &expected) {
        Ok(()) => tests.passed += 1,
        Err(got) => {
            let (text, expected) = (escaped(text), escaped(&expected));
            let what = format!("text \"{text}\"\n  expected \"{expected}\"\n  got {got}");
            tests.fail(&format!("yard-season, {which}\n  {what}"));
        }
    }
}

fn run_all(tests: &mut Tests, texts: impl Iterator<Item = Named>) {
    for (which, text) in texts {
        run_program(tests, &which, &text, Feed::whole(&text));
    }
}

/// Input that arrives bit by bit.
fn run_pieces(tests: &mut Tests, store: &Store) {
    let texts = drawn_seasons(store).take(PIECED).chain(very_long_seasons().into_iter().take(2));
    for (seed, (which, text)) in (PIECES_SEED..).zip(known_seasons().chain(texts)) {
        let pieces = draw_pieces(&mut Random(seed), &text);
        run_program(tests, &format!("pieces, {which}"), &text, Feed::Pipe(pieces));
    }
}

/// From a file, whose place shows how much was read.
fn run_files(tests: &mut Tests) {
    let path = std::env::temp_dir().join(format!("yard-season-days-{}", std::process::id()));
    let known: Vec<Named> = known_seasons().collect();
    for (name, text) in [tiny_texts(), known, very_long_seasons()].concat() {
        if tests.stopped() {
            break;
        }
        let expected = expected_season(&text);
        let stored = fs::write(&path, &text).map_err(|error| error.to_string());
        let program = tests.program;
        let compared =
            stored.and_then(|()| compare_file(program, &path, &expected, SEASON_BYTES_READ));
        tests.check(compared.is_ok(), &format!("yard-season from a file, {name}: {compared:?}"));
    }
    // Left behind it would do no harm.
    let _ = fs::remove_file(&path);
}

pub fn season_of_days(program: &str) -> bool {
    let (tests, started) = (Tests::new(""), Instant::now());
    let mut run = Run { tests, seen: Seen::default(), index: 0, started };
    let store = Store::drawn();
    check_sizes(&mut run.tests);
    check_known(&mut run.tests);
    run.group("known", known_seasons());
    run.group("drawn", drawn_seasons(&store).take(SEASONS));
    run.group("many", many_seasons(&store));
    run.group("special", special_seasons().into_iter());
    run.group("very long", very_long_seasons().into_iter());
    if run.tests.stopped() {
        println!("stopped after {MOST_DIFFERENCES} differences");
        return run.tests.finish();
    }
    let required = [required_seasons(), required_numbers(), required_answers()].concat();
    require_all(&mut run.tests, &run.seen, &required, LEAST_SEEN);
    compare_threads(&mut run.tests, &store);
    let before = run.tests.passed;
    let mut tests = Tests::new(program);
    run_all(&mut tests, known_seasons());
    run_all(&mut tests, drawn_seasons(&store).take(RUN_SEASONS));
    run_all(&mut tests, many_seasons(&store));
    run_all(&mut tests, special_seasons().into_iter());
    run_all(&mut tests, very_long_seasons().into_iter());
    run_pieces(&mut tests, &store);
    run_files(&mut tests);
    run.tests.add(&tests);
    run.told("yard-season", run.tests.passed - before, before);
    run.tests.finish()
}
