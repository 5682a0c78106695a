//! The independent test program of yard-plan and of the library's functions.
//!
//! It is a second opinion, written from the papers alone: its own reader of
//! day files, its own planner that tries every assignment of slots within the
//! windows (a group's trains together), its own printer, and its own two
//! baselines. The program under test is run as a process and its output
//! compared byte for byte with what 01 says. The functions of include/yard.h
//! are called in the static library, with marked memory: what they return is
//! compared, and each byte that was lent or lies around it.
//!
//! Of allowed assignments that cost the same the planner takes the one that is
//! first by order 5 of 02: fewest revisits, then the smallest sum of slot
//! numbers, then 01's masks. Known days part each of these from the next, and
//! group ties of modes generated and calls has days drawn so that they have to
//! choose. Mode self counts how often they do, and on how many of these days
//! each of a list of mistakes in that order would give another plan.
//!
//! Direct moves (order 6 of 02) are counted as such, and on each answer of the
//! library they and the split moves have to add up to the boxes of the text. Group
//! direct has days drawn for them; known days, assignments and baselines tell each
//! of a list of mistakes about them.
//!
//! A moving day (order 7 of 02) has an account of its own: account.rs keeps the day
//! as it was edited, the closed slots and the served trains' slots by train number,
//! account_plan.rs has its plan, or 9 and 16, by trying rows, on small days by the
//! letter as well. Mode moving draws lists of calls, good and bad, of states that
//! the functions wrote or that are made by hand (draw_moving.rs, draw_states.rs),
//! makes each in marked memory and goes on with what was written (moving_walk.rs).
//! moving_rules.rs has the checks in their order, moving_memory.rs the call and
//! the comparison, moving_required.rs and moving_seen_account.rs what has to be
//! seen, known_moving.rs lists worked out by hand. Mode self has a stand-in of the
//! five functions (moving_standin.rs) make each of a list of mistakes
//! (mismoving.rs), which the lists have to tell.
//!
//! Order 8 of 02 is a statement about plans: fewest.rs goes through all allowed rows
//! in a way of its own, looks at no weight, and has the fewest revisits and the
//! fewest split moves beside them. Mode fewest holds to these two the plans of the
//! library and of the program, on days drawn for it (draw_fewest.rs) with weights
//! that the order speaks of (fewest_weights.rs), and the plans of moving days
//! (fewest_moving.rs). Mode weights holds tools/lexicographic to what it has to
//! write (weights_texts.rs). Mode self has planners, enumerations and tools that
//! make mistakes (misweighings.rs, mismoving_fewest.rs, misrewritings.rs).
//!
//! Long days (order 9 of 02) have a model of their own with other limits
//! (long_day.rs) and two beam searches: long_beam.rs goes by the words of the order
//! and of section 4.3 of source 000, with partial plans as rows that have gaps;
//! long_fast.rs finds the same for days of 36 trains, and is held to the first one on
//! small days. Mode long draws days (long_draw.rs), damages texts, calls the four
//! functions in marked memory at widths good and bad (long_calls.rs, long_case.rs),
//! goes through all rows of small days (long_rows.rs), and runs yard-long.
//! long_known.rs has days worked out by hand. Mode self has a stand-in of the four
//! functions (long_standin.rs) make each of a list of mistakes (mislong_search.rs,
//! mislong_calls.rs). Built with `--cfg long_standin` this program brings the four
//! functions along (long_exports.rs), for a library that hasn't them yet.
//!
//! A season (order 10 of 02) is a text of many days: season.rs parts it by its lines
//! and adds up columns, season_day.rs has what one day adds, by the reader, the
//! enumeration and the baselines of the other modes. Mode season joins drawn days and
//! damaged texts (season_draw.rs), takes seasons made by hand (season_special.rs,
//! season_known.rs), calls the two functions in marked memory (season_calls.rs) and
//! runs yard-season. Mode self has a stand-in of the two functions (season_standin.rs)
//! make each of a list of mistakes (misseason.rs, misseason_figures.rs,
//! misseason_telling.rs). Built with `--cfg season_standin` this program brings the two
//! along (season_exports.rs).
//!
//! Opening hours and dates (order 11 of 02) have a calendar walked day by day
//! (calendar_dates.rs) and slots found minute by minute (calendar.rs). Mode calendar
//! draws calendars and trains (calendar_draw.rs), takes those at the limits
//! (calendar_special.rs) and those worked out by hand (calendar_known.rs), holds every
//! date to the C library's calendar (calendar_clock.rs), and calls the two functions in
//! marked memory (calendar_calls.rs). Mode self has a stand-in of the two functions
//! (calendar_standin.rs) make each of a list of mistakes (miscalendar.rs,
//! miscalendar_days.rs, miscalendar_checks.rs). Built with `--cfg calendar_standin` this
//! program brings the two along (calendar_exports.rs).
//!
//!     days expect < day.txt        prints what yard-plan has to print
//!     days examples PROGRAM DIR    runs the stored days of DIR but yard-long's
//!     days generated PROGRAM       runs known and drawn days and damaged texts
//!     days baselines               calls the library's two baselines on days
//!     days calls                   calls the library's other functions on the
//!                                  texts of generated: answering, planning
//!                                  with and without areas lent, checking,
//!                                  valuing, the version
//!     days moving                  calls the five functions of a moving day in
//!                                  lists, and on the texts of calls
//!     days fewest PROGRAM          holds plans of the library and of the program
//!                                  to order 8
//!     days weights TOOL            runs tools/lexicographic on day files and on
//!                                  texts that are none
//!     days below                   looks for days on which a smaller weight does
//!                                  not suffice; it tests nothing
//!     days long PROGRAM            long days through the library's functions and
//!                                  through yard-long
//!     days long-expect < day.txt   prints what yard-long has to print; with a
//!                                  width behind it what yard_long_plan has to give
//!     days long-examples PROGRAM DIR
//!                                  runs the stored days of DIR that are yard-long's
//!     days wider                   looks for days on which a greater width costs
//!                                  more; it tests nothing
//!     days season PROGRAM          seasons through the library's two functions and
//!                                  through yard-season
//!     days season-expect < text    prints what yard-season has to print
//!     days season-examples PROGRAM DIR
//!                                  runs the stored seasons of DIR
//!     days calendar                opening hours, dates and trains through the
//!                                  library's two functions
//!     days stack FUNCTION          calls one with little stack, for calls and
//!                                  moving
//!     days self                    checks this program on known days, and that
//!                                  what is drawn tells mistakes from the papers
//!
//! Words: an assignment is 01's row of slots, an interval its stretch, a mask
//! its set number, a baseline a yardstick of order 1 in 02. A row is here
//! a row of values in a file, but in the parts on the calls the memory that
//! yard.h names row, any bytes. A group is one of trains (order 4), but in the
//! parts that count and print what was run one of texts.
//!
//! Build: tools/build yard
//!        rustc -O --edition 2021 -L target/staticlib -o target/tests/days tests/days/main.rs

mod account;
mod account_plan;
mod baselines;
mod below;
mod boxes;
mod calendar;
mod calendar_calls;
mod calendar_clock;
mod calendar_dates;
mod calendar_draw;
#[cfg(calendar_standin)]
mod calendar_exports;
mod calendar_functions;
mod calendar_known;
mod calendar_run;
mod calendar_seen;
mod calendar_special;
mod calendar_standin;
mod call_answer;
mod call_check;
mod call_plan;
mod call_value;
mod call_workspace;
mod calls;
mod case;
mod damage;
mod damage_sets;
mod day_file;
mod draft;
mod draw;
mod draw_direct;
mod draw_fewest;
mod draw_moving;
mod draw_sets;
mod draw_states;
mod draw_ties;
mod fewest;
mod fewest_moving;
mod fewest_moving_seen;
mod fewest_plans;
mod fewest_run;
mod fewest_seen;
mod fewest_weights;
mod generated;
mod groups;
mod header;
mod heavy;
mod known;
mod known_direct;
mod known_fewest;
mod known_moving;
mod known_sets;
mod known_ties;
mod lent;
mod library;
mod long_beam;
mod long_calls;
mod long_case;
mod long_day;
mod long_draw;
#[cfg(long_standin)]
mod long_exports;
mod long_fast;
mod long_functions;
mod long_known;
mod long_plan;
mod long_rows;
mod long_run;
mod long_special;
mod long_standin;
mod long_texts;
mod long_trials;
mod long_wider;
mod miscalendar;
mod miscalendar_checks;
mod miscalendar_days;
mod miscountings;
mod misjudgings;
mod mislong_calls;
mod mislong_search;
mod mismoving;
mod mismoving_checks;
mod mismoving_edits;
mod mismoving_fewest;
mod mismoving_limits;
mod mismoving_numbers;
mod mismoving_plans;
mod mismoving_writing;
mod misorderings;
mod misplannings;
mod misreaders;
mod misreadings;
mod misreports;
mod misrewritings;
mod misseason;
mod misseason_figures;
mod misseason_telling;
mod missteps;
mod misvaluings;
mod misweighings;
mod model;
mod moving;
mod moving_call;
mod moving_great;
mod moving_memory;
mod moving_required;
mod moving_rules;
mod moving_seen;
mod moving_seen_account;
mod moving_standin;
mod moving_texts;
mod moving_walk;
mod plan;
mod procedures;
mod process;
mod reports;
mod rotation;
mod season;
mod season_calls;
mod season_day;
mod season_draw;
#[cfg(season_standin)]
mod season_exports;
mod season_functions;
mod season_known;
mod season_run;
mod season_seen;
mod season_special;
mod season_standin;
mod seen;
mod self_baselines;
mod self_calendar;
mod self_calls;
mod self_check;
mod self_direct;
mod self_fewest;
mod self_long;
mod self_moving;
mod self_search;
mod self_season;
mod self_sets;
mod self_ties;
mod sets;
mod special;
mod stack;
mod sys;
mod texts;
mod threads;
mod trials;
mod valuing;
mod weights;
mod weights_texts;

use crate::baselines::baselines;
use crate::below::below;
use crate::calendar_run::calendar_of_dates;
use crate::calls::calls;
use crate::fewest_run::fewest_of_all;
use crate::generated::generated;
use crate::groups::Tests;
use crate::long_case::{plan_reply, Asked, LongCase, Reply, LONG_NUMBERS};
use crate::long_day::{LONG_BYTES_READ, LONG_TRAINS};
use crate::long_plan::expected_long;
use crate::long_run::long;
use crate::long_wider::wider;
use crate::model::MOST_BYTES_READ;
use crate::moving::moving;
use crate::plan::expected;
use crate::process::{compare_file, escaped};
use crate::season::{expected_season, SEASON_BYTES_READ};
use crate::season_run::season_of_days;
use crate::self_check::check_self;
use crate::stack::little_stack;
use crate::weights::weights;
use std::collections::BTreeSet;
use std::fs::{self, File};
use std::io::{self, Read, Write};
use std::os::fd::AsFd;
use std::path::{Path, PathBuf};
use std::process::ExitCode;

// ---------------------------------------------------------------------------
// Mode: examples
// ---------------------------------------------------------------------------

/// A program with stored days: whose names begin in this way or don't, how files of
/// input and output end, what it has to print, and how many bytes it reads at most.
#[derive(Clone, Copy)]
struct Stored {
    long: bool,
    input: &'static str,
    output: &'static str,
    expected: fn(&[u8]) -> Vec<u8>,
    most_read: usize,
}

const USUAL: Stored =
    Stored { long: false, input: "day", output: "out", expected, most_read: MOST_BYTES_READ };
const LONG: Stored =
    Stored { long: true, expected: expected_long, most_read: LONG_BYTES_READ, ..USUAL };
const SEASON: Stored = Stored {
    long: false,
    input: "season",
    output: "report",
    expected: expected_season,
    most_read: SEASON_BYTES_READ,
};

/// Days of yard-long have names that begin so.
const LONG_NAME: &str = "long-";

impl Stored {
    fn holds(&self, path: &Path) -> bool {
        let name = path.file_name().unwrap_or_default().to_string_lossy();
        name.starts_with(LONG_NAME) == self.long
    }

    /// The stems of its files in a directory that end in `.extension`.
    fn stems(&self, directory: &Path, extension: &str) -> io::Result<BTreeSet<PathBuf>> {
        let mut stems = BTreeSet::new();
        for entry in fs::read_dir(directory)? {
            let path = entry?.path();
            let fits = path.extension().is_some_and(|found| found == extension);
            if fits && self.holds(&path) {
                stems.insert(path.with_extension(""));
            }
        }
        Ok(stems)
    }
}

/// The stored output has to be both what the papers say and what the program prints.
fn compare_example(program: &str, stored_for: Stored, stem: &Path) -> Result<(), String> {
    let complain = |error: io::Error| error.to_string();
    let day = stem.with_extension(stored_for.input);
    let text = fs::read(&day).map_err(complain)?;
    let stored = fs::read(stem.with_extension(stored_for.output)).map_err(complain)?;
    let expected = (stored_for.expected)(&text);
    if stored != expected {
        let (stored, expected) = (escaped(&stored), escaped(&expected));
        return Err(format!("stored \"{stored}\"\n  expected \"{expected}\""));
    }
    compare_file(program, &day, &expected, stored_for.most_read)
        .map_err(|got| format!("expected \"{}\"\n  got {got}", escaped(&expected)))
}

fn examples(program: &str, stored: Stored, directory: &Path) -> bool {
    let mut tests = Tests::new(program);
    // A directory that cannot be read holds no days, which is a failure below.
    let days = stored.stems(directory, stored.input).unwrap_or_default();
    let outputs = stored.stems(directory, stored.output).unwrap_or_default();
    if days.is_empty() {
        tests.fail(&format!("no days in {}", directory.display()));
    }
    for stem in days.symmetric_difference(&outputs) {
        tests.fail(&format!("{}: day or output missing", stem.display()));
    }
    for stem in days.intersection(&outputs) {
        match compare_example(program, stored, stem) {
            Ok(()) => tests.passed += 1,
            Err(what) => tests.fail(&format!("{}\n  {what}", stem.display())),
        }
    }
    tests.finish()
}

// ---------------------------------------------------------------------------
// The program
// ---------------------------------------------------------------------------

/// Prints what the program has to print, and like it reads no byte beyond the
/// limit: the standard input is read past the library's buffer.
fn expect(stored: Stored) -> io::Result<()> {
    let input = File::from(io::stdin().as_fd().try_clone_to_owned()?);
    let mut text = Vec::new();
    input.take(stored.most_read as u64).read_to_end(&mut text)?;
    io::stdout().write_all(&(stored.expected)(&text))
}

/// Prints what yard_long_plan has to give for a text and a width: what it returns,
/// its six numbers, and the row.
fn expect_at(width: &str) -> io::Result<()> {
    let mut text = Vec::new();
    io::stdin().read_to_end(&mut text)?;
    let width = width.parse().map_err(io::Error::other)?;
    let asked = Asked { width, row: LONG_TRAINS, numbers: LONG_NUMBERS };
    let Reply { refusal, numbers, slots } = plan_reply(&LongCase::new(0, &text), &asked);
    println!("{refusal}\n{numbers:?}\n{slots:?}");
    Ok(())
}

fn main() -> ExitCode {
    let arguments: Vec<String> = std::env::args().skip(1).collect();
    let arguments: Vec<&str> = arguments.iter().map(String::as_str).collect();
    let good = match arguments[..] {
        ["expect"] => expect(USUAL).is_ok(),
        ["long-expect"] => expect(LONG).is_ok(),
        ["long-expect", width] => expect_at(width).is_ok(),
        ["examples", program, directory] => examples(program, USUAL, Path::new(directory)),
        ["long-examples", program, directory] => examples(program, LONG, Path::new(directory)),
        ["generated", program] => generated(program),
        ["baselines"] => baselines(),
        ["calls"] => calls(),
        ["moving"] => moving(),
        ["fewest", program] => fewest_of_all(program),
        ["weights", tool] => weights(tool),
        ["below"] => below(),
        ["long", program] => long(program),
        ["wider"] => wider(),
        ["season", program] => season_of_days(program),
        ["season-expect"] => expect(SEASON).is_ok(),
        ["season-examples", program, directory] => examples(program, SEASON, Path::new(directory)),
        ["calendar"] => calendar_of_dates(),
        ["stack", name] => little_stack(name),
        ["self"] => check_self(),
        _ => {
            let modes = "expect | examples PROGRAM DIR | generated PROGRAM | baselines | calls | \
                         moving | fewest PROGRAM | weights TOOL | below | long PROGRAM | \
                         long-expect [WIDTH] | long-examples PROGRAM DIR | wider | \
                         season PROGRAM | season-expect | season-examples PROGRAM DIR | \
                         calendar | self";
            eprintln!("usage: days {modes}");
            return ExitCode::from(2);
        }
    };
    if good {
        ExitCode::SUCCESS
    } else {
        ExitCode::FAILURE
    }
}
