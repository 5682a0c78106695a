//! What include/yard.h says of sizes and functions, taken from the header
//! itself, so that the tests neither repeat it nor fall behind it.

const HEADER: &str = include_str!("../../include/yard.h");

const fn stands_at(text: &[u8], place: usize, wanted: &[u8]) -> bool {
    let mut index = 0;
    while index < wanted.len() {
        if place + index >= text.len() || text[place + index] != wanted[index] {
            return false;
        }
        index += 1;
    }
    true
}

/// The decimal number at a place.
const fn number_at(text: &[u8], mut place: usize) -> usize {
    assert!(text[place].is_ascii_digit(), "no number");
    let mut number = 0;
    while text[place].is_ascii_digit() {
        number = 10 * number + (text[place] - b'0') as usize;
        place += 1;
    }
    number
}

/// The number after `#define NAME `. Without one this program isn't built.
const fn defined(define: &str) -> usize {
    let (text, define) = (HEADER.as_bytes(), define.as_bytes());
    let mut place = 0;
    while !stands_at(text, place, define) {
        place += 1;
        assert!(place < text.len(), "not defined");
    }
    number_at(text, place + define.len())
}

pub const VERSION: usize = defined("\n#define YARD_VERSION ");
pub const ANSWER_BYTES: usize = defined("\n#define YARD_ANSWER_BYTES ");
pub const DAY_BYTES: usize = defined("\n#define YARD_DAY_BYTES ");
pub const MOST_TRAINS: usize = defined("\n#define YARD_MOST_TRAINS ");
pub const COST_WORDS: usize = defined("\n#define YARD_COST_WORDS ");
pub const CHOICE_WORDS: usize = defined("\n#define YARD_CHOICE_WORDS ");

pub const LONG_MOST_TRAINS: usize = defined("\n#define YARD_LONG_MOST_TRAINS ");
pub const LONG_DAY_BYTES: usize = defined("\n#define YARD_LONG_DAY_BYTES ");
pub const LONG_ANSWER_BYTES: usize = defined("\n#define YARD_LONG_ANSWER_BYTES ");
pub const LONG_NUMBERS: usize = defined("\n#define YARD_LONG_NUMBERS ");
pub const LONG_WIDTH: usize = defined("\n#define YARD_LONG_WIDTH ");
pub const LONG_MOST_WIDTH: usize = defined("\n#define YARD_LONG_MOST_WIDTH ");

pub const SEASON_MOST_DAYS: usize = defined("\n#define YARD_SEASON_MOST_DAYS ");
pub const SEASON_ANSWER_BYTES: usize = defined("\n#define YARD_SEASON_ANSWER_BYTES ");
pub const SEASON_NUMBERS: usize = defined("\n#define YARD_SEASON_NUMBERS ");

/// Where the numbers of a report stand, with the names of their places.
pub const SEASON_PLACES: [(&str, usize); 10] = [
    ("PLANNED", defined("\n#define YARD_SEASON_PLANNED ")),
    ("REVISITS", defined("\n#define YARD_SEASON_REVISITS ")),
    ("SPLITS", defined("\n#define YARD_SEASON_SPLITS ")),
    ("DIRECT", defined("\n#define YARD_SEASON_DIRECT ")),
    ("BOXES", defined("\n#define YARD_SEASON_BOXES ")),
    ("SAVINGS", defined("\n#define YARD_SEASON_SAVINGS ")),
    ("MEAN_REVISITS", defined("\n#define YARD_SEASON_MEAN_REVISITS ")),
    ("MEAN_SPLITS", defined("\n#define YARD_SEASON_MEAN_SPLITS ")),
    ("MEAN_DIRECT", defined("\n#define YARD_SEASON_MEAN_DIRECT ")),
    ("MEAN_BOXES", defined("\n#define YARD_SEASON_MEAN_BOXES ")),
];

pub const HOURS: usize = defined("\n#define YARD_HOURS ");
pub const MOST_CLOSED_DATES: usize = defined("\n#define YARD_MOST_CLOSED_DATES ");
pub const FIRST_DATE: usize = defined("\n#define YARD_FIRST_DATE ");
pub const LAST_DATE: usize = defined("\n#define YARD_LAST_DATE ");

/// The functions that the header declares, each in one line. A declaration
/// begins a line and ends with a semicolon.
pub fn prototypes() -> Vec<String> {
    let after_result = HEADER.split("\nuint64_t ").skip(1);
    let whole = |rest: &str| rest.split(';').next().unwrap_or_default().to_string();
    let one_line = |text: String| text.split_whitespace().collect::<Vec<_>>().join(" ");
    after_result.map(whole).map(one_line).collect()
}
