//! The functions of the static library, as include/yard.h declares them.

/// The prototypes without their result, `uint64_t`, as this module was written
/// from them. Mode calls compares them with the header's, so that the header
/// promises no function, and no order of arguments, that isn't called here.
pub const PROTOTYPES: [&str; 21] = [
    "yard_version(void)",
    "yard_answer(const uint8_t *text, size_t text_length, uint8_t *out, size_t out_length, \
     size_t *bytes)",
    "yard_plan(const uint8_t *text, size_t text_length, uint8_t *row, size_t row_length, \
     uint64_t *numbers, size_t numbers_length, size_t *trains)",
    "yard_plan_in_workspace(const uint8_t *text, size_t text_length, uint64_t *cost, \
     size_t cost_length, uint16_t *choice, size_t choice_length, uint8_t *row, \
     size_t row_length, uint64_t *numbers, size_t numbers_length, size_t *trains)",
    "yard_check(const uint8_t *text, size_t text_length, uint64_t *line)",
    "yard_value(const uint8_t *text, size_t text_length, const uint8_t *row, size_t row_length, \
     uint64_t *numbers, size_t numbers_length)",
    "yard_first_come_first_served(const uint8_t *text, size_t text_length, uint64_t *numbers, \
     size_t numbers_length, int64_t *saving)",
    "yard_myopic(const uint8_t *text, size_t text_length, uint64_t *numbers, \
     size_t numbers_length, int64_t *saving)",
    "yard_begin(const uint8_t *text, size_t text_length, uint64_t *cost, size_t cost_length, \
     uint16_t *choice, size_t choice_length, uint8_t *next, size_t next_length, \
     uint64_t *numbers, size_t numbers_length)",
    "yard_close(const uint8_t *text, size_t text_length, uint32_t closed, const uint8_t *row, \
     size_t row_length, uint64_t *numbers, size_t numbers_length)",
    "yard_cancel(const uint8_t *text, size_t text_length, uint32_t closed, const uint8_t *row, \
     size_t row_length, uint32_t train, uint64_t *cost, size_t cost_length, uint16_t *choice, \
     size_t choice_length, uint8_t *day, size_t day_length, uint8_t *next, size_t next_length, \
     uint64_t *numbers, size_t numbers_length)",
    "yard_add(const uint8_t *text, size_t text_length, uint32_t closed, const uint8_t *row, \
     size_t row_length, uint32_t train, uint32_t first, uint32_t last, uint64_t *cost, \
     size_t cost_length, uint16_t *choice, size_t choice_length, uint8_t *day, \
     size_t day_length, uint8_t *next, size_t next_length, uint64_t *numbers, \
     size_t numbers_length)",
    "yard_set_boxes(const uint8_t *text, size_t text_length, uint32_t closed, \
     const uint8_t *row, size_t row_length, uint32_t to, uint32_t from, uint32_t boxes, \
     uint64_t *cost, size_t cost_length, uint16_t *choice, size_t choice_length, uint8_t *day, \
     size_t day_length, uint8_t *next, size_t next_length, uint64_t *numbers, \
     size_t numbers_length)",
    "yard_long_answer(const uint8_t *text, size_t text_length, uint8_t *out, size_t out_length, \
     size_t *bytes)",
    "yard_long_plan(const uint8_t *text, size_t text_length, uint32_t width, uint8_t *row, \
     size_t row_length, uint64_t *numbers, size_t numbers_length, size_t *trains)",
    "yard_long_check(const uint8_t *text, size_t text_length, uint64_t *line)",
    "yard_long_value(const uint8_t *text, size_t text_length, const uint8_t *row, \
     size_t row_length, uint64_t *numbers, size_t numbers_length)",
    "yard_season(const uint8_t *text, size_t text_length, uint64_t *numbers, \
     size_t numbers_length)",
    "yard_season_answer(const uint8_t *text, size_t text_length, uint8_t *out, \
     size_t out_length, size_t *bytes)",
    "yard_slots_on(const uint32_t *hours, size_t hours_length, uint32_t slot_minutes, \
     const uint32_t *closed, size_t closed_length, uint32_t date, uint32_t *slots)",
    "yard_window(const uint32_t *hours, size_t hours_length, uint32_t slot_minutes, \
     const uint32_t *closed, size_t closed_length, uint32_t date, uint32_t arrival, \
     uint32_t departure, uint32_t *first, uint32_t *last)",
];

#[link(name = "yard", kind = "static")]
extern "C" {
    pub fn yard_version() -> u64;
    pub fn yard_answer(
        text: *const u8,
        text_length: usize,
        out: *mut u8,
        out_length: usize,
        bytes: *mut usize,
    ) -> u64;
    pub fn yard_plan(
        text: *const u8,
        text_length: usize,
        row: *mut u8,
        row_length: usize,
        numbers: *mut u64,
        numbers_length: usize,
        trains: *mut usize,
    ) -> u64;
    pub fn yard_plan_in_workspace(
        text: *const u8,
        text_length: usize,
        cost: *mut u64,
        cost_length: usize,
        choice: *mut u16,
        choice_length: usize,
        row: *mut u8,
        row_length: usize,
        numbers: *mut u64,
        numbers_length: usize,
        trains: *mut usize,
    ) -> u64;
    pub fn yard_check(text: *const u8, text_length: usize, line: *mut u64) -> u64;
    pub fn yard_value(
        text: *const u8,
        text_length: usize,
        row: *const u8,
        row_length: usize,
        numbers: *mut u64,
        numbers_length: usize,
    ) -> u64;
    pub fn yard_first_come_first_served(
        text: *const u8,
        text_length: usize,
        numbers: *mut u64,
        numbers_length: usize,
        saving: *mut i64,
    ) -> u64;
    pub fn yard_myopic(
        text: *const u8,
        text_length: usize,
        numbers: *mut u64,
        numbers_length: usize,
        saving: *mut i64,
    ) -> u64;
    pub fn yard_begin(
        text: *const u8,
        text_length: usize,
        cost: *mut u64,
        cost_length: usize,
        choice: *mut u16,
        choice_length: usize,
        next: *mut u8,
        next_length: usize,
        numbers: *mut u64,
        numbers_length: usize,
    ) -> u64;
    pub fn yard_close(
        text: *const u8,
        text_length: usize,
        closed: u32,
        row: *const u8,
        row_length: usize,
        numbers: *mut u64,
        numbers_length: usize,
    ) -> u64;
    pub fn yard_cancel(
        text: *const u8,
        text_length: usize,
        closed: u32,
        row: *const u8,
        row_length: usize,
        train: u32,
        cost: *mut u64,
        cost_length: usize,
        choice: *mut u16,
        choice_length: usize,
        day: *mut u8,
        day_length: usize,
        next: *mut u8,
        next_length: usize,
        numbers: *mut u64,
        numbers_length: usize,
    ) -> u64;
    pub fn yard_add(
        text: *const u8,
        text_length: usize,
        closed: u32,
        row: *const u8,
        row_length: usize,
        train: u32,
        first: u32,
        last: u32,
        cost: *mut u64,
        cost_length: usize,
        choice: *mut u16,
        choice_length: usize,
        day: *mut u8,
        day_length: usize,
        next: *mut u8,
        next_length: usize,
        numbers: *mut u64,
        numbers_length: usize,
    ) -> u64;
    pub fn yard_set_boxes(
        text: *const u8,
        text_length: usize,
        closed: u32,
        row: *const u8,
        row_length: usize,
        to: u32,
        from: u32,
        boxes: u32,
        cost: *mut u64,
        cost_length: usize,
        choice: *mut u16,
        choice_length: usize,
        day: *mut u8,
        day_length: usize,
        next: *mut u8,
        next_length: usize,
        numbers: *mut u64,
        numbers_length: usize,
    ) -> u64;
}

/// Built with `--cfg long_standin` this program brings the functions of long days
/// along, for a library that hasn't them.
#[cfg(long_standin)]
pub use crate::long_exports::{yard_long_answer, yard_long_check, yard_long_plan, yard_long_value};

#[cfg(not(long_standin))]
#[link(name = "yard", kind = "static")]
extern "C" {
    pub fn yard_long_answer(
        text: *const u8,
        text_length: usize,
        out: *mut u8,
        out_length: usize,
        bytes: *mut usize,
    ) -> u64;
    pub fn yard_long_plan(
        text: *const u8,
        text_length: usize,
        width: u32,
        row: *mut u8,
        row_length: usize,
        numbers: *mut u64,
        numbers_length: usize,
        trains: *mut usize,
    ) -> u64;
    pub fn yard_long_check(text: *const u8, text_length: usize, line: *mut u64) -> u64;
    pub fn yard_long_value(
        text: *const u8,
        text_length: usize,
        row: *const u8,
        row_length: usize,
        numbers: *mut u64,
        numbers_length: usize,
    ) -> u64;
}

/// Built with `--cfg season_standin` it brings those of a season along.
#[cfg(season_standin)]
pub use crate::season_exports::{yard_season, yard_season_answer};

#[cfg(not(season_standin))]
#[link(name = "yard", kind = "static")]
extern "C" {
    pub fn yard_season(
        text: *const u8,
        text_length: usize,
        numbers: *mut u64,
        numbers_length: usize,
    ) -> u64;
    pub fn yard_season_answer(
        text: *const u8,
        text_length: usize,
        out: *mut u8,
        out_length: usize,
        bytes: *mut usize,
    ) -> u64;
}

/// Built with `--cfg calendar_standin` it brings those of opening hours and dates along.
#[cfg(calendar_standin)]
pub use crate::calendar_exports::{yard_slots_on, yard_window};

#[cfg(not(calendar_standin))]
#[link(name = "yard", kind = "static")]
extern "C" {
    pub fn yard_slots_on(
        hours: *const u32,
        hours_length: usize,
        slot_minutes: u32,
        closed: *const u32,
        closed_length: usize,
        date: u32,
        slots: *mut u32,
    ) -> u64;
    pub fn yard_window(
        hours: *const u32,
        hours_length: usize,
        slot_minutes: u32,
        closed: *const u32,
        closed_length: usize,
        date: u32,
        arrival: u32,
        departure: u32,
        first: *mut u32,
        last: *mut u32,
    ) -> u64;
}

/// A moment as the C library takes it apart: `struct tm` of 64-bit Linux.
#[repr(C)]
#[derive(Default)]
pub struct Tm {
    pub second: i32,
    pub minute: i32,
    pub hour: i32,
    pub day: i32,
    /// From 0.
    pub month: i32,
    /// From 1900.
    pub year: i32,
    /// From Sunday.
    pub weekday: i32,
    pub day_of_year: i32,
    pub summer_time: i32,
    pub offset: i64,
    pub zone: usize,
}

extern "C" {
    /// The seconds of a moment. Months and days that there aren't are carried over.
    pub fn timegm(moment: *mut Tm) -> i64;
    pub fn gmtime_r(seconds: *const i64, moment: *mut Tm) -> *mut Tm;
}
