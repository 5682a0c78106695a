//! What has to be seen of seasons, for what was seen too seldom has not been tested.

use crate::season::{days_of, mean, MEANS, MOST_DAYS, NAMES, TOTALS};
use crate::season_calls::SeasonCase;
use crate::season_day::{facts_of, Facts};
use crate::seen::Seen;

/// The numbers that a day can be refused under.
const REFUSALS: [usize; 10] = [1, 2, 3, 4, 5, 6, 7, 9, 15, 16];

const PLACES: [&str; 3] = ["first", "between", "last"];

/// Of one report, or of its text.
const SEASONS: [&str; 16] = [
    "366 days",
    "367 days",
    "one day",
    "no day refused",
    "no day planned",
    "all days of one number",
    "an empty day first",
    "an empty day between",
    "an empty day last",
    "days, and no last byte 10",
    "first come leaves a train over",
    "first come parts a group",
    "no day has first come, some have a plan",
    "savings",
    "savings 0 though days are compared",
    "all days would give another mean",
];

fn refused_at(number: usize, place: &str) -> String {
    format!("{number} {place}")
}

/// Of each total with a mean.
const OF_MEANS: [&str; 4] = ["remainder", "no remainder", "quotient", "quotient 0, remainder not"];

fn of_mean(name: &str, what: &str) -> String {
    format!("{name}: {what}")
}

pub fn required_seasons() -> Vec<String> {
    let at = |number: usize| PLACES.map(|place| refused_at(number, place));
    let mut required: Vec<String> = REFUSALS.into_iter().flat_map(at).collect();
    required.extend(SEASONS.map(str::to_string));
    required.extend(NAMES.iter().flat_map(|name| OF_MEANS.map(|what| of_mean(name, what))));
    required
}

/// Where days stand: the first of several, one between others, the last of several.
fn places<T>(days: &[T]) -> [&[T]; 3] {
    match days {
        [first, between @ .., last] => {
            [std::slice::from_ref(first), between, std::slice::from_ref(last)]
        }
        _ => [&[]; 3],
    }
}

fn note_days(seen: &mut Seen, facts: &[Facts]) {
    for (place, days) in PLACES.into_iter().zip(places(facts)) {
        for number in REFUSALS {
            let refused = days.iter().any(|day| day.refusal == number);
            seen.note_if(refused, &refused_at(number, place));
        }
    }
}

fn note_means(seen: &mut Seen, told: &[u64]) {
    for (which, name) in NAMES.into_iter().enumerate() {
        let [quotient, remainder] = [0, 1].map(|behind| told[MEANS + 2 * which + behind]);
        let kinds = [remainder > 0, remainder == 0, quotient > 0, quotient == 0 && remainder > 0];
        for (what, holds) in OF_MEANS.into_iter().zip(kinds) {
            seen.note_if(told[0] > 0 && holds, &of_mean(name, what));
        }
    }
}

pub fn note_season(seen: &mut Seen, case: &SeasonCase) {
    let days = days_of(case.text);
    seen.note_if(days.len() == MOST_DAYS + 1, SEASONS[1]);
    let Some(told) = case.told else { return };
    let facts: Vec<Facts> = days.iter().map(|day| facts_of(day)).collect();
    note_days(seen, &facts);
    note_means(seen, &told);
    let planned = || facts.iter().filter(|day| day.refusal == 0);
    let compared = planned().filter(|day| day.saving().is_some()).count();
    let without = |zero: bool| {
        planned().any(|day| day.saving().is_none() && (day.first_come.numbers[0] == 0) == zero)
    };
    let [first, between, last] = places(&days).map(|days| days.iter().any(|day| day.is_empty()));
    let refused: u64 = told[1..TOTALS].iter().sum();
    let (savings, count) = (told[TOTALS + 4], days.len() as u64);
    let kinds = [
        days.len() == MOST_DAYS,
        false,
        days.len() == 1,
        refused == 0,
        told[0] == 0,
        refused > 1 && told[..TOTALS].contains(&count) && told[0] == 0,
        first,
        between,
        last,
        !case.text.is_empty() && !case.text.ends_with(b"\n"),
        without(false),
        without(true),
        compared == 0 && told[0] > 0,
        savings > 0,
        savings == 0 && compared > 0,
        told[0] > 0 && mean(told[TOTALS + 3], count) != mean(told[TOTALS + 3], told[0]),
    ];
    SEASONS.into_iter().zip(kinds).for_each(|(what, holds)| seen.note_if(holds, what));
}
