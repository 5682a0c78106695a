//! Mistakes in the totals, the savings and the means of a season (order 10), each as a
//! stand-in that makes it.

use crate::day_file::read_day;
use crate::library::Report;
use crate::misseason::{judging, telling, Misseason};
use crate::model::{value, Day, Numbers, Value};
use crate::procedures::first_come;
use crate::season::{figures, mean, Figures, MEANS, TOTALS};
use crate::season_day::{facts_of, Facts};

/// The places of the totals.
const REVISITS: usize = TOTALS;
const SPLITS: usize = TOTALS + 1;
const DIRECT: usize = TOTALS + 2;
const BOXES: usize = TOTALS + 3;
const SAVINGS: usize = TOTALS + 4;

// ---------------------------------------------------------------------------
// Totals
// ---------------------------------------------------------------------------

#[rustfmt::skip]
pub const MISTOTALLED: [Misseason; 26] = [
    ("boxes only where split", telling(|days| changed(days, |day| day.boxes = day.value.splits))),
    ("boxes only where direct", telling(|days| changed(days, |day| day.boxes = day.value.direct))),
    ("boxes of days with a split move only", telling(|days| changed(days, |day| day.boxes *= day.value.splits.min(1)))),
    ("direct and split moves exchanged", telling(|days| changed(days, |day| (day.value.direct, day.value.splits) = (day.value.splits, day.value.direct)))),
    ("boxes of refused days counted", telling(|days| totalled(days, BOXES, |day| day.boxes))),
    ("days with a revisit", telling(|days| changed(days, |day| day.value.revisits = day.value.revisits.min(1)))),
    ("the cost for revisits", telling(|days| changed(days, |day| day.value.revisits = day.value.cost))),
    ("the cost for split moves", telling(|days| changed(days, |day| day.value.splits = day.value.cost))),
    ("numbers of first come", telling(|days| changed(days, |day| if day.first_come.refusal == 0 { day.value = value_of(day.first_come.numbers) }))),
    ("numbers of the myopic procedure", telling(|days| changed(days, |day| if day.myopic.refusal == 0 { day.value = value_of(day.myopic.numbers) }))),
    ("totals over compared days only", telling(|days| changed(days, |day| if day.saving().is_none() { (day.value, day.boxes) = (NOTHING, 0) }))),
    ("days without first come aren't planned", telling(|days| over(days, |day| day.refusal > 0 || day.saving().is_some()))),
    ("days of cost 0 aren't planned", telling(|days| over(days, |day| day.refusal > 0 || day.value.cost > 0))),
    ("days without boxes aren't planned", telling(|days| over(days, |day| day.refusal > 0 || day.boxes > 0))),
    ("totals of the last day", telling(|days| of_one(days, days.len().max(1) - 1))),
    ("totals of the first day", telling(|days| of_one(days, 0))),
    ("totals up to the first refused day", telling(up_to)),
    ("a refused day adds the plan before it again", telling(again)),
    ("like days once", telling(once)),
    ("one day planned more", telling(|days| renumber(days, 0, |planned| planned + 1))),
    ("planned days in 8 bits", telling(|days| renumber(days, 0, |planned| planned & 0xFF))),
    ("refused days in 8 bits", telling(|days| { let mut told = figures(days); told[1..TOTALS].iter_mut().for_each(|days| *days &= 0xFF); told })),
    ("revisits in 8 bits", telling(|days| renumber(days, REVISITS, |total| total & 0xFF))),
    ("split moves in 16 bits", telling(|days| renumber(days, SPLITS, |total| total & 0xFFFF))),
    ("direct moves in 16 bits", telling(|days| renumber(days, DIRECT, |total| total & 0xFFFF))),
    ("boxes in 20 bits", telling(|days| renumber(days, BOXES, |total| total & 0xF_FFFF))),
];

const NOTHING: Value = Value { revisits: 0, splits: 0, direct: 0, cost: 0 };

fn value_of([revisits, splits, direct, cost]: Numbers) -> Value {
    Value { revisits, splits, direct, cost }
}

/// The figures over days of which each is another one.
fn changed(days: &[Facts], change: fn(&mut Facts)) -> Figures {
    let mut days = days.to_vec();
    days.iter_mut().for_each(change);
    figures(&days)
}

/// The figures over some of the days.
fn over(days: &[Facts], counted: fn(&Facts) -> bool) -> Figures {
    let days: Vec<Facts> = days.iter().copied().filter(counted).collect();
    figures(&days)
}

/// Another number at a place.
fn renumber(days: &[Facts], place: usize, number: fn(u64) -> u64) -> Figures {
    let mut told = figures(days);
    told[place] = number(told[place]);
    told
}

/// A total over all days, with its mean.
fn totalled(days: &[Facts], place: usize, of: fn(&Facts) -> usize) -> Figures {
    let mut told = figures(days);
    told[place] = days.iter().map(|day| of(day) as u64).sum();
    averaged(told, told[0])
}

/// Counts over all days, totals and means of one.
fn of_one(days: &[Facts], which: usize) -> Figures {
    let (mut told, one) = (figures(days), figures(days.get(which..which + 1).unwrap_or_default()));
    told[TOTALS..].copy_from_slice(&one[TOTALS..]);
    told
}

fn up_to(days: &[Facts]) -> Figures {
    let first = days.iter().position(|day| day.refusal > 0).unwrap_or(days.len());
    let (mut told, up_to) = (figures(days), figures(&days[..first]));
    told[TOTALS..MEANS].copy_from_slice(&up_to[TOTALS..MEANS]);
    averaged(told, told[0])
}

/// What a day lacks is left over from the day before it.
fn carried(days: &[Facts], carry: fn(&Facts, &mut Facts)) -> Vec<Facts> {
    let mut days = days.to_vec();
    for place in 1..days.len() {
        let before = days[place - 1];
        carry(&before, &mut days[place]);
    }
    days
}

fn again(days: &[Facts]) -> Figures {
    let mut told = figures(days);
    let left = carried(days, |before, day| {
        if day.refusal > 0 {
            day.value = before.value;
        }
    });
    let columns: [fn(&Value) -> usize; 4] = [
        |value| value.revisits,
        |value| value.splits,
        |value| value.direct,
        |value| value.splits + value.direct,
    ];
    for (place, of) in (TOTALS..).zip(columns) {
        told[place] = left.iter().map(|day| of(&day.value) as u64).sum();
    }
    averaged(told, told[0])
}

fn once(days: &[Facts]) -> Figures {
    let before = |place: usize| days[..place].contains(&days[place]);
    let days: Vec<Facts> =
        (0..days.len()).filter(|&place| !before(place)).map(|place| days[place]).collect();
    figures(&days)
}

// ---------------------------------------------------------------------------
// Savings
// ---------------------------------------------------------------------------

#[rustfmt::skip]
pub const MISSAVED: [Misseason; 18] = [
    ("savings of the myopic procedure", telling(|days| saved(days, |day| (day.myopic.refusal == 0).then_some(day.myopic.saving)))),
    ("savings of both procedures", telling(|days| saved(days, |day| Some(day.first_come.saving + day.myopic.saving)))),
    ("the myopic procedure where first come has no row", telling(|days| saved(days, |day| day.saving().or(Some(day.myopic.saving))))),
    ("savings only where both procedures have a row", telling(|days| saved(days, |day| day.saving().filter(|_| day.myopic.refusal == 0)))),
    ("savings with the other sign", telling(|days| saved(days, |day| day.saving().map(|saving| -saving)))),
    ("the cost of first come for savings", telling(|days| saved(days, |day| day.saving().map(|_| day.first_come.numbers[3] as i64)))),
    ("the planned cost for savings", telling(|days| saved(days, |day| Some(day.value.cost as i64)))),
    ("days with a saving", telling(|days| saved(days, |day| day.saving().map(|saving| saving.min(1))))),
    ("the greatest saving", telling(|days| { let mut told = figures(days); told[SAVINGS] = savings_of(days).max().unwrap_or(0) as u64; told })),
    ("without first come the planned cost taken off", telling(|days| saved(days, |day| day.saving().or(Some(-(day.value.cost as i64)))))),
    ("without first come its incomplete row", judging(|text| as_if(text, incomplete_cost))),
    ("a train left over in slot 0", judging(|text| as_if(text, |day| cost_with(day, 0)))),
    ("a train left over comes last", judging(|text| as_if(text, |day| cost_with(day, day.slots + 1)))),
    ("a parted group passed over", judging(|text| if facts_of(text).first_come.numbers[0] == 0 { as_if(text, incomplete_cost) } else { facts_of(text) })),
    ("no saving from the first day without first come on", telling(|days| { let first = days.iter().position(|day| day.first_come.refusal == 14).unwrap_or(days.len()); let mut told = figures(days); told[SAVINGS] = figures(&days[..first])[SAVINGS]; told })),
    ("without first come the saving of the day before", telling(|days| figures(&carried(days, |before, day| if day.first_come.refusal == 14 { day.first_come = before.first_come })))),
    ("savings in 32 bits", telling(|days| renumber(days, SAVINGS, |savings| savings & 0xFFFF_FFFF))),
    ("the mean of savings", telling(|days| { let mut told = figures(days); told[SAVINGS] = mean(told[SAVINGS], told[0])[0]; told })),
];

fn savings_of(days: &[Facts]) -> impl Iterator<Item = i64> + '_ {
    days.iter().filter(|day| day.refusal == 0).filter_map(Facts::saving)
}

/// Savings of another kind on each planned day; nothing where a day adds none.
fn saved(days: &[Facts], saving: fn(&Facts) -> Option<i64>) -> Figures {
    let mut told = figures(days);
    let planned = days.iter().filter(|day| day.refusal == 0);
    told[SAVINGS] = planned.filter_map(saving).sum::<i64>() as u64;
    told
}

/// Where first come has no allowed row, as if it had one of this cost.
fn as_if(text: &[u8], cost: fn(&Day) -> usize) -> Facts {
    let facts = facts_of(text);
    match read_day(text) {
        Ok(day) if facts.first_come.refusal == 14 => {
            let saving = cost(&day) as i64 - facts.value.cost as i64;
            Facts { first_come: Report { refusal: 0, numbers: [0; 4], saving }, ..facts }
        }
        _ => facts,
    }
}

/// The cost of first come's row with the trains left over in this slot.
fn cost_with(day: &Day, left: usize) -> usize {
    let slots: Vec<usize> = first_come(day).iter().map(|slot| slot.unwrap_or(left)).collect();
    value(day, &slots).cost
}

/// The same without the boxes of the trains left over.
fn incomplete_cost(day: &Day) -> usize {
    let (slots, mut day) = (first_come(day), day.clone());
    for (to, from) in (0..slots.len()).flat_map(|to| (0..slots.len()).map(move |from| (to, from))) {
        if slots[to].is_none() || slots[from].is_none() {
            day.boxes[to][from] = 0;
        }
    }
    cost_with(&day, 1)
}

// ---------------------------------------------------------------------------
// Means
// ---------------------------------------------------------------------------

#[rustfmt::skip]
pub const MISAVERAGED: [Misseason; 16] = [
    ("remainders dropped", telling(|days| each_mean(days, |_, _, [quotient, _]| [quotient, 0]))),
    ("quotients rounded up", telling(|days| each_mean(days, |_, _, [quotient, remainder]| [quotient + remainder.min(1), remainder]))),
    ("quotients rounded", telling(|days| each_mean(days, |_, planned, [quotient, remainder]| [quotient + u64::from(2 * remainder >= planned && remainder > 0), remainder]))),
    ("rounded up, what is too much for the remainder", telling(|days| each_mean(days, |_, planned, [quotient, remainder]| if remainder > 0 { [quotient + 1, planned - remainder] } else { [quotient, 0] }))),
    ("quotient and remainder exchanged", telling(|days| each_mean(days, |_, _, [quotient, remainder]| [remainder, quotient]))),
    ("the total for the quotient", telling(|days| each_mean(days, |total, _, [_, remainder]| [total, remainder]))),
    ("the total for the remainder", telling(|days| each_mean(days, |total, _, [quotient, _]| [quotient, total]))),
    ("means over all days", telling(|days| averaged(figures(days), days.len() as u64))),
    ("means over compared days", telling(|days| averaged(figures(days), savings_of(days).count() as u64))),
    ("means over refused days", telling(|days| averaged(figures(days), days.iter().filter(|day| day.refusal > 0).count() as u64))),
    ("means over days with boxes", telling(|days| averaged(figures(days), days.iter().filter(|day| day.refusal == 0 && day.boxes > 0).count() as u64))),
    ("means over one day more", telling(|days| { let told = figures(days); averaged(told, told[0] + 1) })),
    ("means over 366 days", telling(|days| averaged(figures(days), 366))),
    ("the mean of savings for that of boxes", telling(|days| { let mut told = figures(days); let of_savings = mean(told[SAVINGS], told[0]); told[MEANS + 6..].copy_from_slice(&of_savings); told })),
    ("means of direct and split moves exchanged", telling(|days| { let mut told = figures(days); told.swap(MEANS + 2, MEANS + 4); told.swap(MEANS + 3, MEANS + 5); told })),
    ("quotients first, then remainders", telling(|days| { let told = figures(days); let mut other = told; for which in 0..4 { other[MEANS + which] = told[MEANS + 2 * which]; other[MEANS + 4 + which] = told[MEANS + 2 * which + 1]; } other })),
];

/// Each mean told otherwise, from its total, the planned days and what it is.
fn each_mean(days: &[Facts], change: fn(u64, u64, [u64; 2]) -> [u64; 2]) -> Figures {
    let mut told = figures(days);
    for which in 0..4 {
        let at = MEANS + 2 * which;
        let changed = change(told[TOTALS + which], told[0], [told[at], told[at + 1]]);
        told[at..at + 2].copy_from_slice(&changed);
    }
    told
}

/// Means over so many days.
fn averaged(mut told: Figures, days: u64) -> Figures {
    for which in 0..4 {
        let changed = mean(told[TOTALS + which], days);
        told[MEANS + 2 * which..][..2].copy_from_slice(&changed);
    }
    told
}
