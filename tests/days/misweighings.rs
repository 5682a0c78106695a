//! Mistakes about order 8 of 02: planners that miss the fewest revisits or the
//! fewest split moves of these, or tell other numbers than their row has; and
//! enumerations of other rows than the allowed ones. Each has to show on drawn
//! days, for else the library, or this program, could make it unseen.

use crate::fewest::{counted, each_row, Counts, Told};
use crate::fewest_seen::widened;
use crate::fewest_weights::sum;
use crate::library::complete;
use crate::misvaluings::{supplied, Misvalue, MISVALUINGS};
use crate::model::{within_windows, Day};
use crate::plan::allowed;
use crate::procedures::{first_come, myopic, Slots};
use crate::sets::ungrouped;

/// Days of no more rows within their windows are planned by each mistake.
pub const MISTAKEN_MOST: usize = 500;

/// An allowed row with its counts, the plan of a planner that takes it.
pub type Row = Told;

pub fn all_rows(day: &Day) -> Vec<Row> {
    let mut rows = Vec::new();
    each_row(day, |slots, counts| rows.push(Row { slots: slots.to_vec(), counts }));
    rows
}

/// The first of the rows that have least of something.
pub fn first<Key: Ord>(rows: &[Row], key: impl Fn(&Row) -> Key) -> Option<Told> {
    rows.iter().min_by_key(|row| key(row)).cloned()
}

// ---------------------------------------------------------------------------
// Another weight for the sum
// ---------------------------------------------------------------------------

type Misweigh = fn(&Day) -> usize;

const MISWEIGHINGS: [(&str, Misweigh); 13] = [
    ("half the sum", |day| sum(day) / 2),
    ("the sum less 2", |day| sum(day).max(2) - 2),
    ("the sum in 8 bits", |day| sum(day) % (1 << 8)),
    ("the sum in 15 bits", |day| sum(day) % (1 << 15)),
    ("the largest number of boxes", |day| moves(day).max().unwrap_or_default()),
    ("the number of moves", |day| moves(day).count()),
    ("the number of trains", |day| day.trains.len()),
    ("1", |_| 1),
    ("the sum without boxes to trains further down", |day| sum_if(day, |to, from| to < from)),
    ("the sum without boxes to trains further up", |day| sum_if(day, |to, from| to > from)),
    ("the sum of what one train receives", |day| largest(day, |k, to, _| k == to)),
    ("the sum of what one train supplies", |day| largest(day, |k, _, from| k == from)),
    ("the sum without the last move", without_last),
];

/// The boxes of each move.
pub fn moves(day: &Day) -> impl Iterator<Item = usize> + '_ {
    supplied(day).map(|(to, from)| day.boxes[to][from])
}

fn sum_if(day: &Day, such: impl Fn(usize, usize) -> bool) -> usize {
    let moves = supplied(day).filter(|&(to, from)| such(to, from));
    moves.map(|(to, from)| day.boxes[to][from]).sum()
}

/// The largest sum that belongs to one train.
fn largest(day: &Day, belongs: fn(usize, usize, usize) -> bool) -> usize {
    let sum = |k: usize| sum_if(day, |to, from| belongs(k, to, from));
    (0..day.trains.len()).map(sum).max().unwrap_or_default()
}

fn without_last(day: &Day) -> usize {
    sum(day) - moves(day).last().unwrap_or_default()
}

/// By the cost with this revisit weight, then by the revisits, as order 5 says.
fn weighed(rows: &[Row], weight: usize) -> Option<Told> {
    let cost = |counts: Counts| weight * counts.revisits + counts.splits;
    first(rows, |row| (cost(row.counts), row.counts.revisits))
}

// ---------------------------------------------------------------------------
// Other plans
// ---------------------------------------------------------------------------

/// The plan of a day by its allowed rows; nothing where the mistake finds none.
type Misplan = fn(&Day, &[Row]) -> Option<Told>;

const MISPLANS: [(&str, Misplan); 16] = [
    ("the cost in 16 bits", |day, rows| {
        first(rows, |row| (sum(day) * row.counts.revisits + row.counts.splits) % (1 << 16))
    }),
    ("split moves before revisits", |_, rows| {
        first(rows, |row| (row.counts.splits, row.counts.revisits))
    }),
    ("of the fewest revisits the most split moves", |_, rows| {
        first(rows, |row| (row.counts.revisits, usize::MAX - row.counts.splits))
    }),
    ("of the fewest revisits the first row", |_, rows| first(rows, |row| row.counts.revisits)),
    ("of the fewest revisits the smallest sum of slots", |_, rows| {
        first(rows, |row| (row.counts.revisits, row.slots.iter().sum::<usize>()))
    }),
    ("one revisit more for the fewest split moves", one_more),
    ("a revisit for the first supplier alone", first_supplier),
    ("first come", |day, _| of_procedure(day, &first_come(day))),
    ("the myopic procedure", |day, _| of_procedure(day, &myopic(day))),
    ("each slot filled before the next begins", |day, rows| {
        first(&filled(day, rows), |row| row.counts)
    }),
    ("windows one slot wider", |day, _| fewest_of(&widened(day))),
    ("a track more", |day, _| fewest_of(&with_track(day))),
    ("groups parted", |day, _| fewest_of(&ungrouped(day))),
    ("the fewest told of another row", of_another),
    ("a revisit told for each late supplier", |day, rows| {
        retold(rows, |row| Counts { revisits: late(day, &row.slots), ..row.counts })
    }),
    ("direct moves told for split moves", |day, rows| {
        retold(rows, |row| Counts { splits: sum(day) - row.counts.splits, ..row.counts })
    }),
];

/// The plan of a day that is taken for the given one, where its rows are few too.
fn fewest_of(day: &Day) -> Option<Told> {
    if day.assignments() > MISTAKEN_MOST {
        return None;
    }
    first(&all_rows(day), |row| row.counts)
}

/// As if a revisit were nothing where it saves a split move.
fn one_more(_: &Day, rows: &[Row]) -> Option<Told> {
    let fewest = first(rows, |row| row.counts)?.counts.revisits;
    let few = rows.iter().filter(|row| row.counts.revisits <= fewest + 1);
    few.min_by_key(|row| row.counts.splits).cloned()
}

/// Of several suppliers only the first in the day file makes a train come back.
fn first_supplier(day: &Day, rows: &[Row]) -> Option<Told> {
    let supplier = |i: usize| supplied(day).find(|(to, _)| *to == i).map(|(_, from)| from);
    let suppliers: Vec<Option<usize>> = (0..day.trains.len()).map(supplier).collect();
    let back = |slots: &[usize], i: usize| suppliers[i].is_some_and(|j| slots[j] > slots[i]);
    let revisits = |slots: &[usize]| (0..slots.len()).filter(|&i| back(slots, i)).count();
    first(rows, |row| (revisits(&row.slots), row.counts.splits))
}

/// The row of a procedure, where it is allowed.
fn of_procedure(day: &Day, slots: &Slots) -> Option<Told> {
    let slots = complete(slots);
    let whole = slots.len() == day.trains.len();
    if !(whole && within_windows(day, &slots) && allowed(day, &slots)) {
        return None;
    }
    Some(Told { counts: counted(day, &slots), slots })
}

/// The rows that leave no track free before the last slot that they use.
fn filled(day: &Day, rows: &[Row]) -> Vec<Row> {
    let full = |row: &&Row| {
        let last = row.slots.iter().max().copied().unwrap_or_default();
        let load = |slot: usize| row.slots.iter().filter(|&&held| held == slot).count();
        (1..last).all(|slot| load(slot) == day.tracks)
    };
    rows.iter().filter(full).cloned().collect()
}

fn of_another(_: &Day, rows: &[Row]) -> Option<Told> {
    let right = first(rows, |row| row.counts)?;
    let another = rows.iter().find(|row| row.counts != right.counts)?;
    Some(Told { slots: another.slots.clone(), ..right })
}

/// The right row, with other counts told of it.
fn retold(rows: &[Row], tell: impl Fn(&Row) -> Counts) -> Option<Told> {
    first(rows, |row| row.counts).map(|row| Told { counts: tell(&row), slots: row.slots })
}

fn late(day: &Day, slots: &[usize]) -> usize {
    supplied(day).filter(|&(to, from)| slots[from] > slots[to]).count()
}

/// By revisits, split moves and cost that are counted by a mistake.
fn miscounted(day: &Day, rows: &[Row], misvalue: Misvalue) -> Option<Told> {
    first(rows, |row| {
        let value = misvalue(day, &row.slots);
        (value.cost, value.revisits)
    })
}

/// The names of all planners that make a mistake, in the order of `mistaken`.
pub fn mistakes() -> Vec<String> {
    let weights = MISWEIGHINGS.iter().map(|(name, _)| format!("the revisit weight is {name}"));
    let plans = MISPLANS.iter().map(|(name, _)| name.to_string());
    let values = MISVALUINGS.iter().map(|(name, _)| format!("planned by {name}"));
    weights.chain(plans).chain(values).collect()
}

/// The plan of each on a day of the weights sum and 1, by its allowed rows.
pub fn mistaken(day: &Day, rows: &[Row]) -> Vec<Option<Told>> {
    let weights = MISWEIGHINGS.iter().map(|(_, misweigh)| weighed(rows, misweigh(day)));
    let plans = MISPLANS.iter().map(|(_, misplan)| misplan(day, rows));
    let values = MISVALUINGS.iter().map(|(_, misvalue)| miscounted(day, rows, *misvalue));
    weights.chain(plans).chain(values).collect()
}

// ---------------------------------------------------------------------------
// Other rows
// ---------------------------------------------------------------------------

/// A day whose allowed rows are taken for those of the given one.
type Misread = fn(&Day) -> Day;

pub const MISREAD_ROWS: [(&str, Misread); 6] = [
    ("rows one slot outside the windows too", widened),
    ("no row with the first slot of a window", |day| narrowed(day, true)),
    ("no row with the last slot of a window", |day| narrowed(day, false)),
    ("rows with a train too many too", with_track),
    ("no row that fills a slot", |day| Day { tracks: day.tracks - 1, ..day.clone() }),
    ("rows that part groups too", ungrouped),
];

fn with_track(day: &Day) -> Day {
    Day { tracks: day.tracks + 1, ..day.clone() }
}

/// Windows of several slots without one of them.
fn narrowed(day: &Day, first: bool) -> Day {
    let mut day = day.clone();
    for train in day.trains.iter_mut().filter(|train| train.first < train.last) {
        match first {
            true => train.first += 1,
            false => train.last -= 1,
        }
    }
    day
}
