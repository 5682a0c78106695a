//! All allowed rows of a small long day, gone through one by one: what order 9 says
//! of the plan beside them.

use crate::long_beam::{key, RULES};
use crate::long_day::LongDay;
use crate::long_plan::LongPlanned;

/// Days of more rows within their windows are not gone through.
pub const MOST_ROWS: usize = 20_000;

pub fn rows_within(day: &LongDay) -> usize {
    day.trains.iter().map(|train| train.last - train.first + 1).product()
}

/// The row at an index among all within the windows.
fn row_at(day: &LongDay, mut index: usize) -> Vec<usize> {
    let mut slot = |position: usize| {
        let train = &day.trains[position];
        let width = train.last - train.first + 1;
        let slot = train.first + index % width;
        index /= width;
        slot
    };
    day.positions().map(&mut slot).collect()
}

/// Of all allowed rows the first in order 5's order.
pub fn best_row(day: &LongDay) -> Option<Vec<usize>> {
    let rows = (0..rows_within(day)).map(|index| row_at(day, index));
    rows.filter(|row| day.allows(row)).min_by_key(|row| key(day, &RULES, row))
}

/// What the order says of a plan, with the best of all rows: 9 exactly where no row
/// is allowed; no row costs less than the lower figure; the cost is never below the
/// least; and where the number of slots is 0 the row is the best one.
pub fn hold_to(
    day: &LongDay,
    best: &Option<Vec<usize>>,
    planned: &LongPlanned,
) -> Result<(), String> {
    let (best, plan) = match (best, planned) {
        (None, Err(_)) => return Ok(()),
        (Some(best), Ok(plan)) => (best, plan),
        (best, planned) => return Err(format!("{planned:?}, but the best row is {best:?}")),
    };
    let least = day.value(best).cost;
    let holds =
        plan.lower <= least && least <= plan.value.cost && (plan.full > 0 || plan.row == *best);
    match holds {
        true => Ok(()),
        false => Err(format!("{plan:?}, but the best row is {best:?} and costs {least}")),
    }
}
