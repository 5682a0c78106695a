//! What has to be seen of the states of mode fewest.

use crate::account::Account;
use crate::fewest::{fewest, Counts};
use crate::fewest_seen::{by_split_moves, by_sum_of_both};
use crate::misvaluings::supplied;
use crate::model::MOST_TRAINS;
use crate::moving_call::Asked;
use crate::moving_required::EACH;
use crate::moving_walk::Running;
use crate::seen::Seen;
use std::collections::BTreeSet;

/// Besides each function's.
const STATES: [&str; 16] = [
    "state: the weight is the sum as it is now",
    "state: the weight is more than the sum as it is now",
    "state: the weight is the one of before a change",
    "state: no boxes",
    "state: groups",
    "state: ten trains or more",
    "state: slots are closed, no train is served",
    "state: trains are served, and others have a choice",
    "state: all trains are served",
    "state: all slots are closed",
    "state: a served train comes back for one that isn't served",
    "state: no row without a revisit",
    "state: the fewest split moves come with more revisits",
    "state: weights 1 and 1 give other counts",
    "state: were all slots open, there would be fewer revisits",
    "state: were all slots open, as many revisits and fewer split moves",
];

pub fn after(asked: &Asked) -> String {
    format!("state after {}", asked.name())
}

pub fn refused(asked: &Asked) -> String {
    format!("{} refused", asked.name())
}

pub fn required_states() -> Vec<String> {
    let states = STATES.iter().map(|what| what.to_string());
    states.chain(EACH.iter().flat_map(|asked| [after(asked), refused(asked)])).collect()
}

/// The sum of all boxes.
pub fn sum_of(account: &Account) -> usize {
    account.boxes.values().sum()
}

/// A state by the counts of the rows that it could have; `before` has the weights of
/// before the call.
pub fn note_state(
    seen: &mut Seen,
    running: &Running,
    asked: &Asked,
    before: (usize, usize),
    all: &BTreeSet<Counts>,
) {
    let Running { account, plan, .. } = running;
    let (day, least) = (account.bound_day(), all.first().expect("a row"));
    let (n, served, sum) = (account.trains.len(), account.served.len(), sum_of(account));
    let choice = day.trains.iter().any(|train| train.first < train.last);
    let slots: Vec<usize> = plan.values().copied().collect();
    let closed = account.closed;
    let comes_back = |(to, from): (usize, usize)| slots[to] <= closed && closed < slots[from];
    let open = fewest(&account.day()).expect("a row");
    let found = [
        account.weights.0 == sum && sum > 0,
        account.weights.0 > sum,
        asked.changes() && account.weights == before,
        sum == 0,
        account.trains.values().any(|listed| listed.group > 0),
        n + 2 >= MOST_TRAINS,
        closed > 0 && served == 0,
        served > 0 && choice,
        served == n,
        closed == account.slots,
        supplied(&day).any(comes_back),
        least.revisits > 0,
        by_split_moves(all).revisits > least.revisits,
        by_sum_of_both(all) != *least,
        open.revisits < least.revisits,
        open.revisits == least.revisits && open.splits < least.splits,
    ];
    seen.note(&after(asked));
    found.into_iter().zip(STATES).for_each(|(holds, what)| seen.note_if(holds, what));
}
