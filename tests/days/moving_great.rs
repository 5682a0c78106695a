//! Calls of a moving day on the days that need the most memory, with what they
//! have to give: for little stack, where nothing else is to take any.

use crate::day_file::write_day;
use crate::model::{Day, Train};
use crate::moving_call::{Asked, Call, State, EXACT};
use crate::moving_rules::{reply, Reply, RULES};
use crate::plan::broken;
use crate::special::{dearest_day, greatest_day, greatest_ungrouped};

/// The state that a call leaves which has to be taken.
fn taken(asked: Asked, state: &State) -> ((Call, Reply), State) {
    let call = Call { asked, state: state.clone(), room: EXACT };
    let reply = reply(&RULES, &call);
    let Some((account, plan)) = &reply.after else {
        broken(&format!("{call} is refused: {:?}", reply.outcome));
    };
    let row = plan.values().map(|&slot| slot as u8).collect();
    let state = State { text: account.text(), closed: account.closed as u32, row };
    ((call, reply), state)
}

/// Twelve trains begin, one leaves and comes again, boxes change, a slot closes;
/// and again with that slot closed.
fn calls_on(day: &Day) -> Vec<(Call, Reply)> {
    let mut calls = Vec::new();
    let begun = State { text: write_day(day), closed: 0, row: Vec::new() };
    let (call, mut state) = taken(Asked::Begin, &begun);
    calls.push(call);
    for _ in 0..2 {
        let waits = |train: &&Train| train.first > state.closed as usize + 1;
        let Some(train) = day.trains.iter().find(waits) else { break };
        let (number, first, last) = (train.number as u32, train.first as u32, train.last as u32);
        let other = day.trains.iter().map(|train| train.number as u32).find(|&k| k != number);
        for asked in [
            Asked::SetBoxes(number, other.unwrap_or(1), 254),
            Asked::Cancel(number),
            Asked::Add(number, first, last),
            Asked::Close,
        ] {
            let (call, next) = taken(asked, &state);
            calls.push(call);
            state = next;
        }
    }
    calls
}

/// Those of one function.
pub fn great_calls(name: &str) -> Vec<(Call, Reply)> {
    let days = [greatest_day(), greatest_ungrouped(), dearest_day()];
    let calls = days.iter().flat_map(calls_on);
    calls.filter(|(call, _)| call.asked.name() == name).collect()
}
