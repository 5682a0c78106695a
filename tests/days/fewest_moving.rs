//! Order 8 of 02 on moving days (order 7): where the revisit weight is the sum of
//! the boxes as they are now, or more, and the split weight 1, the plan of a state
//! has the fewest revisits, then the fewest split moves, of all allowed rows that
//! keep served trains and put all others into open slots.

use crate::account::{row, Account, Slots};
use crate::call_value;
use crate::day_file::read_day;
use crate::draw::Random;
use crate::draw_fewest::draw_bought;
use crate::draw_moving::{draw_asked, draw_moving};
use crate::draw_states::by_hand;
use crate::fewest::{all_counts, hold, Counts, Told};
use crate::fewest_moving_seen::{note_state, refused, sum_of};
use crate::groups::Tests;
use crate::lent::Marks;
use crate::model::{MOST_WEIGHT, NUMBERS};
use crate::moving_call::{Asked, Call, State, EXACT};
use crate::moving_memory::{by_library, Memory, Perform};
use crate::moving_rules::change;
use crate::moving_walk::Running;
use crate::seen::Seen;
use crate::valuing::assignment;

pub const LISTS: usize = 1500;
pub const SEED: u64 = 18_000_000;

const BY_HAND_ONE_IN: usize = 6;

/// A list of calls on a moving day.
pub struct List<'a> {
    random: Random,
    perform: Perform<'a>,
    /// Where what was tried is counted, if it is.
    seen: Option<&'a mut Seen>,
    /// States that were held to order 8.
    pub held: usize,
}

impl<'a> List<'a> {
    pub fn new(seed: u64, perform: Perform<'a>, seen: Option<&'a mut Seen>) -> List<'a> {
        List { random: Random(seed), perform, seen, held: 0 }
    }

    /// Weights for a day of so many boxes.
    fn weights(&mut self, sum: usize) -> (usize, usize) {
        let any = self.random.between(sum, MOST_WEIGHT);
        (self.random.pick(&[sum, sum, sum + 1, any, MOST_WEIGHT]), 1)
    }

    /// The account that a call is given. Weights are part of the day file, which its
    /// owner may write anew: where the call plans, they are made for the boxes that
    /// there will be, unless those of before still do.
    fn given(&mut self, running: &Running, asked: &Asked) -> Account {
        let mut given = running.account.clone();
        let mut changed = given.clone();
        change(&mut changed, asked, &running.plan);
        let boxes = sum_of(&changed);
        let suffices = *asked != Asked::Begin && given.weights.0 >= boxes;
        let kept = suffices && self.random.one_in(2);
        // A call that asks for more boxes than there can be is refused.
        if asked.plans() && boxes <= MOST_WEIGHT && !kept {
            given.weights = self.weights(boxes);
        }
        given
    }

    /// Makes a call; where it is taken, the state is the account's and its plan is
    /// held to order 8. Whether it is taken.
    fn call(&mut self, running: &mut Running, asked: Asked) -> Result<bool, String> {
        let mut account = self.given(running, &asked);
        let state =
            State { text: account.text(), closed: account.closed as u32, row: row(&running.plan) };
        let call = Call { asked, state, room: EXACT };
        let mut memory = Memory::lent(&call, Marks::of(self.held));
        if (self.perform)(&call, &mut memory) != 0 {
            self.seen.iter_mut().for_each(|seen| seen.note(&refused(&asked)));
            return Ok(false);
        }
        change(&mut account, &asked, &running.plan);
        let text = account.text();
        let numbers = [account.closed, account.trains.len(), text.len(), 0];
        let told = memory.numbers.words() == numbers.map(|number| number as u64);
        if !told || memory.state(&call).text != text {
            return Err(format!("{call}\n  another state than that of {account:?}"));
        }
        let state = memory.state(&call);
        let before = running.account.weights;
        let plan = account.by_number(&assignment(&state.row));
        *running = Running { account, plan, best: running.best || asked.plans() };
        if running.best {
            self.hold(running, before, &asked, &state)
                .map_err(|what| format!("{call}\n  {what}"))?;
        }
        Ok(true)
    }

    fn hold(
        &mut self,
        running: &Running,
        before: (usize, usize),
        asked: &Asked,
        state: &State,
    ) -> Result<(), String> {
        let day = running.account.bound_day();
        let all = all_counts(&day);
        let Some(&least) = all.first() else {
            return Err(format!("{state:?}, but no row is allowed"));
        };
        if let Some(seen) = &mut self.seen {
            note_state(seen, running, asked, before, &all);
        }
        let told = Told { slots: assignment(&state.row), counts: valued(state) };
        hold(&day, least, &told)?;
        self.held += 1;
        Ok(())
    }

    /// Another allowed row, and any number of closed slots, as if someone had written
    /// them. The plan is then the best again when the day is changed.
    fn take_by_hand(&mut self, running: &mut Running) {
        let state = by_hand(&mut self.random, &running.account, &running.plan);
        let day = read_day(&state.text).expect("a day file");
        let (account, plan) = Account::given(&day, state.closed as usize, &state.row);
        *running = Running { account, plan, best: false };
    }

    /// A list of four to nine calls after a begin that was taken.
    pub fn run(&mut self) -> Result<(), String> {
        let draw = self.random.pick(&[draw_bought, draw_bought, draw_moving]);
        let account = Account::begun(&draw(&mut self.random));
        let mut running = Running { account, plan: Slots::new(), best: false };
        if !self.call(&mut running, Asked::Begin)? {
            return Ok(());
        }
        for _ in 0..self.random.between(4, 9) {
            if self.random.one_in(BY_HAND_ONE_IN) {
                self.take_by_hand(&mut running);
            }
            let asked = draw_asked(&mut self.random, &running.account, &running.plan);
            // A day that is begun anew is another list's affair.
            if asked != Asked::Begin {
                self.call(&mut running, asked)?;
            }
        }
        Ok(())
    }
}

/// The counts that yard_value tells of a state's plan: no call of a moving day tells
/// them.
fn valued(state: &State) -> Counts {
    let mut memory = call_value::Memory::lent(&state.text, &state.row, NUMBERS, Marks::High);
    memory.value();
    let numbers = memory.numbers.words();
    Counts { revisits: numbers[0] as usize, splits: numbers[1] as usize }
}

/// Lists of calls, each state held.
pub fn moving_states(tests: &mut Tests, seen: &mut Seen) {
    let mut states = 0;
    for seed in (SEED..).take(LISTS) {
        if tests.stopped() {
            return;
        }
        let mut list = List::new(seed, &by_library, Some(&mut *seen));
        let compared = list.run();
        states += list.held;
        if let Err(what) = compared {
            tests.fail(&format!("seed {seed}, state {}\n  {what}", list.held + 1));
        }
    }
    tests.passed += states;
    println!("{LISTS} lists of calls, {states} states");
}
