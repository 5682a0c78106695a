//! A list of calls of a moving day: each is made in marked memory and compared,
//! and the account goes on beside the states that are written.

use crate::account::{row, Account, Slots};
use crate::account_plan::{replanned, Replanned};
use crate::day_file::{read_day, write_day};
use crate::draw::Random;
use crate::draw_moving::{draw_asked, draw_moving};
use crate::draw_states::{ample, by_hand, FAULTS};
use crate::lent::Marks;
use crate::moving_call::{Asked, Call, State};
use crate::moving_memory::{Memory, Perform};
use crate::moving_rules::{change, reply, Reply, RULES};
use crate::moving_seen::note;
use crate::plan::broken;
use crate::seen::Seen;

/// Days are drawn until one can be begun.
const MOST_BEGINS: usize = 6;
const BY_HAND_ONE_IN: usize = 12;

/// A moving day as this program has it by its own account.
pub struct Running {
    pub account: Account,
    pub plan: Slots,
    /// Whether the plan is the best of the account: all calls give such, and a
    /// state made by hand need not be one.
    pub best: bool,
}

pub struct Walk<'a> {
    random: Random,
    perform: Perform<'a>,
    /// Where what was tried is counted, if it is.
    seen: Option<&'a mut Seen>,
    pub calls: usize,
}

/// Makes a call and compares; the state where it is taken.
pub fn compare(
    call: &Call,
    wanted: &Reply,
    perform: Perform,
    marks: Marks,
) -> Result<Option<State>, String> {
    let mut memory = Memory::lent(call, marks);
    let got = perform(call, &mut memory);
    memory.compare(got, wanted).map_err(|what| format!("{call}\n  {what}"))?;
    Ok((got == 0).then(|| memory.state(call)))
}

/// The state of an account with a plan.
fn state_of(account: &Account, plan: &Slots) -> State {
    State { text: account.text(), closed: account.closed as u32, row: row(plan) }
}

/// What was asked changes the account too, without a text being read. It has to
/// be the account of the reply, and the plan that close keeps has to be the best
/// still; if not, it is this test program that is wrong.
fn follow(running: &mut Running, asked: &Asked, after: (Account, Slots)) {
    if *asked == Asked::Begin {
        *running = Running { account: after.0, plan: after.1, best: true };
        return;
    }
    change(&mut running.account, asked, &running.plan);
    if running.account != after.0 {
        broken(&format!("{asked:?} gives {:?} and {:?}", running.account, after.0));
    }
    running.plan = after.1;
    running.best |= asked.changes();
    let best = || replanned(&running.account) == Replanned::Plan(running.plan.clone());
    if *asked == Asked::Close && running.best && !best() {
        broken(&format!("{:?} of {:?} is not the best", running.plan, running.account));
    }
}

impl<'a> Walk<'a> {
    pub fn new(seed: u64, perform: Perform<'a>, seen: Option<&'a mut Seen>) -> Walk<'a> {
        Walk { random: Random(seed), perform, seen, calls: 0 }
    }

    fn call(
        &mut self,
        call: &Call,
        running: Option<&Running>,
    ) -> Result<Option<(Reply, State)>, String> {
        let reply = reply(&RULES, call);
        let marks = Marks::of(self.random.below(3));
        let state = compare(call, &reply, self.perform, marks)?;
        self.calls += 1;
        if let Some(seen) = &mut self.seen {
            note(seen, call, &reply, running);
        }
        Ok(state.map(|state| (reply, state)))
    }

    /// One fault or two, mostly of neighbouring checks.
    fn spoil(&mut self, account: &Account, call: &mut Call) {
        let random = &mut self.random;
        let last = FAULTS.len() - 1;
        let one = random.pick(&[0, 1, 2, 3, last, last]);
        FAULTS[one](random, account, call);
        if random.below(3) < 2 {
            let next = (one + 1) % FAULTS.len();
            let other = random.below(FAULTS.len());
            FAULTS[random.pick(&[next, next, other])](random, account, call);
        }
    }

    /// Begins with a drawn day, first with too little memory or a text that is
    /// none, then as it is.
    fn begin(&mut self) -> Result<Option<(Running, State)>, String> {
        for _ in 0..MOST_BEGINS {
            let day = draw_moving(&mut self.random);
            let account = Account::begun(&day);
            let state = State { text: write_day(&day), closed: 0, row: Vec::new() };
            let good = Call { asked: Asked::Begin, state, room: ample(&mut self.random) };
            let mut spoiled = good.clone();
            self.spoil(&account, &mut spoiled);
            self.call(&spoiled, None)?;
            if let Some((Reply { after: Some((account, plan)), .. }, state)) =
                self.call(&good, None)?
            {
                return Ok(Some((Running { account, plan, best: true }, state)));
            }
        }
        Ok(None)
    }

    /// A state made by hand takes the place of the one that was written.
    fn take_by_hand(&mut self, running: &mut Running, state: &mut State) {
        *state = by_hand(&mut self.random, &running.account, &running.plan);
        let day = read_day(&state.text).expect("a day file");
        let (account, plan) = Account::given(&day, state.closed as usize, &state.row);
        let best = replanned(&account) == Replanned::Plan(plan.clone());
        *running = Running { account, plan, best };
    }

    fn step(&mut self, running: &mut Running, state: &mut State) -> Result<(), String> {
        if self.random.one_in(BY_HAND_ONE_IN) {
            self.take_by_hand(running, state);
        }
        let asked = draw_asked(&mut self.random, &running.account, &running.plan);
        let room = ample(&mut self.random);
        let mut call = Call { asked, state: state.clone(), room };
        if self.random.below(5) < 2 {
            self.spoil(&running.account, &mut call);
        }
        // A day of which a call spoiled by chance is taken is another day: the
        // list goes on with its own.
        let own = call.state == *state;
        if let Some((Reply { after: Some(after), .. }, written)) =
            self.call(&call, Some(running))?
        {
            if own {
                follow(running, &asked, after);
                *state = written;
                if *state != state_of(&running.account, &running.plan) {
                    broken(&format!("{state:?} of {:?}", running.account));
                }
            }
        }
        Ok(())
    }

    /// A list of six to fourteen calls after a begin that was taken.
    pub fn list(&mut self) -> Result<(), String> {
        let Some((mut running, mut state)) = self.begin()? else { return Ok(()) };
        for _ in 0..self.random.between(6, 14) {
            self.step(&mut running, &mut state)?;
        }
        Ok(())
    }
}
