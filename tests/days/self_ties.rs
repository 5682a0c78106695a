//! Mode self, its part on the order of plans (order 5, which order 6 leaves as it
//! is): known days, what is drawn, and that both tell each mistake from the paper.

use crate::day_file::read_day;
use crate::groups::Tests;
use crate::known_direct::DIRECT_TIES;
use crate::known_ties::{TiedDay, TIED_DAYS};
use crate::misorderings::{try_all, Tried, MISORDERINGS};
use crate::model::{Day, MOST_TRAINS};
use crate::plan::best;
use crate::sets::has_groups;
use crate::texts::{direct_days, tied_days};

/// The allowed assignments of least cost, of these the ones of fewest revisits,
/// and of these the ones of the smallest sum.
struct Sifted<'a> {
    cheapest: Vec<&'a Tried>,
    fewest: Vec<&'a Tried>,
    smallest: Vec<&'a Tried>,
}

/// Those that have least of something.
fn least<'a>(all: &[&'a Tried], number: impl Fn(&Tried) -> usize) -> Vec<&'a Tried> {
    let least = all.iter().map(|tried| number(tried)).min();
    all.iter().copied().filter(|tried| Some(number(tried)) == least).collect()
}

impl Sifted<'_> {
    fn new(all: &[Tried]) -> Sifted<'_> {
        let all: Vec<&Tried> = all.iter().collect();
        let cheapest = least(&all, |tried| tried.rank.cost);
        let fewest = least(&cheapest, |tried| tried.rank.revisits);
        let smallest = least(&fewest, |tried| tried.assignment.iter().sum());
        Sifted { cheapest, fewest, smallest }
    }

    fn by_revisits(&self) -> bool {
        self.fewest.len() < self.cheapest.len()
    }

    fn by_sum(&self) -> bool {
        self.smallest.len() < self.fewest.len()
    }

    fn by_masks(&self) -> bool {
        self.smallest.len() > 1
    }

    /// The one of them that is first by its masks. Of different masks the largest
    /// has the highest train position in which they differ, so those are kept
    /// that have it: slot after slot, from the highest position down.
    fn first(&self, day: &Day) -> &[usize] {
        let mut left = self.smallest.clone();
        for slot in 1..=day.slots {
            for position in (0..day.trains.len()).rev() {
                left = least(&left, |tried| usize::from(tried.assignment[position] != slot));
            }
        }
        &left[0].assignment
    }
}

/// What the draws have to bring about, each on so many days.
const DRAWN: [&str; 18] = [
    "equal cost",
    "equal cost, other revisits",
    "equal cost, other revisits, both weighed",
    "equal revisits, other sums",
    "equal sums, other masks",
    "revisits, sum and masks in turn",
    "groups: other revisits",
    "groups: other sums",
    "groups: other masks",
    "weights 0 and 0",
    "weights 0 and more",
    "weights more and 0",
    "both weighed",
    "no boxes",
    "most trains",
    "a cost of 2^30 or more",
    "other sums, all above 63",
    "other revisits, more than 7 among them",
];

const LEAST_DRAWN: usize = 20;

/// Of the first kind so many are needed.
const LEAST_TIED: usize = 1000;

/// Which of `DRAWN` a day is on which allowed assignments cost the same.
fn drawn_kinds(day: &Day, sifted: &Sifted) -> [bool; DRAWN.len()] {
    let (by_revisits, by_sum, by_masks) =
        (sifted.by_revisits(), sifted.by_sum(), sifted.by_masks());
    let grouped = has_groups(day);
    let weighed = (day.revisit_weight > 0, day.split_weight > 0);
    let boxes: usize = day.boxes.iter().flatten().sum();
    let kinds = [
        true,
        by_revisits,
        by_revisits && weighed == (true, true),
        by_sum,
        by_masks,
        by_revisits && by_sum && by_masks,
        grouped && by_revisits,
        grouped && by_sum,
        grouped && by_masks,
        weighed == (false, false),
        weighed == (false, true),
        weighed == (true, false),
        weighed == (true, true),
        boxes == 0,
        day.trains.len() == MOST_TRAINS,
        sifted.cheapest[0].rank.cost >= 1 << 30,
        by_sum && sifted.smallest[0].rank.sum > 63,
        by_revisits && sifted.cheapest.iter().any(|tried| tried.rank.revisits > 7),
    ];
    kinds.map(|kind| kind && sifted.cheapest.len() > 1)
}

/// On the drawn days: what is to be chosen from, and which mistakes choose
/// otherwise.
fn check_drawn(tests: &mut Tests) {
    let mut counts = [0; DRAWN.len()];
    let mut told = [0; MISORDERINGS.len()];
    for (seed, day) in tied_days().chain(direct_days()) {
        let Some(plan) = best(&day) else { continue };
        let all = try_all(&day);
        let sifted = Sifted::new(&all);
        let first = sifted.first(&day);
        let alike = plan.assignment == first;
        tests.check(alike, &format!("seed {seed}: {first:?}, but the plan is {plan:?}"));
        for (count, holds) in counts.iter_mut().zip(drawn_kinds(&day, &sifted)) {
            *count += usize::from(holds);
        }
        for (count, (_, misorder)) in told.iter_mut().zip(MISORDERINGS) {
            *count += usize::from(misorder(&day, &all) != plan.assignment);
        }
    }
    for (count, name) in counts.into_iter().zip(DRAWN) {
        let needed = if name == DRAWN[0] { LEAST_TIED } else { LEAST_DRAWN };
        let seen = format!("{name}: drawn {count} times, {needed} are needed");
        tests.check(count >= needed, &seen);
    }
    for (count, (name, _)) in told.into_iter().zip(MISORDERINGS) {
        let seen = format!("{name}: told on {count} drawn days, {LEAST_DRAWN} are needed");
        tests.check(count >= LEAST_DRAWN, &seen);
    }
}

fn known_ties() -> impl Iterator<Item = &'static TiedDay> {
    TIED_DAYS.iter().chain(&DIRECT_TIES)
}

/// The known days have the plans that they say, and the order of those of least
/// cost.
fn check_known(tests: &mut Tests) {
    for tied in known_ties() {
        tests.check_text(tied.day.name, &tied.day.text(), &tied.day.outcome);
        let day = read_day(&tied.day.text()).expect("a good day");
        let all = try_all(&day);
        let mut cheapest = Sifted::new(&all).cheapest;
        cheapest.sort_by_key(|tried| tried.rank);
        let others: Vec<&[usize]> =
            cheapest[1..].iter().map(|tried| &tried.assignment[..]).collect();
        tests.check(others == tied.others, &format!("{}: then {others:?}", tied.day.name));
    }
}

/// Each mistake has to show on a known day.
fn check_mistakes(tests: &mut Tests) {
    let days = known_ties().map(|tied| read_day(&tied.day.text()).expect("a good day"));
    let tried: Vec<(Vec<Tried>, Day)> = days.map(|day| (try_all(&day), day)).collect();
    for (name, misorder) in MISORDERINGS {
        let told =
            |(all, day): &(Vec<Tried>, Day)| misorder(day, all) != Sifted::new(all).first(day);
        tests.check(tried.iter().any(told), &format!("{name}: no known day tells"));
    }
}

pub fn check_ties(tests: &mut Tests) {
    check_known(tests);
    check_drawn(tests);
    check_mistakes(tests);
}
