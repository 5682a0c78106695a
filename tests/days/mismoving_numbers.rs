//! Mistakes in how a call of a moving day takes its numbers: a train's for a
//! position, or only the low bits of one.

use crate::account::{Account, Slots};
use crate::case::Outcome;
use crate::mismoving_checks::{instead, Checks};
use crate::moving_call::{Asked, Call};
use crate::moving_rules::{
    both_listed, change, checks, refuse_if, within_limits, Change, Check, Given,
};

#[rustfmt::skip]
pub const MISNUMBERED: [(&str, Checks, Change); 5] = [
    ("cancel: by position", |asked| instead(asked, "18", no_such_position), by_position),
    ("cancel: by the low 16 bits", |asked| instead(asked, "18", no_such_low_bits), by_low_bits),
    ("add: the low 8 bits of the slots", |asked| each_cut(asked), |a, asked, plan| change(a, &cut(asked), plan)),
    ("set boxes: the low 8 bits of the boxes", |asked| instead(asked, "3", cut_limits), |a, asked, plan| change(a, &cut(asked), plan)),
    ("set boxes: at most 255 of them", |asked| instead(asked, "3", cut_limits), at_most),
];

/// What is asked, slots and boxes in 8 bits.
fn cut(asked: &Asked) -> Asked {
    match *asked {
        Asked::Add(train, first, last) => Asked::Add(train, first & 255, last & 255),
        Asked::SetBoxes(to, from, boxes) => Asked::SetBoxes(to, from, boxes & 255),
        other => other,
    }
}

/// The limits of what is left then.
fn cut_limits(given: &Given) -> Option<Outcome> {
    let call = Call { asked: cut(&given.call.asked), ..given.call.clone() };
    within_limits(&Given::new(&call))
}

/// All checks of add by what is left.
fn each_cut(asked: &Asked) -> Vec<Check> {
    const WINDOW: Check = |given| {
        let call = Call { asked: cut(&given.call.asked), ..given.call.clone() };
        let Asked::Add(_, first, last) = call.asked else { return None };
        refuse_if(first > last || first <= call.state.closed, 5)
    };
    match asked {
        Asked::Add(..) => {
            let mut all = instead(asked, "3", cut_limits);
            all.pop();
            all.push(WINDOW);
            all
        }
        _ => checks(asked),
    }
}

fn at_most(a: &mut Account, asked: &Asked, plan: &Slots) {
    match *asked {
        Asked::SetBoxes(to, from, boxes) => {
            change(a, &Asked::SetBoxes(to, from, boxes.min(255)), plan)
        }
        _ => change(a, asked, plan),
    }
}

fn at(given: &Given, train: u32) -> Option<u32> {
    let day = given.read.as_ref().ok()?;
    day.trains.get((train as usize).wrapping_sub(1)).map(|train| train.number as u32)
}

/// The check and the change of a call that takes the number for a position.
fn no_such_position(given: &Given) -> Option<Outcome> {
    let Asked::Cancel(train) = given.call.asked else { return both_listed(given) };
    let only = given.day_is(|day| day.trains.len() == 1);
    refuse_if(only || at(given, train).is_none_or(|number| given.is_served(number)), 18)
}

fn by_position(a: &mut Account, asked: &Asked, plan: &Slots) {
    let Asked::Cancel(train) = *asked else { return change(a, asked, plan) };
    let number = a.trains.keys().nth((train as usize).wrapping_sub(1)).copied();
    number.into_iter().for_each(|number| a.cancel(number));
}

fn alike(number: usize, train: u32) -> bool {
    number as u32 & 0xffff == train & 0xffff
}

fn no_such_low_bits(given: &Given) -> Option<Outcome> {
    let Asked::Cancel(train) = given.call.asked else { return both_listed(given) };
    let day = given.read.as_ref().ok()?;
    let found = day.trains.iter().find(|listed| alike(listed.number, train));
    let served = found.is_none_or(|listed| given.is_served(listed.number as u32));
    refuse_if(day.trains.len() == 1 || served, 18)
}

fn by_low_bits(a: &mut Account, asked: &Asked, plan: &Slots) {
    let Asked::Cancel(train) = *asked else { return change(a, asked, plan) };
    let found = a.trains.keys().find(|number| alike(**number, train)).copied();
    found.into_iter().for_each(|number| a.cancel(number));
}
