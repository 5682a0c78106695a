//! Drawing calendars, dates and trains (order 11 of 02).

use crate::calendar::{slots_between, Asked, HOURS, LAST_MINUTE, MOST_CLOSED, MOST_LENGTH};
use crate::calendar_dates::{century, weekday_of};
use crate::calendar_special::NO_DATES;
use crate::draw::Random;

/// Up to a number, included.
fn up_to(random: &mut Random, most: u32) -> u32 {
    random.between(0, most as usize) as u32
}

fn draw_date(random: &mut Random) -> u32 {
    century()[random.below(century().len())].0.number()
}

/// A date of the century most often, and a number near one.
fn draw_number(random: &mut Random, date: u32) -> u32 {
    let near = up_to(random, 8);
    match random.below(5) {
        0 => random.pick(&NO_DATES),
        1 => date - date % 100 + 28 + near % 5,
        2 => 19_990_000 + up_to(random, 1_020_000),
        3 => (date - date % 10_000) + up_to(random, 1400),
        _ => up_to(random, u32::MAX),
    }
}

/// Short slots and few; slots that eight or nine of fill the day; any.
fn draw_length(random: &mut Random) -> u32 {
    match random.below(8) {
        0 => 1 + up_to(random, 4),
        1 => 1 + up_to(random, MOST_LENGTH - 1),
        2 => random.pick(&[60, 90, 120, 180]),
        _ => 10 + up_to(random, 150),
    }
}

/// Opening and closing of a weekday. Most often so many slots fit, exactly, nearly or with
/// some minutes to spare.
fn draw_hours(random: &mut Random, length: u32) -> [u32; 2] {
    let opening = match random.below(4) {
        0 => up_to(random, 5),
        1 => up_to(random, LAST_MINUTE),
        _ => up_to(random, 700),
    };
    let behind = match random.below(12) {
        0 => up_to(random, LAST_MINUTE),
        1 => 0,
        2 => return [opening, opening.saturating_sub(1 + up_to(random, 300))],
        _ => {
            let spare = random.pick(&[0, 0, 0, 1, length - 1, length / 2]);
            length * (1 + up_to(random, 10)) + spare
        }
    };
    let over = u32::from(random.one_in(4));
    [opening, (opening + behind).saturating_sub(over).min(LAST_MINUTE)]
}

/// Closed dates, the asked one among them now and then, and near ones.
fn draw_closed(random: &mut Random, date: u32) -> Vec<u32> {
    let count = match random.below(6) {
        0 | 1 => 0,
        2 => MOST_CLOSED,
        _ => random.between(1, MOST_CLOSED),
    };
    let mut closed: Vec<u32> = (0..count).map(|_| draw_date(random)).collect();
    for other in &mut closed {
        let near = date - date % 100 + 1 + up_to(random, 30);
        if random.one_in(4) && near != date && weekday_of(near).is_some() {
            *other = near;
        }
    }
    if count > 0 && random.one_in(4) {
        let anywhere = random.below(count);
        closed[random.pick(&[0, count - 1, anywhere])] = date;
    }
    closed
}

/// A minute of the day, most often near the start or the end of a slot.
fn draw_minute(random: &mut Random, [opening, closing]: [u32; 2], length: u32) -> u32 {
    let slots = slots_between(opening, closing, length);
    if slots.is_empty() || random.one_in(6) {
        return up_to(random, LAST_MINUTE);
    }
    let slot = slots[random.below(slots.len().min(10))];
    let at = random.pick(&[slot.start, slot.end]);
    let near = at + random.pick(&[0, 1, 1, 1, 1, 2, 2, 5]);
    near.saturating_sub(1).min(LAST_MINUTE)
}

fn draw_train(random: &mut Random, hours: [u32; 2], length: u32) -> [u32; 2] {
    let [mut arrival, mut departure] = [(); 2].map(|()| draw_minute(random, hours, length));
    if random.one_in(3) {
        arrival = up_to(random, hours[0]);
    }
    if random.one_in(3) {
        departure = hours[1].max(departure);
    }
    match arrival > departure && !random.one_in(10) {
        true => [departure, arrival],
        false => [arrival, departure],
    }
}

/// A number that is out of range, seldom far.
fn draw_great(random: &mut Random, limit: u32) -> u32 {
    match random.below(3) {
        0 => limit + 1,
        1 => limit + 1 + up_to(random, 200),
        _ => limit + 1 + up_to(random, u32::MAX - limit - 1),
    }
}

/// One thing that is out of range.
fn spoil(random: &mut Random, asked: &mut Asked) {
    let date = asked.date;
    match random.below(8) {
        0 => asked.date = draw_number(random, date),
        1 | 2 => asked.hours[random.below(HOURS)] = draw_great(random, LAST_MINUTE),
        3 if !asked.closed.is_empty() => {
            let place = random.below(asked.closed.len());
            asked.closed[place] = draw_number(random, date);
        }
        3 => asked.closed = vec![draw_number(random, date)],
        4 => {
            let count = MOST_CLOSED + 1 + random.below(4);
            asked.closed = (0..count).map(|_| draw_date(random)).collect();
        }
        5 => asked.length = if random.one_in(2) { 0 } else { draw_great(random, MOST_LENGTH) },
        place => asked.train[place - 6] = draw_great(random, LAST_MINUTE),
    }
}

/// A calendar and a train; one in four has something out of range, one in thirty too few
/// hours, and one in five has numbers of all kinds beyond them.
pub fn draw_asked(random: &mut Random) -> Asked {
    let (date, length) = (draw_date(random), draw_length(random));
    let week: Vec<[u32; 2]> = (0..7).map(|_| draw_hours(random, length)).collect();
    let today = week[weekday_of(date).expect("a date")];
    let (closed, train) = (draw_closed(random, date), draw_train(random, today, length));
    let mut asked = Asked { hours: week.concat(), length, closed, date, train };
    if random.one_in(4) {
        spoil(random, &mut asked);
        if random.one_in(3) {
            spoil(random, &mut asked);
        }
    }
    if random.one_in(30) {
        asked.hours.truncate(random.below(HOURS));
    } else if random.one_in(5) {
        let beyond = random.between(1, 20);
        asked.hours.extend((0..beyond).map(|_| up_to(random, u32::MAX)));
    }
    asked
}
