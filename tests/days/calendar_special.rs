//! Calendars, dates and trains at the limits, made by hand (order 11 of 02).

use crate::calendar::{Asked, HOURS, LAST_MINUTE, MOST_CLOSED, MOST_LENGTH};
use crate::calendar_dates::{century, weekday_of, Date, WEEKDAYS};
use crate::calendar_known::KNOWN_WINDOWS;

/// A name for what is asked, and it.
pub type NamedAsked = (String, Asked);

pub fn known_asked() -> impl Iterator<Item = NamedAsked> {
    KNOWN_WINDOWS.iter().map(|known| (known.name.to_string(), known.asked()))
}

/// A good calendar, other hours on each weekday; slots of half an hour, from three on
/// Monday to nine on Sunday.
const HALF_HOURS: [u32; HOURS] =
    [480, 570, 481, 601, 482, 632, 483, 663, 484, 694, 485, 725, 486, 756];

/// 29 February 2044 is a Monday. The days from then on have all weekdays.
const WEEK: [u32; 7] = [20440229, 20440301, 20440302, 20440303, 20440304, 20440305, 20440306];

fn usual(date: u32) -> Asked {
    let hours = HALF_HOURS.to_vec();
    Asked { hours, length: 30, closed: vec![20430101, 20450101], date, train: [500, 1300] }
}

/// Of 16, 31 and 32 bits, and what is left of them cut is a good minute or length.
const GREAT: [u32; 9] = [
    32_768 + 600,
    65_535,
    65_536,
    65_536 + 600,
    (1 << 24) + 600,
    (1 << 31) - 1,
    (1 << 31) + 600,
    u32::MAX - 59,
    u32::MAX,
];

const MINUTES: [u32; 7] = [0, 1, LAST_MINUTE - 1, LAST_MINUTE, LAST_MINUTE + 1, 1441, 1696];

fn minutes() -> impl Iterator<Item = u32> {
    MINUTES.into_iter().chain(GREAT)
}

/// Each hour and both minutes of the train, at each weekday.
fn minute_asked() -> Vec<NamedAsked> {
    let mut all = Vec::new();
    for (weekday, date) in WEEK.into_iter().enumerate() {
        for minute in minutes() {
            for place in 0..HOURS {
                let mut asked = usual(date);
                asked.hours[place] = minute;
                let name = WEEKDAYS[weekday];
                all.push((format!("{name}, hours[{place}] is {minute}"), asked));
            }
            for place in 0..2 {
                let mut asked = usual(date);
                asked.train[place] = minute;
                let name = WEEKDAYS[weekday];
                all.push((format!("{name}, train[{place}] is {minute}"), asked));
            }
        }
    }
    all
}

/// Closing around each multiple of the slot length behind opening, 0 among them.
fn closing_asked() -> Vec<NamedAsked> {
    let mut all = Vec::new();
    for opening in [0, 1, 300, 719, 1431, 1438, LAST_MINUTE] {
        for length in [1, 2, 7, 60, 143, 180, 719, 1438, LAST_MINUTE, MOST_LENGTH] {
            for (slots, beyond) in (0..=11).flat_map(|slots| [(slots, 0), (slots, 1), (slots, 2)]) {
                let closing = opening + slots * length + beyond;
                let Some(closing) = closing.checked_sub(1).filter(|&minute| minute <= LAST_MINUTE)
                else {
                    continue;
                };
                let weekday = (opening + length + slots) as usize % 7;
                let mut asked = usual(WEEK[weekday]);
                asked.hours[2 * weekday..][..2].copy_from_slice(&[opening, closing]);
                asked.length = length;
                asked.train = [opening, closing];
                all.push((format!("{opening} to {closing}, slots of {length}"), asked));
            }
        }
    }
    all
}

/// Opening, slot length and closing of days with few slots and with more than eight.
const DAYS: [[u32; 3]; 5] =
    [[300, 60, 900], [0, 1, 9], [1431, 1, 1439], [417, 37, 417 + 37 * 8], [100, 200, 820]];

/// Arrival at each start, a minute before and after; departure so at each end. There is
/// one start more than there are slots, and one end.
fn train_asked() -> Vec<NamedAsked> {
    let mut all = Vec::new();
    for (turn, [opening, length, closing]) in DAYS.into_iter().enumerate() {
        let starts =
            (0..).map(|slot| opening + slot * length).take_while(|&start| start <= closing);
        let around: Vec<u32> = starts
            .flat_map(|start| [start.saturating_sub(1), start, start + 1])
            .filter(|&minute| minute <= LAST_MINUTE)
            .collect();
        let weekday = 2 * turn % 7;
        for (&arrival, &departure) in around
            .iter()
            .flat_map(|arrival| around.iter().map(move |departure| (arrival, departure)))
        {
            let mut asked = usual(WEEK[weekday]);
            asked.hours[2 * weekday..][..2].copy_from_slice(&[opening, closing]);
            asked.length = length;
            asked.train = [arrival, departure];
            let day = format!("{opening} to {closing}, slots of {length}");
            all.push((format!("{day}, a train from {arrival} to {departure}"), asked));
        }
    }
    all
}

const LENGTHS: [u32; 17] =
    [0, 1, 2, 29, 30, 31, 90, 91, 270, 271, 1438, 1439, 1440, 1441, 1442, 2880, 1_000_000];

/// Slot lengths on each weekday, where it has slots, where it is closed and where all
/// days are open as long as can be.
fn length_asked() -> Vec<NamedAsked> {
    let mut all = Vec::new();
    for (weekday, date) in WEEK.into_iter().enumerate() {
        let cut = [32_768 + 30, 65_536 + 30, (1 << 24) + 30, (1 << 31) + 30, 256 + 30];
        for length in LENGTHS.into_iter().chain(GREAT).chain(cut) {
            let open = Asked { length, train: [0, LAST_MINUTE], ..usual(date) };
            let mut shut = open.clone();
            shut.closed.push(date);
            let hours = [0, LAST_MINUTE].repeat(7);
            let always = Asked { hours, ..open.clone() };
            let name = format!("{}, slots of {length}", WEEKDAYS[weekday]);
            all.push((format!("{name}, closed"), shut));
            all.push((format!("{name}, always open"), always));
            all.push((name, open));
        }
    }
    all
}

// ---------------------------------------------------------------------------
// Dates
// ---------------------------------------------------------------------------

/// Numbers that are no dates, and some that were if they were cut or read otherwise.
pub const NO_DATES: [u32; 56] = [
    0,
    1,
    100,
    101,
    229,
    2000,
    10_101,
    240_229,
    440_229,
    991_231, // two digits of a year, or none
    19_991_231,
    19_991_130,
    19_990_228,
    19_440_229,
    19_000_229,
    10_000_101, // too early
    21_000_101,
    21_000_228,
    21_000_229,
    21_000_301,
    21_001_231,
    22_000_229,
    99_991_231, // too late
    20_440_230,
    20_440_231,
    20_430_229,
    20_010_229,
    20_990_229,
    20_000_230, // February
    20_440_431,
    20_440_631,
    20_440_931,
    20_441_131,
    20_440_132,
    20_441_232,
    20_440_732, // a day too many
    20_440_100,
    20_440_300,
    20_001_200,
    20_000_000,
    20_440_199,
    20_440_160, // days 0 and 99
    20_440_001,
    20_440_029,
    20_441_301,
    20_441_329,
    20_449_901,
    20_440_999, // months 0, 13 and 99
    20_442_902,
    29_022_044,
    2_292_044,
    2_147_483_647,
    2_147_483_648,
    4_294_967_294,
    u32::MAX, // other orders
    675_360_101,
];

/// The date with one more bit, or with 65,536 years more: cut, it would be the date.
fn cut_to(date: u32) -> Vec<u32> {
    let mut numbers: Vec<u32> = (25..32).map(|bit| date + (1 << bit)).collect();
    numbers.extend((1..=5).map(|more| date + more * 655_360_000));
    numbers.extend([date % 65_536, date % (1 << 24)]);
    numbers
}

/// Each number that is no date as the date and among the closed ones, first, between and
/// last.
fn no_date_asked() -> Vec<NamedAsked> {
    let mut all = Vec::new();
    let dates = NO_DATES.into_iter().chain(WEEK.into_iter().flat_map(cut_to));
    for (turn, number) in dates.enumerate() {
        let date = WEEK[turn % 7];
        all.push((format!("the date {number}"), Asked { date: number, ..usual(date) }));
        for place in 0..=3 {
            let mut asked = usual(date);
            asked.closed = vec![20430101, 20450101, 20450701];
            asked.closed.insert(place, number);
            all.push((format!("closed[{place}] is {number}"), asked.clone()));
            asked.closed[3 - place] = date;
            all.push((format!("closed[{place}] is {number}, the date is closed"), asked));
        }
        let alone = Asked { closed: vec![number], ..usual(date) };
        all.push((format!("{number} is the one closed date"), alone));
        let mut closed = others(date, MOST_CLOSED);
        closed[MOST_CLOSED - 1] = number;
        all.push((format!("closed[31] is {number}"), Asked { closed, ..usual(date) }));
    }
    all
}

/// Dates that are not the given one and like it in something: the days around it, the same
/// day of other months and years, and numbers of the same low bits.
fn alike(number: u32) -> Vec<u32> {
    let dates = century();
    let place = dates.iter().position(|(date, _)| date.number() == number).expect("a date");
    let near = place.saturating_sub(8)..(place + 9).min(dates.len());
    let mut numbers: Vec<u32> = dates[near].iter().map(|(date, _)| date.number()).collect();
    let Date { year, month, day } = dates[place].0;
    numbers.extend((1..=12).map(|month| Date { year, month, day }.number()));
    numbers.extend([1, 4, 7, 28].map(|more| Date { year: year + more, month, day }.number()));
    numbers.extend([1, 4, 7, 28].map(|less| Date { year: year - less, month, day }.number()));
    if day <= 12 {
        numbers.push(Date { year, month: day, day: month }.number());
    }
    numbers.extend((1..=9).flat_map(|more| [number + more * 65_536, number - more * 65_536]));
    numbers.extend((1..=9).flat_map(|more| [number + more * 256, number - more * 256]));
    numbers.retain(|&other| other != number && weekday_of(other).is_some());
    numbers
}

/// Dates in the middle of the century, so that there are years before and behind; the last
/// four are like another date in their low 16 bits.
const MIDDLE: [u32; 11] = [
    20440229, 20440301, 20440302, 20440603, 20511231, 20520101, 20560704, 20450130, 20460131,
    20470130, 20480131,
];

/// The ends of the century, and the 29 February of a year that 100 divides.
fn end_asked() -> Vec<NamedAsked> {
    let mut all = Vec::new();
    for number in [20000101, 20000229, 20991231] {
        for length in [1, 30, 1440] {
            let open = Asked { length, ..usual(number) };
            let other = Asked { closed: vec![number], length, ..usual(WEEK[length as usize % 7]) };
            let among = Asked { closed: vec![20440301, number, 20440302], ..other.clone() };
            let itself = Asked { closed: among.closed.clone(), ..open.clone() };
            let shorter = Asked { train: [512, 600], ..open.clone() };
            for asked in [open, other, among, itself, shorter] {
                all.push((format!("{number}, slots of {length}"), asked));
            }
        }
    }
    all
}

/// So many dates, none of them the given one.
fn others(date: u32, count: usize) -> Vec<u32> {
    let some = century().iter().skip(700).step_by(37).map(|(date, _)| date.number());
    let some: Vec<u32> = some.filter(|&other| other != date).collect();
    some.into_iter().cycle().take(count).collect()
}

/// The date itself among closed dates, at each place; dates like it, alone and together.
fn closed_asked() -> Vec<NamedAsked> {
    let mut all = Vec::new();
    for date in MIDDLE {
        let mut add = |what: &str, closed: Vec<u32>| {
            all.push((format!("{date}, closed {what}"), Asked { closed, ..usual(date) }));
        };
        add("on none", Vec::new());
        add("on it", vec![date]);
        add("on it twice", vec![date, date]);
        add("on it three times", vec![20430101, date, date, 20450101, date]);
        add("on it 32 times", vec![date; MOST_CLOSED]);
        add("on it 33 times", vec![date; MOST_CLOSED + 1]);
        for other in alike(date) {
            add(&format!("on {other}"), vec![other]);
        }
        let alike = alike(date);
        for some in alike.chunks(MOST_CLOSED) {
            add("on dates like it", some.to_vec());
        }
        for count in [1, 2, 3, 8, 16, 30, 31, MOST_CLOSED] {
            add(&format!("on {count} others"), others(date, count));
            for place in 0..count {
                let mut closed = others(date, count);
                closed[place] = date;
                add(&format!("on {count}, it at {place}"), closed);
            }
        }
        for places in [[0, 1], [0, 31], [7, 19], [30, 31]] {
            let mut closed = others(date, MOST_CLOSED);
            places.into_iter().for_each(|place| closed[place] = date);
            add(&format!("on 32, it at {places:?}"), closed);
        }
        let mut falling = others(date, MOST_CLOSED);
        falling[7] = date;
        falling.sort_by_key(|&other| std::cmp::Reverse(other));
        add("on 32, falling", falling);
    }
    all
}

/// More closed dates than there may be; of the greatest numbers the low bits are few.
const TOO_MANY: [usize; 14] =
    [33, 34, 40, 63, 64, 65, 100, 255, 256, 257, 288, 512 + 5, 65_536, 65_536 + 20];

fn many_closed_asked() -> Vec<NamedAsked> {
    let mut all = Vec::new();
    for (turn, count) in TOO_MANY.into_iter().enumerate() {
        let date = WEEK[turn % 7];
        let with = |place: usize| {
            let mut closed = others(date, count);
            closed[place] = date;
            Asked { closed, ..usual(date) }
        };
        let without = Asked { closed: others(date, count), ..usual(date) };
        all.push((format!("closed on {count} others"), without));
        all.push((format!("closed on {count}, the date first"), with(0)));
        all.push((format!("closed on {count}, the date last"), with(count - 1)));
        all.push((format!("closed on {count}, the date the 33rd"), with(32)));
    }
    all
}

/// The first and the last day of every month and 28 and 29 February, among them dates
/// closed around them.
fn turn_asked() -> Vec<NamedAsked> {
    let mut all = Vec::new();
    let dates = century();
    let number = |place: usize| dates[place.min(dates.len() - 1)].0.number();
    for (place, &(date, _)) in dates.iter().enumerate() {
        let last = dates.get(place + 1).is_none_or(|(next, _)| next.day == 1);
        if !(date.day == 1 || last || (date.month, date.day) == (2, 28)) {
            continue;
        }
        let around = [place.max(1) - 1, place + 1].map(number).into_iter();
        let closed: Vec<u32> = around.filter(|&other| other != date.number()).collect();
        let open = Asked { closed, ..usual(date.number()) };
        all.push((format!("{} between closed dates", date.number()), open.clone()));
        if place % 3 == 0 {
            let closed = [&open.closed[..], &[date.number()]].concat();
            all.push((format!("{} closed too", date.number()), Asked { closed, ..open }));
        }
    }
    all
}

// ---------------------------------------------------------------------------
// Several faults, and hours too few
// ---------------------------------------------------------------------------

/// Something that makes what is asked bad, or leaves the train without a slot.
type Spoiling = (&'static str, fn(&mut Asked));

const SPOILINGS: [Spoiling; 16] = [
    ("nothing else", |_| {}),
    ("no date", |asked| asked.date = 20430229),
    ("no date of the century", |asked| asked.date = 21000101),
    ("a minute of Monday", |asked| {
        if let Some(minute) = asked.hours.first_mut() {
            *minute = 1440;
        }
    }),
    ("the last minute lent", |asked| {
        if let Some(minute) = asked.hours.last_mut() {
            *minute = 1440;
        }
    }),
    ("a bad closed date", |asked| asked.closed.push(20430229)),
    ("a closed date of 1999", |asked| asked.closed.insert(0, 19991231)),
    ("33 closed dates", |asked| asked.closed = others(asked.date, MOST_CLOSED + 1)),
    ("length 0", |asked| asked.length = 0),
    ("length 1441", |asked| asked.length = 1441),
    ("arrival 1440", |asked| asked.train[0] = 1440),
    ("departure 1440", |asked| asked.train[1] = 1440),
    ("a closed date", |asked| asked.closed.push(asked.date)),
    ("departure before arrival", |asked| asked.train = [600, 500]),
    ("arrival late", |asked| asked.train = [1400, 1439]),
    ("no slot long enough", |asked| asked.length = 1440),
];

/// Hours lent: too few, enough, and more.
const LENT: [usize; 23] =
    [0, 1, 2, 3, 4, 5, 6, 7, 8, 9, 10, 11, 12, 13, 14, 15, 16, 21, 28, 64, 256, 269, 65_536 + 3];

/// Good hours, and bad numbers beyond the fourteenth.
fn hours_of(count: usize) -> Vec<u32> {
    let beyond = [1440, u32::MAX, 0, 65_536].into_iter().cycle();
    HALF_HOURS.into_iter().chain(beyond).take(count).collect()
}

/// Each two of what makes it bad, with just enough hours; each of them with others.
fn spoiled_asked() -> Vec<NamedAsked> {
    let mut all = Vec::new();
    for (turn, (name, spoil)) in SPOILINGS.into_iter().enumerate() {
        for (besides, spoil_too) in SPOILINGS {
            for date in [WEEK[turn % 7], WEEK[(turn + 3) % 7]] {
                let mut asked = usual(date);
                spoil(&mut asked);
                spoil_too(&mut asked);
                all.push((format!("{name}, {besides}"), asked));
            }
        }
        for lent in LENT {
            let mut asked = Asked { hours: hours_of(lent), ..usual(WEEK[lent % 7]) };
            // What is beyond stays as bad as it is.
            if lent > HOURS {
                let beyond = asked.hours.split_off(HOURS);
                spoil(&mut asked);
                asked.hours.extend(beyond);
            } else {
                spoil(&mut asked);
            }
            all.push((format!("{lent} hours, {name}"), asked));
        }
    }
    all
}

pub fn special_asked() -> Vec<NamedAsked> {
    let kinds = [
        minute_asked(),
        closing_asked(),
        train_asked(),
        length_asked(),
        no_date_asked(),
        closed_asked(),
        many_closed_asked(),
        turn_asked(),
        end_asked(),
        spoiled_asked(),
    ];
    kinds.into_iter().flatten().collect()
}
