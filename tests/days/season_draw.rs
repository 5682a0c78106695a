//! Drawing seasons: a store of small days and of texts that are none, by what order
//! 10 makes of them, and texts that join some of them.

use crate::damage::damage;
use crate::day_file::{read_day, write_day, READING_REFUSALS};
use crate::draft::Draft;
use crate::draw::{draw_crowded, draw_day, draw_grouped, Random};
use crate::model::Day;
use crate::plan::broken;
use crate::season::{days_of, MOST_DAYS};
use crate::season_day::{facts_of, Facts};
use std::collections::BTreeMap;

const STORE_SEED: u64 = 51_000_000;

/// Days of a season have few trains and rows: each of them is planned many times.
const FEW_TRAINS: usize = 5;
const FEW_ROWS: usize = 300;

/// Texts of each kind, and the draws within which they are found.
const OF_EACH: usize = 24;
const MOST_DRAWS: u64 = 40_000;

// ---------------------------------------------------------------------------
// The store
// ---------------------------------------------------------------------------

/// What a text is to a season, as a whole.
#[derive(Clone, Copy, Debug, PartialEq, Eq, PartialOrd, Ord)]
pub enum Kind {
    /// Planned, and first come has an allowed row: with a saving, without one, and with
    /// one where the myopic procedure has no row.
    Saved,
    Unsaved,
    Alone,
    /// Planned; first come leaves a train over, or parts a group.
    LeftOver,
    Parted,
    /// Planned, with boxes and both weights 0.
    Weightless,
    Refused(usize),
    /// It holds an empty line, so that it is several days.
    Several,
}

const PLANNED: [Kind; 6] =
    [Kind::Saved, Kind::Unsaved, Kind::Alone, Kind::LeftOver, Kind::Parted, Kind::Weightless];

fn kinds() -> Vec<Kind> {
    let mut kinds = PLANNED.to_vec();
    kinds.extend(READING_REFUSALS.map(Kind::Refused));
    kinds.extend([Kind::Refused(9), Kind::Refused(16), Kind::Several]);
    kinds
}

fn kind_of(text: &[u8]) -> Kind {
    if days_of(text).len() > 1 {
        return Kind::Several;
    }
    let Facts { refusal, boxes, first_come, myopic, .. } = facts_of(text);
    let weightless = |day: Day| boxes > 0 && day.revisit_weight == 0 && day.split_weight == 0;
    match (refusal, first_come.refusal) {
        (0, 0) if read_day(text).is_ok_and(weightless) => Kind::Weightless,
        (0, 0) if first_come.saving > 0 && myopic.refusal > 0 => Kind::Alone,
        (0, 0) if first_come.saving > 0 => Kind::Saved,
        (0, 0) => Kind::Unsaved,
        (0, _) if first_come.numbers[0] > 0 => Kind::LeftOver,
        (0, _) => Kind::Parted,
        (number, _) => Kind::Refused(number),
    }
}

fn is_small(day: &Day) -> bool {
    day.trains.len() <= FEW_TRAINS && day.assignments() <= FEW_ROWS
}

/// Where split moves weigh nothing, plans of equal cost have different ones, so that
/// order 5 decides what is added up.
fn draw_small(random: &mut Random) -> Day {
    loop {
        let draw = random.pick(&[draw_day, draw_crowded, draw_grouped]);
        let mut day = draw(random, FEW_ROWS);
        if random.one_in(4) {
            day.split_weight = 0;
        }
        if is_small(&day) {
            return day;
        }
    }
}

/// A small day, as it is or damaged.
fn draw_part(random: &mut Random) -> Vec<u8> {
    let day = draw_small(random);
    if random.one_in(2) {
        return write_day(&day);
    }
    loop {
        let mut draft = Draft::new(day.clone());
        damage(random, &mut draft);
        let text = draft.text();
        if read_day(&text).map_or(true, |day| is_small(&day)) {
            return text;
        }
    }
}

pub struct Store(BTreeMap<Kind, Vec<Vec<u8>>>);

impl Store {
    /// So many texts of each kind.
    pub fn drawn() -> Store {
        let wanted = kinds();
        let mut store: BTreeMap<Kind, Vec<Vec<u8>>> = BTreeMap::new();
        for seed in STORE_SEED..STORE_SEED + MOST_DRAWS {
            let text = draw_part(&mut Random(seed));
            let of_kind = store.entry(kind_of(&text)).or_default();
            if of_kind.len() < OF_EACH && !of_kind.contains(&text) {
                of_kind.push(text);
            }
            let enough = |kind| store.get(kind).is_some_and(|texts| texts.len() == OF_EACH);
            if wanted.iter().all(enough) {
                return Store(store);
            }
        }
        broken(&format!("too few of a kind: {:?}", store.iter().map(|(k, t)| (k, t.len()))))
    }

    pub fn pick(&self, random: &mut Random, kind: Kind) -> &[u8] {
        &self.0[&kind][random.below(OF_EACH)]
    }
}

// ---------------------------------------------------------------------------
// Seasons
// ---------------------------------------------------------------------------

/// A kind for a season of its own leaning: to planned days, to refused ones, to all
/// kinds alike, or to a few.
fn draw_kinds(random: &mut Random) -> Vec<Kind> {
    let all = kinds();
    let (good, bad) = all.split_at(PLANNED.len());
    match random.below(6) {
        0 => good.to_vec(),
        1 => bad.to_vec(),
        2 => (0..3).map(|_| random.pick(&all)).collect(),
        3 => vec![Kind::Saved, Kind::Unsaved, random.pick(bad)],
        4 => [good, good, bad].concat(),
        _ => all,
    }
}

/// How many days, so that few are as often as many.
fn draw_count(random: &mut Random) -> usize {
    let most = random.pick(&[1, 2, 4, 9, 20, 40]);
    random.between(1, most)
}

/// What stands between two files: the one byte 10 of an empty line, seldom several,
/// none, or something that is no empty line.
fn draw_between(random: &mut Random) -> &'static [u8] {
    match random.below(30) {
        0 => b"\n\n",
        1 => b"\n\n\n",
        2 => b"",
        3 => random.pick(&[&b"\r\n"[..], b" \n", b"\t\n", b"\0\n", b"\n\r\n", b"\n \n"]),
        _ => b"\n",
    }
}

/// Several days in one text, with empty lines at its ends at times.
pub fn draw_season(random: &mut Random, store: &Store) -> Vec<u8> {
    let (kinds, count) = (draw_kinds(random), draw_count(random));
    let mut text = if random.one_in(12) { b"\n".to_vec() } else { Vec::new() };
    for place in 0..count {
        if place > 0 {
            text.extend(draw_between(random));
        }
        let kind = random.pick(&kinds);
        text.extend(store.pick(random, kind));
        // A file that lacks its last byte 10.
        if random.one_in(40) && text.ends_with(b"\n") {
            text.pop();
        }
    }
    if random.one_in(10) {
        text.extend(random.pick(&[&b"\n"[..], b"\n\n", b"\r\n", b"x"]));
    }
    text
}

/// About as many days as there may be: files as they are, an empty line between.
pub fn draw_many(random: &mut Random, store: &Store) -> Vec<u8> {
    let (kinds, count) = (draw_kinds(random), random.between(MOST_DAYS - 6, MOST_DAYS + 5));
    let file = |_| {
        let kind = random.pick(&kinds);
        store.pick(random, kind).to_vec()
    };
    (0..count).map(file).collect::<Vec<_>>().join(&b'\n')
}
