//! Lists of calls of a moving day worked out by hand, each call with the state
//! that it leaves or the refusal that it gets.

use crate::case::Outcome;
use crate::known::{day_text, P1_HEAD, P1_MOVES, P1_TRAINS};
use crate::moving_call::Asked::{Add, Begin, Cancel, Close, SetBoxes};
use crate::moving_call::{Asked, Call, Room, State};
use crate::moving_rules::Reply;

type Lines = &'static [&'static str];

/// What a call gives.
pub enum Then {
    /// The refusal and what it carries; the state stays as it was.
    Refused(usize, [usize; 3]),
    /// Of begin: the row.
    Begun(&'static [u8]),
    /// Of close: the number of closed slots.
    Closed(usize),
    /// Of the changes: first row, trains, moves with what follows them, and the
    /// row of slots.
    Changed(&'static str, Lines, Lines, &'static [u8]),
}

use Then::{Begun, Changed, Closed, Refused};

/// Nothing carried.
const NONE: [usize; 3] = [0, 0, 0];

pub struct KnownList {
    pub name: &'static str,
    head: &'static str,
    trains: Lines,
    moves: Lines,
    /// The closed slots and the row of a state made by hand, where it isn't
    /// begun.
    by_hand: (u32, &'static [u8]),
    calls: &'static [(Asked, Then)],
}

/// On one track two trains of equal windows: the higher position comes first.
/// After the first slot is closed the stretch of 9 begins in it. What 25 receives
/// from 30, and then 30 from 25, decides which of the two comes first.
#[rustfmt::skip]
const CLOSED_STRETCH: KnownList = KnownList {
    name: "a stretch that begins in a closed slot (7.6)",
    head: "3 1 3 1 1",
    trains: &["10 1 1", "20 2 3", "30 2 3"],
    moves: &[],
    by_hand: (0, &[]),
    calls: &[
        (Begin, Begun(&[1, 3, 2])),
        (Close, Closed(1)),
        (Add(25, 2, 3), Refused(9, [1, 3, 4])),
        (Cancel(20), Changed("2 1 3 1 1", &["10 1 1", "30 2 3"], &[], &[1, 2])),
        (Add(25, 2, 3), Changed("3 1 3 1 1", &["10 1 1", "25 2 3", "30 2 3"], &[], &[1, 3, 2])),
        (SetBoxes(25, 30, 4), Changed("3 1 3 1 1", &["10 1 1", "25 2 3", "30 2 3"], &["25 30 4"], &[1, 3, 2])),
        (SetBoxes(25, 30, 0), Changed("3 1 3 1 1", &["10 1 1", "25 2 3", "30 2 3"], &[], &[1, 3, 2])),
        (SetBoxes(30, 25, 4), Changed("3 1 3 1 1", &["10 1 1", "25 2 3", "30 2 3"], &["30 25 4"], &[1, 2, 3])),
        (Close, Closed(2)),
        (Cancel(25), Refused(18, NONE)),
        (Cancel(10), Refused(18, NONE)),
        (Cancel(31), Refused(18, NONE)),
        (Cancel(0), Refused(3, NONE)),
        (Cancel(100_000), Refused(3, NONE)),
        (Cancel(30), Changed("2 1 3 1 1", &["10 1 1", "25 2 3"], &[], &[1, 2])),
        (Add(7, 2, 3), Refused(5, NONE)),
        (Add(7, 3, 2), Refused(5, NONE)),
        (Add(7, 3, 4), Refused(3, NONE)),
        (Add(25, 1, 3), Refused(19, NONE)),
        (Add(25, 0, 3), Refused(3, NONE)),
        (Add(7, 3, 3), Changed("3 1 3 1 1", &["7 3 3", "10 1 1", "25 2 3"], &[], &[3, 1, 2])),
        (Close, Closed(3)),
        (Close, Refused(20, NONE)),
        (SetBoxes(10, 7, 255), Changed("3 1 3 1 1", &["7 3 3", "10 1 1", "25 2 3"], &["10 7 255"], &[3, 1, 2])),
        (Cancel(7), Refused(18, NONE)),
        (Add(8, 3, 3), Refused(5, NONE)),
    ],
};

/// P1's day: trains 2 and 4 are served in slot 1, which is full then.
#[rustfmt::skip]
const P1_MOVING: KnownList = KnownList {
    name: "P1's day, closed and changed",
    head: P1_HEAD,
    trains: P1_TRAINS,
    moves: P1_MOVES,
    by_hand: (0, &[]),
    calls: &[
        (Begin, Begun(&[2, 1, 2, 1])),
        (Close, Closed(1)),
        (Add(5, 2, 2), Refused(9, [1, 2, 5])),
        (Add(5, 1, 2), Refused(5, NONE)),
        (SetBoxes(2, 2, 1), Refused(6, NONE)),
        (SetBoxes(9, 9, 1), Refused(18, NONE)),
        (SetBoxes(2, 2, 256), Refused(3, NONE)),
        (Cancel(3), Changed("3 2 2 1 1", &["1 1 2", "2 1 2", "4 1 2"], &["1 4 1", "4 2 6"], &[2, 1, 1])),
        (Add(3, 2, 2), Changed("4 2 2 1 1", &["1 1 2", "2 1 2", "3 2 2", "4 1 2"], &["1 4 1", "4 2 6"], &[2, 1, 2, 1])),
        (SetBoxes(2, 3, 7), Changed("4 2 2 1 1", &["1 1 2", "2 1 2", "3 2 2", "4 1 2"], &["1 4 1", "2 3 7", "4 2 6"], &[2, 1, 2, 1])),
        (Close, Closed(2)),
        (Close, Refused(20, NONE)),
    ],
};

/// A group of two that gives way, blocks an added train, and loses its members.
#[rustfmt::skip]
const SETS_MOVING: KnownList = KnownList {
    name: "a group loses its members",
    head: "3 2 2 1 1",
    trains: &["1 1 2", "2 1 2", "3 1 2"],
    moves: &["group train", "3 1", "3 3"],
    by_hand: (0, &[]),
    calls: &[
        (Begin, Begun(&[1, 2, 1])),
        (Add(4, 1, 1), Changed("4 2 2 1 1", &["1 1 2", "2 1 2", "3 1 2", "4 1 1"], &["group train", "3 1", "3 3"], &[2, 1, 2, 1])),
        (Add(5, 2, 2), Refused(9, [1, 2, 5])),
        (Cancel(2), Changed("3 2 2 1 1", &["1 1 2", "3 1 2", "4 1 1"], &["group train", "3 1", "3 3"], &[2, 2, 1])),
        (Add(5, 2, 2), Refused(16, NONE)),
        (Cancel(1), Changed("2 2 2 1 1", &["3 1 2", "4 1 1"], &["group train", "3 3"], &[1, 1])),
        (Add(5, 2, 2), Changed("3 2 2 1 1", &["3 1 2", "4 1 1", "5 2 2"], &["group train", "3 3"], &[1, 1, 2])),
        (Cancel(3), Changed("2 2 2 1 1", &["4 1 1", "5 2 2"], &[], &[1, 2])),
        (Cancel(4), Changed("1 2 2 1 1", &["5 2 2"], &[], &[2])),
        (Cancel(5), Refused(18, NONE)),
    ],
};

/// Boxes and slots follow their trains when one is added between them.
#[rustfmt::skip]
const BETWEEN: KnownList = KnownList {
    name: "a train between two",
    head: "2 2 2 1 1",
    trains: &["10 1 2", "30 1 2"],
    moves: &["30 10 7"],
    by_hand: (0, &[]),
    calls: &[
        (Begin, Begun(&[1, 1])),
        (Add(20, 1, 2), Changed("3 2 2 1 1", &["10 1 2", "20 1 2", "30 1 2"], &["30 10 7"], &[1, 2, 1])),
        (SetBoxes(20, 30, 9), Changed("3 2 2 1 1", &["10 1 2", "20 1 2", "30 1 2"], &["20 30 9", "30 10 7"], &[1, 2, 2])),
        (Close, Closed(1)),
        (SetBoxes(10, 20, 1), Changed("3 2 2 1 1", &["10 1 2", "20 1 2", "30 1 2"], &["10 20 1", "20 30 9", "30 10 7"], &[1, 2, 2])),
        (Add(40, 2, 2), Refused(9, [2, 2, 3])),
        (Cancel(20), Changed("2 2 2 1 1", &["10 1 2", "30 1 2"], &["30 10 7"], &[1, 2])),
    ],
};

/// Both weights 0: revisits decide, then the set numbers of the new positions.
#[rustfmt::skip]
const UNWEIGHED: KnownList = KnownList {
    name: "weights 0",
    head: "2 1 3 0 0",
    trains: &["1 1 3", "2 1 3"],
    moves: &["1 2 5"],
    by_hand: (0, &[]),
    calls: &[
        (Begin, Begun(&[2, 1])),
        (Close, Closed(1)),
        (Add(3, 2, 3), Changed("3 1 3 0 0", &["1 1 3", "2 1 3", "3 2 3"], &["1 2 5"], &[3, 1, 2])),
        (SetBoxes(3, 1, 1), Changed("3 1 3 0 0", &["1 1 3", "2 1 3", "3 2 3"], &["1 2 5", "3 1 1"], &[2, 1, 3])),
        (SetBoxes(3, 1, 0), Changed("3 1 3 0 0", &["1 1 3", "2 1 3", "3 2 3"], &["1 2 5"], &[3, 1, 2])),
    ],
};

/// P3's row on P1's day costs 11 where 8 is the least: close keeps it.
#[rustfmt::skip]
const DEARER_KEPT: KnownList = KnownList {
    name: "a dearer plan, closed",
    head: P1_HEAD,
    trains: P1_TRAINS,
    moves: P1_MOVES,
    by_hand: (0, &[1, 1, 2, 2]),
    calls: &[
        (Close, Closed(1)),
        (SetBoxes(1, 4, 1), Changed(P1_HEAD, P1_TRAINS, P1_MOVES, &[1, 1, 2, 2])),
        (Cancel(1), Refused(18, NONE)),
    ],
};

/// The same, and a change replaces it, though no number changes.
const DEARER_REPLACED: KnownList = KnownList {
    name: "a dearer plan, replaced",
    calls: &[(SetBoxes(1, 4, 1), Changed(P1_HEAD, P1_TRAINS, P1_MOVES, &[2, 1, 2, 1]))],
    ..DEARER_KEPT
};

/// States that are none: trains 1, 2 and 3 on two tracks, 1 and 3 a group.
const UNSOUND: KnownList = KnownList {
    name: "a parted group",
    by_hand: (0, &[1, 1, 2]),
    calls: &[
        (Close, Refused(8, NONE)),
        (Cancel(0), Refused(8, NONE)),
        (Add(1, 9, 9), Refused(8, NONE)),
        (SetBoxes(1, 1, 999), Refused(8, NONE)),
    ],
    ..SETS_MOVING
};

const ALL_CLOSED: KnownList =
    KnownList { name: "one slot more closed than there are", by_hand: (3, &[1, 2, 1]), ..UNSOUND };

pub const KNOWN_LISTS: [&KnownList; 9] = [
    &CLOSED_STRETCH,
    &P1_MOVING,
    &SETS_MOVING,
    &BETWEEN,
    &UNWEIGHED,
    &DEARER_KEPT,
    &DEARER_REPLACED,
    &UNSOUND,
    &ALL_CLOSED,
];

impl KnownList {
    /// Each call with what it has to give, memory being lent in this way.
    pub fn calls(&self, room: Room) -> Vec<(Call, Reply)> {
        let text = day_text(self.head, self.trains, self.moves);
        let mut state = State { text, closed: self.by_hand.0, row: self.by_hand.1.to_vec() };
        let mut calls = Vec::new();
        for (asked, then) in self.calls {
            let call = Call { asked: *asked, state: state.clone(), room };
            let mut reply = Reply::refused(Outcome::carrying(0, 0));
            match then {
                Refused(refusal, [a, b, c]) => {
                    reply.outcome = Outcome { refusal: *refusal, numbers: [*a, *b, *c, 0] };
                    calls.push((call, reply));
                    continue;
                }
                Begun(row) => state.row = row.to_vec(),
                Closed(closed) => state.closed = *closed as u32,
                Changed(head, trains, moves, row) => {
                    (state.text, state.row) = (day_text(head, trains, moves), row.to_vec());
                    reply.day = state.text.clone();
                }
            }
            if asked.plans() {
                reply.next = state.row.clone();
            }
            let (closed, n) = (state.closed as usize, state.row.len());
            reply.outcome.numbers = [closed, n, state.text.len(), 0];
            calls.push((call, reply));
        }
        calls
    }
}
