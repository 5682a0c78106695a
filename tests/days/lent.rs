//! Memory lent to a call from the middle of a larger marked piece, so that it
//! shows where a call has written.

use std::fmt::Display;

/// What lent memory holds before a call. High words look like no answer: what
/// a call has left unwritten is no answer by chance. Low ones look like slots,
/// costs and sets of trains, and zeros are what fresh memory holds: a call that
/// reads what it has not written finds something to believe. High and low ones
/// are not 0, and no two neighbours are alike.
#[derive(Clone, Copy)]
pub enum Marks {
    High,
    Low,
    Zeros,
}

impl Marks {
    /// Each in turn.
    pub fn of(turn: usize) -> Marks {
        [Marks::High, Marks::Low, Marks::Zeros][turn % 3]
    }
}

pub trait Word: Copy + Display + PartialEq {
    fn mark(marks: Marks, place: usize) -> Self;
}

macro_rules! word {
    ($word:ty, $period:expr) => {
        impl Word for $word {
            fn mark(marks: Marks, place: usize) -> $word {
                let count = (place % $period) as $word;
                match marks {
                    Marks::High => <$word>::MAX - count,
                    Marks::Low => 1 + count,
                    Marks::Zeros => 0,
                }
            }
        }
    };
}

word!(u8, 0x40);
word!(u16, 0x4000);
word!(u32, 0x4000_0000);
word!(u64, 0x1_0000_0000);
word!(usize, 0x1_0000_0000);
word!(i64, 0x1_0000_0000);

/// Marked words before and behind those lent.
const AROUND: usize = 64;

pub struct Lent<W> {
    /// As yard.h calls it.
    name: &'static str,
    before: Vec<W>,
    now: Vec<W>,
    length: usize,
}

impl<W: Word> Lent<W> {
    pub fn marked(name: &'static str, length: usize, marks: Marks) -> Lent<W> {
        Lent::watched(name, length, AROUND, marks)
    }

    /// The same with at least so many words behind the first one lent, for a
    /// call might take the length that always suffices for the length lent.
    pub fn marked_room(name: &'static str, length: usize, room: usize, marks: Marks) -> Lent<W> {
        Lent::watched(name, length, AROUND + room.saturating_sub(length), marks)
    }

    /// Memory that the call may only read.
    pub fn holding(name: &'static str, content: &[W], marks: Marks) -> Lent<W> {
        let mut lent = Lent::marked(name, content.len(), marks);
        lent.before[AROUND..][..content.len()].copy_from_slice(content);
        lent.now.clone_from(&lent.before);
        lent
    }

    /// The same with these words behind those lent, so that reading on is seen.
    pub fn followed(name: &'static str, content: &[W], behind: &[W], marks: Marks) -> Lent<W> {
        let mut lent = Lent::holding(name, content, marks);
        lent.before[AROUND + content.len()..][..behind.len()].copy_from_slice(behind);
        lent.now.clone_from(&lent.before);
        lent
    }

    fn watched(name: &'static str, length: usize, behind: usize, marks: Marks) -> Lent<W> {
        let places = 0..AROUND + length + behind;
        let before: Vec<W> = places.map(|place| W::mark(marks, place)).collect();
        Lent { name, now: before.clone(), before, length }
    }

    pub fn length(&self) -> usize {
        self.length
    }

    /// The words lent, as they are now.
    pub fn words(&self) -> &[W] {
        &self.now[AROUND..][..self.length]
    }

    /// The words lent and so many behind them, for a stand-in that reads on.
    pub fn words_beyond(&self, more: usize) -> &[W] {
        &self.now[AROUND..][..self.length + more]
    }

    /// Of the first word lent. It may be written through, even where a call is
    /// not to write: that is what shows.
    pub fn pointer(&mut self) -> *mut W {
        self.now.as_mut_ptr().wrapping_add(AROUND)
    }

    /// All words as before, for a stand-in that leaves them unwritten.
    pub fn undo(&mut self) {
        self.now.clone_from(&self.before);
    }

    /// The first words are as written, and every other one is as before.
    pub fn holds(&self, written: &[W]) -> Result<(), String> {
        let mut wanted = self.before.clone();
        wanted[AROUND..][..written.len()].copy_from_slice(written);
        self.same(&wanted)
    }

    /// No word has changed.
    pub fn kept(&self) -> Result<(), String> {
        self.same(&self.before)
    }

    /// The first words hold anything, and every other one is as before.
    pub fn kept_beyond(&self, open: usize) -> Result<(), String> {
        let mut wanted = self.before.clone();
        let work = AROUND..AROUND + open;
        wanted[work.clone()].copy_from_slice(&self.now[work]);
        self.same(&wanted)
    }

    fn same(&self, wanted: &[W]) -> Result<(), String> {
        if self.now == wanted {
            return Ok(());
        }
        let differs = |&place: &usize| self.now[place] != wanted[place];
        let place = (0..wanted.len()).find(differs).expect("a difference");
        let (name, length, now, wanted) = (self.name, self.length, self.now[place], wanted[place]);
        // Counted from 0; below 0 it lies before the memory that is lent.
        let place = place as isize - AROUND as isize;
        Err(format!("{name}[{place}] of {length} lent is {now}, not {wanted}"))
    }
}

/// A text lent. The byte behind it is 10, so that reading on is seen: a whole
/// line follows, or the last line has its byte 10 after all.
pub fn lent_text(text: &[u8], marks: Marks) -> Lent<u8> {
    Lent::followed("text", text, b"\n", marks)
}

/// What a call has to return.
pub fn returned(got: u64, wanted: usize) -> Result<(), String> {
    match got == wanted as u64 {
        true => Ok(()),
        false => Err(format!("returned {got}, not {wanted}")),
    }
}
