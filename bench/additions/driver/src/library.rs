//! The proved functions, as the export crate gives them: each slice is a pointer and a length.

use crate::facts::{Fact, FACTS};

/// The most events, and the places of a public day's row.
pub const EVENTS: usize = 24;

/// The number of the distance 0.
const MIDDLE: u32 = 2_300_024;

/// The number of none.
const NO_WAY: u32 = 1 << 30;

/// What is added to a bound to make it a number.
const BIAS: i32 = 100_001;

#[link(name = "additions", kind = "static")]
extern "C" {
    fn additions_begin(s: *mut u32, s_length: usize, w: usize, n: usize);
    fn additions_add(s: *mut u32, s_length: usize, w: usize, n: usize, x: usize, y: usize, b: u32) -> bool;
    fn additions_day(
        n: u32,
        facts: *const i32,
        facts_length: usize,
        numbers: *mut u8,
        numbers_length: usize,
        entries: *mut i32,
        entries_length: usize,
    );
}

/// A table of n events in a slice, rows of w places.
pub struct Table {
    n: usize,
    w: usize,
    places: Vec<u32>,
}

impl Table {
    /// The table of no facts.
    pub fn new(n: usize, w: usize) -> Table {
        assert!(1 <= n && n <= w && w <= EVENTS);
        let mut table = Table { n, w, places: vec![NO_WAY; n * w] };
        table.begin();
        table
    }

    /// The table becomes that of no facts: `distances::begin`.
    pub fn begin(&mut self) {
        // SAFETY: n * w places are lent, and n ≤ w.
        unsafe { additions_begin(self.places.as_mut_ptr(), self.places.len(), self.w, self.n) }
    }

    /// One fact more where it fits, and whether it does: `distances::fits_with`, then `distances::extend` in place.
    pub fn add(&mut self, fact: Fact) -> bool {
        // SAFETY: n * w places are lent, n ≤ w and n ≤ 24, the facts are about n events, and the bound is within ±100.
        unsafe {
            additions_add(
                self.places.as_mut_ptr(),
                self.places.len(),
                self.w,
                self.n,
                fact.x,
                fact.y,
                (fact.c + BIAS) as u32,
            )
        }
    }

    /// The distance from event u to event v; None where there is none.
    pub fn distance(&self, u: usize, v: usize) -> Option<i32> {
        let number = self.places[u * self.w + v];
        (number < NO_WAY).then(|| number as i32 - MIDDLE as i32)
    }
}

/// A day's facts as they are lent: three numbers to a fact.
pub fn lent(facts: &[Fact]) -> Vec<i32> {
    facts.iter().flat_map(|fact| [fact.x as i32, fact.y as i32, fact.c]).collect()
}

/// What a day of facts gives: the number that each addition answers, and the day's entries at last.
pub struct Day {
    pub numbers: [u8; FACTS],
    pub entries: [i32; EVENTS * EVENTS],
}

impl Day {
    /// Room for it.
    pub fn new() -> Day {
        Day { numbers: [0; FACTS], entries: [0; EVENTS * EVENTS] }
    }

    /// Adds facts, three numbers to each, one after another to a fresh day of n events: `standing::add_fact`.
    pub fn follow(&mut self, n: usize, facts: &[i32]) {
        assert!(facts.len() == 3 * FACTS);
        // SAFETY: three numbers are lent for each answer, and 576 entries.
        unsafe {
            additions_day(
                n as u32,
                facts.as_ptr(),
                facts.len(),
                self.numbers.as_mut_ptr(),
                self.numbers.len(),
                self.entries.as_mut_ptr(),
                self.entries.len(),
            )
        }
    }

    /// The distance from event u to event v; None where there is none.
    pub fn distance(&self, u: usize, v: usize) -> Option<i32> {
        let entry = self.entries[u * EVENTS + v];
        (entry != i32::MAX).then_some(entry)
    }
}
