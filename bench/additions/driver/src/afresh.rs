//! Working out afresh, what the additions are compared with: Floyd–Warshall over all facts so far.

use crate::facts::Fact;
use crate::library::EVENTS;

/// Stands for no distance. Twice it is still a number, and with distances below 0 added to it, it still stands for none.
const NONE: i32 = 1 << 29;

/// From here on an entry stands for none.
const FAR: i32 = NONE / 2;

/// Which rows are lowered by the ways over an event.
#[derive(Clone, Copy)]
pub enum Rows {
    /// All of them.
    Every,
    /// Those of events from which it is reached: the fewer facts, the fewer rows.
    Reaching,
}

/// The facts of a day, and the table that was worked out of them last.
pub struct Afresh {
    n: usize,
    rows: Rows,
    facts: Vec<Fact>,
    table: Vec<i32>,
    trial: Vec<i32>,
}

impl Afresh {
    /// A day of n events and no facts.
    pub fn new(n: usize, rows: Rows) -> Afresh {
        let mut afresh = Afresh { n, rows, facts: Vec::new(), table: vec![NONE; n * n], trial: vec![NONE; n * n] };
        afresh.begin();
        afresh
    }

    /// The day becomes that of no facts.
    pub fn begin(&mut self) {
        self.facts.clear();
        lay(self.n, &self.facts, &mut self.table);
    }

    /// One fact more where it has a timetable with the others; whether it has.
    pub fn add(&mut self, fact: Fact) -> bool {
        self.facts.push(fact);
        let sound = work_out(self.n, self.rows, &self.facts, &mut self.trial);
        if sound {
            std::mem::swap(&mut self.table, &mut self.trial);
        } else {
            self.facts.pop();
        }
        sound
    }

    /// The distance from event u to event v; None where there is none.
    pub fn distance(&self, u: usize, v: usize) -> Option<i32> {
        Some(self.table[u * self.n + v]).filter(|&entry| entry < FAR)
    }
}

/// The table becomes that of the facts alone: each event is 0 from itself, and each fact is a way.
fn lay(n: usize, facts: &[Fact], table: &mut [i32]) {
    table.fill(NONE);
    for event in 0..n {
        table[event * n + event] = 0;
    }
    for fact in facts {
        let entry = &mut table[fact.y * n + fact.x];
        *entry = (*entry).min(fact.c);
    }
}

/// Works out the shortest distances between n events; false where a cycle is below 0. A cycle's last event shows
/// it before it is passed over, so no number runs away.
fn work_out(n: usize, rows: Rows, facts: &[Fact], table: &mut [i32]) -> bool {
    lay(n, facts, table);
    for past in 0..n {
        let mut onward = [NONE; EVENTS];
        let onward = &mut onward[..n];
        onward.copy_from_slice(&table[past * n..past * n + n]);
        if onward[past] < 0 {
            return false;
        }
        for row in table.chunks_exact_mut(n) {
            let first = row[past];
            if first < FAR || matches!(rows, Rows::Every) {
                lower(row, first, onward);
            }
        }
    }
    true
}

/// Lowers a row by the ways that go `first` and then onward.
fn lower(row: &mut [i32], first: i32, onward: &[i32]) {
    for (entry, &rest) in row.iter_mut().zip(onward) {
        *entry = (*entry).min(first + rest);
    }
}
