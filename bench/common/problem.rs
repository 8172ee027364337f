//! The problem as it is lent, and the refusals.

pub const MOST_EVENTS: usize = 24;

/// The bytes of a row of reasons.
pub const ROW: usize = MOST_EVENTS;

/// What picks and reasons hold where nothing is written.
pub const FILLING: u8 = 255;

/// The triples and the clause counts, as they come.
pub struct Problem {
    pub events: u32,
    pub triples: Vec<i32>,
    pub counts: Vec<u32>,
}

/// An arc from one event to another: time of `to` ≤ time of `from` + `weight`.
#[derive(Clone, Copy)]
pub struct Arc {
    pub from: usize,
    pub to: usize,
    pub weight: i32,
    /// Its number in a row: j for alternative j, 64 + j for its opposite.
    pub number: u8,
}

impl Problem {
    /// The arc of alternative j.
    pub fn arc(&self, j: usize) -> Arc {
        let triple = &self.triples[3 * j..3 * j + 3];
        Arc { from: triple[1] as usize, to: triple[0] as usize, weight: triple[2], number: j as u8 }
    }

    /// The arc of alternative j's opposite.
    pub fn opposite(&self, j: usize) -> Arc {
        let Arc { from, to, weight, .. } = self.arc(j);
        Arc { from: to, to: from, weight: -weight - 1, number: 64 + j as u8 }
    }

    /// The numbers of a clause's alternatives.
    pub fn clause(&self, clause: usize) -> std::ops::Range<usize> {
        let start = if clause == 0 { 0 } else { self.counts[clause - 1] as usize };
        start..self.counts[clause] as usize
    }

    pub fn clauses(&self) -> usize {
        self.counts.len()
    }

    /// How many selections lie under a standing of k clauses.
    pub fn selections_under(&self, k: usize) -> u64 {
        (k..self.clauses()).map(|clause| self.clause(clause).len() as u64).product()
    }

    /// The first refusal that applies, in the order in which they are looked for.
    pub fn refusal(&self, allowance: u32, timetable: usize, picks: usize) -> Option<u8> {
        let triples = || self.triples.chunks(3);
        let event_known = |event: &i32| *event >= 0 && (*event as u32) < self.events;
        match () {
            _ if self.events < 1 || self.events as usize > MOST_EVENTS => Some(1),
            _ if self.counts.len() > 32 => Some(2),
            _ if self.triples.len() % 3 != 0 || self.triples.len() > 192 => Some(3),
            _ if !self.counts_fit() => Some(4),
            _ if !triples().all(|triple| triple[..2].iter().all(event_known)) => Some(5),
            _ if triples().any(|triple| triple[0] == triple[1]) => Some(12),
            _ if !triples().all(|triple| (-100_000..=100_000).contains(&triple[2])) => Some(6),
            _ if allowance > 1_000_000 => Some(7),
            _ if timetable < self.events as usize || picks < self.counts.len() => Some(8),
            _ => None,
        }
    }

    fn counts_fit(&self) -> bool {
        let mut last = 0;
        for count in &self.counts {
            if *count < last || count - last > 4 {
                return false;
            }
            last = *count;
        }
        last as usize == self.triples.len() / 3
    }
}
