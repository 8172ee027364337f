//! The problem: as it is lent, its refusals 1 to 6 and 12, and as events, alternatives and clauses.

use std::ops::Range;

pub const MOST_EVENTS: usize = 24;
pub const MOST_CLAUSES: usize = 32;
pub const MOST_IN_CLAUSE: usize = 4;
pub const MOST_ALTERNATIVES: usize = 64;
pub const FARTHEST_BOUND: i64 = 100_000;
/// How far before closing a plan's time may lie: a bound for each arc of a path that passes every event once.
pub const FARTHEST_TIME: i64 = (MOST_EVENTS as i64 - 1) * FARTHEST_BOUND;
pub const MOST_ALLOWANCE: u32 = 1_000_000;

/// A refusal's number.
pub type Refusal = u8;

/// The refusal of an event against itself (02, A6).
pub const AGAINST_ITSELF: Refusal = 12;

/// The problem as it is lent: the list of triples and the clause counts, not yet checked.
#[derive(Clone, Debug, Default, PartialEq, Eq)]
pub struct Lent {
    pub events: u32,
    pub triples: Vec<i32>,
    pub counts: Vec<u32>,
}

/// (x, y, c): time of x − time of y ≤ c; an arc from y to x of weight c.
#[derive(Clone, Copy, Debug, PartialEq, Eq)]
pub struct Alternative {
    pub x: usize,
    pub y: usize,
    pub c: i64,
}

impl Alternative {
    /// The opposite of (x, y, c) is (y, x, −c−1).
    pub fn opposite(self) -> Alternative {
        Alternative { x: self.y, y: self.x, c: -self.c - 1 }
    }

    pub fn satisfied_by(self, times: &[i64]) -> bool {
        times[self.x] - times[self.y] <= self.c
    }
}

/// A problem that is accepted; a clause is the range of its alternatives' numbers.
#[derive(Clone, Debug)]
pub struct Problem {
    pub events: usize,
    pub alternatives: Vec<Alternative>,
    pub clauses: Vec<Range<usize>>,
}

impl Problem {
    /// The arc that a row's number names: j is alternative j, 64 + j its opposite.
    pub fn arc(&self, number: usize) -> Alternative {
        let alternative = self.alternatives[number % MOST_ALTERNATIVES];
        if number < MOST_ALTERNATIVES {
            alternative
        } else {
            alternative.opposite()
        }
    }

    /// How many selections there are: the product of the clause sizes.
    pub fn selections(&self) -> u64 {
        self.clauses.iter().map(|clause| clause.len() as u64).product()
    }

    /// The alternatives that a selection takes.
    pub fn selected<'a>(&'a self, picks: &'a [usize]) -> impl Iterator<Item = Alternative> + 'a {
        let numbers = self.clauses.iter().zip(picks).map(|(clause, pick)| clause.start + pick);
        numbers.map(|number| self.alternatives[number])
    }

    /// A timetable keeps the problem if it satisfies at least one alternative in each clause.
    pub fn kept_by(&self, times: &[i64]) -> bool {
        let satisfied = |number: usize| self.alternatives[number].satisfied_by(times);
        self.clauses.iter().all(|clause| clause.clone().any(satisfied))
    }
}

impl Lent {
    /// The accepted problem, or the first refusal of those that are looked for in this order.
    pub fn accepted(&self) -> Result<Problem, Refusal> {
        let refusals = [
            (1, self.events_fit()),
            (2, self.counts.len() <= MOST_CLAUSES),
            (3, self.triples_fit()),
            (4, self.counts_fit()),
            (5, self.named_events_fit()),
            (AGAINST_ITSELF, self.events_differ()),
            (6, self.bounds_fit()),
        ];
        match refusals.iter().find(|(_, fits)| !fits) {
            Some((number, _)) => Err(*number),
            None => Ok(self.taken_apart()),
        }
    }

    fn events_fit(&self) -> bool {
        (1..=MOST_EVENTS as u32).contains(&self.events)
    }

    fn triples_fit(&self) -> bool {
        self.triples.len() % 3 == 0 && self.triples.len() / 3 <= MOST_ALTERNATIVES
    }

    /// The clause counts, begun from 0, never fall, rise by at most 4, and end at the number of triples.
    fn counts_fit(&self) -> bool {
        let mut last = 0u64;
        for count in self.counts.iter().map(|count| u64::from(*count)) {
            if count < last || count > last + MOST_IN_CLAUSE as u64 {
                return false;
            }
            last = count;
        }
        last == self.triples.len() as u64 / 3
    }

    fn named_events_fit(&self) -> bool {
        let known = |event: &i32| (0..i64::from(self.events)).contains(&i64::from(*event));
        self.triples.chunks(3).all(|triple| triple.iter().take(2).all(known))
    }

    /// No alternative holds an event against itself.
    fn events_differ(&self) -> bool {
        self.triples.chunks_exact(3).all(|triple| triple[0] != triple[1])
    }

    fn bounds_fit(&self) -> bool {
        let fits = |bound: &i32| i64::from(*bound).abs() <= FARTHEST_BOUND;
        self.triples.chunks(3).all(|triple| triple.iter().skip(2).all(fits))
    }

    fn taken_apart(&self) -> Problem {
        let alternative =
            |triple: &[i32]| Alternative { x: triple[0] as usize, y: triple[1] as usize, c: i64::from(triple[2]) };
        let starts = std::iter::once(0).chain(self.counts.iter().map(|count| *count as usize));
        let ends = self.counts.iter().map(|count| *count as usize);
        Problem {
            events: self.events as usize,
            alternatives: self.triples.chunks(3).map(alternative).collect(),
            clauses: starts.zip(ends).map(|(start, end)| start..end).collect(),
        }
    }
}
