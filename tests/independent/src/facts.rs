//! The test of facts: all-pairs distances and the latest timetable.

use crate::problem::{Alternative, MOST_ALTERNATIVES};

/// No path leads there. Far from overflow, whatever is added to it.
pub const FAR: i64 = i64::MAX / 4;

/// A set of row numbers: bit j for alternative j, bit 64 + j for its opposite.
pub type Numbers = u128;

/// The set that holds one number.
pub fn one(number: usize) -> Numbers {
    1 << number
}

/// The number of alternative j's opposite.
pub fn opposite_of(number: usize) -> usize {
    MOST_ALTERNATIVES + number
}

/// The numbers of a set, lowest first.
pub fn members(numbers: Numbers) -> impl DoubleEndedIterator<Item = usize> {
    (0..2 * MOST_ALTERNATIVES).filter(move |number| numbers & one(*number) != 0)
}

/// For facts that have a timetable: the least sum of a path from one event to another.
#[derive(Clone)]
pub struct Distances {
    events: usize,
    /// From event 0 to each event, then from event 1 to each, and so on.
    least: Vec<i64>,
}

impl Distances {
    /// The distances without any fact.
    pub fn without_facts(events: usize) -> Distances {
        let mut distances = Distances { events, least: vec![FAR; events * events] };
        for event in 0..events {
            distances.offer(event, event, 0);
        }
        distances
    }

    /// The distances of the facts, each path by the events it may pass (Floyd–Warshall); None where a cycle is below 0.
    pub fn all_pairs(events: usize, facts: impl Iterator<Item = Alternative>) -> Option<Distances> {
        let mut distances = Distances::without_facts(events);
        for fact in facts {
            distances.offer(fact.y, fact.x, fact.c);
        }
        for passed in 0..events {
            distances.pass(passed);
        }
        let cycle_below_0 = (0..events).any(|event| distances.least(event, event) < 0);
        (!cycle_below_0).then_some(distances)
    }

    /// True if the alternative has a timetable together with the facts: its arc closes no cycle below 0.
    pub fn allow(&self, alternative: Alternative) -> bool {
        self.least(alternative.x, alternative.y) + alternative.c >= 0
    }

    /// The distances with one fact more; None where no timetable is left.
    pub fn with(&self, fact: Alternative) -> Option<Distances> {
        if !self.allow(fact) {
            return None;
        }
        let mut more = self.clone();
        for from in (0..self.events).filter(|from| self.least(*from, fact.y) < FAR) {
            for to in 0..self.events {
                more.offer(from, to, sum(self.least(from, fact.y) + fact.c, self.least(fact.x, to)));
            }
        }
        Some(more)
    }

    /// The latest timetable: distances from the extra source, which has an arc of weight 0 to every event.
    pub fn latest(&self) -> Vec<i64> {
        let column = |event: usize| (0..self.events).map(move |from| self.least(from, event));
        (0..self.events).map(|event| column(event).fold(0, i64::min)).collect()
    }

    /// The least sum of a path; FAR where none leads there.
    pub fn least(&self, from: usize, to: usize) -> i64 {
        self.least[from * self.events + to]
    }

    fn offer(&mut self, from: usize, to: usize, length: i64) {
        let entry = &mut self.least[from * self.events + to];
        *entry = length.min(*entry);
    }

    fn pass(&mut self, passed: usize) {
        for from in 0..self.events {
            let length = self.least(from, passed);
            if length < FAR {
                (0..self.events).for_each(|to| self.offer(from, to, sum(length, self.least(passed, to))));
            }
        }
    }
}

/// The sum of two lengths, FAR where one is.
pub fn sum(one: i64, other: i64) -> i64 {
    if one >= FAR || other >= FAR {
        FAR
    } else {
        one + other
    }
}
