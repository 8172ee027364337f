//! The shortest reason (02, A7): of the cycles below 0 with the fewest arcs, the one whose numbers, read from its
//! smallest, come first in dictionary order.

use crate::facts::{members, sum, Numbers, FAR};
use crate::problem::Problem;

/// The shortest reason over the given numbers; None where they have a timetable.
///
/// It is the first of the closed walks below 0 with the fewest arcs. Where such a walk passed an event twice, it would
/// part into two closed walks, one of them below 0 with fewer arcs; so it is a cycle, and no number stands in it twice.
/// Of all ways to read a cycle, the one from its smallest number comes first.
pub fn shortest(problem: &Problem, numbers: Numbers) -> Option<Vec<usize>> {
    let mut walks = Walks::new(problem, numbers);
    (1..=problem.events).find_map(|arcs| walks.first_below_0(arcs))
}

/// The walks over the given numbers, by how many arcs they have.
pub struct Walks<'a> {
    problem: &'a Problem,
    /// Lowest first.
    numbers: Vec<usize>,
    /// For no arc, for one, and so on: the least sum of a walk of exactly so many from each event to each.
    least: Vec<Vec<i64>>,
}

impl<'a> Walks<'a> {
    pub fn new(problem: &'a Problem, numbers: Numbers) -> Walks<'a> {
        let events = problem.events;
        let standing_still = |pair: usize| if pair / events == pair % events { 0 } else { FAR };
        let least = vec![(0..events * events).map(standing_still).collect()];
        Walks { problem, numbers: members(numbers).collect(), least }
    }

    /// Of the closed walks below 0 with exactly so many arcs, one at the least, the first in dictionary order.
    pub fn first_below_0(&mut self, arcs: usize) -> Option<Vec<usize>> {
        while self.least.len() < arcs {
            self.lengthen();
        }
        let mut walk = Vec::new();
        for left in (0..arcs).rev() {
            let next = self.numbers.iter().find(|number| self.can_be_closed(&walk, **number, left))?;
            walk.push(*next);
        }
        Some(walk)
    }

    /// True if the walk can go on with this number and be closed below 0 with exactly so many arcs after it.
    fn can_be_closed(&self, walk: &[usize], number: usize, left: usize) -> bool {
        let arc = |number: &usize| self.problem.arc(*number);
        let next = arc(&number);
        let (start, end) = match walk {
            [] => (next.y, next.y),
            [first, ..] => (arc(first).y, arc(&walk[walk.len() - 1]).x),
        };
        let so_far: i64 = walk.iter().map(|number| arc(number).c).sum();
        next.y == end && sum(so_far + next.c, self.least(left, next.x, start)) < 0
    }

    fn least(&self, arcs: usize, from: usize, to: usize) -> i64 {
        self.least[arcs][from * self.problem.events + to]
    }

    /// Works out the least sums of walks with one arc more.
    fn lengthen(&mut self) {
        let (events, arcs) = (self.problem.events, self.least.len() - 1);
        let mut longer = vec![FAR; events * events];
        for arc in self.numbers.iter().map(|number| self.problem.arc(*number)) {
            for from in 0..events {
                let entry = &mut longer[from * events + arc.x];
                *entry = sum(self.least(arcs, from, arc.y), arc.c).min(*entry);
            }
        }
        self.least.push(longer);
    }
}
