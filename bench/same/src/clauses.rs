//! The clauses of a problem by their arcs, worked out once.

use crate::problem::{Arc, Problem};
use std::ops::Range;

/// A clause's alternatives, and their opposites.
pub struct Clause<'a> {
    pub alternatives: &'a [Arc],
    pub opposites: &'a [Arc],
}

/// The arcs of a problem: its alternatives, and as many opposites after them.
pub fn arcs_of(problem: &Problem) -> Vec<Arc> {
    let all = problem.triples.len() / 3;
    let alternatives = (0..all).map(|j| problem.arc(j));
    alternatives.chain((0..all).map(|j| problem.opposite(j))).collect()
}

/// The clauses of a problem over its arcs.
pub fn clauses_of<'a>(problem: &Problem, arcs: &'a [Arc]) -> Vec<Clause<'a>> {
    let (alternatives, opposites) = arcs.split_at(arcs.len() / 2);
    let clause =
        |range: Range<usize>| Clause { alternatives: &alternatives[range.clone()], opposites: &opposites[range] };
    (0..problem.clauses()).map(|clause| problem.clause(clause)).map(clause).collect()
}
