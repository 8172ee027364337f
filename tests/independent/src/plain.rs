//! The plain list, which decides: selections in dictionary order, and the first that holds.

use crate::facts::Distances;
use crate::problem::Problem;
use crate::search::{Ending, Outcome};

/// The longest plain list that is walked.
pub const SHORT: u64 = 3_000;

/// A selection holds if some timetable satisfies all its alternatives; this is its latest one.
pub fn latest_timetable(problem: &Problem, picks: &[usize]) -> Option<Vec<i64>> {
    Distances::all_pairs(problem.events, problem.selected(picks)).map(|distances| distances.latest())
}

/// The selection that stands at a rank in dictionary order, first clause foremost.
pub fn selection(problem: &Problem, rank: u64) -> Vec<usize> {
    let mut left = rank;
    let mut picks: Vec<usize> = Vec::new();
    for clause in problem.clauses.iter().rev() {
        picks.push((left % clause.len() as u64) as usize);
        left /= clause.len() as u64;
    }
    picks.reverse();
    picks
}

/// The rank of the first selection that holds.
pub fn first_that_holds(problem: &Problem) -> Option<u64> {
    (0..problem.selections()).find(|rank| latest_timetable(problem, &selection(problem, *rank)).is_some())
}

/// Holds an outcome of the quick search against the plain list, where that is short.
pub fn bears_out(problem: &Problem, outcome: &Outcome) -> bool {
    if problem.selections() > SHORT {
        return true;
    }
    let first = first_that_holds(problem);
    match &outcome.ending {
        Ending::Plan(picks) => first == Some(outcome.before) && *picks == selection(problem, outcome.before),
        Ending::NoPlan => first.is_none() && outcome.before == problem.selections(),
        Ending::Stopped => outcome.before <= first.unwrap_or(problem.selections()),
    }
}
