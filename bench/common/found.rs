//! What a found plan writes to the lent memory: the latest timetable of the selected alternatives, and their positions.

use crate::facts::latest;
use crate::problem::{Arc, Problem};

/// Writes the plan whose alternatives stand at the found positions of their clauses.
pub fn write_plan(problem: &Problem, found: &[usize], timetable: &mut [i32], picks: &mut [u8]) {
    let selected: Vec<Arc> =
        found.iter().enumerate().map(|(clause, pick)| problem.arc(problem.clause(clause).start + pick)).collect();
    let events = problem.events as usize;
    let times = latest(events, &selected).expect("the plan's selection holds");
    timetable[..events].copy_from_slice(&times[..events]);
    for (pick, position) in picks.iter_mut().zip(found) {
        *pick = *position as u8;
    }
}
