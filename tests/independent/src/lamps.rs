//! The lamp panel: which alternatives still have a timetable beside the one-alternative clauses.

use crate::facts::Distances;
use crate::problem::{Problem, MOST_ALTERNATIVES, MOST_CLAUSES};

/// The set of lit lamps, how many in all and per clause, and the first lit one, or 64.
#[derive(Clone, Debug, PartialEq, Eq)]
pub struct Panel {
    pub lit: u64,
    pub total: usize,
    pub first: usize,
    pub counts: [usize; MOST_CLAUSES],
}

/// The panel with no lamp lit.
pub fn dark() -> Panel {
    Panel { lit: 0, total: 0, first: MOST_ALTERNATIVES, counts: [0; MOST_CLAUSES] }
}

pub fn panel(problem: &Problem) -> Panel {
    let lit = lit_lamps(problem);
    let mut panel = dark();
    panel.total = lit.len();
    panel.first = lit.first().copied().unwrap_or(MOST_ALTERNATIVES);
    panel.lit = lit.iter().fold(0, |set, number| set | 1 << number);
    for (count, clause) in panel.counts.iter_mut().zip(&problem.clauses) {
        *count = lit.iter().filter(|number| clause.contains(number)).count();
    }
    panel
}

/// The alternatives that have a timetable together with all alternatives of one-alternative clauses.
fn lit_lamps(problem: &Problem) -> Vec<usize> {
    let alone =
        problem.clauses.iter().filter(|clause| clause.len() == 1).map(|clause| problem.alternatives[clause.start]);
    match Distances::all_pairs(problem.events, alone) {
        Some(distances) => {
            (0..problem.alternatives.len()).filter(|number| distances.allow(problem.alternatives[*number])).collect()
        }
        None => Vec::new(),
    }
}
