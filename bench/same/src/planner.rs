//! The planner over the search: tables as wide as the number of events asks for, a first run that counts the rows, and
//! where there is no plan and they fit a second that writes them.

use crate::clauses::{arcs_of, clauses_of, Clause};
use crate::dialogue::Answer;
use crate::found::write_plan;
use crate::listing::{Counted, Written};
use crate::problem::{Problem, FILLING, ROW};
use crate::search::{run, Ended, Place, MOST_CLAUSES};

/// The tables of a search: one for no clause and one for each.
const TABLES: usize = MOST_CLAUSES + 1;

/// Clears the lent memory, searches, and writes what the answer calls for.
pub fn plan(problem: &Problem, allowance: u32, timetable: &mut [i32], picks: &mut [u8], reasons: &mut [u8]) -> Answer {
    timetable.fill(1);
    picks.fill(FILLING);
    reasons.fill(FILLING);
    if let Some(number) = problem.refusal(allowance, timetable.len(), picks.len()) {
        return Answer::Refused(number);
    }
    let arcs = arcs_of(problem);
    let (ended, place, rows) =
        run_by_size(problem.events as usize, &clauses_of(problem, &arcs), u64::from(allowance), reasons);
    let visits = place.visits;
    match ended {
        Ended::Plan => {
            write_plan(problem, &place.picks[..place.k], timetable, picks);
            Answer::Plan { visits, before: rank(problem, &place) }
        }
        Ended::Stopped => Answer::Stopped { visits, before: rank(problem, &place) },
        Ended::Closed => {
            let before = problem.selections_under(0);
            if fit(rows, reasons) {
                Answer::NoPlan { visits, before, rows }
            } else {
                Answer::Unlisted { visits, before, rows }
            }
        }
    }
}

/// Runs the search over tables of the least width that the events fit in: a row of a table is read and written whole.
fn run_by_size(events: usize, clauses: &[Clause], allowance: u64, reasons: &mut [u8]) -> (Ended, Place, u64) {
    match events {
        0..=8 => run_wide::<8>(events, clauses, allowance, reasons),
        9..=12 => run_wide::<12>(events, clauses, allowance, reasons),
        13..=16 => run_wide::<16>(events, clauses, allowance, reasons),
        _ => run_wide::<24>(events, clauses, allowance, reasons),
    }
}

/// Runs the search over tables for W events, and again for the rows where they are listed; also gives how many they are.
fn run_wide<const W: usize>(
    events: usize,
    clauses: &[Clause],
    allowance: u64,
    reasons: &mut [u8],
) -> (Ended, Place, u64) {
    let mut tables = [[[0; W]; W]; TABLES];
    let mut counted = Counted(0);
    let (ended, place) = run(clauses, allowance, &mut tables, &mut counted);
    if matches!(ended, Ended::Closed) && fit(counted.0, reasons) {
        run(clauses, allowance, &mut tables, &mut Written::to(reasons, events));
    }
    (ended, place, counted.0)
}

/// Whether so many rows fit in the lent memory.
fn fit(rows: u64, reasons: &[u8]) -> bool {
    rows <= (reasons.len() / ROW) as u64
}

/// How many selections come before those under the place.
fn rank(problem: &Problem, place: &Place) -> u64 {
    let (mut before, mut under) = (0, problem.selections_under(place.k));
    for (clause, pick) in place.picks[..place.k].iter().enumerate().rev() {
        before += *pick as u64 * under;
        under *= problem.clause(clause).len() as u64;
    }
    before
}
