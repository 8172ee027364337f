//! The list of reasons: rows as bytes, what a cycle row must be, and the reader.

use crate::facts::{one, opposite_of, Numbers};
use crate::problem::{Problem, MOST_ALTERNATIVES, MOST_EVENTS};
use crate::search::Row;
use crate::shortest::shortest;

/// A row's bytes: a cycle that passes no event twice has at most as many arcs as there are events.
pub const ROW: usize = MOST_EVENTS;
pub const FILLING: u8 = 255;
pub const GOES_ON: u8 = 240;
pub const DEAD: u8 = 200;

/// A row's bytes: its mark, or the shortest reason.
pub fn row_bytes(problem: &Problem, row: Row) -> [u8; ROW] {
    match row {
        Row::GoesOn => filled(&[GOES_ON]),
        Row::Dead(clause) => filled(&[DEAD + clause as u8]),
        Row::Cycle(numbers) => {
            cycle_bytes(&shortest(problem, numbers).expect("facts without a timetable have a cycle below 0"))
        }
    }
}

/// The row of a cycle: its numbers, then 255s.
pub fn cycle_bytes(cycle: &[usize]) -> [u8; ROW] {
    filled(&cycle.iter().map(|number| *number as u8).collect::<Vec<u8>>())
}

/// The bytes, then 255s.
pub fn filled(bytes: &[u8]) -> [u8; ROW] {
    let mut row = [FILLING; ROW];
    row[..bytes.len()].copy_from_slice(bytes);
    row
}

/// A cycle row: one or more of the given numbers, then 255s; a closed walk with its sum below 0.
pub fn is_cycle_row(problem: &Problem, numbers: Numbers, row: &[u8]) -> bool {
    let length = row.iter().position(|byte| *byte == FILLING).unwrap_or(row.len());
    let (cycle, rest) = row.split_at(length);
    let given = |byte: &u8| usize::from(*byte) < 2 * MOST_ALTERNATIVES && numbers & one(usize::from(*byte)) != 0;
    !cycle.is_empty()
        && rest.iter().all(|byte| *byte == FILLING)
        && cycle.iter().all(given)
        && is_closed_walk(problem, cycle)
        && weight(problem, cycle) < 0
}

/// Each arc starts where the one before ends, and the last returns to the first's start.
fn is_closed_walk(problem: &Problem, cycle: &[u8]) -> bool {
    let arc = |place: usize| problem.arc(usize::from(cycle[place % cycle.len()]));
    (0..cycle.len()).all(|place| arc(place).x == arc(place + 1).y)
}

/// The sum of a walk's arcs.
pub fn weight(problem: &Problem, cycle: &[u8]) -> i64 {
    cycle.iter().map(|byte| problem.arc(usize::from(*byte)).c).sum()
}

/// The reader: yes exactly when the front is one whole reading and all bytes after it are 255.
pub fn read(problem: &Problem, list: &[u8]) -> bool {
    match whole_reading(problem, list) {
        Some(rows) => list[rows * ROW..].iter().all(|byte| *byte == FILLING),
        None => false,
    }
}

/// How many rows the whole reading at the front takes, where there is one.
pub fn whole_reading(problem: &Problem, list: &[u8]) -> Option<usize> {
    let reader = Reader { problem, list };
    reader.standing(0, 0, 0)
}

struct Reader<'a> {
    problem: &'a Problem,
    list: &'a [u8],
}

impl Reader<'_> {
    fn row(&self, place: usize) -> Option<&[u8]> {
        self.list.get(place * ROW..(place + 1) * ROW)
    }

    /// Reads a standing of k clauses with these facts from a place; gives the next place.
    fn standing(&self, k: usize, facts: Numbers, place: usize) -> Option<usize> {
        let row = self.row(place)?;
        let clauses = self.problem.clauses.len();
        if row == filled(&[GOES_ON]) && k < clauses {
            return self.next_clause(k, facts, place + 1);
        }
        let dead = (k..clauses).find(|clause| row == filled(&[DEAD + *clause as u8]));
        match dead {
            Some(clause) => self.dead_clause(clause, facts, place + 1),
            None => is_cycle_row(self.problem, facts, row).then_some(place + 1),
        }
    }

    /// Reads a cycle row for each alternative of a dead clause.
    fn dead_clause(&self, clause: usize, facts: Numbers, place: usize) -> Option<usize> {
        let mut next = place;
        for number in self.problem.clauses[clause].clone() {
            if !is_cycle_row(self.problem, facts | one(number), self.row(next)?) {
                return None;
            }
            next += 1;
        }
        Some(next)
    }

    /// Reads a standing for each alternative of the next clause, in order.
    fn next_clause(&self, k: usize, facts: Numbers, place: usize) -> Option<usize> {
        let mut next = place;
        let mut opposites = facts;
        for number in self.problem.clauses[k].clone() {
            next = self.standing(k + 1, opposites | one(number), next)?;
            opposites |= one(opposite_of(number));
        }
        Some(next)
    }
}
