//! The quick search: visits, stop, before, and the rows it calls for.

use crate::facts::{one, opposite_of, Distances, Numbers};
use crate::problem::Problem;

/// A row as the search calls for it.
#[derive(Clone, Copy, Debug, PartialEq, Eq)]
pub enum Row {
    /// The standing goes on to the next clause.
    GoesOn,
    /// This clause is dead.
    Dead(usize),
    /// A cycle below 0 over these numbers.
    Cycle(Numbers),
}

#[derive(Clone, Debug, PartialEq, Eq)]
pub enum Ending {
    /// The positions of the plan's selection.
    Plan(Vec<usize>),
    NoPlan,
    Stopped,
}

/// How the search ended; `listed` holds the first rows, as many as were asked for.
#[derive(Clone, Debug)]
pub struct Outcome {
    pub ending: Ending,
    pub visits: u64,
    pub before: u64,
    pub rows: u64,
    pub listed: Vec<Row>,
}

/// Runs the search; it keeps at most `kept` rows.
pub fn search(problem: &Problem, allowance: u64, kept: usize) -> Outcome {
    let mut run = Run {
        problem,
        allowance,
        kept,
        under: selections_under(problem),
        picks: Vec::new(),
        outcome: Outcome { ending: Ending::NoPlan, visits: 0, before: 0, rows: 0, listed: Vec::new() },
    };
    run.reach(0, &Distances::without_facts(problem.events));
    run.outcome
}

/// Per k, how many selections lie under a standing of k clauses.
fn selections_under(problem: &Problem) -> Vec<u64> {
    let mut under = vec![1];
    for clause in problem.clauses.iter().rev() {
        under.push(under[under.len() - 1] * clause.len() as u64);
    }
    under.reverse();
    under
}

struct Run<'a> {
    problem: &'a Problem,
    allowance: u64,
    kept: usize,
    under: Vec<u64>,
    /// The standing: a position for each of the first k clauses.
    picks: Vec<usize>,
    outcome: Outcome,
}

impl Run<'_> {
    /// Reaches a sound standing. True if the search has ended, with a plan or a stop.
    fn reach(&mut self, facts: Numbers, distances: &Distances) -> bool {
        if self.outcome.visits == self.allowance {
            self.outcome.ending = Ending::Stopped;
            return true;
        }
        self.outcome.visits += 1;
        if self.picks.len() == self.problem.clauses.len() {
            self.outcome.ending = Ending::Plan(self.picks.clone());
            return true;
        }
        match self.lowest_dead(distances) {
            Some(clause) => self.close_dead(clause, facts),
            None => return self.go_on(facts, distances),
        }
        false
    }

    /// The lowest later clause of which no alternative has a timetable together with the facts.
    fn lowest_dead(&self, distances: &Distances) -> Option<usize> {
        let allowed = |number: usize| distances.allow(self.problem.alternatives[number]);
        let dead = |clause: &usize| !self.problem.clauses[*clause].clone().any(allowed);
        (self.picks.len()..self.problem.clauses.len()).find(dead)
    }

    fn close_dead(&mut self, clause: usize, facts: Numbers) {
        self.row(Row::Dead(clause));
        for number in self.problem.clauses[clause].clone() {
            self.row(Row::Cycle(facts | one(number)));
        }
        self.outcome.before += self.under[self.picks.len()];
    }

    /// Takes the alternatives of the next clause in order, with the opposites of those before.
    fn go_on(&mut self, facts: Numbers, distances: &Distances) -> bool {
        self.row(Row::GoesOn);
        let clause = self.problem.clauses[self.picks.len()].clone();
        let mut opposed = Some(distances.clone());
        let mut opposites = facts;
        for (position, number) in clause.enumerate() {
            let alternative = self.problem.alternatives[number];
            let with_chosen = opposed.as_ref().and_then(|distances| distances.with(alternative));
            if self.take(position, opposites | one(number), with_chosen.as_ref()) {
                return true;
            }
            opposed = opposed.and_then(|distances| distances.with(alternative.opposite()));
            opposites |= one(opposite_of(number));
        }
        false
    }

    /// Takes one alternative: reaches the standing if it is sound, closes it otherwise.
    fn take(&mut self, position: usize, facts: Numbers, distances: Option<&Distances>) -> bool {
        self.picks.push(position);
        let ended = match distances {
            Some(distances) => self.reach(facts, distances),
            None => {
                self.row(Row::Cycle(facts));
                self.outcome.before += self.under[self.picks.len()];
                false
            }
        };
        self.picks.pop();
        ended
    }

    fn row(&mut self, row: Row) {
        self.outcome.rows += 1;
        if self.outcome.listed.len() < self.kept {
            self.outcome.listed.push(row);
        }
    }
}
