//! The same search as 01's, every test of facts worked out afresh.

use crate::dialogue::Answer;
use crate::facts::latest;
use crate::found::write_plan;
use crate::problem::{Arc, Problem, FILLING, ROW};
use crate::reason::shortest;

/// How a part of the search ended.
enum Ended {
    Closed,
    Plan,
    Stopped,
}

struct Search<'a> {
    problem: &'a Problem,
    events: usize,
    allowance: u64,
    visits: u64,
    before: u64,
    rows: u64,
    picks: Vec<usize>,
    facts: Vec<Arc>,
    reasons: &'a mut [u8],
}

/// Clears the lent memory, searches, and writes what the answer calls for.
pub fn plan(problem: &Problem, allowance: u32, timetable: &mut [i32], picks: &mut [u8], reasons: &mut [u8]) -> Answer {
    timetable.fill(1);
    picks.fill(FILLING);
    reasons.fill(FILLING);
    if let Some(number) = problem.refusal(allowance, timetable.len(), picks.len()) {
        return Answer::Refused(number);
    }
    let mut search = Search {
        problem,
        events: problem.events as usize,
        allowance: u64::from(allowance),
        visits: 0,
        before: 0,
        rows: 0,
        picks: Vec::with_capacity(32),
        facts: Vec::with_capacity(65),
        reasons,
    };
    let ended = search.reach();
    let Search { visits, before, rows, picks: found, .. } = search;
    match ended {
        Ended::Plan => {
            reasons.fill(FILLING);
            write_plan(problem, &found, timetable, picks);
            Answer::Plan { visits, before }
        }
        Ended::Stopped => {
            reasons.fill(FILLING);
            Answer::Stopped { visits, before }
        }
        Ended::Closed if rows <= (reasons.len() / ROW) as u64 => Answer::NoPlan { visits, before, rows },
        Ended::Closed => {
            reasons.fill(FILLING);
            Answer::Unlisted { visits, before, rows }
        }
    }
}

impl Search<'_> {
    /// Reaches the sound standing that the picks and facts make.
    fn reach(&mut self) -> Ended {
        if self.visits == self.allowance {
            return Ended::Stopped;
        }
        self.visits += 1;
        if self.picks.len() == self.problem.clauses() {
            return Ended::Plan;
        }
        match self.lowest_dead() {
            Some(clause) => self.close_dead(clause),
            None => self.go_on(),
        }
    }

    fn sound(&self) -> bool {
        latest(self.events, &self.facts).is_some()
    }

    /// True if the alternative has a timetable together with the facts.
    fn allows(&mut self, j: usize) -> bool {
        self.facts.push(self.problem.arc(j));
        let sound = self.sound();
        self.facts.pop();
        sound
    }

    fn lowest_dead(&mut self) -> Option<usize> {
        let problem = self.problem;
        (self.picks.len()..problem.clauses()).find(|clause| !problem.clause(*clause).any(|j| self.allows(j)))
    }

    fn close_dead(&mut self, clause: usize) -> Ended {
        self.mark(200 + clause as u8);
        for j in self.problem.clause(clause) {
            self.facts.push(self.problem.arc(j));
            self.reason();
            self.facts.pop();
        }
        self.before += self.problem.selections_under(self.picks.len());
        Ended::Closed
    }

    /// Takes the alternatives of the next clause in order, each with the opposites of those before it.
    fn go_on(&mut self) -> Ended {
        self.mark(240);
        let known = self.facts.len();
        for (position, j) in self.problem.clause(self.picks.len()).enumerate() {
            self.facts.push(self.problem.arc(j));
            self.picks.push(position);
            match self.take() {
                Ended::Closed => {}
                ended => return ended,
            }
            self.picks.pop();
            self.facts.pop();
            self.facts.push(self.problem.opposite(j));
        }
        self.facts.truncate(known);
        Ended::Closed
    }

    /// Reaches the standing if it is sound, closes it otherwise.
    fn take(&mut self) -> Ended {
        if self.sound() {
            return self.reach();
        }
        self.reason();
        self.before += self.problem.selections_under(self.picks.len());
        Ended::Closed
    }

    /// The next row, where there is room for it.
    fn next_row(&mut self) -> Option<&mut [u8]> {
        let place = self.rows as usize * ROW;
        self.rows += 1;
        self.reasons.get_mut(place..place + ROW)
    }

    fn mark(&mut self, byte: u8) {
        if let Some(row) = self.next_row() {
            row[0] = byte;
        }
    }

    /// The shortest reason of the facts, worked out where there is room for its row.
    fn reason(&mut self) {
        let room = (self.rows as usize + 1) * ROW <= self.reasons.len();
        let numbers = if room { shortest(self.events, &self.facts) } else { Vec::new() };
        if let Some(row) = self.next_row() {
            row[..numbers.len()].copy_from_slice(&numbers);
        }
    }
}
