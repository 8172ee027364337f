//! The rows of reasons: counted while the search runs, or written to the lent memory.

use crate::clauses::Clause;
use crate::problem::{Arc, MOST_EVENTS, ROW};
use crate::search::Place;
use crate::shortest::{reason, Least};
use crate::table::{closes, Table};
use crate::taking::passes;

/// What is told of the search's closings and marks, in the order of the rows.
pub trait Listing {
    /// The search goes on to the next clause.
    fn onward(&mut self);
    /// The standing's facts have no timetable; the table at its depth may be written.
    fn unsound<const W: usize>(&mut self, clauses: &[Clause], place: &Place, tables: &mut [Table<W>]);
    /// No alternative of the clause has a timetable with the standing's facts, whose table is lent.
    fn dead<const W: usize>(&mut self, clauses: &[Clause], place: &Place, table: &Table<W>, clause: usize);
}

/// Counts the rows.
pub struct Counted(pub u64);

impl Listing for Counted {
    fn onward(&mut self) {
        self.0 += 1;
    }

    fn unsound<const W: usize>(&mut self, _: &[Clause], _: &Place, _: &mut [Table<W>]) {
        self.0 += 1;
    }

    fn dead<const W: usize>(&mut self, clauses: &[Clause], _: &Place, _: &Table<W>, clause: usize) {
        self.0 += 1 + clauses[clause].alternatives.len() as u64;
    }
}

/// Writes the rows, which have room, over the filling.
pub struct Written<'a> {
    events: usize,
    rows: std::slice::ChunksExactMut<'a, u8>,
    /// Those of a standing and of an alternative, the newest last.
    facts: Vec<Arc>,
    /// Those of them among which a reason is looked for.
    kept: Vec<Arc>,
    /// What a reason is worked out in: kept, so that it is not cleared for each.
    least: Least,
}

impl<'a> Written<'a> {
    pub fn to(reasons: &'a mut [u8], events: usize) -> Written<'a> {
        Written {
            events,
            rows: reasons.chunks_exact_mut(ROW),
            facts: Vec::with_capacity(65),
            kept: Vec::with_capacity(65),
            least: [[0; MOST_EVENTS]; MOST_EVENTS + 1],
        }
    }

    fn row(&mut self) -> &mut [u8] {
        self.rows.next().expect("the rows were counted and fit")
    }

    /// The facts of the standing.
    fn gather(&mut self, clauses: &[Clause], place: &Place) {
        self.facts.clear();
        for (clause, pick) in clauses.iter().zip(&place.picks[..place.k]) {
            self.facts.extend_from_slice(&clause.opposites[..*pick]);
            self.facts.push(clause.alternatives[*pick]);
        }
    }

    /// The row of the facts' shortest reason; those before the last `news` have a timetable.
    fn reason(&mut self, news: usize) {
        let (numbers, size) = reason(self.events, &self.facts, news, &mut self.least);
        self.row()[..size].copy_from_slice(&numbers[..size]);
    }

    /// The same where only the newest has no timetable with the others, whose table is lent: among those alone that may
    /// lie on a closed row below 0 with it.
    fn closing<const W: usize>(&mut self, table: &Table<W>) {
        if let Some((newest, others)) = self.facts.split_last() {
            self.kept.clear();
            self.kept.extend(others.iter().filter(|fact| closes(table, newest, fact)));
            self.kept.push(*newest);
            let (numbers, size) = reason(self.events, &self.kept, 1, &mut self.least);
            self.row()[..size].copy_from_slice(&numbers[..size]);
        }
    }
}

impl Listing for Written<'_> {
    fn onward(&mut self) {
        self.row()[0] = 240;
    }

    fn unsound<const W: usize>(&mut self, clauses: &[Clause], place: &Place, tables: &mut [Table<W>]) {
        self.gather(clauses, place);
        let above = place.k - 1;
        match passes(tables, above, &clauses[above], place.picks[above]) {
            Some(base) => self.closing(&tables[base]),
            None => self.reason(place.picks[above] + 1),
        }
    }

    fn dead<const W: usize>(&mut self, clauses: &[Clause], place: &Place, table: &Table<W>, clause: usize) {
        self.row()[0] = 200 + clause as u8;
        self.gather(clauses, place);
        for arc in clauses[clause].alternatives {
            self.facts.push(*arc);
            self.closing(table);
            self.facts.pop();
        }
    }
}
