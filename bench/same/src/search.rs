//! The search over tables, one for each depth, step by step, until it ends.

use crate::clauses::Clause;
use crate::listing::Listing;
use crate::table::{begun, forbids, Table};
use crate::taking::takes;

/// The most clauses of a problem.
pub const MOST_CLAUSES: usize = 32;

/// How the search ended.
pub enum Ended {
    Closed,
    Plan,
    Stopped,
}

/// The first k picks are the standing; those after it are of an earlier one.
pub struct Place {
    pub picks: [usize; MOST_CLAUSES],
    pub k: usize,
    pub visits: u64,
}

/// Runs the search.
pub fn run<const W: usize>(
    clauses: &[Clause],
    allowance: u64,
    tables: &mut [Table<W>],
    listing: &mut impl Listing,
) -> (Ended, Place) {
    tables[0] = begun();
    let mut place = Place { picks: [0; MOST_CLAUSES], k: 0, visits: 0 };
    loop {
        if place.k > 0 && !enter(clauses, tables, &place) {
            listing.unsound(clauses, &place, tables);
            if !leave(clauses, &mut place) {
                return (Ended::Closed, place);
            }
        } else if place.visits == allowance {
            return (Ended::Stopped, place);
        } else {
            place.visits += 1;
            if place.k == clauses.len() {
                return (Ended::Plan, place);
            }
            if !visit(clauses, &tables[place.k], &mut place, listing) {
                return (Ended::Closed, place);
            }
        }
    }
}

/// Makes the table of the standing, and says whether its facts have a timetable.
fn enter<const W: usize>(clauses: &[Clause], tables: &mut [Table<W>], place: &Place) -> bool {
    let above = place.k - 1;
    takes(tables, above, &clauses[above], place.picks[above])
}

/// Goes on from a sound standing short of the last clause, by its table; false where the search is closed.
fn visit<const W: usize>(clauses: &[Clause], table: &Table<W>, place: &mut Place, listing: &mut impl Listing) -> bool {
    match clauses[place.k..].iter().position(|clause| forbids(table, clause.alternatives)) {
        Some(after) => {
            listing.dead(clauses, place, table, place.k + after);
            leave(clauses, place)
        }
        None => {
            listing.onward();
            place.picks[place.k] = 0;
            place.k += 1;
            true
        }
    }
}

/// Goes to the standing after that of the place and all under it; false where there is none.
fn leave(clauses: &[Clause], place: &mut Place) -> bool {
    while place.k > 0 {
        let clause = place.k - 1;
        place.picks[clause] += 1;
        if place.picks[clause] < clauses[clause].alternatives.len() {
            return true;
        }
        place.k = clause;
    }
    false
}
