//! Positions of clauses taken on the tables of a search, one for each depth: the table at depth k is that of the facts of
//! a standing's first k clauses.

use crate::clauses::Clause;
use crate::problem::Arc;
use crate::table::{allows, extend, Table};

/// Makes the table at depth + 1 of that at `depth`, an alternative, and the opposites of those passed over before it.
/// Says whether they have a timetable. The alternative is looked up first: mostly that settles it.
pub fn takes<const W: usize>(tables: &mut [Table<W>], depth: usize, clause: &Clause, pick: usize) -> bool {
    let taken = &clause.alternatives[pick];
    if !allows(&tables[depth], taken) {
        return false;
    }
    match passes(tables, depth, clause, pick) {
        Some(base) => adds(tables, base, depth + 1, taken),
        None => false,
    }
}

/// Adds the opposites of the alternatives before `pick` to the table at `depth`; at which depth the table with them lies,
/// unless they have no timetable.
pub fn passes<const W: usize>(tables: &mut [Table<W>], depth: usize, clause: &Clause, pick: usize) -> Option<usize> {
    let mut base = depth;
    for (arc, opposite) in clause.alternatives[..pick].iter().zip(clause.opposites) {
        // Where the alternative does not fit, its opposite is implied.
        if allows(&tables[base], arc) {
            if !adds(tables, base, depth + 1, opposite) {
                return None;
            }
            base = depth + 1;
        }
    }
    Some(base)
}

/// Makes the table at depth `to` of that at `base` and one fact more, where it fits; whether it does.
fn adds<const W: usize>(tables: &mut [Table<W>], base: usize, to: usize, fact: &Arc) -> bool {
    let fits = allows(&tables[base], fact);
    if fits {
        extend(tables, base, to, fact);
    }
    fits
}
