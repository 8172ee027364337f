//! The distance table of some facts: the entry of row u and column v is the least sum of a walk from u to v, where every
//! two events are joined by an arc of FARTHEST besides the facts.
//! The proved program's entries are unsigned, with a level added. Here they are signed, which needs no level and is quicker:
//! what every x86-64 processor compares four at once are signed numbers.

use crate::problem::{Arc, MOST_EVENTS};

/// No two events of a latest timetable lie further apart, so that an arc of so much forbids nothing.
const FARTHEST: i32 = (MOST_EVENTS as i32 - 1) * 100_001;

/// W is how many events it is for, no fewer than the problem has: a row of a known width is a few registers.
pub type Table<const W: usize> = [[i32; W]; W];

/// The table of no facts.
pub fn begun<const W: usize>() -> Table<W> {
    let mut table = [[FARTHEST; W]; W];
    (0..W).for_each(|event| table[event][event] = 0);
    table
}

/// True if the arc has a timetable together with the facts. The entry is looked up in the table laid flat: one index to
/// check, and not two.
pub fn allows<const W: usize>(table: &Table<W>, arc: &Arc) -> bool {
    table.as_flattened()[arc.to * W + arc.from] + arc.weight >= 0
}

/// True if none of the arcs has; all are looked at, since a branch costs more than a look.
pub fn forbids<const W: usize>(table: &Table<W>, arcs: &[Arc]) -> bool {
    !arcs.iter().fold(false, |alive, arc| alive | allows(table, arc))
}

/// True if the way from the newest fact's head to a fact's tail, that fact, the way from its head back to the newest's tail
/// and the newest sum below 0.
pub fn closes<const W: usize>(table: &Table<W>, newest: &Arc, fact: &Arc) -> bool {
    let entries = table.as_flattened();
    entries[newest.to * W + fact.from] + fact.weight + entries[fact.to * W + newest.from] + newest.weight < 0
}

/// The table at depth `to` becomes that at depth `from` with one fact more that fits. They may be one table: the row past
/// the fact is read first.
pub fn extend<const W: usize>(tables: &mut [Table<W>], from: usize, to: usize, fact: &Arc) {
    let past = tables[from][fact.to];
    for event in 0..W {
        let way = tables[from][event][fact.from] + fact.weight;
        tables[to][event] = lowered(tables[from][event], way, &past);
    }
}

/// A row, each entry lowered to the walk over the fact where that is less.
fn lowered<const W: usize>(mut row: [i32; W], way: i32, past: &[i32; W]) -> [i32; W] {
    for (entry, rest) in row.iter_mut().zip(past) {
        *entry = (*entry).min(way + rest);
    }
    row
}
