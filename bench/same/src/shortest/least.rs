//! The least sums of walks to an event, by the number of their arcs.

use crate::problem::{Arc, MOST_EVENTS};

/// No walk leads there. Far above 0 and far from overflow, whatever is added to it.
const FAR: i32 = i32::MAX / 2;

/// From each event to one, the least sums of walks of at most so many arcs, for 0, 1, 2 arcs and so on.
pub type Least = [[i32; MOST_EVENTS]; MOST_EVENTS + 1];

/// The fewest arcs, at most so many, of a cycle below 0 through the event; the least sums of walks to it up to there.
pub fn closes_after(facts: &[Arc], event: usize, most: usize, least: &mut Least) -> Option<usize> {
    least[0] = [FAR; MOST_EVENTS];
    least[0][event] = 0;
    for size in 1..=most {
        let (known, rest) = least.split_at_mut(size);
        let (last, more) = (&known[size - 1], &mut rest[0]);
        *more = *last;
        for arc in facts {
            more[arc.from] = more[arc.from].min(arc.weight + last[arc.to]);
        }
        if more[event] < 0 {
            return Some(size);
        }
    }
    None
}
