//! The first cycle from an event, in dictionary order.

use super::least::Least;
use super::Numbers;
use crate::problem::{Arc, MOST_EVENTS, ROW};

/// From each event the smallest number of a fact, which no cycle from it starts below.
pub fn smallest_from(facts: &[Arc]) -> [u8; MOST_EVENTS] {
    let mut smallest = [u8::MAX; MOST_EVENTS];
    for arc in facts {
        smallest[arc.from] = smallest[arc.from].min(arc.number);
    }
    smallest
}

/// The first cycle below 0 of so many arcs from the event: at each arc the smallest number that can still be closed.
pub fn first_from(facts: &[Arc], event: usize, size: usize, least: &Least) -> Numbers {
    let mut numbers = [0; ROW];
    let (mut at, mut sum) = (event, 0);
    for (number, rest) in numbers[..size].iter_mut().zip(least[..size].iter().rev()) {
        let closes = |arc: &&Arc| arc.from == at && sum + arc.weight + rest[arc.to] < 0;
        let arc = facts.iter().filter(closes).min_by_key(|arc| arc.number).expect("the cycle can be closed");
        *number = arc.number;
        (at, sum) = (arc.to, sum + arc.weight);
    }
    numbers
}
