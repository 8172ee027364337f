//! The shortest reason, worked out afresh: of the cycles below 0 with the fewest arcs, the one whose numbers, read from
//! its smallest, come first in dictionary order.

use crate::problem::{Arc, MOST_EVENTS};

/// No walk leads there. Far above 0 and far from overflow, whatever is added to it.
const FAR: i32 = i32::MAX / 2;

/// From each event to each, the least sum of a walk of at most so many arcs.
type Least = [[i32; MOST_EVENTS]; MOST_EVENTS];

/// The numbers of the shortest reason, for facts that have no timetable.
pub fn shortest(events: usize, facts: &[Arc]) -> Vec<u8> {
    let least = least_sums(events, facts);
    let mut arcs = facts.to_vec();
    arcs.sort_unstable_by_key(|arc| arc.number);
    let mut numbers = Vec::with_capacity(least.len());
    let mut sum = 0;
    let mut ends = None;
    for rest in least.iter().rev() {
        let closes = |arc: &&Arc| {
            let (start, end) = ends.unwrap_or((arc.from, arc.from));
            arc.from == end && sum + arc.weight + rest[arc.to][start] < 0
        };
        let arc = arcs.iter().find(closes).expect("facts without a timetable have a cycle below 0");
        numbers.push(arc.number);
        sum += arc.weight;
        ends = Some((ends.map_or(arc.from, |(start, _)| start), arc.to));
    }
    numbers
}

/// The least sums of walks of at most 0, 1, 2 arcs and so on, as many as the shortest reason has: one arc more than the
/// last closes a walk below 0.
fn least_sums(events: usize, facts: &[Arc]) -> Vec<Least> {
    let mut last = [[FAR; MOST_EVENTS]; MOST_EVENTS];
    (0..events).for_each(|event| last[event][event] = 0);
    let mut least = Vec::with_capacity(events);
    while (0..events).all(|event| last[event][event] == 0) {
        least.push(last);
        last = with_one_more(events, facts, &last);
    }
    least
}

/// The least sums with one arc more in front.
fn with_one_more(events: usize, facts: &[Arc], least: &Least) -> Least {
    let mut more = *least;
    for arc in facts {
        for (sum, rest) in more[arc.from][..events].iter_mut().zip(&least[arc.to][..events]) {
            *sum = (*sum).min(arc.weight + rest);
        }
    }
    more
}
