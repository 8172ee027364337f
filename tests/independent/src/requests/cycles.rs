//! Cycles below 0 for lists of reasons: the shortest reason, and others that the reader takes as well.

use crate::facts::{members, sum, Distances, Numbers, FAR};
use crate::problem::Problem;
use crate::random::Random;
use crate::reasons::ROW;
use crate::shortest::{shortest, Walks};

/// A closed walk below 0 over the given numbers, begun at any of its arcs; None where there is none. At times it is the
/// shortest reason, at times it has any number of arcs, so that it may pass an event more than once.
pub fn any_cycle(random: &mut Random, problem: &Problem, numbers: Numbers) -> Option<Vec<usize>> {
    let shortest = shortest(problem, numbers)?;
    let arcs = 1 + random.below(ROW);
    let mut cycle = match random.below(4) {
        0 => return Some(shortest),
        1 => Walks::new(problem, numbers).first_below_0(arcs).unwrap_or(shortest),
        _ => closed_in_any_order(random, problem, numbers).unwrap_or(shortest),
    };
    let arcs = cycle.len();
    cycle.rotate_left(random.below(arcs));
    Some(cycle)
}

fn closed_in_any_order(random: &mut Random, problem: &Problem, numbers: Numbers) -> Option<Vec<usize>> {
    let mut order: Vec<usize> = members(numbers).collect();
    random.shuffle(&mut order);
    closed_first(problem, &order)
}

/// The numbers taken in this order: a cycle that the first closes which leaves no timetable.
pub fn closed_first(problem: &Problem, order: &[usize]) -> Option<Vec<usize>> {
    let mut distances = Distances::without_facts(problem.events);
    for (place, number) in order.iter().enumerate() {
        match distances.with(problem.arc(*number)) {
            Some(more) => distances = more,
            None => return Some(closed_by(problem, &order[..place], *number)),
        }
    }
    None
}

/// The closing arc, then a shortest path over the taken ones from where it ends back to where it starts.
fn closed_by(problem: &Problem, taken: &[usize], closing: usize) -> Vec<usize> {
    let arc = problem.arc(closing);
    let last_arcs = shortest_paths(problem, taken, arc.x);
    let mut back = Vec::new();
    let mut event = arc.y;
    while event != arc.x {
        let number = last_arcs[event].expect("a path leads back");
        back.push(number);
        event = problem.arc(number).y;
    }
    back.push(closing);
    back.reverse();
    back
}

/// Per event, the last arc of a shortest path from the start, where one leads there.
fn shortest_paths(problem: &Problem, taken: &[usize], start: usize) -> Vec<Option<usize>> {
    let mut length = vec![FAR; problem.events];
    let mut last_arc = vec![None; problem.events];
    length[start] = 0;
    for _ in 0..problem.events {
        for number in taken {
            let arc = problem.arc(*number);
            let reached = sum(length[arc.y], arc.c);
            if reached < length[arc.x] {
                length[arc.x] = reached;
                last_arc[arc.x] = Some(*number);
            }
        }
    }
    last_arc
}
