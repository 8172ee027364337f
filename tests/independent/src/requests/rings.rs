//! Random problems that are accepted: rings of events, often of many.

use super::problems::{apart, lent, some_events, Triple};
use crate::problem::{Lent, FARTHEST_BOUND, MOST_CLAUSES, MOST_EVENTS};
use crate::random::Random;

/// Events in a ring whose sum is near 0, so that paths and cycles of many arcs decide; at times one of its arcs is
/// missing, or more stands beside it.
pub fn ring(random: &mut Random) -> Lent {
    let n = some_events(random, MOST_EVENTS / 3);
    let l = random.among(&[0, 5, 100, FARTHEST_BOUND - 5]);
    let times: Vec<i64> = (0..n).map(|_| random.between(-l, 0)).collect();
    let mut clauses = once_around(random, &times);
    clauses[0][0][2] += random.among(&[-1, -1, -1, 0, 1]);
    random.shuffle(&mut clauses);
    clauses.truncate(if random.one_in(6) { n - 1 } else { n });
    match random.below(5) {
        0 => add_clauses(random, &times, &mut clauses),
        1 => add_alternatives(random, &times, &mut clauses),
        2 => give_by_opposites(random, &times, &mut clauses),
        3 => double_arcs(random, &mut clauses),
        _ => {}
    }
    if random.one_in(4) {
        clauses.reverse();
    }
    lent(n, &clauses)
}

/// One-alternative clauses from each event to the next, in some order of all that returns to the first; the sum is 0.
fn once_around(random: &mut Random, times: &[i64]) -> Vec<Vec<Triple>> {
    let mut order: Vec<usize> = (0..times.len()).collect();
    random.shuffle(&mut order);
    let next = order.iter().cycle().skip(1);
    order.iter().zip(next).map(|(x, y)| vec![kept_by(times, *x, *y, 0)]).collect()
}

/// The alternative of two events that these times satisfy with so many minutes to spare.
pub fn kept_by(times: &[i64], x: usize, y: usize, spare: i64) -> Triple {
    [x as i32, y as i32, (times[x] - times[y] + spare) as i32]
}

/// An alternative of any two events that these times satisfy with so many minutes to spare.
fn any_kept_by(random: &mut Random, times: &[i64], spare: i64) -> Triple {
    let [x, y, _] = apart(random, times.len(), 0);
    kept_by(times, x as usize, y as usize, spare)
}

/// Puts clauses of one alternative between the others.
fn add_clauses(random: &mut Random, times: &[i64], clauses: &mut Vec<Vec<Triple>>) {
    for _ in 0..random.below(MOST_CLAUSES + 1 - clauses.len()) {
        let spare = random.between(0, 3);
        clauses.push(vec![any_kept_by(random, times, spare)]);
    }
    random.shuffle(clauses);
}

/// Gives some of the last clauses a second alternative, behind or before the first.
fn add_alternatives(random: &mut Random, times: &[i64], clauses: &mut [Vec<Triple>]) {
    for clause in clauses.iter_mut().rev().take(1 + random.below(3)) {
        let spare = random.between(-1, 1);
        clause.insert(random.below(2), any_kept_by(random, times, spare));
    }
}

/// Leaves some arcs to opposites: the clause's first alternative is against the arc, and dead by a further clause.
fn give_by_opposites(random: &mut Random, times: &[i64], clauses: &mut Vec<Vec<Triple>>) {
    let count = (1 + random.below(4)).min(MOST_CLAUSES - clauses.len());
    for place in 0..count {
        let [x, y, c] = clauses[place][0];
        clauses[place] = vec![[y, x, -c - 1], any_kept_by(random, times, 3)];
        clauses.push(vec![[x, y, c], [x, y, c - 1]]);
    }
}

/// Puts arcs beside those of the ring, heavier and lighter ones, and lowers the ring's sum, so that some but not all of
/// the heavier ones leave it below 0.
fn double_arcs(random: &mut Random, clauses: &mut Vec<Vec<Triple>>) {
    let ring = clauses.len();
    let place = random.below(ring);
    clauses[place][0][2] -= random.between(0, 3) as i32;
    for _ in 0..random.below(MOST_CLAUSES + 1 - ring) {
        let [x, y, c] = clauses[random.below(ring)][0];
        clauses.push(vec![[x, y, c + random.between(-1, 3) as i32]]);
    }
    if random.one_in(2) {
        random.shuffle(clauses);
    } else {
        clauses.rotate_left(ring);
    }
}
