//! Random problems that are accepted: those that mostly have no plan, for many reasons at once.

use super::problems::{apart, lent, Triple};
use super::rings::kept_by;
use crate::problem::{Lent, MOST_IN_CLAUSE};
use crate::random::Random;

/// Two events: the arc of an alternative (x, y, c).
type Pair = [usize; 2];

/// Facts between few events, many of them parallel, that some times satisfy; then clauses that these times break in each
/// alternative, so that it closes cycles below 0 over one fact or another. A clause that lives long by one alternative
/// leaves the others closed by many.
pub fn quarrel(random: &mut Random) -> Lent {
    let n = 2 + random.below(6);
    let times: Vec<i64> = (0..n).map(|_| random.between(-9, 0)).collect();
    let pairs = some_pairs(random, n);
    let mut clauses: Vec<Vec<Triple>> = Vec::new();
    for _ in 0..n + random.below(12) {
        clauses.push(vec![some_kept_by(random, &times, &pairs, 0)]);
    }
    for _ in 0..random.below(4) {
        let second = some_kept_by(random, &times, &pairs, -2);
        let place = random.below(clauses.len());
        clauses[place].insert(random.below(2), second);
    }
    for _ in 0..1 + random.below(3) {
        clauses.push(broken_clause(random, &times, &pairs));
    }
    if random.one_in(3) {
        random.shuffle(&mut clauses);
    }
    lent(n, &clauses)
}

/// The pairs of events that facts lie between: any, the steps of a path that passes all, or the two steps of each path
/// from the last event over another to the first.
fn some_pairs(random: &mut Random, n: usize) -> Vec<Pair> {
    match random.below(3) {
        0 => (0..=n).map(|_| apart(random, n, 0)).map(|[x, y, _]| [x as usize, y as usize]).collect(),
        1 if n > 2 => (1..n - 1).flat_map(|event| [[event, n - 1], [0, event]]).collect(),
        _ => (1..n).map(|event| [event - 1, event]).collect(),
    }
}

/// An alternative of one of the pairs that these times satisfy with so many minutes to spare, or up to 3.
fn some_kept_by(random: &mut Random, times: &[i64], pairs: &[Pair], least: i64) -> Triple {
    let [x, y] = random.among(pairs);
    kept_by(times, x, y, random.between(least, 3))
}

/// A clause of which these times satisfy no alternative; each leads from where one of the pairs ends to where one starts.
fn broken_clause(random: &mut Random, times: &[i64], pairs: &[Pair]) -> Vec<Triple> {
    let size = 2 + random.below(MOST_IN_CLAUSE - 1);
    let broken = |_| {
        let ([end, own], [_, other]) = (random.among(pairs), random.among(pairs));
        let start = if other == end { own } else { other };
        kept_by(times, start, end, random.between(-7, -1))
    };
    (0..size).map(broken).collect()
}
