//! Random problems that are accepted: in the manner of 000, section 3, and of other shapes.

use super::lists::MOST_ROWS;
use super::quarrels::quarrel;
use super::rings::ring;
use crate::problem::{Lent, FARTHEST_BOUND, MOST_ALTERNATIVES, MOST_CLAUSES, MOST_EVENTS, MOST_IN_CLAUSE};
use crate::random::Random;
use crate::search::{search, Ending};

pub type Triple = [i32; 3];

/// The lent problem of these clauses.
pub fn lent(events: usize, clauses: &[Vec<Triple>]) -> Lent {
    let ends = clauses.iter().scan(0, |end, clause| {
        *end += clause.len() as u32;
        Some(*end)
    });
    Lent {
        events: events as u32,
        triples: clauses.iter().flatten().flatten().copied().collect(),
        counts: ends.collect(),
    }
}

/// A problem of any shape; about a quarter have a number of events in the largest third.
pub fn problem(random: &mut Random) -> Lent {
    match random.below(20) {
        0..=3 => small_as_in_000(random),
        4 => large_as_in_000(random),
        5..=6 => tiny(random),
        7..=8 => tight(random),
        9 => at_the_ends(random),
        10 => with_one_alternative_clauses(random),
        11 => hard(random),
        12..=15 => ring(random),
        16..=18 => quarrel(random),
        _ => loose(random),
    }
}

/// A number of events, so many at least; often one in the largest third.
pub fn some_events(random: &mut Random, least: usize) -> usize {
    if random.one_in(3) {
        MOST_EVENTS - random.below(MOST_EVENTS / 3)
    } else {
        least + random.below(MOST_EVENTS + 1 - least)
    }
}

/// A problem that mostly has no plan and a short list of reasons: the first such of a few.
pub fn with_a_list(random: &mut Random) -> Lent {
    for _ in 0..6 {
        let lent = maybe_with_a_list(random);
        let problem = lent.accepted().expect("the made problems are accepted");
        if search(&problem, MOST_ROWS as u64 / 5, 0).ending == Ending::NoPlan {
            return lent;
        }
    }
    problem(random)
}

fn maybe_with_a_list(random: &mut Random) -> Lent {
    match random.below(13) {
        0 => as_in_000(random, 2, 4, 24, 100),
        1 => small_as_in_000(random),
        2 => with_one_alternative_clauses(random),
        3 => tiny(random),
        4..=6 => tight(random),
        7..=8 => quarrel(random),
        _ => ring(random),
    }
}

/// m clauses of k alternatives over n events, two at least, bounds within ±l; no clause with equal alternatives.
pub fn as_in_000(random: &mut Random, k: usize, n: usize, m: usize, l: i64) -> Lent {
    let clauses: Vec<Vec<Triple>> = (0..m).map(|_| clause_as_in_000(random, k, n, l)).collect();
    lent(n, &clauses)
}

fn clause_as_in_000(random: &mut Random, k: usize, n: usize, l: i64) -> Vec<Triple> {
    loop {
        let clause: Vec<Triple> = (0..k).map(|_| apart(random, n, l)).collect();
        let equal = (0..k).any(|i| clause[..i].contains(&clause[i]));
        if !equal {
            return clause;
        }
    }
}

/// An alternative between two of n events.
pub fn apart(random: &mut Random, n: usize, l: i64) -> Triple {
    loop {
        let triple = [random.below(n) as i32, random.below(n) as i32, random.between(-l, l) as i32];
        if triple[0] != triple[1] {
            return triple;
        }
    }
}

/// A clause of so many alternatives; where there are no two events it can have none.
pub fn clause(random: &mut Random, n: usize, size: usize, alternative: impl Fn(&mut Random) -> Triple) -> Vec<Triple> {
    let size = if n > 1 { size } else { 0 };
    (0..size).map(|_| alternative(random)).collect()
}

fn small_as_in_000(random: &mut Random) -> Lent {
    let n = 2 + random.below(5);
    let ratio = 1 + random.below(6);
    let k = random.among(&[1, 2, 2, 2, 3, 4]);
    let m = (n * ratio).min(16).min(MOST_ALTERNATIVES / k);
    let l = random.among(&[5, 20, 100, 100, 1_000]);
    as_in_000(random, k, n, m, l)
}

fn large_as_in_000(random: &mut Random) -> Lent {
    let n = some_events(random, 5);
    let k = random.among(&[1, 2, 2, 3, 4]);
    let most = MOST_CLAUSES.min(MOST_ALTERNATIVES / k);
    let m = most - random.below(most / 2);
    as_in_000(random, k, n, m, 100)
}

/// Near the ratio of clauses to events at which the search is longest.
fn hard(random: &mut Random) -> Lent {
    let n = 4 + random.below(5);
    let m = (n * (5 + random.below(3))).min(MOST_CLAUSES);
    as_in_000(random, 2, n, m, 100)
}

/// Up to three events, seldom one, and up to four clauses, empty ones among them.
pub fn tiny(random: &mut Random) -> Lent {
    let n = random.among(&[1, 2, 2, 2, 3, 3]);
    let m = random.below(5);
    let empty_too = random.one_in(4);
    let clauses: Vec<Vec<Triple>> = (0..m).map(|_| clause_of_any_size(random, empty_too, n, 3)).collect();
    lent(n, &clauses)
}

/// Exactly so many events and clauses, of one to four alternatives; seldom an empty clause among them, and no other
/// where there is one event.
pub fn of_size(random: &mut Random, n: usize, m: usize) -> Lent {
    let l = random.among(&[5, 20, 100, 100, FARTHEST_BOUND]);
    let most = random.among(&[1, 2, 2, 3, MOST_IN_CLAUSE]);
    let mut clauses: Vec<Vec<Triple>> = Vec::new();
    let mut left = MOST_ALTERNATIVES;
    for clauses_left in (0..m).rev() {
        let size = (1 + random.below(most)).min(left - clauses_left);
        clauses.push(clause(random, n, size, |random| apart(random, n, l)));
        left -= size;
    }
    if m > 0 && random.one_in(12) {
        clauses[random.below(m)].clear();
    }
    lent(n, &clauses)
}

/// Few events and bounds near 0, so that sums of 0 and −1 are many.
fn tight(random: &mut Random) -> Lent {
    let n = 2 + random.below(4);
    let m = 2 + random.below(9);
    let l = 1 + random.below(4) as i64;
    let empty_too = random.one_in(20);
    let clauses: Vec<Vec<Triple>> = (0..m).map(|_| clause_of_any_size(random, empty_too, n, l)).collect();
    lent(n, &clauses)
}

fn clause_of_any_size(random: &mut Random, empty_too: bool, n: usize, l: i64) -> Vec<Triple> {
    let least = usize::from(!empty_too);
    let size = least + random.below(MOST_IN_CLAUSE + 1 - least);
    let mut clause = clause(random, n, size, |random| apart(random, n, l));
    if clause.len() > 1 && random.one_in(6) {
        clause[1] = clause[0];
    }
    clause
}

/// Chains of events with bounds at their ends, closed so that the sum is near 0.
fn at_the_ends(random: &mut Random) -> Lent {
    let n = some_events(random, 2);
    let far = FARTHEST_BOUND as i32;
    let seldom = random.among(&[5, 50]);
    let mut clauses: Vec<Vec<Triple>> = Vec::new();
    for event in 1..n as i32 {
        let mut clause = vec![[event - 1, event, -far]];
        if random.one_in(seldom) {
            let bound = random.among(&[far, far - 1, 1 - far, 0, -1]);
            clause.insert(random.below(2), [event, event - 1, bound]);
        }
        clauses.push(clause);
    }
    if random.one_in(2) {
        let (x, y) = (1 + random.below(n - 1) as i32, 0);
        clauses.push(vec![[x, y, random.among(&[far, far - 1])], [x, x - 1, random.among(&[-1, 0, far, -far])]]);
    }
    let place = random.below(clauses.len());
    clauses.rotate_left(place);
    lent(n, &clauses)
}

/// A problem for the lamps: about half the clauses have one alternative or most of them, or any shape.
pub fn with_lamps(random: &mut Random) -> Lent {
    match random.below(12) {
        0..=3 => problem(random),
        4..=6 => ring(random),
        _ => with_one_alternative_clauses(random),
    }
}

/// About half the clauses have one alternative.
fn with_one_alternative_clauses(random: &mut Random) -> Lent {
    let n = 2 + random.below(7);
    let m = random.below(17);
    let l = random.among(&[3, 10, 100]);
    let clause = |_| {
        let size = if random.one_in(2) { 1 } else { random.below(MOST_IN_CLAUSE + 1).max(1) };
        (0..size).map(|_| apart(random, n, l)).collect()
    };
    let clauses: Vec<Vec<Triple>> = (0..m).map(clause).collect();
    lent(n, &clauses)
}

/// As many events, clauses and alternatives as are taken, or fewer, with bounds that mostly leave a plan.
fn loose(random: &mut Random) -> Lent {
    let n = some_events(random, 1);
    let most = random.below(MOST_CLAUSES + 1);
    let mut clauses: Vec<Vec<Triple>> = Vec::new();
    let mut left = MOST_ALTERNATIVES;
    while clauses.len() < most && left > 0 {
        let size = (1 + random.below(MOST_IN_CLAUSE)).min(left);
        clauses.push(clause(random, n, size, |random| mostly_loose(random, n)));
        left -= size;
    }
    lent(n, &clauses)
}

fn mostly_loose(random: &mut Random, n: usize) -> Triple {
    let mut triple = apart(random, n, FARTHEST_BOUND);
    if random.one_in(3) {
        triple[2] = -triple[2].abs();
    } else {
        triple[2] = triple[2].abs();
    }
    triple
}
