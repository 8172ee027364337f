//! Write requests: problems of all shapes and sizes, and room around the length of their texts, to the byte.

use super::maybe_spoil;
use super::problems::{self, apart, clause, lent, some_events, Triple};
use crate::dialogue::{Request, MOST_ROOM};
use crate::problem::{Lent, FARTHEST_BOUND, MOST_ALTERNATIVES, MOST_CLAUSES, MOST_IN_CLAUSE};
use crate::random::Random;
use crate::text::text;

/// More room than any text takes.
pub const AMPLE: usize = 4_096;

pub fn request(random: &mut Random) -> Request {
    let mut lent = problem(random);
    let length = text(&lent.accepted().expect("the made problems are accepted")).len();
    let room = room(random, length);
    maybe_spoil(random, &mut lent);
    Request::Write { room, lent }
}

/// A problem for a text: of any shape, or with clauses of all sizes and bounds of all lengths.
pub fn problem(random: &mut Random) -> Lent {
    if random.one_in(3) {
        problems::problem(random)
    } else {
        of_any_clauses(random)
    }
}

/// Room around the length of a text; seldom very much.
fn room(random: &mut Random, length: usize) -> usize {
    match random.below(200) {
        0 => MOST_ROOM,
        1..=12 => 0,
        13..=30 => random.below(length),
        31..=65 => length - 1,
        66..=110 => length,
        111..=140 => length + 1,
        141..=150 => AMPLE,
        _ => length + random.below(100),
    }
}

/// The rooms that are tried for a worked problem: around the length of its text, none and ample.
pub fn rooms(lent: &Lent) -> Vec<usize> {
    match lent.accepted() {
        Ok(problem) => {
            let length = text(&problem).len();
            vec![length - 1, length, length + 1, 0, AMPLE]
        }
        Err(_) => vec![0, AMPLE],
    }
}

/// Any number of events, and of clauses of one to four alternatives, often empty ones among them; with bounds of any
/// number of digits.
fn of_any_clauses(random: &mut Random) -> Lent {
    let n = some_events(random, 1);
    let m = random.below(MOST_CLAUSES + 1);
    let least = random.below(2);
    let most = random.among(&[1, 2, MOST_IN_CLAUSE, MOST_IN_CLAUSE]);
    let mut left = MOST_ALTERNATIVES;
    let mut clauses: Vec<Vec<Triple>> = Vec::new();
    for _ in 0..m {
        let size = (least + random.below(most + 1 - least)).min(left);
        clauses.push(clause(random, n, size, |random| of_any_bound(random, n)));
        left -= size;
    }
    lent(n, &clauses)
}

/// An alternative with a bound of any number of digits, often the first or the last of that number.
fn of_any_bound(random: &mut Random, n: usize) -> Triple {
    let far = random.among(&[0, 1, 9, 10, 99, 100, 999, 1_000, 9_999, 10_000, 99_999, FARTHEST_BOUND]);
    let [x, y, any] = apart(random, n, far);
    [x, y, random.among(&[any, far as i32, -far as i32])]
}
