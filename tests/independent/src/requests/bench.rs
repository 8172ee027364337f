//! The requests of the figures: problems as in 000, section 3, all of one size.

use super::problems::as_in_000;
use crate::dialogue::{Asked, Request};
use crate::problem::MOST_ALLOWANCE;
use crate::random::Random;

/// Plan lines: problems of so many events and clauses of two alternatives, bounds within ±100.
pub fn lines(events: usize, clauses: usize, count: usize, seed: u64, room: usize) -> Vec<String> {
    let mut random = Random::new(seed);
    let line = |_| {
        let lent = as_in_000(&mut random, 2, events, clauses, 100);
        let asked = Asked { lent, allowance: MOST_ALLOWANCE, timetable: events, picks: clauses, reasons: room };
        Request::Plan(asked).to_string()
    };
    (0..count).map(line).collect()
}
