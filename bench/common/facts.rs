//! The test of facts, worked out afresh: Bellman–Ford from the extra source, ended early where nothing changes.

use crate::problem::{Arc, MOST_EVENTS};

/// The latest timetable of the facts; None where they have none.
pub fn latest(events: usize, facts: &[Arc]) -> Option<[i32; MOST_EVENTS]> {
    let mut times = [0; MOST_EVENTS];
    for _ in 0..=events {
        let mut changed = false;
        for arc in facts {
            let time = times[arc.from] + arc.weight;
            if time < times[arc.to] {
                times[arc.to] = time;
                changed = true;
            }
        }
        if !changed {
            return Some(times);
        }
    }
    None
}
