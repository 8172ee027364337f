//! The requests that every run begins with for 12 (02, A6): an event against itself, alone and beside each other
//! fault, in every operation that refuses.

use super::problems::lent;
use super::texts::AMPLE;
use crate::dialogue::{Asked, Request};
use crate::problem::{Lent, FARTHEST_BOUND, MOST_ALLOWANCE, MOST_CLAUSES, MOST_EVENTS};
use crate::reasons::ROW;

pub fn requests() -> Vec<Request> {
    let mut requests = Vec::new();
    for other in others() {
        for alternative in 0..other.triples.len() / 3 {
            requests.extend(in_every_operation(&with_event_against_itself(&other, alternative)));
        }
    }
    requests
}

/// A problem of three alternatives without a fault, and one for each fault but 12.
fn others() -> Vec<Lent> {
    let sound = lent(3, &[vec![[0, 1, -5]], vec![[1, 2, 30], [2, 0, 7]]]);
    let alternatives = sound.triples.len() / 3;
    let mut others = vec![
        sound.clone(),
        Lent { events: 0, ..sound.clone() },
        Lent { events: MOST_EVENTS as u32 + 1, ..sound.clone() },
        Lent { counts: vec![alternatives as u32; MOST_CLAUSES + 1], ..sound.clone() },
        Lent { triples: [&sound.triples[..], &[0]].concat(), ..sound.clone() },
        Lent { counts: vec![1, 2], ..sound.clone() },
        Lent { counts: vec![5, 3], ..sound.clone() },
    ];
    for alternative in 0..alternatives {
        others.push(with(&sound, 3 * alternative, sound.events as i32));
        others.push(with(&sound, 3 * alternative + 2, FARTHEST_BOUND as i32 + 1));
    }
    others
}

/// The problem with another number at a place of its triple list.
fn with(lent: &Lent, place: usize, number: i32) -> Lent {
    let mut changed = lent.clone();
    changed.triples[place] = number;
    changed
}

/// The problem with the first event of an alternative as its second too.
fn with_event_against_itself(lent: &Lent, alternative: usize) -> Lent {
    with(lent, 3 * alternative + 1, lent.triples[3 * alternative])
}

/// The problem in each operation, with enough of all that is lent and with too little.
fn in_every_operation(lent: &Lent) -> Vec<Request> {
    let lent = || lent.clone();
    let plan =
        |allowance, timetable, picks| Request::Plan(Asked { lent: lent(), allowance, timetable, picks, reasons: ROW });
    vec![
        plan(1_000, MOST_EVENTS, MOST_CLAUSES),
        plan(MOST_ALLOWANCE + 1, MOST_EVENTS, MOST_CLAUSES),
        plan(1_000, 2, MOST_CLAUSES),
        plan(1_000, MOST_EVENTS, 1),
        Request::Reasons { lent: lent(), list: Vec::new() },
        Request::Times { lent: lent(), times: vec![0; MOST_EVENTS] },
        Request::Times { lent: lent(), times: vec![0; 2] },
        Request::Lamps { lent: lent() },
        Request::Write { room: AMPLE, lent: lent() },
        Request::Write { room: 0, lent: lent() },
    ]
}
