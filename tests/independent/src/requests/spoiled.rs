//! Spoiled inputs: one for every refusal, and pairs of them.

use crate::dialogue::{Asked, MOST_COUNTS, MOST_TRIPLE_NUMBERS};
use crate::problem::{Refusal, AGAINST_ITSELF, MOST_ALLOWANCE, MOST_CLAUSES, MOST_EVENTS};
use crate::random::Random;

/// The refusals in the order in which they are looked for.
pub const OF_A_PLAN: [Refusal; 9] = [1, 2, 3, 4, 5, AGAINST_ITSELF, 6, 7, 8];
pub const OF_A_PROBLEM: [Refusal; 7] = [1, 2, 3, 4, 5, AGAINST_ITSELF, 6];

/// Spoils a plan request for one of these refusals; at times for two, often neighbours.
pub fn spoil(random: &mut Random, asked: &mut Asked, refusals: &[Refusal]) {
    let place = random.below(refusals.len());
    spoil_for(random, asked, refusals[place]);
    if random.one_in(3) {
        let other = if random.one_in(2) { place + 1 } else { random.below(refusals.len()) };
        spoil_for(random, asked, refusals[other % refusals.len()]);
    }
}

fn spoil_for(random: &mut Random, asked: &mut Asked, refusal: Refusal) {
    match refusal {
        1 => spoil_events(random, asked),
        2 => spoil_clauses(random, asked),
        3 => spoil_triples(random, asked),
        4 => spoil_counts(random, asked),
        5 => spoil_named_event(random, asked),
        AGAINST_ITSELF => set_against_itself(random, asked),
        6 => spoil_bound(random, asked),
        7 => asked.allowance = random.among(&[MOST_ALLOWANCE + 1, MOST_ALLOWANCE + 2, 1 << 31, u32::MAX]),
        _ => spoil_memory(random, asked),
    }
}

fn spoil_events(random: &mut Random, asked: &mut Asked) {
    let most = MOST_EVENTS as u32;
    asked.lent.events = random.among(&[0, most + 1, most + 1, most + 2, 2 * most, 1 << 16, 1 << 31, u32::MAX]);
}

/// More than 32 clauses: empty ones at the end.
fn spoil_clauses(random: &mut Random, asked: &mut Asked) {
    let last = asked.lent.counts.last().copied().unwrap_or(0);
    let length = random.among(&[MOST_CLAUSES, MOST_CLAUSES + 1, MOST_CLAUSES + 1, MOST_COUNTS]);
    asked.lent.counts.resize(length.max(asked.lent.counts.len()), last);
}

/// A triple list of a length that does not fit, with the clause counts left or led after it.
fn spoil_triples(random: &mut Random, asked: &mut Asked) {
    let triples = &mut asked.lent.triples;
    let length = match random.below(6) {
        0 => triples.len() + 1,
        1 => triples.len() + 2,
        2 => triples.len().saturating_sub(1),
        3 => 192,
        4 => 195,
        _ => MOST_TRIPLE_NUMBERS - random.below(3),
    };
    resize(triples, length.min(MOST_TRIPLE_NUMBERS));
    if random.one_in(2) {
        let numbers = triples.len() as u32 / 3;
        asked.lent.counts = (1..=MOST_CLAUSES as u32).map(|clause| (4 * clause).min(numbers)).collect();
    }
}

/// Cuts the triple list, or goes on with the triple 0, 1, 0.
fn resize(triples: &mut Vec<i32>, length: usize) {
    triples.truncate(length);
    triples.extend((triples.len()..length).map(|place| i32::from(place % 3 == 1)));
}

/// Clause counts that fall, rise by more than 4, or don't end at the number of triples.
fn spoil_counts(random: &mut Random, asked: &mut Asked) {
    let counts = &mut asked.lent.counts;
    if counts.is_empty() || random.one_in(8) {
        let whole = asked.lent.triples.len() as u32 / 3;
        counts.push(random.among(&[1, 4, 5, whole + 1, u32::MAX]));
        return;
    }
    if random.one_in(4) {
        counts.pop();
        return;
    }
    let place = random.below(counts.len());
    let step = random.among(&[1, 1, 2, 4, 5, 1 << 31, u32::MAX]);
    counts[place] = match random.below(3) {
        0 => counts[place].wrapping_sub(step),
        1 => counts[place].wrapping_add(step),
        _ => random.among(&[0, 64, 65, 1 << 31, u32::MAX]),
    };
}

fn spoil_named_event(random: &mut Random, asked: &mut Asked) {
    let wrong = random.among(&[-1, asked.lent.events as i32, asked.lent.events as i32 + 1, i32::MIN, i32::MAX]);
    let side = random.below(2);
    put(random, asked, side, wrong);
}

/// An event against itself in some triple; in a clause of its own where there is none.
fn set_against_itself(random: &mut Random, asked: &mut Asked) {
    let triples = asked.lent.triples.len() / 3;
    if triples > 0 {
        let place = 3 * some_triple(random, triples);
        asked.lent.triples[place + 1] = asked.lent.triples[place];
    } else {
        asked.lent.triples = vec![0, 0, random.between(-1, 1) as i32];
        asked.lent.counts.push(1);
    }
}

fn spoil_bound(random: &mut Random, asked: &mut Asked) {
    let wrong = random.among(&[-100_001, 100_001, -100_000, 100_000, i32::MIN, i32::MAX]);
    put(random, asked, 2, wrong);
}

/// Puts a number at one place of some triple.
fn put(random: &mut Random, asked: &mut Asked, place: usize, number: i32) {
    let triples = asked.lent.triples.len() / 3;
    if triples > 0 {
        asked.lent.triples[3 * some_triple(random, triples) + place] = number;
    }
}

/// The first of so many triples, the last or any.
fn some_triple(random: &mut Random, triples: usize) -> usize {
    let any = random.below(triples);
    random.among(&[0, triples - 1, any])
}

fn spoil_memory(random: &mut Random, asked: &mut Asked) {
    if random.one_in(2) {
        asked.timetable = (asked.lent.events as usize).saturating_sub(1).min(random.below(65));
    } else {
        asked.picks = asked.lent.counts.len().saturating_sub(1).min(random.below(65));
    }
}
