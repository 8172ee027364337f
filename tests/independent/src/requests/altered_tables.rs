//! Lent tables with one entry altered: most are then no day, for one reason; the definitions decide what each is.

use super::tables::Built;
use crate::day::{Day, FARTHEST_DISTANCE, NONE};
use crate::facts::{sum, FAR};
use crate::problem::MOST_EVENTS;
use crate::random::Random;

/// Numbers at the ends of a distance's range, of 32 bits, and around 0.
const ENDS: [i32; 13] = [
    -FARTHEST_DISTANCE as i32 - 1,
    -FARTHEST_DISTANCE as i32 - 1,
    -FARTHEST_DISTANCE as i32,
    FARTHEST_DISTANCE as i32,
    FARTHEST_DISTANCE as i32 + 1,
    FARTHEST_DISTANCE as i32 + 1,
    i32::MIN,
    i32::MIN + 1,
    NONE - 1,
    NONE,
    -1,
    0,
    1,
];

/// The day with one entry altered.
pub fn altered(random: &mut Random, built: &Built) -> Day {
    let mut day = built.day.clone();
    let n = day.events as usize;
    let (from, to) = (random.below(n), random.below(n));
    match random.below(12) {
        0..=2 => make_a_detour_shorter(random, built, &mut day),
        3 => put(&mut day, from, from, random.among(&[-1, 1, NONE])),
        4 => put(&mut day, from, to, NONE),
        5..=6 => put(&mut day, from, to, random.among(&ENDS)),
        7 => move_entry(&mut day, from, to, random.among(&[-1, 1])),
        8 => move_entry(&mut day, from, to, random.between(-1_000, 1_000) as i32),
        9 => put(&mut day, from, to, random.between(-200, 200) as i32),
        _ => put_past_the_last(random, &mut day),
    }
    day
}

fn put(day: &mut Day, from: usize, to: usize, entry: i32) {
    day.entries[from * MOST_EVENTS + to] = entry;
}

/// Makes an entry so much longer, where it is not none.
fn move_entry(day: &mut Day, from: usize, to: usize, by: i32) {
    let entry = &mut day.entries[from * MOST_EVENTS + to];
    if *entry != NONE {
        *entry += by;
    }
}

/// Makes an entry longer, by one or to none, that is as long as a way over a third event; or one of that way shorter.
fn make_a_detour_shorter(random: &mut Random, built: &Built, day: &mut Day) {
    let least = |from, to| built.distances.least(from, to);
    let n = day.events as usize;
    let mut ways = Vec::new();
    for (from, to) in (0..n * n).map(|pair| (pair / n, pair % n)).filter(|(from, to)| from != to) {
        let as_long = |over: &usize| sum(least(from, *over), least(*over, to)) == least(from, to);
        let over = (0..n).filter(|over| *over != from && *over != to).find(as_long);
        ways.extend(over.filter(|_| least(from, to) < FAR).map(|over| (from, over, to)));
    }
    if ways.is_empty() {
        return;
    }
    let (from, over, to) = random.among(&ways);
    match random.below(5) {
        0 => put(day, from, to, NONE),
        1 => move_entry(day, from, over, -1),
        2 => move_entry(day, over, to, -1),
        _ => move_entry(day, from, to, 1),
    }
}

/// An entry for an event past the last: its own, or one from or to it; often of the first past the last or of the last
/// that there may be.
fn put_past_the_last(random: &mut Random, day: &mut Day) {
    let n = day.events as usize;
    if n == MOST_EVENTS {
        return;
    }
    let any = n + random.below(MOST_EVENTS - n);
    let past = random.among(&[n, MOST_EVENTS - 1, any]);
    let other = random.below(MOST_EVENTS);
    let (from, to) = random.among(&[(past, past), (past, other), (other, past), (past, n - 1), (n - 1, past)]);
    put(day, from, to, random.among(&[0, 0, -1, 1, 5, NONE - 1, i32::MIN]));
}
