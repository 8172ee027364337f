//! Lent tables that are days, or nearly so: built from facts, and with entries of their own at the ends of their range.

use super::problems::{apart, some_events};
use crate::day::{Day, FARTHEST_DISTANCE};
use crate::facts::Distances;
use crate::problem::{Alternative, FARTHEST_BOUND};
use crate::random::Random;

/// A table, and the facts that it was built from.
pub struct Built {
    pub day: Day,
    pub distances: Distances,
    pub facts: Vec<Alternative>,
}

impl Built {
    fn of(events: usize, distances: Distances, facts: Vec<Alternative>) -> Built {
        Built { day: Day::of(events, &distances), distances, facts }
    }
}

/// A table of any kind; each has a timetable, and few are no day since a distance lies out of range.
pub fn table(random: &mut Random) -> Built {
    let n = if random.one_in(12) { 1 } else { some_events(random, 2) };
    match random.below(7) {
        _ if n == 1 => built(n, Vec::new()),
        0..=2 => of_any_facts(random, n),
        3..=4 => chain(random, n),
        _ => with_own_entries(random, n),
    }
}

/// The day with these facts added one after the other, those left out that have no timetable with the ones before.
fn built(n: usize, facts: Vec<Alternative>) -> Built {
    let mut distances = Distances::without_facts(n);
    let mut kept = Vec::new();
    for fact in facts {
        if let Some(more) = distances.with(fact) {
            distances = more;
            kept.push(fact);
        }
    }
    Built::of(n, distances, kept)
}

/// Any facts, opposites among them, from none to more than the events can bear.
fn of_any_facts(random: &mut Random, n: usize) -> Built {
    let l = random.among(&[0, 3, 20, 100, 1_000, FARTHEST_BOUND]);
    let most = random.among(&[1, n, 3 * n]);
    let count = random.below(most + 1);
    let fact = |_| {
        let [x, y, c] = apart(random, n, l);
        let alternative = Alternative { x: x as usize, y: y as usize, c: c.into() };
        random.among(&[alternative, alternative, alternative.opposite()])
    };
    built(n, (0..count).map(fact).collect())
}

/// Events in a row with bounds at one end, so that distances come near the ends of their range; at times a way back of
/// the same length, or a little longer.
fn chain(random: &mut Random, n: usize) -> Built {
    let mut order: Vec<usize> = (0..n).collect();
    random.shuffle(&mut order);
    let end = random.among(&[-FARTHEST_BOUND - 1, -FARTHEST_BOUND, FARTHEST_BOUND]);
    let seldom = random.among(&[3, 20, 1_000]);
    let mut facts: Vec<Alternative> = Vec::new();
    for pair in order.windows(2) {
        let c = if random.one_in(seldom) { random.between(-FARTHEST_BOUND, FARTHEST_BOUND) } else { end };
        facts.push(Alternative { x: pair[1], y: pair[0], c });
        if random.one_in(seldom) {
            facts.push(Alternative { x: pair[0], y: pair[1], c: random.between(0, 2) - c });
        }
    }
    random.shuffle(&mut facts);
    facts.truncate(n - usize::from(random.one_in(3)));
    built(n, facts)
}

/// Events in one part or two whose widest distance is the farthest that a day may have, the next one, or of any size.
fn with_own_entries(random: &mut Random, n: usize) -> Built {
    let far = FARTHEST_DISTANCE;
    let width = random.among(&[far, far, far + 1, 5, 200_000, 1_000_000]);
    let parts = if n > 3 { random.among(&[1, 2]) } else { 1 };
    of_widths(random, n, &vec![width; parts])
}

/// Events in two parts, which one arc of some bound can join so that a distance comes to an end of its range.
pub fn near_the_range(random: &mut Random) -> Built {
    let n = some_events(random, 4);
    let both = FARTHEST_DISTANCE - random.between(-FARTHEST_BOUND, FARTHEST_BOUND);
    let any = random.between(0, both);
    let one = random.among(&[0, both / 2, both, any]).clamp(both - FARTHEST_DISTANCE, FARTHEST_DISTANCE);
    of_widths(random, n, &[one, both - one])
}

/// Events with times, in parts whose first two lie so far apart, and arcs within a part that the times satisfy. Where the
/// arcs have nothing to spare, a distance is the difference of two times.
fn of_widths(random: &mut Random, n: usize, widths: &[i64]) -> Built {
    let parts = widths.len();
    let mut order: Vec<usize> = (0..n).collect();
    random.shuffle(&mut order);
    let mut times = vec![0; n];
    for (place, event) in order.iter().enumerate().skip(parts) {
        let width = widths[place % parts];
        times[*event] = if place < 2 * parts { width } else { random.between(0, width) };
    }
    let most = random.among(&[0, 0, 0, 3, 1_000]);
    let (seldom, direction) = (random.among(&[1, 2, 5, 20]), random.below(3));
    let mut facts: Vec<Alternative> = Vec::new();
    for (place, y) in order.iter().enumerate() {
        for (other, x) in order.iter().enumerate().filter(|(other, _)| place % parts == other % parts) {
            let widest = place.max(other) < 2 * parts;
            let turned = [place > other, place < other, false][direction];
            if x != y && !turned && (widest || random.one_in(seldom)) {
                let spare = if widest { 0 } else { random.between(0, most) };
                facts.push(Alternative { x: *x, y: *y, c: times[*x] - times[*y] + spare });
            }
        }
    }
    let distances = Distances::all_pairs(n, facts.iter().copied()).expect("the times satisfy the facts");
    Built::of(n, distances, facts)
}
