//! Day requests: a table, altered at times, and a fact around what has a timetable with it, what changes it, and what
//! leaves the range; spoiled at times, often in several ways at once.

use super::altered_tables::altered;
use super::tables::{near_the_range, table, Built};
use crate::day::{Added, FARTHEST_DISTANCE};
use crate::dialogue::{Request, MOST_TIMES};
use crate::facts::{sum, Distances, FAR};
use crate::problem::{Alternative, FARTHEST_BOUND, MOST_EVENTS};
use crate::random::Random;

pub fn request(random: &mut Random) -> Request {
    let at_the_range = random.one_in(6);
    let built = if at_the_range { near_the_range(random) } else { table(random) };
    let fact = if at_the_range { fact_at_the_range(random, &built) } else { some_fact(random, &built) };
    let mut added = given(random, fact);
    let n = built.day.events as usize;
    let mut day = if random.one_in(4) { altered(random, &built) } else { built.day };
    if random.one_in(6) {
        spoil_added(random, &mut added, n as i32);
    }
    if random.one_in(12) {
        day.events = some_wrong_events(random, n as u32);
    }
    Request::Day { day, added, timetable: some_elements(random, n) }
}

/// The fact as an alternative or as the opposite of one.
fn given(random: &mut Random, fact: Alternative) -> Added {
    let opposite = random.one_in(2);
    let Alternative { x, y, c } = if opposite { fact.opposite() } else { fact };
    Added { opposite, x: x as i32, y: y as i32, c: c as i32 }
}

fn some_fact(random: &mut Random, built: &Built) -> Alternative {
    let n = built.day.events as usize;
    let near = match random.below(10) {
        _ if n == 1 => Some(Alternative { x: 0, y: 0, c: random.between(-1, 1) }),
        0..=1 => some_around(random, built, closing),
        2..=3 => some_around(random, built, known),
        4 => return fact_at_the_range(random, built),
        5 => some_again(random, built),
        _ => None,
    };
    near.unwrap_or_else(|| any_fact(random, n))
}

fn fact_at_the_range(random: &mut Random, built: &Built) -> Alternative {
    let [first, second] = random.among(&[[lowest as Bound, greatest], [greatest, lowest]]);
    let at_the_range = some_around(random, built, first).or_else(|| some_around(random, built, second));
    at_the_range.unwrap_or_else(|| any_fact(random, built.day.events as usize))
}

/// A fact between any two events, with a bound of any size.
fn any_fact(random: &mut Random, n: usize) -> Alternative {
    let y = random.below(n);
    let x = (y + 1 + random.below(n - 1)) % n;
    let far = FARTHEST_BOUND;
    let any = random.between(-far, far);
    let c = match random.below(8) {
        0 => random.among(&[-far - 1, -far, 1 - far, far - 1, far, far + 1]),
        1..=2 => random.between(-5, 5),
        3..=4 => any,
        _ => random.between(-200, 200),
    };
    Alternative { x, y, c }
}

/// One of the facts that the day was built from.
fn some_again(random: &mut Random, built: &Built) -> Option<Alternative> {
    let fits = |fact: &Alternative| fact.c.abs() <= FARTHEST_BOUND;
    let facts: Vec<Alternative> = built.facts.iter().copied().filter(fits).collect();
    (!facts.is_empty()).then(|| random.among(&facts))
}

/// Works a bound out for a fact between two events.
type Bound = fn(&Table, usize, usize) -> Option<i64>;

/// A fact between some two events with the bound that is worked out for them, or a bound beside it.
fn some_around(random: &mut Random, built: &Built, bound: Bound) -> Option<Alternative> {
    let n = built.day.events as usize;
    let table = Table { n, distances: &built.distances };
    let mut facts: Vec<Alternative> = Vec::new();
    for (x, y) in (0..n * n).map(|pair| (pair / n, pair % n)).filter(|(x, y)| x != y) {
        let c = bound(&table, x, y).filter(|c| c.abs() <= FARTHEST_BOUND + 1);
        facts.extend(c.map(|c| Alternative { x, y, c }));
    }
    let beside = random.among(&[-1, -1, 0, 0, 1]);
    (!facts.is_empty()).then(|| random.among(&facts)).map(|fact| Alternative { c: fact.c + beside, ..fact })
}

/// The distances that a bound is worked out from; where there is no path a length is none.
struct Table<'a> {
    n: usize,
    distances: &'a Distances,
}

impl Table<'_> {
    fn length(&self, from: usize, to: usize) -> Option<i64> {
        Some(self.distances.least(from, to)).filter(|length| *length < FAR)
    }
}

/// The least bound that leaves a timetable: with the path from x to y it closes a cycle of sum 0.
fn closing(table: &Table, x: usize, y: usize) -> Option<i64> {
    table.length(x, y).map(|length| -length)
}

/// The least bound that changes nothing.
fn known(table: &Table, x: usize, y: usize) -> Option<i64> {
    table.length(y, x)
}

/// The bound that leads to the lowest distance that a day may have: from some event over the new arc to some event.
fn lowest(table: &Table, x: usize, y: usize) -> Option<i64> {
    let to_y = (0..table.n).filter_map(|from| table.length(from, y)).min()?;
    let from_x = (0..table.n).filter_map(|to| table.length(x, to)).min()?;
    Some(-FARTHEST_DISTANCE - to_y - from_x)
}

/// The bound that leads to the greatest distance that a day may have, between two events without a path so far.
fn greatest(table: &Table, x: usize, y: usize) -> Option<i64> {
    let least = |from, to| table.distances.least(from, to);
    let mut longest = None;
    for (from, to) in (0..table.n * table.n).map(|pair| (pair / table.n, pair % table.n)) {
        let length = sum(least(from, y), least(x, to));
        if length < FAR && least(from, to) == FAR {
            longest = longest.max(Some(length));
        }
    }
    longest.map(|length| FARTHEST_DISTANCE - length)
}

/// Spoils what is to be added for 5, 12 or 6; at times for two of them.
fn spoil_added(random: &mut Random, added: &mut Added, n: i32) {
    let wrong = random.among(&[-1, n, n + 1, MOST_EVENTS as i32, i32::MIN, i32::MAX]);
    let too_large = random.among(&[-100_001, 100_001, 100_001, -100_000, 100_000, i32::MIN, i32::MAX]);
    match random.below(9) {
        0 => added.x = wrong,
        1 => added.y = wrong,
        2 => (added.x, added.y) = (wrong, wrong),
        3 => (added.x, added.c) = (wrong, too_large),
        4..=5 => added.y = added.x,
        6 => (added.y, added.c) = (added.x, too_large),
        _ => added.c = too_large,
    }
}

/// A number of events that is none, or is one beside that of the table.
fn some_wrong_events(random: &mut Random, n: u32) -> u32 {
    let most = MOST_EVENTS as u32;
    random.among(&[0, most + 1, most + 1, u32::MAX, 1 << 31, n + 1, n - 1])
}

/// How many timetable elements are lent: about as many as there are events, none or the most.
fn some_elements(random: &mut Random, n: usize) -> usize {
    match random.below(12) {
        0 => 0,
        1..=2 => n - 1,
        3..=6 => n,
        7..=8 => n + 1,
        9 => MOST_TIMES,
        _ => random.below(MOST_TIMES + 1),
    }
}
