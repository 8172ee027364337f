//! Laws of the standing day (02, A8) over random requests, and how much those say of it.

use crate::day::{after, Added, After, Day, FARTHEST_DISTANCE, NONE};
use crate::dialogue::{request, Request};
use crate::facts::{sum, Distances, FAR};
use crate::problem::{Alternative, FARTHEST_BOUND, MOST_EVENTS};
use crate::random::Random;
use crate::requests::{standing_days, Maker};

/// An entry of a table; none is longest.
fn entry(entries: &[i32], from: usize, to: usize) -> i64 {
    match entries[from * MOST_EVENTS + to] {
        NONE => FAR,
        entry => entry.into(),
    }
}

/// The arc that is added: from y to x.
fn arc(added: Added) -> Alternative {
    let alternative = Alternative { x: added.x as usize, y: added.y as usize, c: added.c.into() };
    [alternative, alternative.opposite()][usize::from(added.opposite)]
}

/// The random requests of a seed.
fn some_requests(seed: u64, count: usize) -> impl Iterator<Item = (Day, Added)> {
    let mut random = Random::new(seed);
    let made = move |_| match standing_days::request(&mut random) {
        Request::Day { day, added, .. } => (day, added),
        other => panic!("no day request: {other}"),
    };
    (0..count).map(made)
}

/// From a fresh day: one fact after the other gives the distances of all, 13 where they have no timetable, and never 16.
#[test]
fn one_after_the_other() {
    let mut random = Random::new(41);
    for _ in 0..200 {
        let n = 2 + random.below(MOST_EVENTS - 1);
        let far = random.among(&[3, 100, FARTHEST_BOUND]);
        let mut facts: Vec<Alternative> = Vec::new();
        let mut day = Day::of(n, &Distances::without_facts(n));
        for _ in 0..random.below(3 * n) {
            let (x, y) = (random.below(n) as i32, random.below(n) as i32);
            let c = random.between(-far, far) as i32;
            let added = Added { opposite: random.one_in(2), x, y, c };
            let more = day.with(added);
            if x == y {
                assert_eq!(more, Err(12));
                continue;
            }
            facts.push(arc(added));
            match Distances::all_pairs(n, facts.iter().copied()) {
                Some(distances) => {
                    day = Day::of(n, &distances);
                    assert_eq!(more.as_ref(), Ok(&day));
                }
                None => {
                    assert_eq!(more, Err(13));
                    facts.pop();
                }
            }
        }
    }
}

/// What the update of 002 gives: the sum of the shortest cycle over the new arc, where it closes one, and each distance
/// beside that over the new arc.
struct Updated {
    closed: Option<i64>,
    lengths: Vec<i64>,
}

/// The update of a day by a fact; None where the day or the fact is refused before.
fn updated(lent: &Day, added: Added) -> Option<Updated> {
    let after = after(lent, added, 64);
    if after.refused_off != 0 || ![0, 13, 16].contains(&after.refused) {
        return None;
    }
    let (n, Alternative { x, y, c }) = (lent.events as usize, arc(added));
    let length = |from, to| entry(&lent.entries, from, to);
    let over = |from, to| sum(sum(length(from, y), c), length(x, to));
    let closed = Some(length(x, y)).filter(|back| *back < FAR).map(|back| back + c);
    let lengths = pairs(n).map(|(from, to)| length(from, to).min(over(from, to))).collect();
    Some(Updated { closed, lengths })
}

/// Each event with each, row after row.
fn pairs(n: usize) -> impl Iterator<Item = (usize, usize)> + Clone {
    (0..n * n).map(move |pair| (pair / n, pair % n))
}

/// 13 where the arc closes a cycle below 0, 16 where a distance leaves the range, and otherwise each distance.
#[test]
fn as_002_updates() {
    for (lent, added) in some_requests(42, 1_500) {
        if let Some(Updated { closed, lengths }) = updated(&lent, added) {
            let fits = |length: &i64| *length == FAR || length.abs() <= FARTHEST_DISTANCE;
            match lent.with(added) {
                Ok(more) => {
                    let entries = pairs(lent.events as usize).map(|(from, to)| entry(&more.entries, from, to));
                    assert_eq!(entries.collect::<Vec<i64>>(), lengths);
                    assert!(closed.is_none_or(|closed| closed >= 0) && lengths.iter().all(fits));
                }
                Err(13) => assert!(closed.is_some_and(|closed| closed < 0)),
                Err(_) => assert!(closed.is_none_or(|closed| closed >= 0) && !lengths.iter().all(fits)),
            }
        }
    }
}

/// Adding a fact twice equals adding it once, its opposite is then refused with 13, and a refusal changes nothing.
#[test]
fn facts_again() {
    for (lent, added) in some_requests(43, 1_500) {
        match lent.with(added) {
            Ok(more) => {
                assert_eq!(more.with(added), Ok(more.clone()));
                assert_eq!(more.with(Added { opposite: !added.opposite, ..added }), Err(13));
            }
            Err(number) => {
                let after = after(&lent, added, 64);
                assert_eq!((after.refused, after.entries), (number, lent.entries));
            }
        }
    }
}

/// A table that fits is a day exactly when its entries are the distances of themselves.
#[test]
fn distances_of_themselves() {
    for (lent, _) in some_requests(44, 1_500) {
        let n = lent.events as usize;
        if (1..=MOST_EVENTS).contains(&n) {
            let lengths = pairs(n).map(|(y, x)| Alternative { x, y, c: entry(&lent.entries, y, x) });
            let facts = lengths.filter(|fact| fact.c < FAR);
            let in_range = facts.clone().all(|fact| fact.c.abs() <= FARTHEST_DISTANCE);
            let own = Distances::all_pairs(n, facts).is_some_and(|distances| Day::of(n, &distances) == lent);
            assert_eq!(lent.accepted().is_ok(), in_range && own);
        }
    }
}

/// The times that are read off: all at closing, then each lowered only as far as an entry asks.
#[test]
fn times_read_off() {
    for (lent, added) in some_requests(45, 1_000) {
        let after = after(&lent, added, MOST_EVENTS);
        if after.refused_off == 0 {
            let n = lent.events as usize;
            let mut times = vec![0; n];
            let length = |from, to| entry(&after.entries, from, to);
            while let Some((from, to)) = pairs(n).find(|(from, to)| times[*to] - times[*from] > length(*from, *to)) {
                times[to] = times[from] + length(from, to);
            }
            times.resize(MOST_EVENTS, 1);
            assert_eq!(after.timetable, times);
        }
    }
}

/// How many requests there were of which something is worth knowing.
#[derive(Debug, Default)]
struct Seen {
    refused: [usize; 17],
    refused_off: [usize; 17],
    unchanged: usize,
    closed_at_0: usize,
    closed_just_below_0: usize,
    below_0_and_out_of_range: usize,
    at_the_lowest: usize,
    at_the_greatest: usize,
    just_below_the_lowest: usize,
    just_above_the_greatest: usize,
}

impl Seen {
    fn see(&mut self, lent: &Day, added: Added, after: &After) {
        self.refused[usize::from(after.refused)] += 1;
        self.refused_off[usize::from(after.refused_off)] += 1;
        self.unchanged += usize::from(after.refused == 0 && after.entries == lent.entries);
        let Some(Updated { closed, lengths }) = updated(lent, added) else {
            return;
        };
        let new = |length: i64| usize::from(lengths.contains(&length) && !lent.entries.contains(&(length as i32)));
        let far = FARTHEST_DISTANCE;
        self.closed_at_0 += usize::from(closed == Some(0));
        self.closed_just_below_0 += usize::from(closed == Some(-1));
        let below_the_lowest = lengths.iter().any(|length| *length < -far);
        self.below_0_and_out_of_range += usize::from(after.refused == 13 && below_the_lowest);
        self.at_the_lowest += new(-far) * usize::from(after.refused == 0);
        self.at_the_greatest += new(far) * usize::from(after.refused == 0);
        self.just_below_the_lowest += usize::from(after.refused == 16 && lengths.iter().min() == Some(&(-far - 1)));
        self.just_above_the_greatest += new(far + 1) * usize::from(after.refused == 16);
    }
}

/// The requests of a run get every refusal, and come to each edge on both sides.
#[test]
fn days_of_the_requests() {
    let mut seen = Seen::default();
    let mut maker = Maker::new(7);
    for _ in 0..12_000 {
        if let Some(Request::Day { day, added, timetable }) = request(&maker.next()) {
            seen.see(&day, added, &after(&day, added, timetable));
        }
    }
    println!("{} requests: {seen:?}", seen.refused.iter().sum::<usize>());
    assert!([1, 5, 6, 12, 13, 16].iter().all(|number| seen.refused[*number] > 40));
    assert!([1, 8, 16].iter().all(|number| seen.refused_off[*number] > 40));
    assert!(seen.refused[0] - seen.unchanged > 200 && seen.unchanged > 60);
    assert!(seen.closed_at_0 > 10 && seen.closed_just_below_0 > 10 && seen.below_0_and_out_of_range > 5);
    assert!(seen.at_the_lowest > 10 && seen.at_the_greatest > 10);
    assert!(seen.just_below_the_lowest > 5 && seen.just_above_the_greatest > 5);
}

/// The faults that a table has, each alone in many of the requests that are refused for it.
#[test]
fn tables_of_the_requests() {
    let mut alone = [0; 4];
    for (lent, _) in some_requests(46, 2_000) {
        let n = lent.events as usize;
        if (1..=MOST_EVENTS).contains(&n) {
            let length = |from, to| entry(&lent.entries, from, to);
            let detour = |from, over, to| sum(length(from, over), length(over, to));
            let faults = [
                pairs(n).any(|(from, to)| length(from, to) < FAR && length(from, to).abs() > FARTHEST_DISTANCE),
                (0..n).any(|event| length(event, event) != 0),
                pairs(n).any(|(from, to)| (0..n).any(|over| detour(from, over, to) < length(from, to))),
                pairs(MOST_EVENTS).any(|(from, to)| from.max(to) >= n && length(from, to) < FAR),
            ];
            assert_eq!(lent.accepted().err(), faults.contains(&true).then_some(16));
            let found: Vec<usize> = (0..4).filter(|fault| faults[*fault]).collect();
            if let [fault] = found[..] {
                alone[fault] += 1;
            }
        }
    }
    println!("out of range, not 0 from itself, a detour shorter, past the last: {alone:?}");
    assert!(alone.iter().all(|count| *count > 40));
}
