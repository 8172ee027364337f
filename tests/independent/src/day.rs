//! The standing day (02, A8): when a lent table is one, one fact more with all distances worked out afresh, and the
//! latest timetable read off.

use crate::facts::{sum, Distances, FAR};
use crate::problem::{Alternative, Refusal, AGAINST_ITSELF, FARTHEST_BOUND, MOST_EVENTS};

/// The entry where no path leads.
pub const NONE: i32 = i32::MAX;
pub const ENTRIES: usize = MOST_EVENTS * MOST_EVENTS;
/// How far from 0 a distance may lie: the lowest bound of an opposite for each arc of a path that passes every event once.
pub const FARTHEST_DISTANCE: i64 = (MOST_EVENTS as i64 - 1) * (FARTHEST_BOUND + 1);

/// The refusal of a fact that has no timetable with the old ones.
pub const NO_TIMETABLE: Refusal = 13;
/// The refusal of a table that is no day, and of a fact that would leave none.
pub const NO_DAY: Refusal = 16;

/// A day as it is lent, not yet checked: its number of events, and the distances from event 0 to each event that there
/// may be, then from event 1 to each, and so on.
#[derive(Clone, Debug, PartialEq, Eq)]
pub struct Day {
    pub events: u32,
    pub entries: Vec<i32>,
}

/// What is to be added, not yet checked: the alternative (x, y, c), or its opposite.
#[derive(Clone, Copy, Debug, PartialEq, Eq)]
pub struct Added {
    pub opposite: bool,
    pub x: i32,
    pub y: i32,
    pub c: i32,
}

/// The refusal of adding, or 0, and the table afterwards; the refusal of reading off, or 0, and the timetable afterwards.
#[derive(Clone, Debug)]
pub struct After {
    pub refused: Refusal,
    pub entries: Vec<i32>,
    pub refused_off: Refusal,
    pub timetable: Vec<i64>,
}

/// Adds to a day, which a refusal leaves as it came, and reads the latest timetable off into so many elements.
pub fn after(day: &Day, added: Added, timetable: usize) -> After {
    let (refused, day) = match day.with(added) {
        Ok(more) => (0, more),
        Err(number) => (number, day.clone()),
    };
    let (refused_off, timetable) = match day.latest(timetable) {
        Ok(times) => (0, times),
        Err(number) => (number, vec![1; timetable]),
    };
    After { refused, entries: day.entries, refused_off, timetable }
}

impl Day {
    /// The day that holds these distances.
    pub fn of(events: usize, distances: &Distances) -> Day {
        let mut entries = vec![NONE; ENTRIES];
        for (from, to) in pairs(events) {
            let length = distances.least(from, to);
            entries[from * MOST_EVENTS + to] = if length < FAR { length as i32 } else { NONE };
        }
        Day { events: events as u32, entries }
    }

    /// The day with one fact more, or the first refusal of those that are looked for in this order.
    pub fn with(&self, added: Added) -> Result<Day, Refusal> {
        let events = self.accepted()?;
        let fact = self.fact(added)?;
        let distances = Distances::all_pairs(events, self.facts(events).chain([fact])).ok_or(NO_TIMETABLE)?;
        let more = Day::of(events, &distances);
        if !more.distances_fit(events) {
            return Err(NO_DAY);
        }
        Ok(more)
    }

    /// The latest timetable, then 1s, so many elements in all.
    pub fn latest(&self, timetable: usize) -> Result<Vec<i64>, Refusal> {
        let events = self.accepted()?;
        if timetable < events {
            return Err(8);
        }
        let distances = Distances::all_pairs(events, self.facts(events)).expect("the facts of a day have a timetable");
        let mut times = distances.latest();
        times.resize(timetable, 1);
        Ok(times)
    }

    /// The number of events of a table that is a day; 1 or 16 otherwise.
    pub fn accepted(&self) -> Result<usize, Refusal> {
        if !(1..=MOST_EVENTS as u32).contains(&self.events) {
            return Err(1);
        }
        let events = self.events as usize;
        let is_day = self.distances_fit(events)
            && self.each_is_0_from_itself(events)
            && self.no_detour_is_shorter(events)
            && self.nothing_is_past_the_last(events);
        is_day.then_some(events).ok_or(NO_DAY)
    }

    /// The fact to be added; 5, 12 and 6 look at the alternative, whether it or its opposite is added.
    fn fact(&self, added: Added) -> Result<Alternative, Refusal> {
        let Added { opposite, x, y, c } = added;
        let known = |event: i32| (0..i64::from(self.events)).contains(&i64::from(event));
        let refusals = [(5, known(x) && known(y)), (AGAINST_ITSELF, x != y), (6, i64::from(c).abs() <= FARTHEST_BOUND)];
        if let Some((number, _)) = refusals.iter().find(|(_, fits)| !fits) {
            return Err(*number);
        }
        let alternative = Alternative { x: x as usize, y: y as usize, c: i64::from(c) };
        Ok(if opposite { alternative.opposite() } else { alternative })
    }

    /// The facts of a day, its own entries: an entry is the weight of an arc from its row's event to its column's.
    fn facts(&self, events: usize) -> impl Iterator<Item = Alternative> + '_ {
        let arc = |(from, to)| Alternative { x: to, y: from, c: self.least(from, to) };
        pairs(events).map(arc).filter(|fact| fact.c < FAR)
    }

    /// The distance between two events that an entry says.
    fn least(&self, from: usize, to: usize) -> i64 {
        match self.entries[from * MOST_EVENTS + to] {
            NONE => FAR,
            entry => i64::from(entry),
        }
    }

    fn distances_fit(&self, events: usize) -> bool {
        let fits = |length: i64| length == FAR || length.abs() <= FARTHEST_DISTANCE;
        pairs(events).all(|(from, to)| fits(self.least(from, to)))
    }

    fn each_is_0_from_itself(&self, events: usize) -> bool {
        (0..events).all(|event| self.least(event, event) == 0)
    }

    /// No way over a third event is shorter than the entry, none being longest.
    fn no_detour_is_shorter(&self, events: usize) -> bool {
        let detour = |from, over, to| sum(self.least(from, over), self.least(over, to));
        pairs(events).all(|(from, to)| (0..events).all(|over| detour(from, over, to) >= self.least(from, to)))
    }

    /// Every entry from or to an event past the last is none.
    fn nothing_is_past_the_last(&self, events: usize) -> bool {
        let past = |(from, to): &(usize, usize)| *from >= events || *to >= events;
        pairs(MOST_EVENTS).filter(past).all(|(from, to)| self.least(from, to) == FAR)
    }
}

/// Each event with each, row after row.
fn pairs(events: usize) -> impl Iterator<Item = (usize, usize)> {
    (0..events).flat_map(move |from| (0..events).map(move |to| (from, to)))
}
