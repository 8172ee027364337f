//! The day requests that every run begins with (02, A8): D2's selection fact by fact, tables at the edge of being a day,
//! facts and distances at the ends of their range, and every two faults at once.

use crate::day::{Added, Day, ENTRIES, FARTHEST_DISTANCE, NONE};
use crate::dialogue::{Request, MOST_TIMES};
use crate::problem::{FARTHEST_BOUND, MOST_EVENTS};

const FAR: i32 = FARTHEST_DISTANCE as i32;
const BOUND: i32 = FARTHEST_BOUND as i32;
const LAST: usize = MOST_EVENTS - 1;

/// Words at the ends of the numbers' ranges or past them, with signs and zeros; the first is empty.
const WORDS: &str = " - -0 00 +0 -1 2 64 65 2147483648 -2147483648 -2147483649 4294967296";

/// A row, a column and the entry that stands there.
type Entry = (usize, usize, i32);

pub fn requests() -> Vec<Request> {
    let mut requests = of_day_2();
    requests.extend(of_any_size());
    requests.extend(tables().into_iter().map(|day| request(day, at_most(0, 1, 7))));
    requests.extend(detours().into_iter().map(|day| request(day, at_most(0, 1, 7))));
    requests.extend(of_facts());
    requests.extend(results());
    requests.extend(with_two_faults());
    requests
}

/// Lines with one word put in the place of another, most of them malformed: at the ends of each number's range, with a
/// sign or zeros; and with an entry more and one fewer.
pub fn lines() -> Vec<String> {
    let sound = request(day(4, &[]), at_most(2, 1, 6)).to_string();
    let words: Vec<&str> = sound.split(' ').collect();
    let with = |place: usize, word: &str| [&words[..place], &[word], &words[place + 1..]].concat().join(" ");
    let last = words.len() - 1;
    let mut lines = vec![words[..last].join(" "), format!("{sound} 0"), format!("{sound} ")];
    for place in [1, 2, 3, 4, 5, 6, 7, last] {
        lines.extend(WORDS.split(' ').map(|word| with(place, word)));
    }
    lines
}

/// The table of so many events with these entries beside the zeros.
fn day(events: usize, entries: &[Entry]) -> Day {
    let mut day = Day { events: events as u32, entries: vec![NONE; ENTRIES] };
    (0..events).for_each(|event| put(&mut day, (event, event, 0)));
    entries.iter().for_each(|entry| put(&mut day, *entry));
    day
}

fn put(day: &mut Day, (from, to, entry): Entry) {
    day.entries[from * MOST_EVENTS + to] = entry;
}

fn at_most(x: i32, y: i32, c: i32) -> Added {
    Added { opposite: false, x, y, c }
}

fn opposite(x: i32, y: i32, c: i32) -> Added {
    Added { opposite: true, x, y, c }
}

/// A request that lends a timetable of one element more than there are events.
fn request(day: Day, added: Added) -> Request {
    Request::Day { timetable: day.events as usize + 1, day, added }
}

/// The alternatives of D2's plan, each added to the day before, then added again, and then its opposite.
fn of_day_2() -> Vec<Request> {
    let mut requests = Vec::new();
    let mut day = day(4, &[]);
    for (x, y, c) in [(2, 1, 6), (3, 0, -5), (0, 2, -2)] {
        requests.push(request(day.clone(), at_most(x, y, c)));
        day = day.with(at_most(x, y, c)).expect("D2's selection holds");
        requests.extend([at_most(x, y, c), opposite(x, y, c)].map(|added| request(day.clone(), added)));
    }
    requests
}

/// Fresh days and one fact, where two events are; and timetables of several lengths.
fn of_any_size() -> Vec<Request> {
    let mut requests = Vec::new();
    for events in [1, 2, 4, LAST, MOST_EVENTS] {
        for timetable in [0, events - 1, events, events + 1, MOST_TIMES] {
            let added = at_most(0, events as i32 - 1, -5);
            requests.push(Request::Day { day: day(events, &[]), added, timetable });
        }
        for other in [0, events as u32 - 1, events as u32 + 1, MOST_EVENTS as u32 + 1, u32::MAX] {
            let lent = Day { events: other, ..day(events, &[]) };
            requests.push(Request::Day { day: lent, added: at_most(0, 1, -5), timetable: MOST_TIMES });
        }
    }
    requests
}

/// Tables with one entry at the ends of its range or past them, with another distance from an event to itself, and with
/// an entry past the last event.
fn tables() -> Vec<Day> {
    let mut tables = Vec::new();
    for (events, from, to) in [(2, 0, 1), (2, 1, 0), (MOST_EVENTS, 0, LAST), (MOST_EVENTS, LAST, 0)] {
        let ends = [-FAR - 1, -FAR, FAR, FAR + 1, i32::MIN, NONE - 1, NONE];
        tables.extend(ends.map(|entry| day(events, &[(from, to, entry)])));
    }
    for (events, event) in [(1, 0), (3, 0), (3, 1), (3, 2), (MOST_EVENTS, LAST)] {
        tables.extend([-1, 1, NONE, i32::MIN, NONE - 1].map(|entry| day(events, &[(event, event, entry)])));
    }
    let past = [(3, 3), (LAST, LAST), (2, 3), (3, 2), (0, LAST), (LAST, 0), (3, LAST), (LAST, 3)];
    for (from, to) in past {
        tables.extend([0, -1, NONE - 1].map(|entry| day(3, &[(from, to, entry)])));
    }
    tables
}

/// Three events in every order, alone or as the first, a middle one and the last of all: a way of −30 and 20 minutes, and
/// the entry beside it, as long, one shorter, one longer and none; and a way back, as long, one shorter and one longer.
fn detours() -> Vec<Day> {
    let mut tables = Vec::new();
    for (events, [a, b, c]) in [(3, [0, 1, 2]), (MOST_EVENTS, [0, 9, LAST])] {
        for [from, over, to] in [[a, b, c], [a, c, b], [b, a, c], [b, c, a], [c, a, b], [c, b, a]] {
            let way = [(from, over, -30), (over, to, 20)];
            let beside = |entry| day(events, &[way[0], way[1], (from, to, entry)]);
            tables.extend([-10, -11, -9, NONE].map(beside));
            tables.extend([30, 29, 31].map(|back| day(events, &[way[0], (over, from, back)])));
        }
    }
    tables
}

/// Alternatives and opposites for a day of three events: bounds at their ends, events that are not there or the same,
/// and cycles of sum −1, 0 and 1.
fn of_facts() -> Vec<Request> {
    let lent = day(3, &[(0, 1, -30), (1, 2, 20), (0, 2, -10)]);
    let mut facts = Vec::new();
    for c in [-BOUND - 1, -BOUND, BOUND, BOUND + 1, i32::MIN, i32::MAX] {
        facts.extend([(0, 1, c), (1, 0, c), (1, 1, c), (3, 0, c)]);
    }
    for event in [-1, 3, MOST_EVENTS as i32, i32::MIN, i32::MAX] {
        facts.extend([(event, 0, 5), (0, event, 5), (event, event, 5)]);
    }
    for beside in -2..=2 {
        facts.extend([(0, 1, 30 + beside), (0, 2, 10 + beside), (1, 0, -30 + beside), (2, 0, -10 + beside)]);
    }
    let both = |(x, y, c)| [at_most(x, y, c), opposite(x, y, c)];
    facts.into_iter().flat_map(both).map(|added| request(lent.clone(), added)).collect()
}

/// Facts that lead to the ends of a distance's range, and a minute past them: before the new arc, behind it and on both
/// sides; and with a way back that leaves no timetable, or just one.
fn results() -> Vec<Request> {
    let mut requests = Vec::new();
    for (before, behind) in [(FAR - BOUND, 0), (0, FAR - BOUND), (FAR / 2, FAR / 2 - BOUND)] {
        for more in 0..=2 {
            let lowest = day(4, &[(0, 1, 1 - before - more), (2, 3, -behind)]);
            let greatest = day(4, &[(0, 1, before + more - 1), (2, 3, behind)]);
            requests.push(request(lowest.clone(), at_most(2, 1, -BOUND)));
            requests.push(request(lowest, opposite(1, 2, BOUND)));
            requests.push(request(greatest.clone(), at_most(2, 1, BOUND)));
            requests.push(request(greatest, opposite(1, 2, -BOUND)));
        }
    }
    for back in [BOUND - 1, BOUND] {
        let lent = day(3, &[(0, 1, -FAR), (2, 1, back)]);
        requests.push(request(lent, at_most(2, 1, -BOUND)));
    }
    requests
}

/// A fault that is put into a day request.
type Fault = fn(&mut Day, &mut Added, &mut usize);

/// For each refusal: the last two leave no timetable, and the range.
const FAULTS: [Fault; 10] = [
    |day, _, _| day.events = MOST_EVENTS as u32 + 1,
    |day, _, _| day.events = 0,
    |day, _, _| put(day, (1, 1, 1)),
    |_, added, _| added.x = 3,
    |_, added, _| added.y = -1,
    |_, added, _| added.y = added.x,
    |_, added, _| added.c = BOUND + 1,
    |_, _, timetable| *timetable = 2,
    |day, added, _| put(day, (1, 0, -added.c - 1)),
    |day, _, _| put(day, (2, 0, -FAR)),
];

/// A request with each fault, and with every two.
fn with_two_faults() -> Vec<Request> {
    let mut requests = Vec::new();
    for (place, one) in FAULTS.iter().enumerate() {
        for other in &FAULTS[place..] {
            let (mut day, mut added, mut timetable) = (day(3, &[]), at_most(1, 0, -7), 4);
            one(&mut day, &mut added, &mut timetable);
            other(&mut day, &mut added, &mut timetable);
            requests.push(Request::Day { day, added, timetable });
        }
    }
    requests
}
