//! Ways of answering a day request wrongly, to see that each is noticed (check-the-checker).

use crate::answer::Reply;
use crate::day::{self, Added, After, Day, NONE, NO_DAY, NO_TIMETABLE};
use crate::dialogue::{request, Request};
use crate::problem::MOST_EVENTS;
use crate::serve;

/// Changes what comes after an addition to a lent day.
type Change = fn(&Day, Added, &mut After);

pub const WAYS: [(&str, Change); 22] = [
    ("day: a refusal's number one more", |_, _, after| after.refused += u8::from(after.refused > 0)),
    ("day: 13 answered as 16", |_, _, after| change_refused(after, NO_TIMETABLE, NO_DAY)),
    ("day: 16 for the result answered as 13", |_, _, after| {
        if after.refused_off != NO_DAY {
            change_refused(after, NO_DAY, NO_TIMETABLE)
        }
    }),
    ("day: a fact refused that fits", |lent, _, after| {
        if after.refused == 0 {
            after.refused = NO_TIMETABLE;
            after.entries = lent.entries.clone();
        }
    }),
    ("day: the number for reading off one more", |_, _, after| after.refused_off += u8::from(after.refused_off > 0)),
    ("day: adding's number for reading off too", |_, _, after| after.refused_off = after.refused),
    ("day: the numbers exchanged", |_, _, after| std::mem::swap(&mut after.refused, &mut after.refused_off)),
    ("day: the table as it came though nothing is refused", |lent, _, after| after.entries = lent.entries.clone()),
    ("day: a refused table all none", |_, _, after| {
        if after.refused > 0 {
            after.entries.fill(NONE)
        }
    }),
    ("day: the fact in a table that is refused with 13", |_, added, after| fact_left(added, after, NO_TIMETABLE)),
    ("day: the fact in a table that is refused with 16", |_, added, after| fact_left(added, after, NO_DAY)),
    ("day: the table turned round", |_, _, after| turn_round(&mut after.entries)),
    ("day: a new distance one more", |lent, _, after| {
        let mut changed = after.entries.iter_mut().zip(&lent.entries).filter(|(new, old)| new != old);
        changed.next_back().into_iter().for_each(|(new, _)| *new += 1);
    }),
    ("day: an old distance one less", |lent, _, after| {
        let kept = |(new, old): &(&mut i32, &i32)| new == old && ![NONE, 0, i32::MIN].contains(*new);
        let mut old = after.entries.iter_mut().zip(&lent.entries).filter(kept);
        old.next().into_iter().for_each(|(entry, _)| *entry -= 1);
    }),
    ("day: none one less", |_, _, after| {
        after.entries.iter_mut().filter(|entry| **entry == NONE).take(1).for_each(|entry| *entry -= 1)
    }),
    ("day: 0 from an event past the last to itself", |lent, _, after| {
        let past = MOST_EVENTS.saturating_sub(lent.events as usize);
        after.entries.iter_mut().step_by(MOST_EVENTS + 1).rev().take(past).for_each(|entry| *entry = 0)
    }),
    ("day: a time one later", |lent, _, after| change_times(lent, after, |time| *time += 1)),
    ("day: a time one earlier", |lent, _, after| change_times(lent, after, |time| *time -= 1)),
    ("day: a 7 left behind the times", |_, _, after| {
        after.timetable.iter_mut().rev().take(1).filter(|time| **time == 1).for_each(|time| *time = 7)
    }),
    ("day: a refused timetable left as it was lent", |_, _, after| {
        if after.refused_off > 0 {
            after.timetable.fill(7)
        }
    }),
    ("day: a timetable cleared since adding is refused", |_, _, after| {
        if after.refused > 0 {
            after.timetable.fill(1)
        }
    }),
    ("day: the times of the day as it came", |lent, _, after| {
        if let Ok(times) = lent.latest(after.timetable.len()) {
            after.timetable = times;
        }
    }),
];

/// The reply to a line, changed where it is a day request.
pub fn reply(change: Change, line: &[u8]) -> String {
    match request(line) {
        Some(Request::Day { day, added, timetable }) => {
            let mut after = day::after(&day, added, timetable);
            change(&day, added, &mut after);
            Reply::Day(after).to_string()
        }
        _ => serve::reply(line),
    }
}

/// Says another number for this refusal of adding.
fn change_refused(after: &mut After, number: u8, other: u8) {
    if after.refused == number {
        after.refused = other;
    }
}

/// Leaves the fact in a table that is a day, where adding it is refused with this number.
fn fact_left(added: Added, after: &mut After, number: u8) {
    if after.refused == number && after.refused_off != NO_DAY {
        let Added { opposite, x, y, c } = added;
        let (from, to, bound) = if opposite { (x, y, -c - 1) } else { (y, x, c) };
        after.entries[from as usize * MOST_EVENTS + to as usize] = bound;
    }
}

fn turn_round(entries: &mut [i32]) {
    for from in 0..MOST_EVENTS {
        (0..from).for_each(|to| entries.swap(from * MOST_EVENTS + to, to * MOST_EVENTS + from));
    }
}

/// Changes the time of the last event, where times are read off.
fn change_times(lent: &Day, after: &mut After, change: fn(&mut i64)) {
    if after.refused_off == 0 {
        change(&mut after.timetable[lent.events as usize - 1]);
    }
}
