//! Whether the ways agree: in every answer, and in every distance.

use crate::afresh::{Afresh, Rows};
use crate::facts::Fact;
use crate::library::{lent, Day, Table, EVENTS};

/// "the new fact has no timetable with the old ones"
const NO_TIMETABLE: u8 = 13;

/// The facts that are refused; ends the program where two ways disagree about one, or about a distance. The tables of (a),
/// (c) and (d) are compared after each fact, that of (b) at the end of each day.
pub fn refused(n: usize, days: &[Vec<Fact>]) -> usize {
    let (mut wide, mut narrow, mut day) = (Table::new(n, EVENTS), Table::new(n, n), Day::new());
    let (mut afresh, mut reaching) = (Afresh::new(n, Rows::Every), Afresh::new(n, Rows::Reaching));
    let mut refused = 0;
    for facts in days {
        wide.begin();
        narrow.begin();
        afresh.begin();
        reaching.begin();
        day.follow(n, &lent(facts));
        for (&fact, &number) in facts.iter().zip(&day.numbers) {
            let fits = afresh.add(fact);
            let answers = [wide.add(fact), narrow.add(fact), reaching.add(fact)];
            assert_eq!(answers, [fits; 3], "the ways disagree about a fact");
            assert_eq!(number, if fits { 0 } else { NO_TIMETABLE }, "the public operation disagrees about a fact");
            must_be_same(n, &afresh, |u, v| wide.distance(u, v));
            must_be_same(n, &afresh, |u, v| narrow.distance(u, v));
            must_be_same(n, &afresh, |u, v| reaching.distance(u, v));
            refused += usize::from(!fits);
        }
        must_be_same(n, &afresh, |u, v| day.distance(u, v));
        must_be_none_past(n, &day);
    }
    refused
}

/// Ends the program where a table is another than the one worked out afresh.
fn must_be_same(n: usize, afresh: &Afresh, distance: impl Fn(usize, usize) -> Option<i32>) {
    for u in 0..n {
        for v in 0..n {
            let expected = afresh.distance(u, v);
            assert_eq!(distance(u, v), expected, "the ways disagree about the distance from {u} to {v}");
        }
    }
}

/// Ends the program where a day has a distance past its last event.
fn must_be_none_past(n: usize, day: &Day) {
    for u in 0..EVENTS {
        for v in 0..EVENTS {
            assert!((u < n && v < n) || day.distance(u, v).is_none(), "a distance past the last event");
        }
    }
}
