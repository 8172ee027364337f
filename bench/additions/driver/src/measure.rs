//! What an addition takes, each way: processor time, the best of the runs.

use crate::afresh::{Afresh, Rows};
use crate::facts::{Fact, FACTS};
use crate::library::{lent, Day, Table, EVENTS};

/// Nanoseconds for each addition asked: (a) in rows of 24 places, (a) in rows of n, (b), (c), (d).
pub type Measured = [f64; 5];

/// The least that a run of one way takes, in microseconds: the days are gone through again until then.
const LEAST: i64 = 200_000;

extern "C" {
    /// The C library's: the processor time of this program, in microseconds.
    fn clock() -> i64;
}

/// The processor time so far, in microseconds.
fn now() -> i64 {
    // SAFETY: it asks nothing.
    unsafe { clock() }
}

/// Nanoseconds for each addition asked, of one run. A pass adds all facts, each day's to a day begun fresh, and gives
/// how many fit.
fn run(asked: usize, fit: usize, mut pass: impl FnMut() -> usize) -> f64 {
    let (start, mut passes) = (now(), 0);
    loop {
        assert_eq!(pass(), fit, "another number of facts fits than before");
        passes += 1;
        let spent = now() - start;
        if spent >= LEAST {
            return 1000.0 * spent as f64 / (passes * asked) as f64;
        }
    }
}

/// The least of each way over the runs, of facts of which so many fit; in each run the ways take turns.
pub fn measure(n: usize, days: &[Vec<Fact>], fit: usize, runs: u64) -> Measured {
    let asked = days.len() * FACTS;
    let all_lent: Vec<Vec<i32>> = days.iter().map(|facts| lent(facts)).collect();
    let (mut wide, mut narrow, mut day) = (Table::new(n, EVENTS), Table::new(n, n), Day::new());
    let (mut afresh, mut reaching) = (Afresh::new(n, Rows::Every), Afresh::new(n, Rows::Reaching));
    let mut least = [f64::INFINITY; 5];
    for _ in 0..runs {
        let spent = [
            run(asked, fit, || days.iter().map(|facts| follow(facts, &mut wide)).sum()),
            run(asked, fit, || days.iter().map(|facts| follow(facts, &mut narrow)).sum()),
            run(asked, fit, || all_lent.iter().map(|facts| follow_publicly(n, facts, &mut day)).sum()),
            run(asked, fit, || days.iter().map(|facts| follow_afresh(facts, &mut afresh)).sum()),
            run(asked, fit, || days.iter().map(|facts| follow_afresh(facts, &mut reaching)).sum()),
        ];
        for (way, &time) in least.iter_mut().zip(&spent) {
            *way = way.min(time);
        }
    }
    least
}

/// How many facts of a day fit, added to a table.
fn follow(facts: &[Fact], table: &mut Table) -> usize {
    table.begin();
    facts.iter().filter(|&&fact| table.add(fact)).count()
}

/// How many facts of a day fit, added to a standing day.
fn follow_publicly(n: usize, facts: &[i32], day: &mut Day) -> usize {
    day.follow(n, facts);
    day.numbers.iter().filter(|&&number| number == 0).count()
}

/// How many facts of a day fit, all distances worked out afresh for each.
fn follow_afresh(facts: &[Fact], afresh: &mut Afresh) -> usize {
    afresh.begin();
    facts.iter().filter(|&&fact| afresh.add(fact)).count()
}
