//! Requests: random ones of every kind, made from a seed, after the worked days.

mod against_itself;
mod altered_tables;
pub mod bench;
mod cycles;
pub mod days;
mod drafts;
mod fixed_scripts;
mod fixed_standing_days;
mod lines;
mod lists;
mod names;
pub mod peers;
mod problems;
mod quarrels;
mod rings;
pub mod scripts;
mod sliders;
mod spoiled;
pub mod standing_days;
mod tables;
pub mod texts;
mod writing;

pub use cycles::closed_first;
pub use lists::{closed_pair_not_below_0, cut_short, turned, twice_round};

use crate::dialogue::{Asked, Request, MOST_REASONS, MOST_TIMES};
use crate::problem::{Lent, Problem, FARTHEST_TIME, MOST_ALLOWANCE};
use crate::random::Random;
use crate::reasons::ROW;
use crate::search::{search, Ending, Outcome};

/// Makes the request lines of one seed: first the days, then random ones, without end. Those for standing days, which are
/// long, are one in twelve, and come from a source of their own.
pub struct Maker {
    random: Random,
    random_days: Random,
    days: std::vec::IntoIter<Vec<u8>>,
}

impl Maker {
    pub fn new(seed: u64) -> Maker {
        Maker { random: Random::new(seed), random_days: Random::new(!seed), days: days::lines().into_iter() }
    }

    /// The next request line, without its line feed.
    pub fn next(&mut self) -> Vec<u8> {
        match self.days.next() {
            Some(line) => line,
            None if self.random_days.one_in(12) => random_line(&mut self.random_days, standing_days::request),
            None => random_line(&mut self.random, random_request),
        }
    }
}

fn random_line(random: &mut Random, request: fn(&mut Random) -> Request) -> Vec<u8> {
    let line = request(random).to_string().into_bytes();
    if random.one_in(12) {
        lines::mangled(random, line)
    } else {
        line
    }
}

fn random_request(random: &mut Random) -> Request {
    match random.below(30) {
        0..=9 => Request::Plan(plan(random)),
        10..=12 => reasons(random),
        13..=14 => times(random),
        15..=16 => lamps(random),
        17..=19 => sliders::request(random),
        20..=26 => scripts::request(random),
        _ => texts::request(random),
    }
}

/// A plan request: an allowance and lent memory around what the search needs, spoiled at times.
fn plan(random: &mut Random) -> Asked {
    let lent = if random.one_in(4) { problems::with_a_list(random) } else { problems::problem(random) };
    let problem = lent.accepted().expect("the made problems are accepted");
    let (cap, outcome) = tried(random, &problem);
    let mut asked = Asked {
        allowance: allowance(random, cap, &outcome),
        timetable: around(random, problem.events, MOST_TIMES),
        picks: around(random, problem.clauses.len(), MOST_TIMES),
        reasons: room(random, outcome.rows),
        lent,
    };
    if random.one_in(8) {
        spoiled::spoil(random, &mut asked, &spoiled::OF_A_PLAN);
    }
    asked
}

/// The search of a problem, cut where it would take the table long; and where it is cut.
fn tried(random: &mut Random, problem: &Problem) -> (u64, Outcome) {
    let alternatives = 4 + problem.alternatives.len() as u64;
    let steps_of_a_visit = alternatives * alternatives * problem.events as u64 / 4;
    let steps = match random.below(400) {
        0..=7 => 20_000_000,
        8..=107 => 2_000_000,
        _ => 200_000,
    };
    let cap = 3 + steps / steps_of_a_visit;
    (cap, search(problem, cap, 0))
}

/// An allowance around the visits needed; never above the cap where the search was cut.
fn allowance(random: &mut Random, cap: u64, outcome: &Outcome) -> u32 {
    let needed = outcome.visits;
    let chosen = match random.below(10) {
        0 => needed.saturating_sub(1),
        1 => random.below(needed as usize + 1) as u64,
        2 => random.among(&[0, 1, 2]),
        3 => needed,
        4 => needed + 1,
        5 => u64::from(MOST_ALLOWANCE),
        _ => 1_000,
    };
    let most = if outcome.ending == Ending::Stopped { cap } else { u64::from(MOST_ALLOWANCE) };
    chosen.min(most) as u32
}

/// A length: the one asked for, or more, seldom less.
fn around(random: &mut Random, asked: usize, most: usize) -> usize {
    match random.below(40) {
        0 => asked.saturating_sub(1),
        1 => asked.saturating_sub(1 + random.below(3)),
        2..=11 => asked,
        12..=25 => (asked + 1).min(most),
        26..=38 => (asked + random.below(6)).min(most),
        _ => most,
    }
}

/// Room for reasons: around the rows needed, to the byte; seldom very long.
fn room(random: &mut Random, rows: u64) -> usize {
    let exact = (rows as usize * ROW).min(MOST_REASONS);
    let chosen = match random.below(200) {
        0 => MOST_REASONS,
        1..=20 => 0,
        21..=35 => random.below(ROW + 1),
        36..=55 => exact.saturating_sub(1),
        56..=80 => exact,
        81..=95 => exact + random.below(ROW),
        96..=110 => exact + ROW,
        111..=120 => random.below(exact + 1),
        _ => exact + random.below(4 * ROW),
    };
    chosen.min(MOST_REASONS)
}

fn reasons(random: &mut Random) -> Request {
    let mut lent = problems::with_a_list(random);
    let problem = lent.accepted().expect("the made problems are accepted");
    let list = lists::list(random, &problem);
    maybe_spoil(random, &mut lent);
    Request::Reasons { lent, list }
}

fn lamps(random: &mut Random) -> Request {
    let mut lent = problems::with_lamps(random);
    maybe_spoil(random, &mut lent);
    Request::Lamps { lent }
}

/// A timetable request: the plan's own times moved or changed, or times of any kind.
fn times(random: &mut Random) -> Request {
    let mut lent = problems::problem(random);
    let problem = lent.accepted().expect("the made problems are accepted");
    let mut times = some_times(random, &problem);
    times.resize(around(random, problem.events, MOST_TIMES), random.between(-9, 9) as i32);
    maybe_spoil(random, &mut lent);
    Request::Times { lent, times }
}

fn some_times(random: &mut Random, problem: &Problem) -> Vec<i32> {
    let (_, outcome) = tried(random, problem);
    let plan = match &outcome.ending {
        Ending::Plan(picks) => crate::plain::latest_timetable(problem, picks),
        _ => None,
    };
    let mut times = match plan {
        Some(times) if !random.one_in(6) => moved(random, times),
        _ => any_times(random, problem.events),
    };
    if random.one_in(3) {
        let place = random.below(times.len());
        times[place] = times[place].wrapping_add(random.among(&[-1, 1, 1, 100, i32::MIN]));
    }
    times
}

/// The times moved together, at times to one end of 32 bits.
fn moved(random: &mut Random, times: Vec<i64>) -> Vec<i32> {
    let least = times.iter().copied().min().unwrap_or(0);
    let greatest = times.iter().copied().max().unwrap_or(0);
    let by = match random.below(4) {
        0 => i64::from(i32::MAX) - greatest,
        1 => i64::from(i32::MIN) - least,
        2 => random.between(-1_000_000, 1_000_000),
        _ => 0,
    };
    times.iter().map(|time| (time + by) as i32).collect()
}

fn any_times(random: &mut Random, events: usize) -> Vec<i32> {
    let kind = random.below(4);
    let any = |_| match kind {
        0 => random.among(&[i32::MIN, i32::MIN + 1, -1, 0, 1, i32::MAX - 1, i32::MAX]),
        1 => random.between(-FARTHEST_TIME, 0) as i32,
        _ => random.between(-100, 100) as i32,
    };
    (0..events).map(any).collect()
}

fn maybe_spoil(random: &mut Random, lent: &mut Lent) {
    if random.one_in(8) {
        let mut asked = Asked { lent: lent.clone(), allowance: 0, timetable: 0, picks: 0, reasons: 0 };
        spoiled::spoil(random, &mut asked, &spoiled::OF_A_PROBLEM);
        *lent = asked.lent;
    }
}
