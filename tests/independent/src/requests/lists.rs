//! Lists of reasons: rows of the search, other whole readings, and both with something changed.

use super::cycles::any_cycle;
use crate::dialogue::MOST_REASONS;
use crate::facts::{members, one, opposite_of, Distances, Numbers};
use crate::problem::Problem;
use crate::random::Random;
use crate::reasons::{cycle_bytes, filled, row_bytes, weight, DEAD, FILLING, GOES_ON, ROW};
use crate::search::search;

/// The most rows of a list that is made here.
pub const MOST_ROWS: usize = 300;

type Bytes = [u8; ROW];

/// A list for a problem: a whole reading where one is found, changed at times, then 255s at times.
pub fn list(random: &mut Random, problem: &Problem) -> Vec<u8> {
    let mut rows = match random.below(8) {
        0..=2 => rows_of_the_search(problem),
        3..=6 => any_reading(random, problem),
        _ => rows_of_any_kind(random, problem),
    };
    if random.one_in(4) {
        change_rows(random, &mut rows);
    }
    let mut list = rows.concat();
    if random.one_in(4) {
        change_byte(random, &mut list);
    }
    if random.one_in(16) {
        move_bytes(random, &mut list);
    }
    end(random, &mut list);
    list.truncate(MOST_REASONS);
    list
}

/// The rows that the search writes, whether it ended or not.
pub fn rows_of_the_search(problem: &Problem) -> Vec<Bytes> {
    let outcome = search(problem, MOST_ROWS as u64, MOST_ROWS);
    outcome.listed.iter().map(|row| row_bytes(problem, *row)).collect()
}

/// A reading with any dead clause and any cycles, marks on unsound standings and deeper than it need be; at times with one
/// fault.
fn any_reading(random: &mut Random, problem: &Problem) -> Vec<Bytes> {
    let faultless = random.one_in(2);
    let sound_cycles = if faultless { usize::MAX } else { random.below(10) };
    let mut writer = Writer { random, problem, sound_cycles, rows: Vec::new() };
    writer.standing(0, 0);
    writer.rows
}

struct Writer<'a> {
    random: &'a mut Random,
    problem: &'a Problem,
    /// How many cycle rows are written before a faulty one.
    sound_cycles: usize,
    rows: Vec<Bytes>,
}

impl Writer<'_> {
    fn standing(&mut self, k: usize, facts: Numbers) {
        if self.rows.len() >= MOST_ROWS {
            return;
        }
        let last = k == self.problem.clauses.len();
        let known = members(facts).map(|number| self.problem.arc(number));
        let distances = Distances::all_pairs(self.problem.events, known);
        let unsound = distances.is_none();
        let dead = self.dead_clauses(k, distances.as_ref());
        if unsound && self.random.one_in(60) {
            self.rows.push(filled(&[GOES_ON]));
        } else if unsound && k > 0 && self.random.one_in(40) {
            let earlier = self.random.below(k);
            self.dead_clause(earlier, facts);
        } else if unsound && (last || !self.random.one_in(5)) {
            self.cycle(facts);
        } else if !dead.is_empty() && !self.random.one_in(5) {
            let clause = self.random.among(&dead);
            self.dead_clause(clause, facts);
        } else if !last {
            self.next_clause(k, facts);
        } else {
            self.rows.push([FILLING; ROW]);
        }
    }

    /// The later clauses of which no alternative has a timetable together with the facts, which may have none alone.
    fn dead_clauses(&self, k: usize, distances: Option<&Distances>) -> Vec<usize> {
        let allowed =
            |number: usize| distances.is_some_and(|distances| distances.allow(self.problem.alternatives[number]));
        let dead = |clause: &usize| !self.problem.clauses[*clause].clone().any(allowed);
        (k..self.problem.clauses.len()).filter(dead).collect()
    }

    fn dead_clause(&mut self, clause: usize, facts: Numbers) {
        self.rows.push(filled(&[DEAD + clause as u8]));
        for number in self.problem.clauses[clause].clone() {
            self.cycle(facts | one(number));
        }
    }

    fn next_clause(&mut self, k: usize, facts: Numbers) {
        self.rows.push(filled(&[GOES_ON]));
        let mut opposites = facts;
        for number in self.problem.clauses[k].clone() {
            self.standing(k + 1, opposites | one(number));
            opposites |= one(opposite_of(number));
        }
    }

    /// A cycle row; a faulty one once its time has come.
    fn cycle(&mut self, numbers: Numbers) {
        let fault = if self.sound_cycles == 0 { self.faulty_cycle(numbers) } else { None };
        self.sound_cycles = self.sound_cycles.wrapping_sub(1);
        let row = fault.unwrap_or_else(|| self.sound_cycle(numbers));
        self.rows.push(row);
    }

    fn sound_cycle(&mut self, numbers: Numbers) -> Bytes {
        let cycle = any_cycle(self.random, self.problem, numbers);
        cycle_bytes(&cycle.expect("facts without a timetable have a cycle below 0"))
    }

    /// A row that is nearly a cycle row over the numbers, where one is found.
    fn faulty_cycle(&mut self, numbers: Numbers) -> Option<Bytes> {
        let lowest = numbers.trailing_zeros() as u8;
        let highest = 127 - numbers.leading_zeros() as u8;
        match self.random.below(6) {
            0..=1 => closed_pair_not_below_0(self.problem, numbers),
            2 => open_walk_below_0(self.problem, numbers),
            3 => Some(filled(&[lowest, lowest ^ 64])),
            4 => Some(filled(&[highest, highest ^ 64])),
            _ => Some([lowest; ROW]),
        }
    }
}

/// Two arcs there and back whose sum is not below 0: the least such sum.
pub fn closed_pair_not_below_0(problem: &Problem, numbers: Numbers) -> Option<Bytes> {
    let closed = short_walks(numbers).filter(|walk| weight(problem, walk) >= 0 && returns(problem, walk));
    closed.min_by_key(|walk| weight(problem, walk)).map(|walk| filled(&walk))
}

/// One or two arcs whose sum is below 0, but which do not return to their start.
fn open_walk_below_0(problem: &Problem, numbers: Numbers) -> Option<Bytes> {
    let mut open = short_walks(numbers).filter(|walk| weight(problem, walk) < 0 && !returns(problem, walk));
    open.next().map(|walk| filled(&walk))
}

/// All pairs of the numbers, and each alone.
fn short_walks(numbers: Numbers) -> impl Iterator<Item = Vec<u8>> {
    let pairs = members(numbers).flat_map(move |one| members(numbers).map(move |other| vec![one as u8, other as u8]));
    pairs.chain(members(numbers).map(|one| vec![one as u8]))
}

fn returns(problem: &Problem, walk: &[u8]) -> bool {
    let first = problem.arc(usize::from(walk[0]));
    let last = problem.arc(usize::from(walk[walk.len() - 1]));
    first.y == last.x && first.x == last.y
}

/// Marks and rows in no order.
fn rows_of_any_kind(random: &mut Random, problem: &Problem) -> Vec<Bytes> {
    let clauses = problem.clauses.len().max(1);
    let alternatives = problem.alternatives.len().max(1);
    let count = 1 + random.below(8);
    let any = |_| match random.below(6) {
        0 => [FILLING; ROW],
        1..=2 => filled(&[GOES_ON]),
        3 => filled(&[DEAD + random.below(clauses + 1) as u8]),
        4 => filled(&[random.below(alternatives) as u8]),
        _ => filled(&[random.below(alternatives) as u8, 64 + random.below(alternatives) as u8]),
    };
    (0..count).map(any).collect()
}

/// Changes whole rows: taken away, doubled, exchanged; a cycle turned, gone round twice, broken, without its last
/// number, with one number more, or with something in or after it. Often the last row, which mostly is a cycle.
fn change_rows(random: &mut Random, rows: &mut Vec<Bytes>) {
    if rows.is_empty() {
        return;
    }
    let place = if random.one_in(2) { rows.len() - 1 } else { random.below(rows.len()) };
    match random.below(9) {
        0 => drop(rows.remove(place)),
        1 => rows.insert(place, rows[place]),
        2 => {
            let other = random.below(rows.len());
            rows.swap(place, other);
        }
        3 => rows[place] = turned(&rows[place], random.below(ROW)),
        4 => rows[place] = twice_round(&rows[place]),
        5 => rows[place].swap(0, 1 + random.below(ROW - 1)),
        6 => rows[place] = cut_short(&rows[place]),
        7 => rows[place] = one_longer(&rows[place]),
        _ => rows[place][random.below(ROW)] = random.among(&[0, 254, FILLING]),
    }
}

/// How many bytes of a row come before its 255s.
fn used(row: &Bytes) -> usize {
    row.iter().position(|byte| *byte == FILLING).unwrap_or(ROW)
}

/// The same cycle begun at another arc.
pub fn turned(row: &Bytes, by: usize) -> Bytes {
    let used = used(row);
    let mut turned = *row;
    turned[..used].rotate_left(by % used.max(1));
    turned
}

/// The cycle gone round twice, where a row holds that.
pub fn twice_round(row: &Bytes) -> Bytes {
    let cycle = &row[..used(row)];
    if 2 * cycle.len() <= ROW {
        filled(&[cycle, cycle].concat())
    } else {
        *row
    }
}

/// The cycle without its last number.
pub fn cut_short(row: &Bytes) -> Bytes {
    filled(&row[..used(row).saturating_sub(1)])
}

/// The cycle with its first number again at the end, where a row holds that.
fn one_longer(row: &Bytes) -> Bytes {
    match used(row) {
        ROW => *row,
        used => filled(&[&row[..used], &row[..1]].concat()),
    }
}

/// Leaves out one byte or writes it twice, often in the last row; all after it are moved.
fn move_bytes(random: &mut Random, list: &mut Vec<u8>) {
    let behind = if random.one_in(2) { ROW.min(list.len()) } else { list.len() };
    if behind == 0 {
        return;
    }
    let place = list.len() - 1 - random.below(behind);
    if random.one_in(2) {
        list.remove(place);
    } else {
        list.insert(place, list[place]);
    }
}

/// Changes one byte, to a number nearby, another arc, a mark or a 255.
fn change_byte(random: &mut Random, list: &mut [u8]) {
    if list.is_empty() {
        return;
    }
    let in_front = random.below(list.len()) / ROW * ROW + random.below(3);
    let place = if random.one_in(3) { random.below(list.len()) } else { in_front.min(list.len() - 1) };
    list[place] = match random.below(7) {
        0 => list[place].wrapping_add(1),
        1 => list[place].wrapping_sub(1),
        2 => list[place] ^ 64,
        3 => random.below(128) as u8,
        4 => random.among(&[GOES_ON, DEAD, DEAD + 1, DEAD + 2, DEAD + 31, DEAD + 32, 239, 241, 128]),
        5 => FILLING,
        _ => random.below(256) as u8,
    };
}

/// Ends the list: as it is, cut short, or with more bytes after it, mostly 255s.
fn end(random: &mut Random, list: &mut Vec<u8>) {
    match random.below(12) {
        0 => list.truncate(list.len().saturating_sub(1)),
        1 => list.truncate(random.below(list.len() + 1)),
        2 => list.push(FILLING),
        3 => list.push(random.among(&[0, 7, 254])),
        4 => list.resize(list.len() + ROW, FILLING),
        5 => {
            list.resize(list.len() + random.below(3 * ROW), FILLING);
            list.push(random.among(&[254, 255, GOES_ON, 7]));
        }
        6 if random.one_in(60) => list.resize(MOST_REASONS, FILLING),
        _ => list.resize(list.len() + random.below(2 * ROW), FILLING),
    }
}
