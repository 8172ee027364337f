//! The lines that every run begins with: the days of 01 and their edges, days with several reasons, an event against
//! itself, the sliders of 01 and 02, worked scripts and texts, standing days, and the longest lines.

use super::against_itself;
use super::fixed_scripts;
use super::fixed_standing_days;
use super::lines::long_line;
use super::lists::rows_of_the_search;
use super::problems::{lent, Triple};
use super::sliders::bits_of;
use super::texts;
use crate::dialogue::{Asked, Request, LONGEST_LINE, MOST_ROOM};
use crate::problem::{Lent, MOST_CLAUSES, MOST_EVENTS, MOST_IN_CLAUSE};
use crate::reasons::{filled, DEAD, FILLING, GOES_ON, ROW};
use crate::slider::{Kind, Use};

pub fn lines() -> Vec<Vec<u8>> {
    let mut requests = plans();
    requests.extend(lists());
    requests.extend(timetables());
    requests.extend(lamps());
    requests.extend(against_itself::requests());
    requests.extend(sliders());
    requests.extend(fixed_scripts::requests());
    requests.extend(texts());
    requests.extend(fixed_standing_days::requests());
    let mut lines: Vec<Vec<u8>> = requests.iter().map(|request| request.to_string().into_bytes()).collect();
    lines.extend(fixed_standing_days::lines().into_iter().map(String::into_bytes));
    lines.push(long_line(LONGEST_LINE));
    lines.push(long_line(LONGEST_LINE + 1));
    lines.push(b"lamps 1 0 0\r".to_vec());
    lines.push(b"lamps 1 0 0".to_vec());
    lines
}

/// The days D1 to D10, in their order of 01; D3 is D2 with another allowance, and both halves of D5 are refused.
pub fn days() -> Vec<Lent> {
    vec![
        lent(2, &[vec![[0, 1, -30]]]),
        lent(4, &[vec![[2, 1, 6], [0, 3, 4]], vec![[2, 0, 1], [3, 0, -5]], vec![[0, 2, -2], [1, 2, -7]]]),
        lent(2, &[vec![[0, 1, -1]], vec![[1, 0, -1]]]),
        lent(1, &[vec![[0, 0, -1]]]),
        lent(1, &[vec![[0, 0, 0]]]),
        lent(3, &[]),
        lent(1, &[vec![]]),
        lent(2, &[vec![[0, 1, 5]], vec![[1, 0, -5]]]),
        lent(2, &[vec![[0, 1, 5]], vec![[1, 0, -6]]]),
        lent(3, &[vec![[0, 1, -10]], vec![[1, 2, -3], [0, 1, -5]]]),
        lent(2, &[vec![[0, 1, -1], [0, 1, -1]], vec![[1, 0, 0]]]),
    ]
}

fn plans() -> Vec<Request> {
    let mut plans = Vec::new();
    for lent in days() {
        for allowance in [1_000, 0, 1, 2, 3, 4, 5, 1_000_000, 1_000_001] {
            for reasons in rooms() {
                plans.push(Request::Plan(Asked { lent: lent.clone(), allowance, timetable: 5, picks: 4, reasons }));
            }
        }
    }
    for lent in edges().into_iter().chain(with_several_reasons()) {
        let (timetable, picks) = (MOST_EVENTS + 1, MOST_CLAUSES + 1);
        plans.push(Request::Plan(Asked { lent, allowance: 1_000_000, timetable, picks, reasons: 100 * ROW }));
    }
    plans
}

/// Rooms around the ends of rows.
fn rooms() -> [usize; 11] {
    let rows = |count: usize| count * ROW;
    [0, rows(1) - 1, rows(1), rows(2) - 1, rows(2), rows(3) - 1, rows(3), rows(3) + 4, rows(4) - 1, rows(4), rows(5)]
}

/// The last event where there are as many as are taken.
const LAST: i32 = MOST_EVENTS as i32 - 1;

/// The largest and the first refused sizes; facts whose distances reach lowest.
fn edges() -> Vec<Lent> {
    let clauses = |count: usize, clause: &[Triple]| vec![clause.to_vec(); count];
    vec![
        lent(2, &[vec![[0, 1, 100_000]]]),
        lent(2, &[vec![[0, 1, 100_001]]]),
        lent(MOST_EVENTS, &[vec![[LAST, 0, -100_000]]]),
        lent(MOST_EVENTS, &[vec![[LAST + 1, 0, -100_000]]]),
        lent(MOST_EVENTS + 1, &[vec![[LAST, 0, -100_000]]]),
        lent(MOST_EVENTS + 1, &[vec![[LAST + 1, 0, -100_000]]]),
        lent(MOST_EVENTS, &clauses(32, &[[LAST, 0, 0], [0, LAST, 0]])),
        lent(MOST_EVENTS, &clauses(33, &[[LAST, 0, 0]])),
        lent(MOST_EVENTS, &clauses(16, &[[3, 4, 0]; 4])),
        lent(MOST_EVENTS, &clauses(17, &[[3, 4, 0]; 4])),
        lent(MOST_EVENTS, &clauses(12, &[[3, 4, 0]; 5])),
        chain(),
        ring(-1),
        ring(0),
        lowest(),
    ]
}

/// All events, each 100,000 minutes before the next: the first lies at the farthest time.
fn chain() -> Lent {
    let clauses: Vec<Vec<Triple>> = (0..LAST).map(|event| vec![[event, event + 1, -100_000]]).collect();
    lent(MOST_EVENTS, &clauses)
}

/// All events in one cycle of this sum, which fills a row.
fn ring(sum: i32) -> Lent {
    let mut clauses: Vec<Vec<Triple>> = (0..LAST).map(|event| vec![[event, event + 1, -1]]).collect();
    clauses.push(vec![[LAST, 0, LAST + sum]]);
    lent(MOST_EVENTS, &clauses)
}

/// A search that comes to a standing with all events in a chain of opposites, each 100,001 minutes before the next.
/// The three clauses of one alternative quarrel, but none of them is dead before the last of the others is chosen. The
/// alternative that ends each of the others holds in the chain.
pub fn lowest() -> Lent {
    let opposed: Vec<Triple> = (1..=LAST).map(|event| [event, event - 1, 100_000]).collect();
    let (front, last_two) = opposed.split_at(opposed.len() - 2);
    let mut clauses = vec![vec![[LAST - 2, LAST, -100_000]]];
    for alternatives in front.chunks(MOST_IN_CLAUSE - 1).chain([last_two]) {
        clauses.push([alternatives, &[[0, LAST, 0]]].concat());
    }
    clauses.push(vec![[LAST, LAST - 1, -1]]);
    clauses.push(vec![[LAST - 1, LAST - 2, 100_000]]);
    lent(MOST_EVENTS, &clauses)
}

/// Days without a plan for several reasons: parallel arcs, of which the first is heavier and light enough, heavier and too
/// heavy, or equal; a cycle with smaller numbers and a lower sum, but more arcs; two cycles from different numbers, either
/// of them lower; and two from the same number.
fn with_several_reasons() -> Vec<Lent> {
    vec![
        closed_late(2, &[[0, 1, 3], [0, 1, -5]], [1, 0, -4]),
        closed_late(2, &[[0, 1, 3], [0, 1, -5]], [1, 0, 4]),
        closed_late(2, &[[0, 1, -5], [0, 1, -5]], [1, 0, -4]),
        closed_late(3, &[[2, 1, -50], [0, 2, -50], [0, 1, 0]], [1, 0, -1]),
        closed_late(4, &[[1, 0, -8], [2, 0, 0], [3, 2, 0], [3, 1, 0]], [0, 3, -1]),
        closed_late(4, &[[1, 0, 0], [2, 0, -8], [3, 2, 0], [3, 1, 0]], [0, 3, -1]),
        closed_late(5, &[[3, 4, 0], [0, 1, 0], [2, 3, 0], [1, 3, 0], [0, 2, 0]], [4, 0, -1]),
    ]
}

/// These facts, each in a clause, a further fact, and a clause that only this one leaves dead: by its second alternative.
/// The first is the one given, for which all facts are then known.
pub fn closed_late(events: i32, facts: &[Triple], alternative: Triple) -> Lent {
    let mut clauses: Vec<Vec<Triple>> = facts.iter().map(|fact| vec![*fact]).collect();
    clauses.push(vec![[events, 0, -5]]);
    clauses.push(vec![alternative, [0, events, 4]]);
    lent(events as usize + 1, &clauses)
}

/// Lists for all these days: empty, a mark alone, those of D4, and what the search writes.
fn lists() -> Vec<Request> {
    let day_4 = [filled(&[GOES_ON]), filled(&[DEAD + 1]), filled(&[0, 1])].concat();
    let turned = [filled(&[GOES_ON]), filled(&[DEAD + 1]), filled(&[1, 0])].concat();
    let fixed = [Vec::new(), filled(&[DEAD]).to_vec(), day_4, turned];
    let mut requests = Vec::new();
    for lent in days().into_iter().chain(edges()).chain(with_several_reasons()) {
        let own = lent.accepted().map(|problem| rows_of_the_search(&problem).concat());
        let lists = fixed.iter().cloned().chain(own);
        requests.extend(lists.map(|list| Request::Reasons { lent: lent.clone(), list }));
    }
    requests.extend(lists_of_the_ring());
    requests
}

/// The ring's list, which ends with a full row: with a 255 or an arc more, without its last arc, broken off, and for
/// the ring of sum 0.
fn lists_of_the_ring() -> Vec<Request> {
    let lent = ring(-1);
    let problem = lent.accepted().expect("the ring is accepted");
    let whole = rows_of_the_search(&problem).concat();
    let broken_off = whole[..whole.len() - 1].to_vec();
    let with = |list: &[u8], byte: u8| [list, &[byte]].concat();
    let lists = [with(&whole, FILLING), with(&whole, 0), with(&broken_off, FILLING), broken_off];
    let mut requests: Vec<Request> = lists.map(|list| Request::Reasons { lent: lent.clone(), list }).into();
    requests.push(Request::Reasons { lent: ring(0), list: whole });
    requests
}

/// Timetables for the days and edges: all events at closing, and the chain's, whole and with its first event later
/// or left out.
fn timetables() -> Vec<Request> {
    let chained: Vec<i32> = (-LAST..=0).map(|steps| 100_000 * steps).collect();
    let mut later = chained.clone();
    later[0] += 1;
    let timetables = [vec![0; MOST_EVENTS], chained[1..].to_vec(), later, chained];
    let mut requests = Vec::new();
    for lent in days().into_iter().chain(edges()) {
        requests.extend(timetables.iter().cloned().map(|times| Request::Times { lent: lent.clone(), times }));
    }
    requests
}

fn lamps() -> Vec<Request> {
    days().into_iter().chain(edges()).map(|lent| Request::Lamps { lent }).collect()
}

/// The days, the edges and the longest text, in rooms around their length; the longest also in the most room that may
/// be lent, and in a byte more.
fn texts() -> Vec<Request> {
    let mut requests = Vec::new();
    for lent in days().into_iter().chain(edges()).chain([longest()]) {
        requests.extend(texts::rooms(&lent).into_iter().map(|room| Request::Write { room, lent: lent.clone() }));
    }
    requests.extend([MOST_ROOM, MOST_ROOM + 1].map(|room| Request::Write { room, lent: longest() }));
    requests
}

/// The longest text: an empty clause beside one of four takes more bytes than two of two, and an atom takes the
/// most with two events of two digits and the lowest bound.
pub fn longest() -> Lent {
    let atoms = vec![[LAST, LAST - 1, -100_000]; MOST_IN_CLAUSE];
    lent(MOST_EVENTS, &[vec![atoms; MOST_CLAUSES / 2], vec![Vec::new(); MOST_CLAUSES / 2]].concat())
}

/// The sliders of 01 and of A2 in 02, a Rate at the bound's limit, two that are whole though 1 ÷ position is not, and
/// one of the greatest work; each in both uses.
fn sliders() -> Vec<Request> {
    let span = |low, high| Kind::Span { low: bits_of(low, 0), high: bits_of(high, 0) };
    let rate = |work| Kind::Rate { work: bits_of(work, 0) };
    let mut shown = vec![
        (span(10, 20), 64),
        (span(-10, -5), 128),
        (rate(30), 128),
        (rate(7), 192),
        (rate(7), 0),
        (rate(390), 1),
        (rate(391), 1),
        (rate(3_125), 8),
        (rate(21), 7),
        (rate(41), 41),
        (rate(4_096), 256),
    ];
    shown.extend(fixed_values().map(|value| (Kind::Fixed { value }, 0)));
    let slide = |(kind, k), used| Request::Slide { kind, position: bits_of(k, 8), used };
    shown.iter().flat_map(|case| [slide(*case, Use::AtMost), slide(*case, Use::AtLeast)]).collect()
}

/// The bits of Fixed values: every half within 1 of 0 and of the bound's limits, 12.5, −2.5, −2, −0.0, and the
/// two subnormals nearest to 0.
fn fixed_values() -> impl Iterator<Item = u32> {
    let halves = [-200_000, 0, 200_000].into_iter().flat_map(|whole| whole - 2..=whole + 2).chain([25, -5, -4]);
    halves.map(|z| bits_of(z, 1)).chain([0x8000_0000, 0x0000_0001, 0x8000_0001])
}
