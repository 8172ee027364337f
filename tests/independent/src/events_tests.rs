//! The twenty-four events of 02, A4, with its numbers, written by hand as lines and replies.

use crate::answer::{answer, Answer, Reply};
use crate::days_tests::{fill, list, listed, says};
use crate::dialogue::{Asked, Request, Spaced};
use crate::facts::Distances;
use crate::problem::Alternative;
use crate::requests::days::lowest;

/// The parts after N of a problem whose clauses have one alternative each.
fn alone(triples: &[[i64; 3]]) -> String {
    let counts: Vec<usize> = (1..=triples.len()).collect();
    format!("{} {} {} {}", 3 * triples.len(), Spaced(&triples.concat()), triples.len(), Spaced(&counts))
}

/// The number so often, parted by single spaces.
fn repeated(count: usize, number: i32) -> String {
    Spaced(&vec![number; count]).to_string()
}

/// No lamp is lit, and this is the refusal, or 0.
pub fn dark(number: u8) -> String {
    format!("lamps {number} 0 0 64 {}", repeated(32, 0))
}

#[test]
fn twenty_four_are_taken() {
    says("plan 24 1000 24 0 0 0 0", &format!("plan 1 0 | {} |  | ", repeated(24, 0)));
    says("plan 24 1000 24 1 0 3 0 23 -5 1 1", &format!("plan 2 0 | -5 {} | 0 | ", repeated(23, 0)));
    says("plan 24 1000 23 0 0 0 0", &format!("refused 8 | {} |  | ", repeated(23, 1)));
    says("lamps 24 0 0", &dark(0));
    says("reasons 24 0 0 0", "no");
    says(&format!("times 24 0 0 24 {}", repeated(24, 0)), "yes");
    says(&format!("times 24 0 0 23 {}", repeated(23, 0)), "refused 8");
    says("times 24 3 0 24 -5 1 1 0", "refused 5");
}

#[test]
fn twenty_five_are_refused() {
    says("plan 25 1000 25 0 0 0 0", &format!("refused 1 | {} |  | ", repeated(25, 1)));
    says("lamps 25 0 0", &dark(1));
    says("reasons 25 0 0 0", "refused 1");
    says(&format!("times 25 0 0 25 {}", repeated(25, 0)), "refused 1");
}

/// Each event lies 100,000 minutes before the next.
#[test]
fn a_chain() {
    let chain: Vec<[i64; 3]> = (0..23).map(|event| [event, event + 1, -100_000]).collect();
    let clauses = alone(&chain);
    let later: Vec<i64> = (1..24).map(|event| 100_000 * event - 2_300_000).collect();
    let expected = format!("plan 24 0 | -2300000 {} | {} | ", Spaced(&later), repeated(23, 0));
    says(&format!("plan 24 1000 24 23 0 {clauses}"), &expected);
    says(&format!("times 24 {clauses} 24 -2300000 {}", Spaced(&later)), "yes");
    says(&format!("times 24 {clauses} 24 -2299999 {}", Spaced(&later)), "no");
}

/// All events in one cycle of this sum, the last clause closing it.
fn ring(sum: i64) -> String {
    let mut ring: Vec<[i64; 3]> = (0..23).map(|event| [event, event + 1, -1]).collect();
    ring.push([23, 0, 23 + sum]);
    alone(&ring)
}

#[test]
fn a_ring() {
    let (below_0, of_0) = (ring(-1), ring(0));
    says(&format!("lamps 24 {below_0}"), &dark(0));
    says(
        &format!("lamps 24 {of_0}"),
        &format!("lamps 0 {} 24 0 {} {}", (1 << 24) - 1, repeated(24, 1), repeated(8, 0)),
    );
    let unlisted = format!("unlisted 24 1 25 | {} | {} | {}", repeated(24, 1), fill(24), fill(599));
    says(&format!("plan 24 1000 24 24 599 {below_0}"), &unlisted);
    let fronts = closing_rows(&[&[0], &downwards()[..23]].concat());
    let fronts: Vec<&str> = fronts.iter().map(String::as_str).collect();
    says(&format!("plan 24 1000 24 24 600 {below_0}"), &listed(24, 24, "24 1 25", &fronts));
    says(&format!("reasons 24 {below_0} {}", list(&fronts)), "yes");
    says(&format!("reasons 24 {of_0} {}", list(&fronts)), "no");
}

/// The arc of (x, y, c) leads from y to x, so the ring's arcs follow each other downwards.
fn downwards() -> Vec<usize> {
    (0..24).rev().collect()
}

/// The fronts of the ring's rows, with this cycle in the last.
fn closing_rows(cycle: &[usize]) -> Vec<String> {
    let mut fronts = vec!["240".to_string(); 23];
    fronts.extend(["223".to_string(), Spaced(cycle).to_string()]);
    fronts
}

#[test]
fn a_full_row() {
    let down = downwards();
    let up: Vec<usize> = (0..24).collect();
    let turned = [&down[9..], &down[..9]].concat();
    let closing = |cycle: &[usize]| {
        let fronts = closing_rows(cycle);
        let fronts: Vec<&str> = fronts.iter().map(String::as_str).collect();
        format!("reasons 24 {} {}", ring(-1), list(&fronts))
    };
    says(&closing(&down), "yes");
    says(&closing(&turned), "yes");
    says(&closing(&up), "no");
    says(&closing(&down[..23]), "no");
    says(&closing(&down[1..]), "no");
    says(closing(&down).trim_end_matches(" 0"), "malformed");
    says(&format!("{} 255", closing(&down).replace(" 600 ", " 601 ")), "yes");
    says(&format!("{} 23", closing(&down).replace(" 600 ", " 601 ")), "no");
    says(closing(&down).replace(" 600 ", " 599 ").trim_end_matches(" 0"), "no");
}

/// Under the first clause stand seven of four alternatives and then one of three, and every standing of theirs is
/// sound; one is visited for each way through them, and where they end a clause of one alternative is dead.
#[test]
fn the_lowest_standing() {
    let asked = Asked { lent: lowest(), allowance: 1_000_000, timetable: 24, picks: 11, reasons: 0 };
    let Reply::Screen(screen) = answer(Some(&Request::Plan(asked))) else {
        panic!("no answer to a plan request");
    };
    let (inner, ends) = (1 + (4_u64.pow(8) - 1) / 3, 3 * 4_u64.pow(7));
    assert_eq!(screen.answer, Answer::Unlisted { visits: inner + ends, before: ends, rows: inner + 2 * ends });
    let opposites = (1..24).map(|event| Alternative { x: event, y: event - 1, c: 100_000 }.opposite());
    let distances = Distances::all_pairs(24, opposites).expect("the opposites have a timetable");
    assert_eq!(distances.latest()[0], -2_300_023);
}
