//! The script requests that every run begins with: a worked script, words as names, the edges of the sizes, and an event
//! against itself.

use super::names::NEAR;
use super::scripts::refusal_place;
use crate::dialogue::Request;
use crate::problem::{MOST_CLAUSES, MOST_EVENTS};
use crate::script::{KEPT, LONGEST_NAME};

/// A script with something of each kind in it.
const WORKED: &str = "; two gates\r(set-logic QF_IDL)\r\n(declare-fun e0 () Int) (declare-const e1 Int)
(assert (<= (- e0 e1) (- 30)))\n(assert(or(<=(- e1 e0)100000);either\n(<= (- e0 e1) 0)))
(assert false)\n(check-sat) ; end";

pub fn requests() -> Vec<Request> {
    let mut texts = changed_everywhere(WORKED.as_bytes());
    texts.extend(words());
    texts.extend(edges().chain(against_itself()).flat_map(changed_near_refusal));
    texts.into_iter().map(|text| Request::Script { text }).collect()
}

/// A text whole, cut at every place, and with bytes changed, left out and put in at every place.
fn changed_everywhere(whole: &[u8]) -> Vec<Vec<u8>> {
    let mut texts = vec![whole.to_vec()];
    for place in 0..whole.len() {
        let (front, rest) = whole.split_at(place);
        texts.push(front.to_vec());
        texts.push([front, &rest[1..]].concat());
        texts.push([front, b")", &rest[1..]].concat());
        texts.push([front, b"\x80", rest].concat());
        texts.push([front, b"0", rest].concat());
    }
    texts
}

/// A text whole, cut and with a byte put in around where its refusal is complete, or around its end.
fn changed_near_refusal(text: Vec<u8>) -> Vec<Vec<u8>> {
    let place = refusal_place(&text).unwrap_or(text.len());
    let mut texts = vec![text.clone()];
    for place in place.saturating_sub(12)..=text.len().min(place + 1) {
        let (front, rest) = text.split_at(place);
        texts.push(front.to_vec());
        texts.push([front, b"\x80", rest].concat());
    }
    texts
}

/// Each kept word, each near one, and names around the longest length, as names.
fn words() -> impl Iterator<Item = Vec<u8>> {
    let long = (LONGEST_NAME - 1..LONGEST_NAME + 3).map(|length| "n".repeat(length));
    let words = KEPT.into_iter().chain(NEAR.split(' ')).map(String::from).chain(long);
    words.map(|word| {
        let atoms = asserted(&[&format!("(<= (- {word} e0) 1)"), &format!("(<= (- e0 {word}) 1)")]);
        whole(&format!("{}(declare-const {word} Int){atoms}", events(1)))
    })
}

const ATOM: &str = "(<= (- e0 e1) 1)";
const AGAINST_ITSELF: &str = "(<= (- e1 e1) 1)";

/// The largest and the first refused sizes, and commands that come twice.
fn edges() -> impl Iterator<Item = Vec<u8>> {
    let (empty, one, four) = (asserted(&[]), asserted(&[ATOM]), asserted(&[ATOM; 4]));
    let bound = |bound: &str| events(2) + &asserted(&[&with_bound(ATOM, bound)]);
    let edges = [
        String::new(),
        events(MOST_EVENTS),
        events(MOST_EVENTS + 1),
        events(1) + &empty.repeat(MOST_CLAUSES),
        events(1) + &empty.repeat(MOST_CLAUSES + 1),
        events(2) + &four.repeat(16),
        events(2) + &four.repeat(16) + &one,
        events(2) + &four.repeat(17),
        events(2) + &empty.repeat(16) + &four.repeat(16) + &one,
        events(2) + &empty.repeat(15) + &four.repeat(16) + &one,
        bound("100000"),
        bound("100001"),
        bound("(- 100000)"),
        bound("(- 100001)"),
        bound(&"9".repeat(30)),
        bound("4294967297"),
        events(1) + "(set-logic QF_IDL)",
        events(1) + "(check-sat)",
    ];
    edges.into_iter().map(|commands| whole(&commands))
}

/// An event against itself: in each place of an `or`, where there is no other event, beside a bound too large, beside
/// the first refused sizes, and of names that are not declared or begin alike.
fn against_itself() -> impl Iterator<Item = Vec<u8>> {
    let (empty, one, four) = (asserted(&[]), asserted(&[AGAINST_ITSELF]), asserted(&[ATOM; 4]));
    let [large, itself_large] = [ATOM, AGAINST_ITSELF].map(|atom| with_bound(atom, "100001"));
    let of_names = |x: &str, y: &str| events(11) + &asserted(&[&format!("(<= (- {x} {y}) 1)")]);
    let scripts = [
        events(2) + &asserted(&[AGAINST_ITSELF, ATOM, ATOM, ATOM]),
        events(2) + &asserted(&[ATOM, AGAINST_ITSELF, ATOM, ATOM]),
        events(2) + &asserted(&[ATOM, ATOM, ATOM, AGAINST_ITSELF]),
        events(1) + &asserted(&["(<= (- e0 e0) 0)"]),
        events(2) + &asserted(&[&itself_large]),
        events(2) + &asserted(&[&large, AGAINST_ITSELF]),
        events(2) + &asserted(&[AGAINST_ITSELF, &large]),
        events(MOST_EVENTS + 1) + &one,
        events(2) + &empty.repeat(MOST_CLAUSES) + &one,
        events(2) + &empty.repeat(MOST_CLAUSES + 1) + &one,
        events(2) + &four.repeat(16) + &one,
        events(2) + &four.repeat(17) + &one,
        of_names("e11", "e11"),
        of_names("e1", "e11"),
        of_names("e11", "e1"),
        of_names("e1", "e10"),
        of_names("e10", "e1"),
        of_names("e10", "e10"),
    ];
    scripts.into_iter().map(|commands| whole(&commands))
}

/// So many declarations.
fn events(count: usize) -> String {
    (0..count).map(|event| format!("(declare-fun e{event}()Int)")).collect()
}

/// An assert of these atoms.
fn asserted(atoms: &[&str]) -> String {
    match atoms {
        [] => "(assert false)".to_string(),
        [atom] => format!("(assert {atom})"),
        _ => format!("(assert (or{}))", atoms.iter().map(|atom| format!(" {atom}")).collect::<String>()),
    }
}

/// One of the atoms above with another bound.
fn with_bound(atom: &str, bound: &str) -> String {
    atom.replace(" 1)", &format!(" {bound})"))
}

/// A whole script with these commands.
fn whole(commands: &str) -> Vec<u8> {
    format!("(set-logic QF_IDL){commands}(check-sat)").into()
}
