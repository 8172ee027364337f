//! The script that is written (02, A5): an accepted problem as a text, and the lent room after the call.

use crate::problem::{Alternative, Lent, Problem, Refusal};

/// The refusal of a text that is longer than the room.
pub const LONGER_THAN_ROOM: Refusal = 21;

/// What is said, the text's length or a refusal, and every byte of the room afterwards.
#[derive(Clone, Debug)]
pub struct Page {
    pub said: Result<usize, Refusal>,
    pub room: Vec<u8>,
}

/// The page of a lent problem in so much room: its text, then zeros; refused, zeros alone.
pub fn page(lent: &Lent, room: usize) -> Page {
    match fitting(lent, room) {
        Ok(text) => Page { said: Ok(text.len()), room: filled(&text, room) },
        Err(number) => Page { said: Err(number), room: filled("", room) },
    }
}

/// The text, then zeros, so many bytes in all.
pub fn filled(text: &str, room: usize) -> Vec<u8> {
    let mut bytes = text.as_bytes().to_vec();
    bytes.resize(room, 0);
    bytes
}

/// The text where it fits; the problem's refusal, and after it 21.
fn fitting(lent: &Lent, room: usize) -> Result<String, Refusal> {
    let text = text(&lent.accepted()?);
    if text.len() > room {
        return Err(LONGER_THAN_ROOM);
    }
    Ok(text)
}

/// The text of a problem: a line for each command, ended by a line feed.
pub fn text(problem: &Problem) -> String {
    let declared = (0..problem.events).map(|event| format!("(declare-fun {} () Int)", name(event)));
    let asserted =
        problem.clauses.iter().map(|clause| format!("(assert {})", formula(&problem.alternatives[clause.clone()])));
    let mut lines = vec!["(set-logic QF_IDL)".to_string()];
    lines.extend(declared);
    lines.extend(asserted);
    lines.push("(check-sat)".to_string());
    lines.iter().map(|line| format!("{line}\n")).collect()
}

/// A clause: `false` where it is empty, its atom alone, or an `or` of its atoms.
fn formula(clause: &[Alternative]) -> String {
    match clause {
        [] => "false".to_string(),
        [alone] => atom(*alone),
        _ => format!("(or {})", clause.iter().map(|alternative| atom(*alternative)).collect::<Vec<String>>().join(" ")),
    }
}

fn atom(alternative: Alternative) -> String {
    let Alternative { x, y, c } = alternative;
    format!("(<= (- {} {}) {})", name(x), name(y), bound(c))
}

fn name(event: usize) -> String {
    format!("e{event}")
}

/// A numeral, or a negated one in parentheses.
fn bound(c: i64) -> String {
    if c < 0 {
        format!("(- {})", c.abs())
    } else {
        c.to_string()
    }
}
