//! Compares a reply with the answer by the definitions, byte for byte.

use crate::answer::{accepted, answer};
use crate::dialogue::{request, Asked, Request};
use crate::plain;
use crate::search::search;

/// What is wrong with a reply: the reply expected, or a fault of this program's own.
pub struct Fault {
    pub expected: String,
}

/// Holds the reply to a line against the definitions.
pub fn compare(line: &[u8], got: &[u8]) -> Result<(), Fault> {
    let request = request(line);
    if let Some(Request::Plan(asked)) = &request {
        own_searches_agree(asked)?;
    }
    let expected = answer(request.as_ref()).to_string();
    if got == expected.as_bytes() {
        Ok(())
    } else {
        Err(Fault { expected })
    }
}

/// Holds this program's quick search against its plain list, where that is short.
fn own_searches_agree(asked: &Asked) -> Result<(), Fault> {
    let Ok(problem) = accepted(asked) else {
        return Ok(());
    };
    if problem.selections() > plain::SHORT
        || plain::bears_out(&problem, &search(&problem, u64::from(asked.allowance), 0))
    {
        return Ok(());
    }
    Err(Fault { expected: "a plain list that bears out the quick search (a fault of the independent program)".into() })
}
