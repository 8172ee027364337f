//! The same search as the table's in plain safe Rust: reads `plan` requests from standard input and writes their
//! replies, as the simple planner does, with its dialogue and its word `quiet`.

#![no_main]

mod clauses;
#[path = "../../common/dialogue.rs"]
mod dialogue;
#[path = "../../common/facts.rs"]
mod facts;
#[path = "../../common/found.rs"]
mod found;
mod listing;
mod planner;
#[path = "../../common/problem.rs"]
mod problem;
mod search;
mod shortest;
mod table;
mod taking;

/// Started as C starts a program: Rust's own start looks up the stack's place, and the kit's emulator fails there.
#[no_mangle]
pub extern "C" fn main() -> i32 {
    i32::from(dialogue::reply_to_all(planner::plan).is_err())
}
