//! The simple planner: reads `plan` requests from standard input and writes their replies, as the table does.
//! It is what the figures compare with. Anything but a plan request gets `malformed`.
//! Its word `quiet` leaves the reasons out of the replies: the room is lent and filled, and nothing of it is printed.

#![no_main]

#[path = "../../common/dialogue.rs"]
mod dialogue;
#[path = "../../common/facts.rs"]
mod facts;
#[path = "../../common/found.rs"]
mod found;
mod planner;
#[path = "../../common/problem.rs"]
mod problem;
mod reason;

/// Started as C starts a program: Rust's own start looks up the stack's place, and the kit's emulator fails there.
#[no_mangle]
pub extern "C" fn main() -> i32 {
    i32::from(dialogue::reply_to_all(planner::plan).is_err())
}
