//! An event against itself (02, A6), refused with 12 after 5 and before 6 in each operation, written by hand as lines and
//! replies.

use crate::days_tests::{fill, says};
use crate::events_tests::dark;
use crate::text_tests::refuses;

/// Asks each operation for a problem of at most three events and two clauses, which it refuses.
#[track_caller]
fn refused_everywhere(number: u8, events: u32, parts: &str) {
    says(&format!("plan {events} 1000 3 2 1 {parts}"), &format!("refused {number} | 1 1 1 | 255 255 | 255"));
    says(&format!("reasons {events} {parts} 0"), &format!("refused {number}"));
    says(&format!("reasons {events} {parts} 24 200 {}", fill(23)), &format!("refused {number}"));
    says(&format!("times {events} {parts} 3 0 0 0"), &format!("refused {number}"));
    says(&format!("lamps {events} {parts}"), &dark(number));
    for room in [0, 2, 4_096] {
        refuses(room, &format!("{events} {parts}"), number);
    }
}

/// In the first alternative, a middle one and the last.
const PLACES: [&str; 3] = ["9 0 0 -5 1 2 30 2 0 7 2 1 3", "9 0 1 -5 1 1 30 2 0 7 2 1 3", "9 0 1 -5 1 2 30 2 2 7 2 1 3"];

#[test]
fn in_any_alternative() {
    for parts in PLACES {
        refused_everywhere(12, 3, parts);
    }
    refused_everywhere(12, 3, "9 0 0 -5 1 1 30 2 2 7 2 1 3");
    refused_everywhere(12, 24, "3 23 23 100000 1 1");
    refused_everywhere(12, 1, "3 0 0 -1 1 1");
    refused_everywhere(12, 1, "3 0 0 0 1 1");
}

#[test]
fn after_the_sizes() {
    for parts in PLACES {
        refused_everywhere(1, 0, parts);
        refused_everywhere(1, 25, parts);
        let clauses = format!("33 1{}", " 3".repeat(32));
        refused_everywhere(2, 3, &parts.replace("2 1 3", &clauses));
        let one_more = parts.replacen('9', "10", 1).replace(" 7 2 1 3", " 7 0 2 1 3");
        refused_everywhere(3, 3, &one_more);
        refused_everywhere(4, 3, &parts.replace("2 1 3", "2 1 2"));
        refused_everywhere(4, 3, &parts.replace("2 1 3", "2 5 3"));
        refused_everywhere(4, 3, &parts.replace("2 1 3", "0"));
    }
}

#[test]
fn after_events_that_are_not_there() {
    for parts in ["6 0 0 1 1 3 1 1 2", "6 0 0 1 -1 1 1 1 2", "6 3 1 1 2 2 1 1 2", "6 1 -1 1 2 2 1 1 2"] {
        refused_everywhere(5, 3, parts);
    }
    refused_everywhere(5, 3, "3 3 3 1 1 1");
    refused_everywhere(5, 3, "3 -1 -1 1 1 1");
    refused_everywhere(5, 3, "9 0 0 1 0 3 100001 1 2 1 2 1 3");
}

#[test]
fn before_bounds() {
    for bound in ["100001", "-100001", "2147483647", "-2147483648"] {
        refused_everywhere(12, 3, &format!("3 1 1 {bound} 1 1"));
        refused_everywhere(12, 3, &format!("6 1 1 0 0 1 {bound} 1 2"));
        refused_everywhere(12, 3, &format!("6 0 1 {bound} 1 1 0 1 2"));
        refused_everywhere(6, 3, &format!("6 0 1 {bound} 1 2 0 1 2"));
    }
}

/// Before 7 and 8; 12 before 21 is seen above, where there is no room.
#[test]
fn before_what_is_lent() {
    for parts in PLACES {
        says(&format!("plan 3 1000001 3 2 0 {parts}"), "refused 12 | 1 1 1 | 255 255 | ");
        says(&format!("plan 3 1000 2 2 0 {parts}"), "refused 12 | 1 1 | 255 255 | ");
        says(&format!("plan 3 1000 3 1 0 {parts}"), "refused 12 | 1 1 1 | 255 | ");
        says(&format!("plan 3 1000001 0 0 0 {parts}"), "refused 12 |  |  | ");
        says(&format!("times 3 {parts} 2 0 0"), "refused 12");
        says(&format!("times 3 {parts} 0"), "refused 12");
    }
}
