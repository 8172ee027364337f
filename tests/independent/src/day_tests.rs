//! The standing day (02, A8): tables, facts and timetables worked out by hand, written as lines and replies.

use crate::day::{ENTRIES, NONE};
use crate::days_tests::says;
use crate::dialogue::Spaced;
use crate::problem::MOST_EVENTS;

/// The entries of a table with these rows, `.` being none, and none for each event past the last.
fn entries(rows: &[&str]) -> Vec<i32> {
    let mut entries = vec![NONE; ENTRIES];
    for (from, row) in rows.iter().enumerate() {
        for (to, entry) in row.split(' ').enumerate().filter(|(_, entry)| *entry != ".") {
            entries[from * MOST_EVENTS + to] = entry.parse().expect("a distance");
        }
    }
    entries
}

/// The entries with another number at one place.
fn with(rows: &[&str], from: usize, to: usize, entry: i32) -> Vec<i32> {
    let mut entries = entries(rows);
    entries[from * MOST_EVENTS + to] = entry;
    entries
}

/// So many elements, all 1.
fn ones(count: usize) -> String {
    Spaced(&vec![1; count]).to_string()
}

/// Asks for the day after an addition, O X Y C, and holds both refusals, the table and the timetable afterwards: with a
/// timetable as long as the events are many, longer and shorter. Refused with 1 or 16 for the table, it is all 1.
#[track_caller]
fn gives(events: u32, lent: &[i32], added: &str, numbers: (u8, u8), after: &[i32], times: &str) {
    let (number, off) = numbers;
    let n = times.split(' ').count();
    let asked = |elements: usize| format!("day {events} {added} {elements} {}", Spaced(lent));
    let given = |off: u8, times: &str| format!("day {number} {off} | {} | {times}", Spaced(after));
    says(&asked(n), &given(off, times));
    says(&asked(n + 2), &given(off, &format!("{times} 1 1")));
    says(&asked(64), &given(off, &format!("{times} {}", ones(64 - n))));
    let too_short = if off == 0 { 8 } else { off };
    says(&asked(n - 1), &given(too_short, &ones(n - 1)));
    says(&asked(0), &given(too_short, ""));
}

/// Adds to a day, and holds the day and the latest timetable afterwards.
#[track_caller]
fn adds(rows: &[&str], added: &str, after: &[&str], times: &str) {
    gives(rows.len() as u32, &entries(rows), added, (0, 0), &entries(after), times);
}

/// Is refused an addition, which leaves the day and its latest timetable.
#[track_caller]
fn refuses(number: u8, rows: &[&str], added: &str, times: &str) {
    gives(rows.len() as u32, &entries(rows), added, (number, 0), &entries(rows), times);
}

/// Is refused a table, whatever is to be added to it: what fits, what does not, and no fact at all.
#[track_caller]
fn refuses_table(number: u8, events: u32, lent: &[i32]) {
    for added in ["0 1 0 5", "1 0 1 5", "0 1 0 -100000", "0 0 0 5", "0 99 0 5", "0 1 0 100001", "1 -1 -1 -2147483648"] {
        gives(events, lent, added, (number, number), lent, &ones(MOST_EVENTS));
    }
}

const FRESH: [&str; 4] = ["0 . . .", ". 0 . .", ". . 0 .", ". . . 0"];

#[test]
fn a_fresh_day() {
    refuses(12, &FRESH, "0 1 1 5", "0 0 0 0");
    adds(&FRESH, "0 1 3 5", &["0 . . .", ". 0 . .", ". . 0 .", ". 5 . 0"], "0 0 0 0");
    adds(&FRESH, "0 1 3 -5", &["0 . . .", ". 0 . .", ". . 0 .", ". -5 . 0"], "0 -5 0 0");
    adds(&FRESH, "0 1 3 0", &["0 . . .", ". 0 . .", ". . 0 .", ". 0 . 0"], "0 0 0 0");
    refuses(12, &["0"], "1 0 0 0", "0");
    refuses(5, &["0"], "0 0 1 0", "0");
}

/// The plan of D2 picks 2,1,6 and 3,0,−5 and 0,2,−2. The last leads from 2 to 0, so from 1 over 2 it is 6 − 2, from 2 over
/// 0 on to 3 it is −2 − 5, and from 1 all the way 6 − 2 − 5.
#[test]
fn day_2() {
    let first = ["0 . . .", ". 0 6 .", ". . 0 .", ". . . 0"];
    let second = ["0 . . -5", ". 0 6 .", ". . 0 .", ". . . 0"];
    let third = ["0 . . -5", "4 0 6 -1", "-2 . 0 -7", ". . . 0"];
    adds(&FRESH, "0 2 1 6", &first, "0 0 0 0");
    adds(&first, "0 3 0 -5", &second, "0 0 0 -5");
    adds(&second, "0 0 2 -2", &third, "-2 0 0 -7");
    for again in ["0 2 1 6", "0 3 0 -5", "0 0 2 -2"] {
        adds(&third, again, &third, "-2 0 0 -7");
    }
    for looser in ["0 2 1 7", "0 3 0 -4", "0 3 1 -1", "0 0 1 4", "0 3 2 100000"] {
        adds(&third, looser, &third, "-2 0 0 -7");
    }
    for opposed in ["1 2 1 6", "1 3 0 -5", "1 0 2 -2", "1 3 1 -1", "1 0 1 100000"] {
        refuses(13, &third, opposed, "-2 0 0 -7");
    }
    refuses(13, &third, "0 2 3 6", "-2 0 0 -7");
    adds(&third, "0 2 3 7", &["0 . 2 -5", "4 0 6 -1", "-2 . 0 -7", "5 . 7 0"], "-2 0 0 -7");
}

/// D8: a cycle of sum 0 has a timetable, one of sum −1 has none.
#[test]
fn day_8() {
    let first = ["0 .", "5 0"];
    let second = ["0 -5", "5 0"];
    adds(&["0 .", ". 0"], "0 0 1 5", &first, "0 0");
    adds(&first, "0 1 0 -5", &second, "0 -5");
    refuses(13, &first, "0 1 0 -6", "0 0");
    refuses(13, &second, "0 1 0 -6", "0 -5");
    refuses(13, &second, "0 0 1 4", "0 -5");
    adds(&second, "0 1 0 -5", &second, "0 -5");
}

/// The opposite of (x, y, c) is (y, x, −c−1): an arc from x to y.
#[test]
fn opposites() {
    let fresh = ["0 .", ". 0"];
    adds(&fresh, "1 0 1 5", &["0 -6", ". 0"], "0 -6");
    adds(&fresh, "1 0 1 -6", &["0 5", ". 0"], "0 0");
    adds(&fresh, "1 0 1 -1", &["0 0", ". 0"], "0 0");
    adds(&fresh, "1 1 0 0", &["0 .", "-1 0"], "-1 0");
    refuses(13, &["0 .", "5 0"], "1 0 1 5", "0 0");
    adds(&["0 .", "5 0"], "1 0 1 4", &["0 -5", "5 0"], "0 -5");
}

#[test]
fn bounds() {
    let fresh = ["0 .", ". 0"];
    adds(&fresh, "0 0 1 100000", &["0 .", "100000 0"], "0 0");
    adds(&fresh, "0 0 1 -100000", &["0 .", "-100000 0"], "-100000 0");
    adds(&fresh, "1 0 1 100000", &["0 -100001", ". 0"], "0 -100001");
    adds(&fresh, "1 0 1 -100000", &["0 99999", ". 0"], "0 0");
    for bound in ["100001", "-100001", "2147483647", "-2147483648"] {
        for opposite in [0, 1] {
            refuses(6, &fresh, &format!("{opposite} 0 1 {bound}"), "0 0");
        }
    }
}

/// The table's own entries are its facts, whatever they came from.
#[test]
fn own_entries() {
    let lent = ["0 -2300023", "2300023 0"];
    adds(&lent, "0 1 0 -100000", &lent, "0 -2300023");
    refuses(13, &lent, "0 0 1 100000", "0 -2300023");
    let lent = ["0 300000 .", ". 0 .", ". . 0"];
    adds(&lent, "0 2 1 -7", &["0 300000 299993", ". 0 -7", ". . 0"], "0 0 -7");
    adds(&lent, "0 1 0 9", &["0 9 .", ". 0 .", ". . 0"], "0 0 0");
}

/// From 0 over 1 to 2 it is 3 + 4.
#[test]
fn a_detour_too_short() {
    let sound = ["0 3 7", ". 0 4", ". . 0"];
    adds(&sound, "0 0 2 0", &["0 3 7", "4 0 4", "0 3 0"], "0 0 0");
    adds(&["0 3 6", ". 0 4", ". . 0"], "0 2 1 4", &["0 3 6", ". 0 4", ". . 0"], "0 0 0");
    refuses_table(16, 3, &with(&sound, 0, 2, 8));
    refuses_table(16, 3, &with(&sound, 0, 2, 2_300_023));
    refuses_table(16, 3, &with(&sound, 0, 2, NONE));
    refuses_table(16, 3, &with(&sound, 0, 1, 2));
    refuses_table(16, 3, &with(&sound, 1, 2, 3));
    refuses_table(16, 3, &with(&sound, 1, 0, -4));
    refuses_table(16, 3, &with(&sound, 2, 0, -7));
    refuses_table(16, 2, &entries(&["0 -5", "4 0"]));
}

#[test]
fn tables_out_of_range() {
    for (from, to) in [(0, 1), (1, 0)] {
        for entry in [2_300_024, -2_300_024, 2_147_483_646, -2_147_483_648] {
            refuses_table(16, 2, &with(&["0 .", ". 0"], from, to, entry));
        }
    }
    adds(&["0 2300023", ". 0"], "0 0 1 1", &["0 2300023", "1 0"], "0 0");
    adds(&["0 -2300023", ". 0"], "0 1 0 5", &["0 -2300023", ". 0"], "0 -2300023");
}

#[test]
fn an_event_against_itself() {
    for event in 0..3 {
        for entry in [-1, 1, NONE, 2_300_023, -2_147_483_648] {
            refuses_table(16, 3, &with(&["0 . .", ". 0 .", ". . 0"], event, event, entry));
        }
    }
}

#[test]
fn past_the_last() {
    let fresh = ["0 . .", ". 0 .", ". . 0"];
    for (from, to) in [(3, 3), (23, 23), (0, 3), (3, 0), (2, 3), (3, 2), (0, 23), (23, 0), (3, 23), (22, 4)] {
        for entry in [0, 1, -1, 2_147_483_646] {
            refuses_table(16, 3, &with(&fresh, from, to, entry));
        }
    }
    refuses_table(16, 2, &entries(&fresh));
    refuses_table(16, 4, &entries(&fresh));
    refuses_table(16, 24, &entries(&fresh));
}

#[test]
fn events() {
    for events in [0, 25, 26, 2_147_483_648, 4_294_967_295] {
        refuses_table(1, events, &entries(&FRESH));
        refuses_table(1, events, &with(&FRESH, 1, 1, 7));
    }
}

/// A fact that leads a minute past the range, by itself before or behind a distance, or between two.
#[test]
fn results_out_of_range() {
    let before = ["0 -2200023 .", ". 0 .", ". . 0"];
    adds(&before, "0 2 1 -100000", &["0 -2200023 -2300023", ". 0 -100000", ". . 0"], "0 -2200023 -2300023");
    refuses(16, &before, "1 1 2 100000", "0 -2200023 0");
    refuses(16, &["0 -2200024 .", ". 0 .", ". . 0"], "0 2 1 -100000", "0 -2200024 0");
    let behind = ["0 . .", ". 0 2200023", ". . 0"];
    adds(&behind, "0 1 0 100000", &["0 100000 2300023", ". 0 2200023", ". . 0"], "0 0 0");
    refuses(16, &["0 . .", ". 0 2200024", ". . 0"], "0 1 0 100000", "0 0 0");
    adds(&["0 . 9", ". 0 2200024", ". . 0"], "0 1 0 100000", &["0 100000 9", ". 0 2200024", ". . 0"], "0 0 0");
    let two = ["0 -1150012 . .", ". 0 . .", ". . 0 -1150012", ". . . 0"];
    refuses(16, &two, "0 2 1 0", "0 -1150012 0 -1150012");
    let more = ["0 -1150012 -1150011 -2300023", ". 0 1 -1150011", ". . 0 -1150012", ". . . 0"];
    adds(&two, "0 2 1 1", &more, "0 -1150012 -1150011 -2300023");
}

/// Each event the lowest opposite's bound behind the one before: no addition is refused, and the last comes to the end of
/// the range.
#[test]
fn a_chain_of_opposites() {
    let mut lent: Vec<i32> = vec![NONE; ENTRIES];
    (0..24).for_each(|event| lent[event * MOST_EVENTS + event] = 0);
    for event in 1..24 {
        let mut after = lent.clone();
        (0..event).for_each(|from| after[from * MOST_EVENTS + event] = -100_001 * (event - from) as i32);
        let times: Vec<i32> = (0..24).map(|other| if other <= event { -100_001 * other as i32 } else { 0 }).collect();
        gives(24, &lent, &format!("1 {} {event} 100000", event - 1), (0, 0), &after, &Spaced(&times).to_string());
        lent = after;
    }
    assert_eq!(lent[23], -2_300_023);
}

/// 1, 16 for the table, 5, 12, 6, 13, 16 for the result; and for reading off 1, 16, 8, whatever was refused before.
#[test]
fn the_order_of_refusals() {
    let lent = ["0 -2300023 .", ". 0 .", ". 3 0"];
    let times = "0 -2300023 0";
    for wrong in ["3 3 100001", "-1 -1 5", "3 1 100001", "1 -1 5", "2 3 -4", "2147483647 -2147483648 2147483647"] {
        refuses(5, &lent, &format!("0 {wrong}"), times);
        refuses(5, &lent, &format!("1 {wrong}"), times);
    }
    for wrong in ["1 1 100001", "0 0 -2147483648", "2 2 5", "2 2 -5"] {
        refuses(12, &lent, &format!("0 {wrong}"), times);
        refuses(12, &lent, &format!("1 {wrong}"), times);
    }
    refuses(6, &lent, "0 2 1 -100001", times);
    refuses(6, &lent, "1 1 2 100001", times);
    refuses(13, &lent, "0 2 1 -4", times);
    refuses(13, &lent, "1 1 2 3", times);
    refuses(16, &lent, "0 2 1 -3", times);
    refuses(16, &lent, "1 1 2 2", times);
    adds(&lent, "0 2 1 0", &["0 -2300023 -2300023", ". 0 0", ". 3 0"], "0 -2300023 -2300023");
}

#[test]
fn malformed_lines() {
    let fresh = Spaced(&entries(&FRESH)).to_string();
    for front in [
        "day 4 2 2 1 6 4",
        "day 4 -0 2 1 6 4",
        "day -4 0 2 1 6 4",
        "day 4294967296 0 2 1 6 4",
        "day 4 0 2 1 6 65",
        "day 4 0 2 1 6 -0",
        "day 4 0 2147483648 1 6 4",
        "day 4 0 2 -2147483649 6 4",
        "day 4 0 2 1 +6 4",
        "day 4 0 2 1 6 4 0",
        "day 4 0 2 1 6",
        "Day 4 0 2 1 6 4",
        "days 4 0 2 1 6 4",
    ] {
        says(&format!("{front} {fresh}"), "malformed");
    }
    let line = format!("day 4 0 2 1 6 4 {fresh}");
    for wrong in [format!("{line} 0"), format!("{line} "), line.replacen(' ', "  ", 1), line.replace("47 0", "48 0")] {
        says(&wrong, "malformed");
    }
    says(line.trim_end_matches(" 2147483647"), "malformed");
    says("day 4 0 2 1 6 4", "malformed");
    says("day", "malformed");
    let first = Spaced(&entries(&["0 . . .", ". 0 6 .", ". . 0 .", ". . . 0"])).to_string();
    says(&format!("day 04 00 02 001 06 004 {fresh}"), &format!("day 0 0 | {first} | 0 0 0 0"));
    says(
        &format!("day 1 0 -0 0 -0 0 -0{}", " 2147483647".repeat(575)),
        &format!("day 12 8 | 0{} | ", " 2147483647".repeat(575)),
    );
}
