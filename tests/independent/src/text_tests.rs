//! Texts of 02, A5, written by hand as the lines of a script; and laws over random problems.

use crate::answer::{answer, Answer, Reply};
use crate::days_tests::says;
use crate::dialogue::{request, Request, Spaced, MOST_ROOM};
use crate::problem::{Lent, MOST_ALTERNATIVES, MOST_CLAUSES, MOST_IN_CLAUSE};
use crate::random::Random;
use crate::requests::{days, peers, texts};
use crate::script;
use crate::script_tests::DAY_1;
use crate::text::{filled, page, text};

/// Asks by the dialogue for the text of a problem, in rooms around its length.
#[track_caller]
fn writes(problem: &str, expected: &str) {
    let length = expected.len();
    for room in [length, length + 1, length + 9, MOST_ROOM] {
        let bytes = filled(expected, room);
        says(&format!("write {room} {problem}"), &format!("text {length} | {}", Spaced(&bytes)));
    }
    for room in [0, 1, length - 1] {
        refuses(room, problem, 21);
    }
}

/// Asks by the dialogue for a text that is refused.
#[track_caller]
pub fn refuses(room: usize, problem: &str, number: u8) {
    says(&format!("write {room} {problem}"), &format!("refused {number} | {}", Spaced(&vec![0; room])));
}

/// A script of so many events with these lines after the declarations.
fn lines(events: usize, asserts: &[&str]) -> String {
    let mut lines = vec!["(set-logic QF_IDL)".to_string()];
    lines.extend((0..events).map(|event| format!("(declare-fun e{event} () Int)")));
    lines.extend(asserts.iter().map(|assert| assert.to_string()));
    lines.push("(check-sat)\n".to_string());
    lines.join("\n")
}

#[test]
fn day_1() {
    writes("2 3 0 1 -30 1 1", DAY_1);
    assert_eq!(DAY_1.len(), 110);
    assert_eq!(DAY_1, lines(2, &["(assert (<= (- e0 e1) (- 30)))"]));
}

#[test]
fn further_days() {
    writes(
        "4 18 2 1 6 0 3 4 2 0 1 3 0 -5 0 2 -2 1 2 -7 3 2 4 6",
        &lines(
            4,
            &[
                "(assert (or (<= (- e2 e1) 6) (<= (- e0 e3) 4)))",
                "(assert (or (<= (- e2 e0) 1) (<= (- e3 e0) (- 5))))",
                "(assert (or (<= (- e0 e2) (- 2)) (<= (- e1 e2) (- 7))))",
            ],
        ),
    );
    writes("2 6 0 1 -1 1 0 -1 2 1 2", &lines(2, &["(assert (<= (- e0 e1) (- 1)))", "(assert (<= (- e1 e0) (- 1)))"]));
    writes("2 6 0 1 5 1 0 -5 2 1 2", &lines(2, &["(assert (<= (- e0 e1) 5))", "(assert (<= (- e1 e0) (- 5)))"]));
    writes("3 0 0", &lines(3, &[]));
    writes("1 0 1 0", &lines(1, &["(assert false)"]));
}

#[test]
fn names_and_bounds() {
    writes("24 3 23 10 100000 1 1", &lines(24, &["(assert (<= (- e23 e10) 100000))"]));
    writes("11 3 9 10 -100000 2 0 1", &lines(11, &["(assert false)", "(assert (<= (- e9 e10) (- 100000)))"]));
    writes(
        "2 12 0 1 0 0 1 -1 1 0 10 1 0 -99 2 4 4",
        &lines(
            2,
            &[
                "(assert (or (<= (- e0 e1) 0) (<= (- e0 e1) (- 1)) (<= (- e1 e0) 10) (<= (- e1 e0) (- 99))))",
                "(assert false)",
            ],
        ),
    );
}

/// 1 to 6 and 12 as for the lamps, whether or not there is room for a text.
#[test]
fn refusals() {
    let counts = |count: usize| format!("{count}{}", " 0".repeat(count));
    let cases = [
        (1, "0 0 0".to_string()),
        (1, "25 0 0".to_string()),
        (1, format!("25 1 0 {}", counts(33))),
        (2, format!("1 0 {}", counts(33))),
        (3, "2 4 0 1 -30 0 1 1".to_string()),
        (3, format!("1 195{} 0", " 0".repeat(195))),
        (4, "2 3 0 1 -30 0".to_string()),
        (4, "2 3 0 1 -30 1 0".to_string()),
        (5, "2 3 0 2 -30 1 1".to_string()),
        (5, "2 3 -1 1 -100001 1 1".to_string()),
        (12, "2 3 1 1 -30 1 1".to_string()),
        (6, "2 3 0 1 -100001 1 1".to_string()),
        (6, "2 3 0 1 100001 1 1".to_string()),
    ];
    for (number, problem) in &cases {
        for room in [0, 1, 54, 55, 110, 4_096] {
            refuses(room, problem, *number);
        }
    }
}

#[test]
fn malformed_lines() {
    for line in ["write", "write 0", "write 0 1 0", "write 65537 1 0 0", "write -0 1 0 0", "write 0 1 0 0 "] {
        says(line, "malformed");
    }
    says("write 02 01 00 0", "refused 21 | 0 0");
}

/// The length of the longest text, and no mix of clause sizes gives a longer one.
#[test]
fn the_longest_text() {
    let longest = days::longest();
    let length = text(&longest.accepted().expect("accepted")).len();
    assert_eq!(length, 2_877);
    let of_sizes = |sizes: &[usize]| {
        let ends = sizes.iter().scan(0, |end, size| {
            *end += *size as u32;
            Some(*end)
        });
        let counts: Vec<u32> = ends.collect();
        let triples = longest.triples[..3 * sizes.iter().sum::<usize>()].to_vec();
        text(&Lent { counts, triples, ..longest }.accepted().expect("accepted")).len()
    };
    for sizes in mixes(MOST_CLAUSES, MOST_ALTERNATIVES, MOST_IN_CLAUSE) {
        assert!(of_sizes(&sizes) <= length, "{sizes:?}");
    }
}

/// The sizes of so many clauses in falling order, of `most` alternatives each and `left` in all at most.
fn mixes(clauses: usize, left: usize, most: usize) -> Vec<Vec<usize>> {
    if clauses == 0 {
        return vec![Vec::new()];
    }
    let with = |size: usize| {
        let rest = mixes(clauses - 1, left - size, size);
        rest.into_iter().map(move |rest| [&[size], &rest[..]].concat())
    };
    (0..=most.min(left)).flat_map(with).collect()
}

/// The problems of random write requests that are accepted.
fn problems(seed: u64) -> Vec<Lent> {
    let mut random = Random::new(seed);
    let lent = |_| match texts::request(&mut random) {
        Request::Write { lent, .. } => lent,
        other => panic!("no write request: {other}"),
    };
    (0..5_000).map(lent).filter(|lent| lent.accepted().is_ok()).collect()
}

/// Reading a text gives the same problem, and writing that gives the same bytes.
#[test]
fn texts_read_as_their_problems() {
    for lent in problems(31) {
        let text = text(&lent.accepted().expect("accepted"));
        let read = script::read(text.as_bytes());
        assert_eq!(read, Ok(lent), "{text}");
        assert_eq!(page(&read.expect("read"), text.len()).room, text.as_bytes());
    }
}

/// The requests for peers come in pairs of one problem, whose text fits and whose search ends.
#[test]
fn requests_for_peers() {
    for pair in peers::lines(500, 32).chunks(2) {
        let asked: Vec<Option<Request>> = pair.iter().map(|line| request(line.as_bytes())).collect();
        let [Some(Request::Write { lent, .. }), Some(Request::Plan(plan))] = &asked[..] else {
            panic!("no pair of write and plan: {pair:?}");
        };
        assert_eq!(*lent, plan.lent);
        assert!(matches!(answer(asked[0].as_ref()), Reply::Written(page) if page.said.is_ok()));
        let ended = |answer: &Answer| matches!(answer, Answer::Plan { .. } | Answer::Unlisted { .. });
        assert!(matches!(answer(asked[1].as_ref()), Reply::Screen(screen) if ended(&screen.answer)));
    }
}
