//! Scripts of 02, A1, with their problems and refusals, written by hand; and laws over random scripts.

use crate::dialogue::Request;
use crate::problem::{AGAINST_ITSELF, MOST_CLAUSES, MOST_EVENTS};
use crate::random::Random;
use crate::requests::{peers, scripts};
use crate::script::{self, stands_in_name, Refused, KEPT, NOT_ALLOWED};
use crate::search::{search, Ending};
use crate::serve::reply;

/// Asks for a script by the dialogue.
#[track_caller]
fn says(text: impl AsRef<[u8]>, expected: &str) {
    let text = text.as_ref();
    let bytes: String = text.iter().map(|byte| format!(" {byte}")).collect();
    assert_eq!(reply(format!("script {}{bytes}", text.len()).as_bytes()), expected, "{}", text.escape_ascii());
}

/// Refused with 20 at the place where the front ends and the rest begins.
#[track_caller]
fn refused_between(front: &str, rest: &str) {
    says(format!("{front}{rest}"), &format!("refused 20 {}", front.len()));
}

/// Refused with 20 at the text's length.
#[track_caller]
fn breaks_off(text: &str) {
    says(text, &format!("refused 20 {}", text.len()));
}

/// The commands between set-logic and check-sat make a whole script.
fn whole(commands: &str) -> String {
    format!("(set-logic QF_IDL)\n{commands}\n(check-sat)\n")
}

/// A script of two events, x and y, and these commands after them, up to the text's end.
fn begun(commands: &str) -> String {
    format!("(set-logic QF_IDL)(declare-const x Int)(declare-fun y () Int){commands}")
}

fn declarations(count: usize) -> String {
    (0..count).map(|event| format!("(declare-fun e{event} () Int)\n")).collect()
}

pub const DAY_1: &str = "(set-logic QF_IDL)
(declare-fun e0 () Int)
(declare-fun e1 () Int)
(assert (<= (- e0 e1) (- 30)))
(check-sat)
";

#[test]
fn day_1() {
    says(DAY_1, "problem 2 3 0 1 -30 1 1");
    says(DAY_1.trim_end(), "problem 2 3 0 1 -30 1 1");
    for place in 0..DAY_1.len() - 1 {
        breaks_off_or_names(&DAY_1[..place]);
    }
}

/// A cut of D1's script: at its length, or at the first byte of a name that the cut leaves undeclared.
#[track_caller]
fn breaks_off_or_names(cut: &str) {
    let undeclared = cut.ends_with("(- e") || cut.ends_with("(- e0 e");
    says(cut, &format!("refused 20 {}", cut.len() - usize::from(undeclared)));
}

#[test]
fn clauses_and_events() {
    says(whole("(declare-const x Int)"), "problem 1 0 0");
    says(whole("(declare-const x Int)(assert false)"), "problem 1 0 1 0");
    says(whole("(assert false)(declare-const x Int)(assert false)"), "problem 1 0 2 0 0");
    says(begun("(assert (<= (- x y) 0))(check-sat)"), "problem 2 3 0 1 0 1 1");
    says(begun("(assert (<= (- y x) (- 0)))(check-sat)"), "problem 2 3 1 0 0 1 1");
    let two = "(or (<= (- x y) 1) (<= (- y x) (- 2)))";
    let four = "(or (<= (- x y) 3) (<= (- y x) 4) (<= (- x y) 5) (<= (- y x) 6))";
    says(
        begun(&format!("(assert {two})(assert false)(assert {four})(check-sat)")),
        "problem 2 18 0 1 1 1 0 -2 0 1 3 1 0 4 0 1 5 1 0 6 3 2 2 6",
    );
    let late = "(assert (<= (- x y) 1))(declare-fun z() Int)(assert (<= (- z y) 2))(check-sat)";
    says(begun(late), "problem 3 6 0 1 1 2 1 2 2 1 2");
}

#[test]
fn blanks() {
    says(begun("(declare-fun z()Int)(assert(<=(- z x)(- 3)))(check-sat)"), "problem 3 3 2 0 -3 1 1");
    says(begun("(assert(<=(- x y)5))(check-sat)"), "problem 2 3 0 1 5 1 1");
    says(begun("(assert(or(<=(- x y)1)(<=(- x y)2)))(check-sat)"), "problem 2 6 0 1 1 0 1 2 1 2");
    let wide = "\t( set-logic\rQF_IDL\n) ( declare-fun\tx ( ) Int ) ( declare-const y\tInt ) \
        ( assert ( <= ( - x y ) ( - 3 ) ) ) ( check-sat ) \t\r\n";
    says(wide, "problem 2 3 0 1 -3 1 1");
    says(wide.replace([' ', '\t'], ";;( \u{e9}\0\u{b}\r"), "problem 2 3 0 1 -3 1 1");
    says(";\r;\n(set-logic;\nQF_IDL;\r)(declare-const;\nx;\nInt)(check-sat)", "problem 1 0 0");
    says(begun("(assert (<= (-;\rx;\ny;\r) (-;\n3;\n)))(check-sat)"), "problem 2 3 0 1 -3 1 1");
    for other in ["\u{b}", "\u{c}", "\0", "\u{a0}", "\u{7f}"] {
        refused_between("(set-logic QF_IDL)", &format!("{other}(check-sat)"));
        refused_between(&begun("(assert (<= (- x"), &format!("{other}y) 1))"));
    }
}

#[test]
fn a_comment_that_ends_with_the_text() {
    says(format!("{DAY_1};"), "problem 2 3 0 1 -30 1 1");
    says(format!("{DAY_1}; no line feed"), "problem 2 3 0 1 -30 1 1");
    breaks_off(";");
    breaks_off("(set-logic QF_IDL); no line feed");
    breaks_off("(set-logic QF_IDL);\r");
    breaks_off(&begun("(check-sat;)"));
    breaks_off(&begun("(assert (<= (- x;y) 3))"));
    refused_between(&format!("{DAY_1};\n"), ")");
}

#[test]
fn the_first_byte_not_allowed() {
    says("(set-logic QF_LIA)", "refused 20 14");
    for (front, rest) in [
        ("", "\u{feff}(set-logic QF_IDL)"),
        ("(", ")"),
        ("(", "check-sat)"),
        ("(set-logic", "QF_IDL)"),
        ("(set-logic QF_IDL", "E)"),
        ("(set-logic QF_IDL)", ")"),
    ] {
        refused_between(front, rest);
    }
    for (front, rest) in [
        ("(", "set-logic QF_IDL)"),
        ("(", "exit)"),
        ("(declare-", "sort z 0)"),
        ("(declare-fun", "z () Int)"),
        ("(declare-fun ", "0 () Int)"),
        ("(declare-fun ", "|z| () Int)"),
        ("(declare-fun z ", "Int)"),
        ("(declare-fun z (", "Int) Int)"),
        ("(declare-fun z () ", "Real)"),
        ("(declare-fun z () Int", "s)"),
        ("(declare-const z", "() Int)"),
        ("(declare-const z ", "() Int)"),
        ("(declare-const zInt", ")"),
        ("(check-sat", "-assuming ())"),
        ("(check-sat)", "(check-sat)"),
        ("(check-sat) ; twice\n ", "(exit)"),
    ] {
        refused_between(&begun(front), rest);
    }
}

#[test]
fn asserts_that_are_not_allowed() {
    for (front, rest) in [
        ("(assert", "false)"),
        ("(assert f", "or)"),
        ("(assert false", "s)"),
        ("(assert ", "true)"),
        ("(assert ", "x)"),
        ("(assert (", "and (<= (- x y) 1) (<= (- x y) 2)))"),
        ("(assert (<", " (- x y) 1))"),
        ("(assert (<=", "= (- x y) 1))"),
        ("(assert (<= ", "x y))"),
        ("(assert (<= (-", "x y) 1))"),
        ("(assert (<= (- x", ") 1))"),
        ("(assert (<= (- x y ", "x) 1))"),
        ("(assert (<= (- x y)", "-1))"),
        ("(assert (<= (- x y) (-", "1)))"),
        ("(assert (<= (- x y) (- ", "(- 1))))"),
        ("(assert (<= (- x y) 1 ", "2))"),
        ("(assert (<= (- x y) 1", "x))"),
        ("(assert (<= (- x y) 1", ".0))"),
        ("(assert (<= (- x y) 0", "3))"),
        ("(assert (<= (- x y) 0", "0))"),
        ("(assert (<= (- x y) (- 0", "100001)))"),
        ("(assert (or", ")"),
        ("(assert (or (<= (- x y) 1)", "))"),
        ("(assert (or ", "false (<= (- x y) 1)))"),
        ("(assert (or (", "or (<= (- x y) 1) (<= (- x y) 1)) (<= (- x y) 1)))"),
        ("(assert (or (<= (- x y) 1) (<= (- x y) 1) ", "x))"),
        ("(assert (<= (- x y) 1) ", "(<= (- x y) 1))"),
    ] {
        refused_between(&begun(front), rest);
    }
    let four = "(<= (- x y) 1) ".repeat(4);
    refused_between(&begun(&format!("(assert (or {four}")), "(<= (- x y) 1)))");
}

#[test]
fn names() {
    let every = "~!@$%^&*_-+=<>.?/azAZ0123456789";
    says(format!("(set-logic QF_IDL)(declare-const {every} Int)(check-sat)"), "problem 1 0 0");
    for near in ["Or", "orr", "<", "=", ">=", "--", "+", "int", "Integer", "true", "and", "__", "!!", "set-logics", "a"]
    {
        let used = format!("(assert (or (<= (- x {near}) 7) (<= (- {near} y) 8)))(check-sat)");
        says(begun(&format!("(declare-const {near} Int){used}")), "problem 3 6 0 2 7 2 1 8 1 2");
    }
    for kept in KEPT {
        refused_between(&begun("(declare-const "), &format!("{kept} Int)(check-sat)"));
        refused_between(&begun("(declare-fun "), kept);
        refused_between(&begun("(assert (<= (- x "), &format!("{kept}) 1))"));
    }
}

#[test]
fn long_names() {
    let (longest, longer) = ("n".repeat(32), "n".repeat(33));
    let used = format!("(assert (or (<= (- x {longest}) 1) (<= (- {longest} y) 1)))(check-sat)");
    says(begun(&format!("(declare-fun {longest} () Int){used}")), "problem 3 6 0 2 1 2 1 1 1 2");
    for rest in ["", " () Int)", "(", ")", "\0", "\u{e9}"] {
        refused_between(&begun("(declare-fun "), &format!("{longer}{rest}"));
    }
    refused_between(&begun(&format!("(declare-const {longest} Int)(assert (<= (- ")), &format!("{longer} x) 1))"));
    refused_between(&begun(&format!("(declare-const {longest} Int)(assert (<= (- ")), &format!("{} x", "n".repeat(31)));
    breaks_off(&begun(&format!("(declare-const {longest}")));
}

#[test]
fn undeclared_and_twice_declared() {
    for rest in ["x", "x Int)", "x\0", "x)", "y"] {
        refused_between(&begun("(declare-const "), rest);
        refused_between(&begun("(declare-fun "), rest);
    }
    for rest in ["z y) 1))", "z", "z)", "z\0", "X y) 1))", "xy) 1))"] {
        refused_between(&begun("(assert (<= (- "), rest);
    }
    refused_between(&begun("(assert (<= (- x "), "z)(");
    refused_between(&begun("(assert (<= (- x y) 1))(assert (<= (- x "), "z) 100001)))");
    breaks_off(&begun("(declare-const xx"));
    breaks_off(&begun("(assert (<= (- x y"));
    refused_between(&begun("(assert (<= (- x"), "\0");
}

/// Refused with 12, by A6 in 02, where the front ends, whatever follows it.
#[track_caller]
fn refused_from(front: &str) {
    for rest in ["", ") 1))(check-sat)", ") 999999))", "\0", "(", ";", " \u{e9}", ") (- 00"] {
        says(begun(&format!("{front}{rest}")), "refused 12 0");
    }
}

#[test]
fn against_itself() {
    refused_from("(assert (<= (- x x");
    refused_from("(assert (<= (- y y");
    refused_from("(assert(<=(-;\rx;\nx");
    refused_from("(assert (or (<= (- x y) 1) (<= (- y y");
    refused_from(&format!("(assert (or{} (<= (- y y", " (<= (- x y) 1)".repeat(3)));
    refused_from("(assert (<= (- x y) 1))(assert (<= (- x x");
    says(whole("(declare-const x Int)(assert (<= (- x x) 0))"), "refused 12 0");
    says(whole("(declare-const x Int)(assert (<= (- x x) (- 1)))"), "refused 12 0");
    breaks_off(&begun("(assert (<= (- x "));
}

/// A fault of a name, or of a bound before, is complete first.
#[test]
fn against_itself_after_other_faults() {
    for rest in ["z z) 1))", "z z", "z x) 1))"] {
        refused_between(&begun("(assert (<= (- "), rest);
    }
    for rest in ["xx) 1))", "xx", "x1", "x-", "z"] {
        refused_between(&begun("(assert (<= (- x "), rest);
    }
    says(begun("(assert (or (<= (- x y) 100001) (<= (- x x) 1)))"), "refused 6 0");
    says(begun("(assert (<= (- x y) 100001))(assert (<= (- x x) 1))"), "refused 6 0");
    refused_between(&begun("(assert (<= (- x y) 0"), "0))(assert (<= (- x x) 1))");
    refused_between(&begun("(assert (<= (- x"), "\0x) 1))");
}

/// Names that begin alike are two; cut off where one is the other, the second is judged as it stands.
#[test]
fn names_that_begin_alike() {
    let alike = |commands: &str| begun(&format!("(declare-const x0 Int){commands}"));
    says(alike("(assert (<= (- x x0) 1))(check-sat)"), "problem 3 3 0 2 1 1 1");
    says(alike("(assert (<= (- x0 x) 1))(check-sat)"), "problem 3 3 2 0 1 1 1");
    says(alike("(assert (<= (- x0 x0) 1))(check-sat)"), "refused 12 0");
    says(alike("(assert (<= (- x x"), "refused 12 0");
    breaks_off(&alike("(assert (<= (- x x0"));
    breaks_off(&alike("(assert (<= (- x0 x"));
}

/// At the end of the second name, so before the end of the assert.
#[test]
fn against_itself_and_sizes() {
    let itself = "(assert (<= (- x x) 1))";
    let four = format!("(assert (or{}))", " (<= (- x y) 1)".repeat(4));
    says(begun(&format!("{}{itself}", "(assert false)".repeat(32))), "refused 12 0");
    says(begun(&format!("{}{itself}", "(assert false)".repeat(33))), "refused 2 0");
    says(begun(&format!("{}{itself}", four.repeat(16))), "refused 12 0");
    says(begun(&format!("{}{itself}", four.repeat(17))), "refused 3 0");
    says(begun(&format!("{}{itself}", declarations(22))), "refused 12 0");
    says(begun(&format!("{}{itself}", declarations(23))), "refused 1 0");
    says(begun(&format!("{itself}{}", declarations(23))), "refused 12 0");
}

/// With the most events of A4 in 02.
#[test]
fn sizes_of_events() {
    says(whole(""), "refused 1 0");
    says("(set-logic QF_IDL)(assert false)(check-sat) nothing more is read", "refused 1 0");
    breaks_off("(set-logic QF_IDL)(check-sat");
    says(whole(&declarations(24)), "problem 24 0 0");
    says(whole(&declarations(25)), "refused 1 0");
    let one_too_many = format!("(set-logic QF_IDL){}", declarations(25).trim_end());
    says(&one_too_many, "refused 1 0");
    breaks_off(&one_too_many[..one_too_many.len() - 1]);
    refused_between(&one_too_many[..one_too_many.len() - 1], "s");
    let (front, _) = one_too_many.split_at(one_too_many.len() - "e24 () Int)".len());
    refused_between(front, "e23 () Int)");
}

#[test]
fn sizes_of_clauses() {
    let one = "(assert (<= (- x y) 1))";
    let four = format!("(assert (or{}))", " (<= (- x y) 1)".repeat(4));
    let check = |commands: String, expected: &str| says(begun(&format!("{commands}(check-sat)")), expected);
    check("(assert false)".repeat(32), &format!("problem 2 0 32{}", " 0".repeat(32)));
    check("(assert false)".repeat(33), "refused 2 0");
    check(four.repeat(17), "refused 3 0");
    check(format!("{}{one}", four.repeat(16)), "refused 3 0");
    check(format!("{}{}{one}", "(assert false)".repeat(16), four.repeat(16)), "refused 2 0");
    check(format!("{}{}{four}", "(assert false)".repeat(15), four.repeat(16)), "refused 3 0");
    let full = format!("{}{}", "(assert false)".repeat(16), four.repeat(16));
    let ends: String = (1..=16).map(|clause| format!(" {}", 4 * clause)).collect();
    check(full.clone(), &format!("problem 2 192{} 32{}{ends}", " 0 1 1".repeat(64), " 0".repeat(16)));
    breaks_off(&begun(&format!("{full}{}", &one[..one.len() - 1])));
    refused_between(&begun(&format!("{full}{}", &one[..one.len() - 1])), "(");
    refused_between(&begun(&format!("{full}(assert ")), "true)");
}

#[test]
fn bounds() {
    let check =
        |bound: &str, expected: &str| says(begun(&format!("(assert (<= (- x y) {bound}))(check-sat)")), expected);
    check("100000", "problem 2 3 0 1 100000 1 1");
    check("(- 100000)", "problem 2 3 0 1 -100000 1 1");
    for large in ["100001", "999999", "1000000", "4294967296", "18446744073709551616", &"9".repeat(30)] {
        check(large, "refused 6 0");
        check(&format!("(- {large})"), "refused 6 0");
        for rest in ["", "x", "\0", "(", "."] {
            says(begun(&format!("(assert (<= (- x y) {large}{rest}")), "refused 6 0");
            says(begun(&format!("(assert (<= (- x y) (- {large}{rest}")), "refused 6 0");
        }
    }
    check(&format!("1{}", "0".repeat(60_000)), "refused 6 0");
    breaks_off(&begun("(assert (<= (- x y) 100000"));
    breaks_off(&begun("(assert (<= (- x y) (- 0"));
}

/// The texts of random script requests.
fn texts(seed: u64) -> Vec<Vec<u8>> {
    let mut random = Random::new(seed);
    let text = |_| match scripts::request(&mut random) {
        Request::Script { text } => text,
        other => panic!("no script: {other}"),
    };
    (0..3_000).map(text).collect()
}

/// A script reads as the problem that it was written from.
#[test]
fn scripts_read_as_their_problems() {
    let mut random = Random::new(21);
    for _ in 0..3_000 {
        let (lent, text) = scripts::sound(&mut random);
        assert_eq!(script::read(&text), Ok(lent), "{}", text.escape_ascii());
    }
}

/// The scripts for solvers are of their size, and what is expected of them is what the search says.
#[test]
fn scripts_for_peers() {
    for (events, clauses) in [(1, 0), (1, 3), (2, MOST_CLAUSES), (4, 10), (MOST_EVENTS, MOST_CLAUSES)] {
        for script in peers::scripts(events, clauses, 50, 22).expect("within the sizes") {
            let lent = script::read(&script.text).expect("a sound script");
            assert_eq!((lent.events as usize, lent.counts.len()), (events, clauses));
            let ending = search(&lent.accepted().expect("accepted"), 20_000, 0).ending;
            assert_eq!(script.expected, if ending == Ending::NoPlan { "unsat" } else { "sat" });
        }
    }
}

/// The problem of a script that is read is accepted.
#[test]
fn read_problems_are_accepted() {
    for lent in texts(23).iter().filter_map(|text| script::read(text).ok()) {
        assert!(lent.accepted().is_ok());
    }
}

/// Up to the place of a refusal the text could go on: cut there, it breaks off there or is whole.
#[test]
fn texts_could_go_on_up_to_the_place() {
    for text in texts(24) {
        if let Err(refused @ Refused { number: NOT_ALLOWED, place }) = script::read(&text) {
            let cut = script::read(&text[..place]);
            assert!(cut == Err(refused) || place < text.len() && cut.is_ok(), "{}", text.escape_ascii());
        }
    }
}

/// A refusal without a place is complete at one byte: from there on it stays, and before it the text breaks off, or is
/// cut where a second name is still the first.
#[test]
fn refusals_stay_once_complete() {
    for text in texts(25).iter().filter(|text| text.len() < 1_000) {
        if let Err(refused @ Refused { number: 1..=12, .. }) = script::read(text) {
            let cuts: Vec<_> = (0..=text.len()).map(|place| script::read(&text[..place])).collect();
            let goes_on = |place: usize| text.get(place).is_some_and(|byte| stands_in_name(*byte));
            let open = |place: usize| match cuts[place] {
                Err(Refused { number: NOT_ALLOWED, .. }) => true,
                Err(Refused { number: AGAINST_ITSELF, .. }) => goes_on(place),
                _ => false,
            };
            let complete = (0..cuts.len()).take_while(|place| open(*place)).count();
            assert!(cuts[complete..].iter().all(|cut| *cut == Err(refused)), "{}", text.escape_ascii());
        }
    }
}

#[test]
fn long_scripts_have_their_length() {
    for length in [200, 1_000, 4_096, 65_535, 65_536] {
        let text = peers::long_script(length).expect("there is room");
        assert_eq!(text.len(), length);
        assert!(script::read(&text).is_ok());
    }
    assert!(peers::long_script(40).is_err());
    assert!(peers::long_script(65_537).is_err());
}
