//! The days of 01 and the sliders of 02 with their numbers, written by hand as lines and replies; and laws over
//! random problems.

use crate::answer::{answer, Answer, Reply};
use crate::dialogue::{request, Request};
use crate::facts::Distances;
use crate::plain;
use crate::problem::{Problem, Refusal, FARTHEST_TIME};
use crate::random::Random;
use crate::reasons::{self, ROW};
use crate::requests::Maker;
use crate::search::{search, Ending};
use crate::serve::reply;
use crate::slider::{slide, Kind, Use};

/// `count` times 255, each after a space but the first.
pub fn fill(count: usize) -> String {
    vec!["255"; count].join(" ")
}

/// A row: these bytes, then 255s.
fn row(front: &str) -> String {
    let used = front.split(' ').count();
    if used == ROW {
        front.to_string()
    } else {
        format!("{front} {}", fill(ROW - used))
    }
}

/// The rows with these bytes in front, one after the other.
fn rows(fronts: &[&str]) -> String {
    fronts.iter().map(|front| row(front)).collect::<Vec<String>>().join(" ")
}

/// A list of these rows, as the dialogue hands it over: its length, then its bytes.
pub fn list(fronts: &[&str]) -> String {
    format!("{} {}", fronts.len() * ROW, rows(fronts))
}

/// The reply to a plan request that ends with none: its numbers, so many 1s and 255s, and the rows.
pub fn listed(events: usize, clauses: usize, numbers: &str, fronts: &[&str]) -> String {
    format!("none {numbers} | {} | {} | {}", vec!["1"; events].join(" "), fill(clauses), rows(fronts))
}

#[track_caller]
pub fn says(line: &str, expected: &str) {
    assert_eq!(reply(line.as_bytes()), expected, "{line}");
}

#[test]
fn day_1() {
    says("plan 2 1000 2 1 0 3 0 1 -30 1 1", "plan 2 0 | -30 0 | 0 | ");
    says("plan 2 1000 4 3 2 3 0 1 -30 1 1", "plan 2 0 | -30 0 1 1 | 0 255 255 | 255 255");
}

const DAY_2: &str = "18 2 1 6 0 3 4 2 0 1 3 0 -5 0 2 -2 1 2 -7 3 2 4 6";

#[test]
fn day_2() {
    says(&format!("plan 4 1000 4 3 {ROW} {DAY_2}"), &format!("plan 5 2 | -2 0 0 -7 | 0 1 0 | {}", fill(ROW)));
    says(&format!("lamps 4 {DAY_2}"), &format!("lamps 0 63 6 0 2 2 2{}", " 0".repeat(29)));
    says(&format!("times 4 {DAY_2} 4 -2 0 0 -7"), "yes");
    says(&format!("times 4 {DAY_2} 4 -1 0 0 -7"), "no");
}

#[test]
fn day_3() {
    says(&format!("plan 4 4 4 3 {ROW} {DAY_2}"), &format!("stopped 4 2 | 1 1 1 1 | 255 255 255 | {}", fill(ROW)));
    says(&format!("plan 4 0 4 3 0 {DAY_2}"), "stopped 0 0 | 1 1 1 1 | 255 255 255 | ");
}

const DAY_4: &str = "6 0 1 -1 1 0 -1 2 1 2";

/// With the row sizes of A4 and the row of A7 in 02; the reader takes the other one too.
#[test]
fn day_4() {
    let marks = format!("240 {} 201 {}", fill(23), fill(23));
    let [rows, turned] = ["0 1", "1 0"].map(|cycle| format!("{marks} {cycle} {}", fill(22)));
    says(&format!("plan 2 1000 2 2 72 {DAY_4}"), &format!("none 2 1 3 | 1 1 | 255 255 | {rows}"));
    says(&format!("plan 2 1000 2 2 71 {DAY_4}"), &format!("unlisted 2 1 3 | 1 1 | 255 255 | {}", fill(71)));
    says(&format!("plan 2 2 2 2 0 {DAY_4}"), "unlisted 2 1 3 | 1 1 | 255 255 | ");
    says(&format!("lamps 2 {DAY_4}"), &format!("lamps 0 0 0 64{}", " 0".repeat(32)));
    says(&format!("reasons 2 {DAY_4} 72 {rows}"), "yes");
    says(&format!("reasons 2 {DAY_4} 72 {turned}"), "yes");
    says(&format!("reasons 2 {DAY_4} 73 {turned} 255"), "yes");
    says(&format!("reasons 2 {DAY_4} 73 {turned} 254"), "no");
    says(&format!("reasons 2 {DAY_4} 48 {marks}"), "no");
    says(&format!("reasons 2 {DAY_4} {}", list(&["240", "240", "0 1"])), "yes");
    says(&format!("reasons 2 {DAY_4} {}", list(&["240", "200", "0 1"])), "no");
    says(&format!("reasons 2 {DAY_4} {}", list(&["240", "201", "0 1 0 1"])), "yes");
    says(&format!("reasons 2 {DAY_4} {}", list(&["240", "201", "0 64"])), "no");
}

/// Refused by A6 in 02.
#[test]
fn day_5() {
    let refused = format!("refused 12 | 1 | 255 | {}", fill(2 * ROW));
    says(&format!("plan 1 1000 1 1 {} 3 0 0 -1 1 1", 2 * ROW), &refused);
    says(&format!("plan 1 1000 1 1 {} 3 0 0 0 1 1", 2 * ROW), &refused);
}

#[test]
fn day_6() {
    says("plan 3 1000 3 0 1 0 0", "plan 1 0 | 0 0 0 |  | 255");
    says("reasons 3 0 0 0", "no");
    says(&format!("reasons 3 0 0 {}", list(&["240"])), "no");
}

#[test]
fn day_7() {
    says(&format!("plan 1 1000 1 1 {ROW} 0 1 0"), &format!("none 1 0 1 | 1 | 255 | {}", row("200")));
    says("plan 1 0 1 1 0 0 1 0", "stopped 0 0 | 1 | 255 | ");
    says(&format!("reasons 1 0 1 0 {}", list(&["200"])), "yes");
    says(&format!("reasons 1 0 1 0 {}", list(&["240"])), "yes");
    says(&format!("reasons 1 0 1 0 {}", list(&["201"])), "no");
}

#[test]
fn day_8() {
    says("plan 2 1000 2 2 0 6 0 1 5 1 0 -5 2 1 2", "plan 3 0 | 0 -5 | 0 0 | ");
    says("plan 2 1000 2 2 0 6 0 1 5 1 0 -6 2 1 2", "unlisted 2 1 3 | 1 1 | 255 255 | ");
    let list = list(&["240", "201", "0 1"]);
    says(&format!("reasons 2 6 0 1 5 1 0 -5 2 1 2 {list}"), "no");
    says(&format!("reasons 2 6 0 1 5 1 0 -6 2 1 2 {list}"), "yes");
}

#[test]
fn day_9() {
    says("plan 3 1000 3 2 0 9 0 1 -10 1 2 -3 0 1 -5 2 1 3", "plan 3 0 | -13 -3 0 | 0 0 | ");
}

#[test]
fn day_10() {
    let line = "9 0 1 -1 0 1 -1 1 0 0 2 2 3";
    says(&format!("plan 2 1000 2 2 96 {line}"), &listed(2, 2, "2 2 4", &["240", "201", "0 2", "1 64"]));
    says(&format!("plan 2 1000 2 2 0 {line}"), "unlisted 2 2 4 | 1 1 | 255 255 | ");
    says(&format!("plan 2 2 2 2 0 {line}"), "unlisted 2 2 4 | 1 1 | 255 255 | ");
    says(&format!("plan 2 1 2 2 0 {line}"), "stopped 1 0 | 1 1 | 255 255 | ");
    says(&format!("reasons 2 {line} {}", list(&["240", "201", "0 2", "64 1"])), "yes");
    says(&format!("reasons 2 {line} {}", list(&["240", "201", "0 2", "65 1"])), "no");
}

#[test]
fn edges_and_refusals() {
    says("plan 2 9 2 1 0 3 0 1 100000 1 1", "plan 2 0 | 0 0 | 0 | ");
    says("plan 2 9 2 1 3 3 0 1 100001 1 1", "refused 6 | 1 1 | 255 | 255 255 255");
    says("plan 25 1000001 2 1 0 1 0 2 9 9", "refused 1 | 1 1 | 255 | ");
    says("times 2 0 0 1 5", "refused 8");
    says("times 2 3 0 1 -1 1 1 2 -2147483648 2147483647", "yes");
    says("times 2 3 0 1 100000 1 1 2 2147483647 -2147483648", "no");
    says("lamps 1 3 0 0 0 0", &format!("lamps 4 0 0 64{}", " 0".repeat(32)));
    says("plan 1 1000001 0 0 0 0 0", "refused 7 |  |  | ");
    says("plan 1 1000000 0 0 0 0 0", "refused 8 |  |  | ");
}

#[test]
fn malformed_lines() {
    for line in [
        "",
        " ",
        "plan",
        "lamps 1 0 0 ",
        " lamps 1 0 0",
        "lamps  1 0 0",
        "lamps +1 0 0",
        "lamps -0 0 0",
        "lamps 1 0 65",
    ] {
        says(line, "malformed");
    }
    for line in [
        "slide 3 0 0 0 0",
        "slide 2 0 1 0 0",
        "slide 0 0 0 0 2",
        "slide 2 4294967296 0 0 0",
        "times 1 0 0 1 2147483648",
    ] {
        says(line, "malformed");
    }
    says("times 01 00 0 1 -0", "yes");
    says("lamps 2 3 1 -0 -00 1 1", &format!("lamps 0 1 1 0 1{}", " 0".repeat(31)));
    says(&format!("lamps {}1 0 0", "0".repeat((1 << 20) - 11)), &format!("lamps 0 0 0 64{}", " 0".repeat(32)));
    says(&format!("lamps {}1 0 0", "0".repeat((1 << 20) - 10)), "malformed");
}

/// Holds sliders of one use to their replies: kind, A, B and position, as in the dialogue.
#[track_caller]
fn slides(used: u32, cases: &[(u32, f32, f32, f32, &str)]) {
    for (kind, a, b, position, expected) in cases {
        let line = format!("slide {kind} {} {} {} {used}", a.to_bits(), b.to_bits(), position.to_bits());
        says(&line, expected);
    }
}

const LEAST_SUBNORMAL: f32 = f32::from_bits(1);

/// The cases of 01: the bound is rounded down, and 11 looks at it.
#[test]
fn sliders_at_most() {
    let cases = [
        (0, 10.0, 20.0, 0.25, "bound 12"),
        (0, -10.0, -5.0, 0.5, "bound -8"),
        (1, 30.0, 0.0, 0.5, "bound 60"),
        (1, 7.0, 0.0, 0.75, "bound 9"),
        (1, 7.0, 0.0, 0.0, "refused 10"),
        (1, 7.0, 0.0, -0.0, "refused 10"),
        (1, 390.0, 0.0, 1.0 / 256.0, "bound 99840"),
        (1, 391.0, 0.0, 1.0 / 256.0, "refused 11"),
        (2, -2.5, 0.0, 0.3, "bound -3"),
        (2, 12.5, 0.0, 0.0, "bound 12"),
        (2, LEAST_SUBNORMAL, 0.0, 0.0, "bound 0"),
        (2, -LEAST_SUBNORMAL, 0.0, 0.0, "bound -1"),
        (2, 100_000.5, 0.0, f32::NAN, "bound 100000"),
        (2, -100_000.5, 0.0, 0.0, "refused 11"),
        (2, f32::MAX, 0.0, 0.0, "refused 11"),
        (2, f32::MIN, 0.0, 0.0, "refused 11"),
        (2, f32::INFINITY, 0.0, 0.0, "refused 9"),
        (0, 4_097.0, 0.0, 0.0, "refused 9"),
        (0, 1.5, 0.0, 0.0, "refused 9"),
        (0, 1.0, 0.0, 0.001, "refused 9"),
    ];
    slides(0, &cases);
}

/// Least waits by A2 of 02: the number is rounded up, 11 looks at it, and it is negated.
#[test]
fn sliders_at_least() {
    let cases = [
        (0, 10.0, 20.0, 0.25, "bound -13"),
        (0, -10.0, -5.0, 0.5, "bound 7"),
        (0, 10.0, 20.0, 0.5, "bound -15"),
        (1, 30.0, 0.0, 0.5, "bound -60"),
        (1, 7.0, 0.0, 0.75, "bound -10"),
        (1, 0.0, 0.0, 0.75, "bound 0"),
        (1, 7.0, 0.0, 0.0, "refused 10"),
        (1, 7.5, 0.0, 0.0, "refused 9"),
        (1, 390.0, 0.0, 1.0 / 256.0, "bound -99840"),
        (1, 391.0, 0.0, 1.0 / 256.0, "refused 11"),
        (1, 3_125.0, 0.0, 8.0 / 256.0, "bound -100000"),
        (2, 12.5, 0.0, f32::NAN, "bound -13"),
        (2, -2.5, 0.0, 0.0, "bound 2"),
        (2, -2.0, 0.0, 0.0, "bound 2"),
        (2, 0.5, 0.0, 0.0, "bound -1"),
        (2, -0.5, 0.0, 0.0, "bound 0"),
        (2, -0.0, 0.0, 0.0, "bound 0"),
        (2, LEAST_SUBNORMAL, 0.0, 0.0, "bound -1"),
        (2, -LEAST_SUBNORMAL, 0.0, 0.0, "bound 0"),
        (2, 99_999.5, 0.0, 0.0, "bound -100000"),
        (2, 100_000.0, 0.0, 0.0, "bound -100000"),
        (2, 100_000.5, 0.0, 0.0, "refused 11"),
        (2, -100_000.5, 0.0, 0.0, "bound 100000"),
        (2, -100_001.0, 0.0, 0.0, "refused 11"),
        (2, f32::MAX, 0.0, 0.0, "refused 11"),
        (2, f32::MIN, 0.0, 0.0, "refused 11"),
        (2, f32::INFINITY, 0.0, 0.0, "refused 9"),
    ];
    slides(1, &cases);
}

/// The bound that a value gives by the host's own rounding, as its use takes it, or 11.
fn bound_by_host(value: f32, used: Use) -> Result<i64, Refusal> {
    let (rounded, sign) = match used {
        Use::AtMost => (value.floor(), 1),
        Use::AtLeast => (value.ceil(), -1),
    };
    if rounded.abs() > 100_000.0 {
        Err(11)
    } else {
        Ok(sign * rounded as i64)
    }
}

/// Holds both uses of a slider to the value that the host works out.
#[track_caller]
fn slides_as_host(kind: Kind, position: f32, value: f32) {
    for used in [Use::AtMost, Use::AtLeast] {
        let got = slide(kind, position.to_bits(), used);
        assert_eq!(got, bound_by_host(value, used), "{kind:?} {position} {used:?}");
    }
}

/// The operations of 01 in binary32, each rounded once, give the integer formulas' answers.
#[test]
fn sliders_are_exact() {
    for k in 1..=256 {
        let position = k as f32 / 256.0;
        for work in (0..=4_096).map(|whole| whole as f32) {
            slides_as_host(Kind::Rate { work: work.to_bits() }, position, work / position);
        }
    }
    let mut random = Random::new(1);
    for _ in 0..200_000 {
        let (low, high) = (random.between(-4_096, 4_096) as f32, random.between(-4_096, 4_096) as f32);
        let position = random.between(0, 256) as f32 / 256.0;
        let kind = Kind::Span { low: low.to_bits(), high: high.to_bits() };
        slides_as_host(kind, position, low + (high - low) * position);
    }
}

/// Fixed values of all sizes, from subnormal to the greatest, are rounded as they stand.
#[test]
fn fixed_values_are_rounded() {
    let mut random = Random::new(2);
    let values = (0..200_000).map(|_| f32::from_bits(random.bits() as u32));
    for value in values.filter(|value| value.is_finite()) {
        slides_as_host(Kind::Fixed { value: value.to_bits() }, 0.0, value);
    }
}

/// The plan requests of a seed whose problem is accepted.
fn plan_requests(seed: u64, count: usize) -> Vec<crate::dialogue::Asked> {
    let mut maker = Maker::new(seed);
    let made = (0..count).filter_map(|_| match request(&maker.next()) {
        Some(Request::Plan(asked)) if asked.lent.accepted().is_ok() => Some(asked),
        _ => None,
    });
    made.collect()
}

/// Every none's list is accepted, rows stay within 5 times the visits, and the plain list bears the search out.
#[test]
fn laws_of_the_search() {
    for asked in plan_requests(11, 6_000) {
        let problem = asked.lent.accepted().expect("accepted");
        let outcome = search(&problem, u64::from(asked.allowance).min(2_000), 10_000);
        assert!(outcome.rows <= 5 * outcome.visits);
        assert!(plain::bears_out(&problem, &outcome));
        if outcome.ending == Ending::NoPlan {
            let list: Vec<u8> = outcome.listed.iter().flat_map(|row| reasons::row_bytes(&problem, *row)).collect();
            assert!(reasons::read(&problem, &list));
        }
    }
}

/// A plan's times lie between the farthest time and 0, keep the problem, and are the latest.
#[test]
fn plans_are_latest() {
    for asked in plan_requests(12, 6_000) {
        let problem = asked.lent.accepted().expect("accepted");
        let outcome = search(&problem, u64::from(asked.allowance).min(2_000), 0);
        if let Ending::Plan(picks) = outcome.ending {
            let times = plain::latest_timetable(&problem, &picks).expect("the selection holds");
            assert_eq!(times, lowered(&problem, &picks));
            assert!(times.iter().all(|time| (-FARTHEST_TIME..=0).contains(time)));
            assert!(problem.kept_by(&times));
            assert_eq!(plain::selection(&problem, outcome.before), picks);
        }
    }
}

/// All times at closing, then each lowered only as far as an alternative of the selection asks.
fn lowered(problem: &Problem, picks: &[usize]) -> Vec<i64> {
    let mut times = vec![0; problem.events];
    while let Some(broken) = problem.selected(picks).find(|alternative| !alternative.satisfied_by(&times)) {
        times[broken.x] = times[broken.y] + broken.c;
    }
    times
}

/// One fact more at a time gives the same distances as all at once.
#[test]
fn facts_one_at_a_time() {
    for asked in plan_requests(13, 3_000) {
        let problem = asked.lent.accepted().expect("accepted");
        let facts = problem.alternatives.iter().take(12).copied();
        let one_by_one =
            facts.clone().try_fold(Distances::without_facts(problem.events), |known, fact| known.with(fact));
        let at_once = Distances::all_pairs(problem.events, facts);
        assert_eq!(one_by_one.map(|known| known.latest()), at_once.map(|known| known.latest()));
    }
}

/// Lines of requests read back as the same requests.
#[test]
fn lines_read_back() {
    let mut maker = Maker::new(14);
    for _ in 0..5_000 {
        if let Some(made) = request(&maker.next()) {
            assert_eq!(request(made.to_string().as_bytes()), Some(made));
        }
    }
}

#[test]
fn a_refusal_is_no_plan() {
    let reply = answer(request(b"plan 0 0 0 0 0 0 0").as_ref());
    assert!(matches!(reply, Reply::Screen(screen) if screen.answer == Answer::Refused(1)));
}
