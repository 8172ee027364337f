//! The shortest reason (02, A7): rows worked out by hand, and laws over random facts, against every sequence of numbers
//! and every cycle; and how much the random requests and the ways of spoiling say of it.

use crate::answer::{answer, Reply, Screen};
use crate::days_tests::{listed, says};
use crate::dialogue::{request, Asked, Request};
use crate::facts::{members, one, opposite_of, Numbers};
use crate::problem::{Alternative, Problem, MOST_EVENTS};
use crate::random::Random;
use crate::reasons::{self, is_cycle_row, ROW};
use crate::requests::days::closed_late;
use crate::requests::Maker;
use crate::search::Row;
use crate::shortest::{shortest, Walks};
use crate::spoil;

/// Holds the row of an alternative, all these facts and a further one being known, whose number comes after theirs.
#[track_caller]
fn names(events: i32, facts: &[[i32; 3]], alternative: [i32; 3], row: &str) {
    let (known, clauses) = (facts.len() + 1, facts.len() + 2);
    let lent = closed_late(events, facts, alternative);
    let timetable = lent.events as usize;
    let asked = Asked { lent, allowance: 1_000, timetable, picks: clauses, reasons: (known + 3) * ROW };
    let (mark, other) = (format!("{}", 200 + known), format!("{} {}", known - 1, known + 1));
    let rows = [vec!["240"; known], vec![&mark, row, &other]].concat();
    let numbers = format!("{} 2 {}", known + 1, known + 3);
    says(&Request::Plan(asked).to_string(), &listed(timetable, clauses, &numbers, &rows));
}

/// The heavier 0 wins while it closes alternative 3 below 0; of equal ones 0 wins too.
#[test]
fn parallel_arcs() {
    names(2, &[[0, 1, 3], [0, 1, -5]], [1, 0, -4], "0 3");
    names(2, &[[0, 1, 3], [0, 1, -5]], [1, 0, 4], "1 3");
    names(2, &[[0, 1, -5], [0, 1, -5]], [1, 0, -4], "0 3");
}

/// The cycle 0, 1, 4 has the sum −101, but 2, 4 has one arc fewer.
#[test]
fn fewest_arcs_first() {
    names(3, &[[2, 1, -50], [0, 2, -50], [0, 1, 0]], [1, 0, -1], "2 4");
}

/// Of 0, 3, 5 and 1, 2, 5 the first comes first, whichever has the lower sum; of 0, 2, 4, 6 and 0, 3, 1, 6 the first,
/// though the other has the 1.
#[test]
fn first_in_dictionary_order() {
    names(4, &[[1, 0, -8], [2, 0, 0], [3, 2, 0], [3, 1, 0]], [0, 3, -1], "0 3 5");
    names(4, &[[1, 0, 0], [2, 0, -8], [3, 2, 0], [3, 1, 0]], [0, 3, -1], "0 3 5");
    names(5, &[[3, 4, 0], [0, 1, 0], [2, 3, 0], [1, 3, 0], [0, 2, 0]], [4, 0, -1], "0 2 4 6");
}

/// A sum of 0 is no conflict, in however few arcs.
#[test]
fn sums_of_0() {
    assert_eq!(shortest_of_all(3, "12 0 1 1 1 0 -1 2 0 -1 1 2 -1 4 1 2 3 4"), Some(vec![0, 2, 3]));
    assert_eq!(shortest_of_all(3, "12 0 1 1 1 0 -1 2 0 0 1 2 -1 4 1 2 3 4"), None);
}

/// The shortest reason over all alternatives of a problem, which is written as its parts after N.
fn shortest_of_all(events: usize, parts: &str) -> Option<Vec<usize>> {
    let Some(Request::Lamps { lent }) = request(format!("lamps {events} {parts}").as_bytes()) else {
        panic!("no problem: {parts}");
    };
    let problem = lent.accepted().expect("accepted");
    shortest(&problem, one(problem.alternatives.len()) - 1)
}

/// By the words of A7: of all sequences of the numbers, of fewest first, those that are a cycle below 0, each read from
/// its smallest number; and of these the first.
fn among_all_sequences(problem: &Problem, numbers: Numbers) -> Option<Vec<usize>> {
    let known: Vec<usize> = members(numbers).collect();
    let first = |arcs: usize| {
        let sequences = (0..known.len().pow(arcs as u32)).map(|rank| sequence(&known, arcs, rank));
        let cycles = sequences.filter(|sequence| is_cycle_below_0(problem, numbers, sequence));
        cycles.map(from_smallest).min()
    };
    (1..=problem.events).find_map(first)
}

/// The sequence of so many numbers that stands at a rank in some order of all.
fn sequence(known: &[usize], arcs: usize, rank: usize) -> Vec<usize> {
    let digit = |place: usize| known[rank / known.len().pow(place as u32) % known.len()];
    (0..arcs).map(digit).collect()
}

fn is_cycle_below_0(problem: &Problem, numbers: Numbers, cycle: &[usize]) -> bool {
    is_cycle_row(problem, numbers, &reasons::cycle_bytes(cycle))
}

fn from_smallest(mut cycle: Vec<usize>) -> Vec<usize> {
    let smallest = (0..cycle.len()).min_by_key(|place| cycle[*place]).expect("a cycle has an arc");
    cycle.rotate_left(smallest);
    cycle
}

/// Every cycle below 0 that passes no event twice, read from its smallest number.
fn every_cycle(problem: &Problem, numbers: Numbers) -> Vec<Vec<usize>> {
    let mut found = Vec::new();
    for start in members(numbers) {
        lengthen(problem, numbers, &mut vec![start], &mut found);
    }
    found
}

/// Finds the cycles that begin with this walk and have no smaller number than its first.
fn lengthen(problem: &Problem, numbers: Numbers, walk: &mut Vec<usize>, found: &mut Vec<Vec<usize>>) {
    let (start, end) = (problem.arc(walk[0]).y, problem.arc(walk[walk.len() - 1]).x);
    if start == end {
        if weight(problem, walk) < 0 {
            found.push(walk.clone());
        }
        return;
    }
    let passed = |event: usize| walk.iter().any(|number| problem.arc(*number).x == event);
    let follows = |number: &usize| problem.arc(*number).y == end && !passed(problem.arc(*number).x);
    let next: Vec<usize> = members(numbers).filter(|number| *number > walk[0]).filter(follows).collect();
    for number in next {
        walk.push(number);
        lengthen(problem, numbers, walk, found);
        walk.pop();
    }
}

fn weight(problem: &Problem, cycle: &[usize]) -> i64 {
    cycle.iter().map(|number| problem.arc(*number).c).sum()
}

/// Of every cycle, the one with the fewest arcs, and of these the first.
fn among_every_cycle(cycles: &[Vec<usize>]) -> Option<Vec<usize>> {
    cycles.iter().min_by_key(|cycle| (cycle.len(), cycle.to_vec())).cloned()
}

/// Facts over so many events: each a random alternative or its opposite, bounds within ±l.
fn some_facts(random: &mut Random, events: usize, count: usize, l: i64) -> (Problem, Numbers) {
    let mut alternatives = Vec::new();
    let mut numbers = 0;
    while alternatives.len() < count {
        let (x, y, c) = (random.below(events), random.below(events), random.between(-l, l));
        if x != y {
            let number = alternatives.len();
            numbers |= one(if random.one_in(3) { opposite_of(number) } else { number });
            alternatives.push(Alternative { x, y, c });
        }
    }
    (Problem { events, alternatives, clauses: Vec::new() }, numbers)
}

/// A ring of so many events with a sum near 0, fewer than so many arcs doubled, at times with arcs across it, and
/// opposites among its facts.
fn some_ring(random: &mut Random, events: usize, doubled: usize) -> (Problem, Numbers) {
    let times: Vec<i64> = (0..events).map(|_| random.between(-9, 9)).collect();
    let arc = |x: usize, y: usize, spare: i64| Alternative { x, y, c: times[x] - times[y] + spare };
    let mut alternatives: Vec<Alternative> = (0..events).map(|x| arc(x, (x + 1) % events, 0)).collect();
    alternatives[0].c -= random.between(1, 4);
    for _ in 0..random.below(doubled) {
        let Alternative { x, y, c } = alternatives[random.below(events)];
        alternatives.push(Alternative { x, y, c: c + random.between(-1, 3) });
    }
    for _ in 0..random.below(3) {
        let (x, y) = (random.below(events), random.below(events));
        if x != y {
            alternatives.push(arc(x, y, random.between(0, 2)));
        }
    }
    random.shuffle(&mut alternatives);
    let mut numbers = 0;
    for (number, alternative) in alternatives.iter_mut().enumerate() {
        let opposed = random.one_in(3);
        numbers |= one(if opposed { opposite_of(number) } else { number });
        if opposed {
            *alternative = alternative.opposite();
        }
    }
    (Problem { events, alternatives, clauses: Vec::new() }, numbers)
}

/// How many cycles there were of which something is worth knowing.
#[derive(Debug, Default)]
struct Seen {
    reasons: usize,
    arcs: [usize; MOST_EVENTS + 1],
    with_opposites: usize,
    not_the_only_one_of_its_length: usize,
    not_the_lowest_sum_of_its_length: usize,
    not_the_lowest_sum: usize,
    heavier_with_smaller_number: usize,
    smaller_number_too_heavy: usize,
}

impl Seen {
    /// Sees the reason of these numbers beside other cycles below 0 over them, itself among them.
    fn see(&mut self, problem: &Problem, numbers: Numbers, reason: &[usize], cycles: &[Vec<usize>]) {
        let sum = weight(problem, reason);
        let as_long = || cycles.iter().filter(|cycle| cycle.len() == reason.len());
        let differs = |chosen: fn(Alternative, Alternative, bool) -> bool| {
            let beside = |number: usize| members(numbers).any(|other| beside(problem, number, other, chosen));
            usize::from(reason.iter().any(|number| beside(*number)))
        };
        self.reasons += 1;
        self.arcs[reason.len()] += 1;
        self.with_opposites += usize::from(reason.iter().any(|number| *number >= opposite_of(0)));
        self.not_the_only_one_of_its_length += usize::from(as_long().count() > 1);
        self.not_the_lowest_sum_of_its_length += usize::from(as_long().any(|cycle| weight(problem, cycle) < sum));
        self.not_the_lowest_sum += usize::from(cycles.iter().any(|cycle| weight(problem, cycle) < sum));
        self.heavier_with_smaller_number += differs(|arc, other, smaller| smaller && arc.c > other.c);
        self.smaller_number_too_heavy += differs(|arc, other, smaller| !smaller && arc.c < other.c);
    }
}

/// True if the other number's arc is parallel and is as chosen, by the two arcs and by whose number is the smaller.
fn beside(problem: &Problem, number: usize, other: usize, chosen: fn(Alternative, Alternative, bool) -> bool) -> bool {
    let (arc, parallel) = (problem.arc(number), problem.arc(other));
    (arc.x, arc.y) == (parallel.x, parallel.y) && chosen(arc, parallel, number < other)
}

/// Holds the shortest reason of the facts against every cycle.
#[track_caller]
fn holds(seen: &mut Seen, problem: &Problem, numbers: Numbers) {
    let cycles = every_cycle(problem, numbers);
    let got = shortest(problem, numbers);
    assert_eq!(got, among_every_cycle(&cycles), "{problem:?} {numbers:x}");
    got.iter().for_each(|reason| seen.see(problem, numbers, reason, &cycles));
}

#[test]
fn small_sets_of_facts() {
    let mut random = Random::new(21);
    let mut seen = Seen::default();
    for round in 0..4_000 {
        let (problem, numbers) = if round % 2 == 0 {
            let (events, count) = (2 + random.below(4), 2 + random.below(5));
            let l = random.among(&[1, 2, 3, 8]);
            some_facts(&mut random, events, count, l)
        } else {
            let events = 2 + random.below(3);
            some_ring(&mut random, events, 3)
        };
        assert_eq!(shortest(&problem, numbers), among_all_sequences(&problem, numbers), "{problem:?} {numbers:x}");
        holds(&mut seen, &problem, numbers);
    }
    println!("{seen:?}");
    assert!(seen.reasons > 2_000 && seen.arcs[2..=4].iter().all(|count| *count > 200));
}

#[test]
fn larger_sets_of_facts() {
    let mut random = Random::new(22);
    let mut seen = Seen::default();
    for _ in 0..3_000 {
        let (events, count) = (2 + random.below(6), 3 + random.below(12));
        let l = random.among(&[1, 2, 3, 8]);
        let (mut problem, numbers) = some_facts(&mut random, events, count, l);
        let heavier = random.between(0, l);
        problem.alternatives.iter_mut().for_each(|alternative| alternative.c += heavier);
        holds(&mut seen, &problem, numbers);
    }
    println!("{seen:?}");
    assert!(seen.not_the_only_one_of_its_length > 1_000 && seen.with_opposites > 1_000);
    assert!(seen.not_the_lowest_sum_of_its_length > 500 && seen.not_the_lowest_sum > 500);
    assert!(seen.heavier_with_smaller_number > 300 && seen.smaller_number_too_heavy > 300);
}

#[test]
fn rings() {
    let mut random = Random::new(23);
    let mut seen = Seen::default();
    for round in 0..100 * (MOST_EVENTS - 1) {
        let (problem, numbers) = some_ring(&mut random, 2 + round % (MOST_EVENTS - 1), 8);
        holds(&mut seen, &problem, numbers);
    }
    println!("{seen:?}");
    assert!(seen.arcs[2..].iter().all(|count| *count > 30));
    assert!(seen.heavier_with_smaller_number > 500 && seen.smaller_number_too_heavy > 500);
}

/// Of exactly so many arcs, closed walks are found among all sequences too.
#[test]
fn walks_of_any_length() {
    let mut random = Random::new(24);
    for _ in 0..1_000 {
        let (events, count) = (2 + random.below(3), 2 + random.below(4));
        let (problem, numbers) = some_facts(&mut random, events, count, 2);
        let known: Vec<usize> = members(numbers).collect();
        for arcs in 1..=5 {
            let sequences = (0..known.len().pow(arcs as u32)).map(|rank| sequence(&known, arcs, rank));
            let first = sequences.filter(|sequence| is_cycle_below_0(&problem, numbers, sequence)).min();
            assert_eq!(Walks::new(&problem, numbers).first_below_0(arcs), first, "{problem:?} {numbers:x}");
        }
    }
}

/// The plan requests of a seed that get rows, with their lines, problems and answers.
fn listed_requests(seed: u64, count: usize) -> Vec<(Vec<u8>, Problem, Screen)> {
    let mut maker = Maker::new(seed);
    let answered = (0..count).filter_map(|_| {
        let line = maker.next();
        match (request(&line), answer(request(&line).as_ref())) {
            (Some(Request::Plan(asked)), Reply::Screen(screen)) if !screen.rows.is_empty() => {
                Some((line, asked.lent.accepted().ok()?, screen))
            }
            _ => None,
        }
    });
    answered.collect()
}

/// The random requests call for rows of every kind. Another cycle as short as the reason lacks one of its arcs.
#[test]
fn rows_of_the_requests() {
    let mut seen = Seen::default();
    let requests = listed_requests(7, 25_000);
    for (_, problem, screen) in &requests {
        for row in &screen.rows {
            if let Row::Cycle(numbers) = row {
                let reason = shortest(problem, *numbers).expect("a cycle below 0");
                let without = |number: &usize| shortest(problem, numbers & !one(*number));
                let others: Vec<Vec<usize>> = reason.iter().filter_map(without).collect();
                seen.see(problem, *numbers, &reason, &[vec![reason.clone()], others].concat());
            }
        }
    }
    println!("{} requests with rows: {seen:?}", requests.len());
    assert!(requests.len() > 1_000 && seen.with_opposites > 1_000);
    assert!(seen.arcs[2..=4].iter().all(|count| *count > 200) && seen.arcs[MOST_EVENTS] > 20);
    assert!(seen.not_the_only_one_of_its_length > 500 && seen.not_the_lowest_sum_of_its_length > 300);
    assert!(seen.heavier_with_smaller_number > 200 && seen.smaller_number_too_heavy > 200);
}

/// Replies that are spoiled by another valid cycle have lists that the reader takes, not those that the search writes.
#[test]
fn other_valid_cycles() {
    let requests = listed_requests(25, 12_000);
    let names = spoil::names();
    let valid = (1..=names.len()).filter(|way| names[way - 1].starts_with("a valid cycle"));
    for way in valid {
        let mut others = 0;
        for (line, problem, screen) in &requests {
            let spoiled = spoil::replies(way, 1, line).concat();
            let bytes = spoiled.rsplit(" | ").next().expect("a list").split(' ');
            let list: Vec<u8> = bytes.map(|byte| byte.parse().expect("a byte")).collect();
            assert!(reasons::read(problem, &list), "{spoiled}");
            others += usize::from(list != screen.reasons);
        }
        println!("{}: {others} of {} lists", names[way - 1], requests.len());
        assert!(others > 0, "{}", names[way - 1]);
    }
}
