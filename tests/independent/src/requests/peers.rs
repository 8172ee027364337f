//! Scripts that solvers of SMT-LIB take too, for holding them against one another; problems to be written as such; and
//! a long one for the figures.

use super::drafts::draft;
use super::names::names;
use super::problems::of_size;
use super::texts::{self, AMPLE};
use super::writing::{tokens, write, Blanks, Comments, Tokens};
use crate::dialogue::{Asked, Request, LONGEST_SCRIPT};
use crate::problem::{Lent, MOST_ALLOWANCE, MOST_CLAUSES, MOST_EVENTS};
use crate::random::Random;
use crate::search::{search, Ending};

/// A problem needs no more visits: a script's for solvers, and one whose search is not to count beside its text.
const MOST_VISITS: u64 = 20_000;
const FEW_VISITS: u64 = 100;

/// A script of a problem, and what is to be said of it.
pub struct Script {
    pub text: Vec<u8>,
    pub expected: &'static str,
}

/// So many scripts of problems of this size.
pub fn scripts(events: usize, clauses: usize, count: usize, seed: u64) -> Result<Vec<Script>, String> {
    if !(1..=MOST_EVENTS).contains(&events) || clauses > MOST_CLAUSES {
        return Err(format!("01 has no problem of {events} events and {clauses} clauses"));
    }
    let mut random = Random::new(seed);
    Ok((0..count).map(|_| script(&mut random, events, clauses)).collect())
}

fn script(random: &mut Random, events: usize, clauses: usize) -> Script {
    let (lent, expected) = searched(random, MOST_VISITS, |random| of_size(random, events, clauses));
    let tokens = tokens_for_peers(random, &lent);
    let blanks = random.among(&[Blanks::Plain, Blanks::Fewest, Blanks::Some, Blanks::Some]);
    let comments = random.among(&[Comments::Missing, Comments::Printed]);
    Script { text: write(random, &tokens, blanks, comments).text, expected }
}

/// Two lines for each of so many problems of all sizes: write with ample room, then plan with ample allowance.
pub fn lines(count: usize, seed: u64) -> Vec<String> {
    let mut random = Random::new(seed);
    let pair = |_| {
        let (lent, _) = searched(&mut random, FEW_VISITS, texts::problem);
        let (timetable, picks) = (lent.events as usize, lent.counts.len());
        let write = Request::Write { room: AMPLE, lent: lent.clone() };
        let plan = Request::Plan(Asked { lent, allowance: MOST_ALLOWANCE, timetable, picks, reasons: 0 });
        [write, plan].map(|request| request.to_string())
    };
    (0..count).flat_map(pair).collect()
}

/// A problem, as it is made, whose search ends within so many visits; and what is to be said of it.
fn searched(random: &mut Random, visits: u64, made: impl Fn(&mut Random) -> Lent) -> (Lent, &'static str) {
    loop {
        let lent = made(random);
        let problem = lent.accepted().expect("the made problems are accepted");
        match search(&problem, visits, 0).ending {
            Ending::Plan(_) => return (lent, "sat"),
            Ending::NoPlan => return (lent, "unsat"),
            Ending::Stopped => {}
        }
    }
}

fn tokens_for_peers(random: &mut Random, lent: &Lent) -> Tokens {
    let names = names(random, lent.events as usize, is_free_in_solvers);
    let commands = draft(random, lent, &names);
    tokens(random, &commands)
}

/// True for a name that no solver keeps for itself or for a theory, or takes as a number below 0.
fn is_free_in_solvers(name: &[u8]) -> bool {
    name.iter().any(u8::is_ascii_digit) && !b"@.-".contains(&name[0])
}

/// A script of exactly so many bytes, as many commands as it has room for spread in it.
pub fn long_script(length: usize) -> Result<Vec<u8>, String> {
    let mut random = Random::new(length as u64);
    for (events, clauses) in [(MOST_EVENTS, MOST_CLAUSES), (8, 8), (2, 1), (1, 0)] {
        let (lent, _) = searched(&mut random, FEW_VISITS, |random| of_size(random, events, clauses));
        let tokens = tokens_for_peers(&mut random, &lent);
        if (2 * tokens.concat().len()..=LONGEST_SCRIPT).contains(&length) {
            return Ok(write(&mut random, &tokens, Blanks::Length(length), Comments::Printed).text);
        }
    }
    Err(format!("no script of {length} bytes is written"))
}
