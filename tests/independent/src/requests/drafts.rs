//! Drafts of scripts: the commands between set-logic and check-sat, before they are written; and their faults.

use super::names::{faulty, Name};
use super::problems::{self, apart, lent, Triple};
use crate::problem::{Lent, MOST_ALTERNATIVES, MOST_CLAUSES, MOST_EVENTS, MOST_IN_CLAUSE};
use crate::random::Random;

#[derive(Clone)]
pub enum Command {
    Declare(Name),
    Assert(Vec<Atom>),
    /// An assert of an `or`, whatever the number of its atoms.
    AssertOr(Vec<Atom>),
}

/// The difference of two names, and the bound as it is written: a numeral, negated or not.
#[derive(Clone)]
pub struct Atom {
    pub x: Name,
    pub y: Name,
    pub negated: bool,
    pub numeral: Vec<u8>,
}

/// The commands of a problem; each event is declared before its use, and at times no sooner.
pub fn draft(random: &mut Random, lent: &Lent, names: &[Name]) -> Vec<Command> {
    let soon = random.among(&[1, 1, 4, 1_000]);
    let mut declarations = names.iter().cloned().map(Command::Declare);
    let mut commands = Vec::new();
    let mut start = 0;
    for end in lent.counts.iter().map(|count| *count as usize) {
        let triples = &lent.triples[3 * start..3 * end];
        let used = triples.chunks(3).flat_map(|triple| &triple[..2]).map(|event| *event as usize + 1).max();
        let declared = names.len() - declarations.len();
        commands.extend(declarations.by_ref().take(used.unwrap_or(0).saturating_sub(declared)));
        while declarations.len() > 0 && random.one_in(soon) {
            commands.extend(declarations.next());
        }
        commands.push(Command::Assert(triples.chunks(3).map(|triple| atom(random, triple, names)).collect()));
        start = end;
    }
    commands.extend(declarations);
    commands
}

fn atom(random: &mut Random, triple: &[i32], names: &[Name]) -> Atom {
    let name = |event: i32| names[event as usize].clone();
    let negated = triple[2] < 0 || triple[2] == 0 && random.one_in(3);
    let numeral = triple[2].unsigned_abs().to_string().into_bytes();
    Atom { x: name(triple[0]), y: name(triple[1]), negated, numeral }
}

/// A problem for a script: of any shape, or at the edges of 01's sizes and past them.
pub fn problem(random: &mut Random) -> Lent {
    match random.below(12) {
        0..=1 => many_events(random),
        2 => many_clauses(random),
        3..=4 => many_alternatives(random),
        5..=8 => problems::tiny(random),
        _ => problems::problem(random),
    }
}

/// No event, or as many as are taken and more, in few asserts.
fn many_events(random: &mut Random) -> Lent {
    let (most, more) = (MOST_EVENTS, MOST_EVENTS + 1);
    let events = random.among(&[0, most, most, more, more, more + 1, 2 * most]);
    let count = random.below(4);
    lent(events, &clauses(random, events, &vec![1; count]))
}

/// Around 32 asserts, of few alternatives; at times so that the 33rd is too many in both ways.
fn many_clauses(random: &mut Random) -> Lent {
    let count = MOST_CLAUSES + random.among(&[0, 1, 1, 2, 3]);
    let most = random.among(&[0, 1, 2]);
    let mut sizes: Vec<usize> = (0..count).map(|_| random.below(most + 1)).collect();
    if random.one_in(2) {
        sizes[..MOST_CLAUSES].fill(2);
        sizes[count - 1] = random.below(MOST_IN_CLAUSE + 1);
    }
    let events = 2 + random.below(3);
    lent(events, &clauses(random, events, &sizes))
}

/// Around 64 alternatives in all, up to four too many at once.
fn many_alternatives(random: &mut Random) -> Lent {
    let mut left = MOST_ALTERNATIVES + random.among(&[0, 0, 1, 1, 2, 3, 4, 9]);
    let least = random.among(&[0, 1, 2, 3]);
    let mut sizes = Vec::new();
    while left > 0 {
        let size = (least + random.below(MOST_IN_CLAUSE + 1 - least)).min(left);
        sizes.push(size);
        left -= size;
    }
    let events = problems::some_events(random, 2);
    lent(events, &clauses(random, events, &sizes))
}

/// Clauses of these sizes; empty ones where there are no two events.
fn clauses(random: &mut Random, events: usize, sizes: &[usize]) -> Vec<Vec<Triple>> {
    let clause = |size: &usize| problems::clause(random, events, *size, |random| apart(random, events, 20));
    sizes.iter().map(clause).collect()
}

/// Puts one fault into the commands: in a name, in a bound, an event against itself, or in their order.
pub fn spoil(random: &mut Random, commands: &mut Vec<Command>) {
    if commands.is_empty() {
        return;
    }
    match random.below(16) {
        0..=1 => spoil_declared_name(random, commands),
        2..=4 => spoil_used_name(random, commands),
        5..=8 => spoil_numeral(random, commands),
        9 => declare_again(random, commands),
        10 => spoil_or(random, commands),
        11..=13 => set_against_itself(random, commands),
        14 => {
            let (one, other) = (random.below(commands.len()), random.below(commands.len()));
            commands.swap(one, other);
        }
        _ => drop(commands.remove(random.below(commands.len()))),
    }
}

fn spoil_declared_name(random: &mut Random, commands: &mut [Command]) {
    let mut names: Vec<&mut Name> = commands.iter_mut().filter_map(declared).collect();
    if !names.is_empty() {
        let (chosen, other) = (random.below(names.len()), random.below(names.len()));
        *names[chosen] = if random.one_in(4) { names[other].clone() } else { faulty(random, names[chosen]) };
    }
}

fn declared(command: &mut Command) -> Option<&mut Name> {
    match command {
        Command::Declare(name) => Some(name),
        Command::Assert(_) | Command::AssertOr(_) => None,
    }
}

/// A declaration of a name that may be declared already, somewhere.
fn declare_again(random: &mut Random, commands: &mut Vec<Command>) {
    let names: Vec<Name> = commands.iter_mut().filter_map(declared).map(|name| name.clone()).collect();
    if !names.is_empty() {
        let name = names[random.below(names.len())].clone();
        commands.insert(random.below(commands.len() + 1), Command::Declare(name));
    }
}

/// Changes one of the atoms, where there are any.
fn change_atom(random: &mut Random, commands: &mut [Command], change: fn(&mut Random, &mut Atom)) {
    let atoms = commands.iter_mut().flat_map(|command| match command {
        Command::Declare(_) => &mut [],
        Command::Assert(atoms) | Command::AssertOr(atoms) => &mut atoms[..],
    });
    let mut atoms: Vec<&mut Atom> = atoms.collect();
    if !atoms.is_empty() {
        let chosen = random.below(atoms.len());
        change(random, atoms[chosen]);
    }
}

/// Asserts an `or` of none to six atoms somewhere, all equal to one that is asserted.
fn spoil_or(random: &mut Random, commands: &mut [Command]) {
    let chosen = random.below(commands.len());
    if let Command::Assert(atoms) = &mut commands[chosen] {
        let atom = atoms.pop();
        let count = random.among(&[0, 1, 1, 5, 5, 6]);
        commands[chosen] = Command::AssertOr(atom.into_iter().cycle().take(count).collect());
    }
}

fn spoil_used_name(random: &mut Random, commands: &mut [Command]) {
    change_atom(random, commands, |random, atom| {
        let name = if random.one_in(2) { &mut atom.x } else { &mut atom.y };
        *name = faulty(random, name);
    });
}

/// Sets an atom's event against itself; at times beside a fault in a name or in the bound.
fn set_against_itself(random: &mut Random, commands: &mut [Command]) {
    change_atom(random, commands, |random, atom| {
        atom.y = atom.x.clone();
        match random.below(8) {
            0 => atom.x = faulty(random, &atom.x),
            1 => atom.y = faulty(random, &atom.y),
            2 => {
                atom.x = faulty(random, &atom.x);
                atom.y = atom.x.clone();
            }
            3..=4 => atom.numeral = numeral(random),
            _ => {}
        }
    });
}

fn spoil_numeral(random: &mut Random, commands: &mut [Command]) {
    change_atom(random, commands, |random, atom| atom.numeral = numeral(random));
}

/// A numeral at the edge of the bounds or far past it, at times with leading zeros.
fn numeral(random: &mut Random) -> Vec<u8> {
    let zeros = if random.one_in(6) { 1 + random.below(3) } else { 0 };
    let most_zeros = random.among(&[8, 40, 3_000]);
    let digits = match random.below(8) {
        0..=1 => random.among(&["99999", "100000", "0", "9", "10"]).to_string(),
        2..=3 => random.among(&["100001", "100010", "200000", "999999", "1000000"]).to_string(),
        4 => random.among(&["2147483648", "4294967296", "4295067296", "18446744073709551616"]).to_string(),
        5 => ((1_u128 << random.among(&[16, 31, 32, 63, 64, 127])) + random.below(200_000) as u128).to_string(),
        6 => random.between(100_001, 200_000).to_string(),
        _ => format!("1{}", "0".repeat(random.below(most_zeros))),
    };
    ["0".repeat(zeros), digits].concat().into_bytes()
}
