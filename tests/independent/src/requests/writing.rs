//! The writing of scripts: a draft as tokens, and the tokens as a text, with blanks of many kinds between them.

use super::drafts::{Atom, Command};
use crate::random::Random;
use crate::script::stands_in_name;

/// Parentheses, words, names and numerals.
pub type Tokens = Vec<Vec<u8>>;

/// What stands between the tokens.
#[derive(Clone, Copy)]
pub enum Blanks {
    /// A line feed after each command, and single spaces inside, as A5 writes.
    Plain,
    /// One byte where something must stand, and nothing elsewhere.
    Fewest,
    /// Something here and there.
    Some,
    /// As much as makes the text so many bytes long.
    Length(usize),
}

/// What comments there are.
#[derive(Clone, Copy, PartialEq, Eq)]
pub enum Comments {
    Missing,
    /// Printed bytes of ASCII, each comment ended by a line feed.
    Printed,
    /// Any bytes, each comment ended by a line feed or a carriage return.
    Any,
}

/// A text, and per token the place where it ends.
pub struct Written {
    pub text: Vec<u8>,
    pub ends: Vec<usize>,
}

/// The tokens of a whole script with these commands.
pub fn tokens(random: &mut Random, commands: &[Command]) -> Tokens {
    let mut tokens = Vec::new();
    push(&mut tokens, &["(", "set-logic", "QF_IDL", ")"]);
    for command in commands {
        match command {
            Command::Declare(name) if random.one_in(2) => declare(&mut tokens, "declare-fun", name, &["(", ")"]),
            Command::Declare(name) => declare(&mut tokens, "declare-const", name, &[]),
            Command::Assert(atoms) => assert(&mut tokens, atoms, atoms.len() > 1),
            Command::AssertOr(atoms) => assert(&mut tokens, atoms, true),
        }
    }
    push(&mut tokens, &["(", "check-sat", ")"]);
    tokens
}

fn push(tokens: &mut Tokens, words: &[&str]) {
    tokens.extend(words.iter().map(|word| word.as_bytes().to_vec()));
}

fn declare(tokens: &mut Tokens, word: &str, name: &[u8], arguments: &[&str]) {
    push(tokens, &["(", word]);
    tokens.push(name.to_vec());
    push(tokens, arguments);
    push(tokens, &["Int", ")"]);
}

fn assert(tokens: &mut Tokens, atoms: &[Atom], with_or: bool) {
    push(tokens, &["(", "assert"]);
    if with_or {
        push(tokens, &["(", "or"]);
    } else if atoms.is_empty() {
        push(tokens, &["false"]);
    }
    atoms.iter().for_each(|atom| push_atom(tokens, atom));
    if with_or {
        push(tokens, &[")"]);
    }
    push(tokens, &[")"]);
}

fn push_atom(tokens: &mut Tokens, atom: &Atom) {
    push(tokens, &["(", "<=", "(", "-"]);
    tokens.extend([atom.x.clone(), atom.y.clone()]);
    push(tokens, &[")"]);
    if atom.negated {
        push(tokens, &["(", "-"]);
    }
    tokens.push(atom.numeral.clone());
    if atom.negated {
        push(tokens, &[")"]);
    }
    push(tokens, &[")"]);
}

/// The text of the tokens.
pub fn write(random: &mut Random, tokens: &[Vec<u8>], blanks: Blanks, comments: Comments) -> Written {
    let gaps: Vec<Vec<u8>> = match blanks {
        Blanks::Plain => plain_gaps(tokens),
        _ => rooms(random, tokens, blanks).iter().map(|room| filling(random, *room, comments)).collect(),
    };
    let mut written = Written { text: gaps[0].clone(), ends: Vec::new() };
    for (token, gap) in tokens.iter().zip(&gaps[1..]) {
        written.text.extend(token);
        written.ends.push(written.text.len());
        written.text.extend(gap);
    }
    written
}

/// What A5 writes before the first token and after each.
fn plain_gaps(tokens: &[Vec<u8>]) -> Vec<Vec<u8>> {
    let mut depth = 0;
    let mut gaps = vec![Vec::new()];
    for (place, token) in tokens.iter().enumerate() {
        depth += i32::from(token == b"(") - i32::from(token == b")");
        let inside = token == b"(" || tokens.get(place + 1).is_none_or(|next| next == b")");
        gaps.push(match (depth, inside) {
            (0, _) => b"\n".to_vec(),
            (_, true) => Vec::new(),
            _ => b" ".to_vec(),
        });
    }
    gaps
}

/// How many bytes stand before the first token and after each.
fn rooms(random: &mut Random, tokens: &[Vec<u8>], blanks: Blanks) -> Vec<usize> {
    let run_together = |pair: &[Vec<u8>]| pair.iter().flatten().all(|byte| stands_in_name(*byte));
    let between = tokens.windows(2).map(|pair| usize::from(run_together(pair)));
    let mut rooms: Vec<usize> = std::iter::once(0).chain(between).chain([0]).collect();
    match blanks {
        Blanks::Length(length) => spread(random, &mut rooms, length - tokens.concat().len()),
        Blanks::Some => {
            let seldom = random.among(&[1, 2, 3, 10]);
            rooms.iter_mut().for_each(|room| *room += if random.one_in(seldom) { some_room(random) } else { 0 });
        }
        Blanks::Plain | Blanks::Fewest => {}
    }
    rooms
}

fn some_room(random: &mut Random) -> usize {
    match random.below(20) {
        0 => random.below(60),
        1..=3 => random.below(9),
        _ => 1,
    }
}

/// Makes the rooms larger here and there, until they are so many bytes in all.
fn spread(random: &mut Random, rooms: &mut [usize], bytes: usize) {
    let mut left = bytes - rooms.iter().sum::<usize>();
    let most = 2 + 4 * left / rooms.len();
    while left > 0 {
        let more = (1 + random.below(most)).min(left);
        rooms[random.below(rooms.len())] += more;
        left -= more;
    }
}

/// White space and comments of so many bytes.
fn filling(random: &mut Random, room: usize, comments: Comments) -> Vec<u8> {
    let mut bytes = Vec::with_capacity(room);
    while bytes.len() < room {
        let left = room - bytes.len();
        if left >= 2 && comments != Comments::Missing && random.one_in(3) {
            let length = 2 + random.below(left.min(100) - 1);
            bytes.extend(comment(random, length, comments));
        } else {
            bytes.push(random.among(b"   \n\n\t\r"));
        }
    }
    bytes
}

/// A comment of so many bytes, the one that ends it counted.
fn comment(random: &mut Random, length: usize, comments: Comments) -> Vec<u8> {
    let byte = |random: &mut Random| match comments {
        Comments::Any => random.below(256) as u8,
        _ => random.between(b' '.into(), b'~'.into()) as u8,
    };
    let mut bytes = vec![b';'];
    while bytes.len() + 1 < length {
        let some = if random.one_in(4) { random.among(b"();- e0") } else { byte(random) };
        bytes.extend([some].iter().filter(|byte| !b"\n\r".contains(byte)));
    }
    bytes.push(if comments == Comments::Any { random.among(b"\n\r") } else { b'\n' });
    bytes
}
