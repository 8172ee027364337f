//! Script requests: problems written in many ways, with faults in their commands, their tokens and their bytes.

use super::drafts::{self, draft, Command};
use super::names::{names, some_word};
use super::problems;
use super::writing::{tokens, write, Blanks, Comments, Tokens, Written};
use crate::dialogue::{Request, LONGEST_SCRIPT};
use crate::problem::Lent;
use crate::random::Random;
use crate::script::{self, NOT_ALLOWED};

/// Tokens that a fault puts in: most are words of the grammar, the others of SMT-LIB or of none.
const TOKENS: &str =
    "( ) ( ) ( ) () - <= or false Int QF_IDL assert check-sat declare-fun declare-const set-logic 0 7 07 \
    -7 1.5 true and < = Real exit x e1 |e1| :named #b1 \"e1\" ;";

/// Bytes that a fault puts in: parts of tokens, blanks, and bytes that no token has.
const BYTES: &[u8] = b"()()--;;<=oraf09 \n\r\t\0\x0b\x0c\x1f\x7f\x80\xa0\xff|\"#:,'`[]{}\\ex_.~";

pub fn request(random: &mut Random) -> Request {
    let mut text = if random.one_in(4) { sound(random).1 } else { maybe_faulty(random) };
    text.truncate(LONGEST_SCRIPT);
    Request::Script { text }
}

/// A problem that is accepted, and a script of it.
pub fn sound(random: &mut Random) -> (Lent, Vec<u8>) {
    let lent = problems::problem(random);
    let commands = some_draft(random, &lent);
    let tokens = tokens(random, &commands);
    let mut text = some_text(random, &tokens).text;
    if random.one_in(4) {
        text.extend(b"; no line feed");
    }
    (lent, text)
}

/// A script with faults at times: in its sizes, its commands, its tokens and its bytes.
fn maybe_faulty(random: &mut Random) -> Vec<u8> {
    let lent = drafts::problem(random);
    let mut commands = some_draft(random, &lent);
    for _ in 0..random.among(&[0, 0, 1, 2]) {
        drafts::spoil(random, &mut commands);
    }
    let mut tokens = tokens(random, &commands);
    if random.one_in(6) {
        change_tokens(random, &mut tokens);
    }
    let mut written = some_text(random, &tokens);
    for _ in 0..random.among(&[0, 0, 0, 1, 1, 2]) {
        change_bytes(random, &mut written);
    }
    written.text
}

fn some_draft(random: &mut Random, lent: &Lent) -> Vec<Command> {
    let names = names(random, lent.events as usize, |_| true);
    draft(random, lent, &names)
}

fn some_text(random: &mut Random, tokens: &Tokens) -> Written {
    let blanks = blanks(random, tokens);
    let comments = random.among(&[Comments::Missing, Comments::Printed, Comments::Any, Comments::Any]);
    write(random, tokens, blanks, comments)
}

/// Some way of writing these tokens; seldom as the longest text.
fn blanks(random: &mut Random, tokens: &Tokens) -> Blanks {
    let fewest = 2 * tokens.concat().len();
    match random.below(300) {
        0 => Blanks::Length(LONGEST_SCRIPT.max(fewest)),
        1..=2 => Blanks::Length(fewest + random.below(LONGEST_SCRIPT / 2)),
        3..=20 => Blanks::Length(fewest + random.below(5_000)),
        21..=80 => Blanks::Plain,
        81..=140 => Blanks::Fewest,
        _ => Blanks::Some,
    }
}

/// Leaves out, doubles, exchanges, replaces or puts in one token, or writes two as one.
fn change_tokens(random: &mut Random, tokens: &mut Tokens) {
    let near_an_end = random.among(&[0, tokens.len() - 7]) + random.below(7);
    let place = if random.one_in(3) { near_an_end } else { random.below(tokens.len()) };
    let other = random.below(tokens.len());
    match random.below(8) {
        0..=1 => drop(tokens.remove(place)),
        2 => tokens.insert(place, tokens[place].clone()),
        3 => tokens.swap(place, place.saturating_sub(1)),
        4 => tokens.swap(place, other),
        5 => tokens[place] = some_word(random, TOKENS),
        6 if place > 0 => {
            let token = tokens.remove(place);
            tokens[place - 1].extend(token);
        }
        _ => tokens.insert(place, some_word(random, TOKENS)),
    }
}

/// Cuts the text, or changes, leaves out, puts in or exchanges bytes; often where a token ends.
fn change_bytes(random: &mut Random, written: &mut Written) {
    let place = place(random, written);
    let text = &mut written.text;
    if text.is_empty() {
        return;
    }
    let inside = place.min(text.len() - 1);
    match random.below(13) {
        0..=3 => text.truncate(place),
        4..=5 => text[inside] = some_byte(random),
        6..=7 => drop(text.remove(inside)),
        8..=9 => text.insert(place, some_byte(random)),
        10 => text.swap(inside, inside.saturating_sub(1)),
        11 => text.insert(place, random.among(b"\0\x0b\x0c\x1f\x85\xa0,")),
        _ => {
            let other = random.below(text.len());
            text.swap(inside, other);
        }
    }
}

/// A place in the text: any, where a token ends or beside that, or near where a refusal is complete.
fn place(random: &mut Random, written: &Written) -> usize {
    let length = written.text.len();
    let place = match (random.below(6), refusal_place(&written.text)) {
        (0..=1, Some(place)) => (place + random.below(7)).saturating_sub(3),
        (0..=3, _) => written.ends[random.below(written.ends.len())],
        (4, _) => written.ends[random.below(written.ends.len())] + 1 - 2 * random.below(2),
        _ => random.below(length + 1),
    };
    place.min(length)
}

/// The place of a refusal, or how much of the text must be there for one without a place.
pub fn refusal_place(text: &[u8]) -> Option<usize> {
    let refused = script::read(text).err()?;
    if refused.number == NOT_ALLOWED {
        return Some(refused.place);
    }
    let (mut without, mut with) = (0, text.len());
    while without < with {
        let middle = (without + with) / 2;
        if script::read(&text[..middle]) == Err(refused) {
            with = middle;
        } else {
            without = middle + 1;
        }
    }
    Some(with)
}

fn some_byte(random: &mut Random) -> u8 {
    if random.one_in(4) {
        random.below(256) as u8
    } else {
        random.among(BYTES)
    }
}
