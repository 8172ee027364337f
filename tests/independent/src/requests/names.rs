//! Names for scripts: of many shapes, near one another, and words that are kept or nearly so.

use crate::random::Random;
use crate::script::{begins_name, stands_in_name, KEPT, LONGEST_NAME};

pub type Name = Vec<u8>;

/// Names that are no kept words, though parts of a script or near one.
pub const NEAR: &str =
    "Or OR o r orr and not true fals falsee False In int INT Ints Bool Real < = > <== >= =< -- -x -1 + +1 \
    __ _1 !! a ass As asserts asser Assert binary BINARYS decimal lets Let le matc p pars push1 pops resets reset- \
    set_logic set-logics set- QF_LIA QF_ID qf_idl check-sat- check-sa declare- declare-funs define-fun-re define- \
    get- get-unsat";

/// One of the words that single spaces part.
pub fn some_word(random: &mut Random, words: &str) -> Vec<u8> {
    let words: Vec<&str> = words.split(' ').collect();
    random.among(&words).into()
}

/// So many names that a script may declare, all different and all as chosen.
pub fn names(random: &mut Random, count: usize, chosen: fn(&[u8]) -> bool) -> Vec<Name> {
    let mut names: Vec<Name> = Vec::new();
    while names.len() < count {
        let name = match names.last() {
            Some(last) if random.one_in(5) => neighbour(random, last),
            _ => shaped(random),
        };
        if is_name(&name) && chosen(&name) && !names.contains(&name) {
            names.push(name);
        }
    }
    names
}

/// True for a name that a script may declare.
fn is_name(name: &[u8]) -> bool {
    let kept = KEPT.iter().any(|word| word.as_bytes() == name);
    name.len() <= LONGEST_NAME && name.first().is_some_and(|byte| begins_name(*byte)) && !kept
}

fn shaped(random: &mut Random) -> Name {
    match random.below(12) {
        0..=3 => format!("{}{}", random.among(&["e", "x", "t_", "Gate", "a"]), random.below(30)).into(),
        4..=5 => symbols(random, 1),
        6..=7 => {
            let length = 2 + random.below(9);
            symbols(random, length)
        }
        8 => {
            let length = LONGEST_NAME - random.below(2);
            symbols(random, length)
        }
        9 => some_word(random, NEAR),
        10 => {
            let kept = random.among(&KEPT).as_bytes();
            neighbour(random, kept)
        }
        _ => format!("event-{}", random.below(100)).into(),
    }
}

/// A simple symbol of this length, of any of its bytes.
fn symbols(random: &mut Random, length: usize) -> Name {
    let beginning: Vec<u8> = (0..128).filter(|byte| begins_name(*byte)).collect();
    let further: Vec<u8> = (0..128).filter(|byte| stands_in_name(*byte)).collect();
    let mut name = vec![random.among(&beginning)];
    name.resize_with(length, || random.among(&further));
    name
}

/// A name with one letter changed, added or left out.
fn neighbour(random: &mut Random, name: &[u8]) -> Name {
    let mut other = name.to_vec();
    let place = random.below(other.len());
    let letter = symbols(random, 1)[0];
    match random.below(6) {
        0 => other.insert(place, letter),
        1 => other.push(letter),
        2 if other.len() > 1 => drop(other.pop()),
        _ => other[place] = letter,
    }
    other
}

/// What a fault puts where this name stood: a kept word, a name too long or near it, or no name.
pub fn faulty(random: &mut Random, name: &[u8]) -> Name {
    match random.below(9) {
        0..=1 => random.among(&KEPT).into(),
        2 => symbols(random, LONGEST_NAME + 1),
        3 => {
            let most = random.among(&[2, 32, 2_000]);
            let length = LONGEST_NAME + 1 + random.below(most);
            symbols(random, length)
        }
        4 => name.iter().copied().cycle().take(LONGEST_NAME + random.below(2)).collect(),
        5 => some_word(random, NEAR),
        6 => [&[random.among(b"0159")], name].concat(),
        _ => neighbour(random, name),
    }
}
