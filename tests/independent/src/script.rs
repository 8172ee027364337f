//! The published script (02, A1): a text into a lent problem, going down the grammar rule by rule.

use crate::problem::{
    Lent, Refusal, AGAINST_ITSELF, FARTHEST_BOUND, MOST_ALTERNATIVES, MOST_CLAUSES, MOST_EVENTS, MOST_IN_CLAUSE,
};

pub const LONGEST_NAME: usize = 32;

/// The refusal that carries a place.
pub const NOT_ALLOWED: Refusal = 20;

/// The words that are no names: those of this subset, and the reserved words of SMT-LIB 2.6.
pub const KEPT: [&str; 49] = [
    "QF_IDL",
    "Int",
    "false",
    "or",
    "<=",
    "-",
    "!",
    "_",
    "as",
    "BINARY",
    "DECIMAL",
    "exists",
    "HEXADECIMAL",
    "forall",
    "let",
    "match",
    "NUMERAL",
    "par",
    "STRING",
    "assert",
    "check-sat",
    "check-sat-assuming",
    "declare-const",
    "declare-datatype",
    "declare-datatypes",
    "declare-fun",
    "declare-sort",
    "define-fun",
    "define-fun-rec",
    "define-funs-rec",
    "define-sort",
    "echo",
    "exit",
    "get-assertions",
    "get-assignment",
    "get-info",
    "get-model",
    "get-option",
    "get-proof",
    "get-unsat-assumptions",
    "get-unsat-core",
    "get-value",
    "pop",
    "push",
    "reset",
    "reset-assertions",
    "set-info",
    "set-logic",
    "set-option",
];

/// A refusal's number, and its byte place in the text: 0 unless the number is 20.
#[derive(Clone, Copy, Debug, PartialEq, Eq)]
pub struct Refused {
    pub number: Refusal,
    pub place: usize,
}

/// The problem that a text writes, or the fault that is complete first in it.
pub fn read(text: &[u8]) -> Result<Lent, Refused> {
    let mut reader = Reader { text, place: 0, names: Vec::new(), lent: Lent::default() };
    reader.script()?;
    Ok(reader.lent)
}

/// True for a byte that a name may begin with.
pub fn begins_name(byte: u8) -> bool {
    byte.is_ascii_alphabetic() || b"~!@$%^&*_-+=<>.?/".contains(&byte)
}

/// True for a byte that may stand in a name.
pub fn stands_in_name(byte: u8) -> bool {
    begins_name(byte) || byte.is_ascii_digit()
}

fn is_white(byte: u8) -> bool {
    b"\t\n\r ".contains(&byte)
}

fn ends_comment(byte: u8) -> bool {
    b"\n\r".contains(&byte)
}

/// A refusal without a place.
fn refused(number: Refusal) -> Refused {
    Refused { number, place: 0 }
}

/// What is read of the text so far: all before the place.
struct Reader<'a> {
    text: &'a [u8],
    place: usize,
    /// The declared names, in order.
    names: Vec<&'a [u8]>,
    lent: Lent,
}

impl<'a> Reader<'a> {
    /// The logic, then commands up to `check-sat`, then only blanks.
    fn script(&mut self) -> Result<(), Refused> {
        self.logic()?;
        while self.goes_on()? {}
        self.blanks();
        match self.next() {
            Some(_) => Err(self.not_allowed()),
            None => Ok(()),
        }
    }

    fn logic(&mut self) -> Result<(), Refused> {
        self.opening()?;
        self.word("set-logic")?;
        self.parting()?;
        self.word("QF_IDL")?;
        self.closing()
    }

    /// One command after the logic; false if it was `check-sat`.
    fn goes_on(&mut self) -> Result<bool, Refused> {
        self.opening()?;
        match self.next() {
            Some(b'd') => self.declaration()?,
            Some(b'a') => self.assertion()?,
            _ => return self.check().map(|()| false),
        }
        Ok(true)
    }

    /// `check-sat`; 1 at its end where no event was declared.
    fn check(&mut self) -> Result<(), Refused> {
        self.word("check-sat")?;
        self.closing()?;
        if self.names.is_empty() {
            return Err(refused(1));
        }
        self.lent.events = self.names.len() as u32;
        Ok(())
    }

    /// `declare-fun` or `declare-const`; 1 at its end where it is one too many.
    fn declaration(&mut self) -> Result<(), Refused> {
        self.word("declare-")?;
        match self.next() {
            Some(b'f') => self.function()?,
            _ => self.constant()?,
        }
        self.word("Int")?;
        self.closing()?;
        if self.names.len() > MOST_EVENTS {
            return Err(refused(1));
        }
        Ok(())
    }

    /// What `declare-fun` has up to `Int`.
    fn function(&mut self) -> Result<(), Refused> {
        self.word("fun")?;
        self.parting()?;
        self.declared_name()?;
        self.opening()?;
        self.closing()?;
        self.blanks();
        Ok(())
    }

    /// What `declare-const` has up to `Int`.
    fn constant(&mut self) -> Result<(), Refused> {
        self.word("const")?;
        self.parting()?;
        self.declared_name()?;
        self.parting()
    }

    /// An assert; at its end 2 where it is one too many, else 3 where the alternatives in all are.
    fn assertion(&mut self) -> Result<(), Refused> {
        self.word("assert")?;
        let parted = self.blanks();
        match self.next() {
            Some(b'f') if parted => self.word("false")?,
            _ => self.clause()?,
        }
        self.closing()?;
        let alternatives = self.lent.triples.len() / 3;
        self.lent.counts.push(alternatives as u32);
        if self.lent.counts.len() > MOST_CLAUSES {
            return Err(refused(2));
        }
        if alternatives > MOST_ALTERNATIVES {
            return Err(refused(3));
        }
        Ok(())
    }

    /// One atom, or an `or` of them.
    fn clause(&mut self) -> Result<(), Refused> {
        self.opening()?;
        match self.next() {
            Some(b'o') => self.disjunction(),
            _ => self.comparison(),
        }
    }

    /// After its parenthesis: `or` and two to four atoms.
    fn disjunction(&mut self) -> Result<(), Refused> {
        self.word("or")?;
        for atoms in 0..MOST_IN_CLAUSE {
            self.blanks();
            if atoms >= 2 && self.next() != Some(b'(') {
                break;
            }
            self.opening()?;
            self.comparison()?;
        }
        self.closing()
    }

    /// An atom after its parenthesis: `<=`, the difference of two events, and the bound; 12 at the second name's end
    /// where both are one.
    fn comparison(&mut self) -> Result<(), Refused> {
        self.word("<=")?;
        self.opening()?;
        self.word("-")?;
        self.parting()?;
        let x = self.event()?;
        self.parting()?;
        let y = self.event()?;
        if x == y {
            return Err(refused(AGAINST_ITSELF));
        }
        self.closing()?;
        let c = self.bound()?;
        self.closing()?;
        self.lent.triples.extend([x, y, c]);
        Ok(())
    }

    /// A numeral, or a negated one in parentheses.
    fn bound(&mut self) -> Result<i32, Refused> {
        self.blanks();
        if self.next() != Some(b'(') {
            return self.numeral();
        }
        self.opening()?;
        self.word("-")?;
        self.parting()?;
        let size = self.numeral()?;
        self.closing()?;
        Ok(-size)
    }

    /// 0, or digits that begin with another; 6 at the last digit of one too large.
    fn numeral(&mut self) -> Result<i32, Refused> {
        let digits = match self.next() {
            Some(b'0') => self.run(1, |byte| byte == b'0'),
            Some(b'1'..=b'9') => self.run(usize::MAX, |byte| byte.is_ascii_digit()),
            _ => return Err(self.not_allowed()),
        };
        let size = digits.iter().fold(0, |size, digit| (10 * size + i64::from(digit - b'0')).min(FARTHEST_BOUND + 1));
        if size > FARTHEST_BOUND {
            return Err(refused(6));
        }
        Ok(size as i32)
    }

    /// Takes a new name: not too long, not kept, not declared before.
    fn declared_name(&mut self) -> Result<(), Refused> {
        let start = self.place;
        let name = self.name()?;
        let kept = KEPT.iter().any(|word| word.as_bytes() == name);
        if name.len() > LONGEST_NAME || kept || self.names.contains(&name) {
            return Err(Refused { number: NOT_ALLOWED, place: start });
        }
        self.names.push(name);
        Ok(())
    }

    /// The event that a declared name stands for.
    fn event(&mut self) -> Result<i32, Refused> {
        let start = self.place;
        let name = self.name()?;
        match self.names.iter().position(|declared| *declared == name) {
            Some(event) => Ok(event as i32),
            None => Err(Refused { number: NOT_ALLOWED, place: start }),
        }
    }

    /// A name as it stands: the longest run of its bytes.
    fn name(&mut self) -> Result<&'a [u8], Refused> {
        match self.next() {
            Some(byte) if begins_name(byte) => Ok(self.run(usize::MAX, stands_in_name)),
            _ => Err(self.not_allowed()),
        }
    }

    /// An opening parenthesis, with blanks around it allowed.
    fn opening(&mut self) -> Result<(), Refused> {
        self.blanks();
        self.word("(")?;
        self.blanks();
        Ok(())
    }

    /// A closing parenthesis, with blanks before it allowed.
    fn closing(&mut self) -> Result<(), Refused> {
        self.blanks();
        self.word(")")
    }

    /// Blanks, of which one must be there.
    fn parting(&mut self) -> Result<(), Refused> {
        if self.blanks() {
            Ok(())
        } else {
            Err(self.not_allowed())
        }
    }

    /// Passes over white space and comments; true if there was any.
    fn blanks(&mut self) -> bool {
        let start = self.place;
        while let Some(byte) = self.next() {
            if byte == b';' {
                self.run(usize::MAX, |byte| !ends_comment(byte));
            } else if is_white(byte) {
                self.place += 1;
            } else {
                break;
            }
        }
        self.place > start
    }

    /// The bytes from here that are as chosen, `most` of them at most.
    fn run(&mut self, most: usize, chosen: fn(u8) -> bool) -> &'a [u8] {
        let left = &self.text[self.place..];
        let length = left.iter().take(most).take_while(|byte| chosen(**byte)).count();
        self.place += length;
        &left[..length]
    }

    /// These bytes, one after the other.
    fn word(&mut self, word: &str) -> Result<(), Refused> {
        for byte in word.bytes() {
            if self.next() != Some(byte) {
                return Err(self.not_allowed());
            }
            self.place += 1;
        }
        Ok(())
    }

    /// The byte at the place; None at the text's end.
    fn next(&self) -> Option<u8> {
        self.text.get(self.place).copied()
    }

    /// The text may not go on, or end, as it does here.
    fn not_allowed(&self) -> Refused {
        Refused { number: NOT_ALLOWED, place: self.place }
    }
}
