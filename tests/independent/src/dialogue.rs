//! The dialogue's grammar (DIALOGUE.md): a line of bytes into a request, and a request into its line.

use crate::day::{Added, Day, ENTRIES};
use crate::problem::Lent;
use crate::slider::{Kind, Use};
use std::fmt::{self, Display};

pub const LONGEST_LINE: usize = 1 << 20;
pub const MOST_TRIPLE_NUMBERS: usize = 256;
pub const MOST_COUNTS: usize = 64;
pub const MOST_TIMES: usize = 64;
pub const MOST_REASONS: usize = 65_536;
pub const LONGEST_SCRIPT: usize = 65_536;
pub const MOST_ROOM: usize = 65_536;

#[derive(Clone, Debug, PartialEq, Eq)]
pub enum Request {
    Plan(Asked),
    Reasons { lent: Lent, list: Vec<u8> },
    Times { lent: Lent, times: Vec<i32> },
    Lamps { lent: Lent },
    Slide { kind: Kind, position: u32, used: Use },
    Script { text: Vec<u8> },
    Write { room: usize, lent: Lent },
    Day { day: Day, added: Added, timetable: usize },
}

/// A plan request: the problem, the allowance, and how many elements of each result are lent.
#[derive(Clone, Debug, PartialEq, Eq)]
pub struct Asked {
    pub lent: Lent,
    pub allowance: u32,
    pub timetable: usize,
    pub picks: usize,
    pub reasons: usize,
}

/// The request that a line (without its line feed) makes; None where it is malformed.
pub fn request(line: &[u8]) -> Option<Request> {
    if line.len() > LONGEST_LINE {
        return None;
    }
    let mut words = Words { left: Some(line) };
    let request = match words.next()? {
        b"plan" => Request::Plan(words.asked()?),
        b"reasons" => words.reasons()?,
        b"times" => words.times()?,
        b"lamps" => Request::Lamps { lent: words.rest_of_lent(None)? },
        b"slide" => words.slide()?,
        b"script" => Request::Script { text: words.bytes(LONGEST_SCRIPT)? },
        b"write" => Request::Write { room: words.count(MOST_ROOM)?, lent: words.rest_of_lent(None)? },
        b"day" => words.day()?,
        _ => return None,
    };
    words.left.is_none().then_some(request)
}

/// The words of a line that are still to be read; None once the last was taken.
struct Words<'a> {
    left: Option<&'a [u8]>,
}

impl<'a> Words<'a> {
    /// The next word, which ends at a single space or at the line's end.
    fn next(&mut self) -> Option<&'a [u8]> {
        let left = self.left?;
        match left.iter().position(|byte| *byte == b' ') {
            Some(space) => {
                self.left = Some(&left[space + 1..]);
                Some(&left[..space])
            }
            None => {
                self.left = None;
                Some(left)
            }
        }
    }

    fn unsigned(&mut self, most: u32) -> Option<u32> {
        unsigned(self.next()?, most)
    }

    fn count(&mut self, most: usize) -> Option<usize> {
        self.unsigned(most as u32).map(|count| count as usize)
    }

    /// A count, then as many numbers.
    fn counted<T>(&mut self, most: usize, number: fn(&[u8]) -> Option<T>) -> Option<Vec<T>> {
        let count = self.count(most)?;
        self.numbers(count, number)
    }

    /// So many numbers.
    fn numbers<T>(&mut self, count: usize, number: fn(&[u8]) -> Option<T>) -> Option<Vec<T>> {
        (0..count).map(|_| number(self.next()?)).collect()
    }

    /// A count, then as many bytes.
    fn bytes(&mut self, most: usize) -> Option<Vec<u8>> {
        self.counted(most, |word| unsigned(word, 255).map(|byte| byte as u8))
    }

    /// The problem's parts after N; N itself where it was not read before.
    fn rest_of_lent(&mut self, events: Option<u32>) -> Option<Lent> {
        Some(Lent {
            events: match events {
                Some(events) => events,
                None => self.unsigned(u32::MAX)?,
            },
            triples: self.counted(MOST_TRIPLE_NUMBERS, signed)?,
            counts: self.counted(MOST_COUNTS, |word| unsigned(word, u32::MAX))?,
        })
    }

    fn asked(&mut self) -> Option<Asked> {
        let events = self.unsigned(u32::MAX)?;
        Some(Asked {
            allowance: self.unsigned(u32::MAX)?,
            timetable: self.count(MOST_TIMES)?,
            picks: self.count(MOST_TIMES)?,
            reasons: self.count(MOST_REASONS)?,
            lent: self.rest_of_lent(Some(events))?,
        })
    }

    fn reasons(&mut self) -> Option<Request> {
        let lent = self.rest_of_lent(None)?;
        let list = self.bytes(MOST_REASONS)?;
        Some(Request::Reasons { lent, list })
    }

    fn times(&mut self) -> Option<Request> {
        let lent = self.rest_of_lent(None)?;
        let times = self.counted(MOST_TIMES, signed)?;
        Some(Request::Times { lent, times })
    }

    fn slide(&mut self) -> Option<Request> {
        let kind = self.unsigned(2)?;
        let (a, b) = (self.unsigned(u32::MAX)?, self.unsigned(u32::MAX)?);
        let position = self.unsigned(u32::MAX)?;
        let used = if self.unsigned(1)? == 0 { Use::AtMost } else { Use::AtLeast };
        let kind = match (kind, b) {
            (0, _) => Kind::Span { low: a, high: b },
            (1, 0) => Kind::Rate { work: a },
            (2, 0) => Kind::Fixed { value: a },
            _ => return None,
        };
        Some(Request::Slide { kind, position, used })
    }

    fn day(&mut self) -> Option<Request> {
        let events = self.unsigned(u32::MAX)?;
        let opposite = self.unsigned(1)? == 1;
        let (x, y, c) = (signed(self.next()?)?, signed(self.next()?)?, signed(self.next()?)?);
        let timetable = self.count(MOST_TIMES)?;
        let day = Day { events, entries: self.numbers(ENTRIES, signed)? };
        Some(Request::Day { day, added: Added { opposite, x, y, c }, timetable })
    }
}

/// One or more digits, with a value not above `most`.
fn unsigned(word: &[u8], most: u32) -> Option<u32> {
    magnitude(word, most).map(|value| value as u32)
}

/// One or more digits, a minus before them allowed, with a value of the signed 32-bit type.
fn signed(word: &[u8]) -> Option<i32> {
    let value = match word.strip_prefix(b"-") {
        Some(digits) => -magnitude(digits, i32::MIN.unsigned_abs())?,
        None => magnitude(word, i32::MAX as u32)?,
    };
    i32::try_from(value).ok()
}

fn magnitude(digits: &[u8], most: u32) -> Option<i64> {
    if digits.is_empty() {
        return None;
    }
    let mut value = 0;
    for digit in digits {
        if !digit.is_ascii_digit() {
            return None;
        }
        value = value * 10 + i64::from(digit - b'0');
        if value > i64::from(most) {
            return None;
        }
    }
    Some(value)
}

/// Numbers parted by single spaces.
pub struct Spaced<'a, T>(pub &'a [T]);

impl<T: Display> Display for Spaced<'_, T> {
    fn fmt(&self, f: &mut fmt::Formatter) -> fmt::Result {
        for (place, number) in self.0.iter().enumerate() {
            if place > 0 {
                f.write_str(" ")?;
            }
            number.fmt(f)?;
        }
        Ok(())
    }
}

/// A count, then as many numbers, each after a space.
struct Counted<'a, T>(&'a [T]);

impl<T: Display> Display for Counted<'_, T> {
    fn fmt(&self, f: &mut fmt::Formatter) -> fmt::Result {
        write!(f, "{}", self.0.len())?;
        self.0.iter().try_for_each(|number| write!(f, " {number}"))
    }
}

impl Display for Request {
    fn fmt(&self, f: &mut fmt::Formatter) -> fmt::Result {
        match self {
            Request::Plan(asked) => asked.fmt(f),
            Request::Reasons { lent, list } => write!(f, "reasons {} {} {}", lent.events, Parts(lent), Counted(list)),
            Request::Times { lent, times } => write!(f, "times {} {} {}", lent.events, Parts(lent), Counted(times)),
            Request::Lamps { lent } => write!(f, "lamps {} {}", lent.events, Parts(lent)),
            Request::Slide { kind, position, used } => {
                let (number, a, b) = match *kind {
                    Kind::Span { low, high } => (0, low, high),
                    Kind::Rate { work } => (1, work, 0),
                    Kind::Fixed { value } => (2, value, 0),
                };
                write!(f, "slide {number} {a} {b} {position} {}", u8::from(*used == Use::AtLeast))
            }
            Request::Script { text } => write!(f, "script {}", Counted(text)),
            Request::Write { room, lent } => write!(f, "write {room} {} {}", lent.events, Parts(lent)),
            Request::Day { day, added: Added { opposite, x, y, c }, timetable } => {
                let (events, opposite) = (day.events, u8::from(*opposite));
                write!(f, "day {events} {opposite} {x} {y} {c} {timetable} {}", Spaced(&day.entries))
            }
        }
    }
}

impl Display for Asked {
    fn fmt(&self, f: &mut fmt::Formatter) -> fmt::Result {
        let Asked { lent, allowance, timetable, picks, reasons } = self;
        write!(f, "plan {} {allowance} {timetable} {picks} {reasons} {}", lent.events, Parts(lent))
    }
}

/// The problem's parts after N: the triples and the clause counts.
pub struct Parts<'a>(pub &'a Lent);

impl Display for Parts<'_> {
    fn fmt(&self, f: &mut fmt::Formatter) -> fmt::Result {
        write!(f, "{} {}", Counted(&self.0.triples), Counted(&self.0.counts))
    }
}
