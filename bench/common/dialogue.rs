//! The dialogue of the bench's planners: plan requests on standard input, their replies on standard output, as the
//! table's. The planners share it, so that they differ by their search alone.

use crate::problem::Problem;
use std::fmt::{self, Write as _};
use std::io::{self, BufRead, Write};

/// What lent memory holds before a call.
const BEFORE: u8 = 7;

pub enum Answer {
    Plan { visits: u64, before: u64 },
    NoPlan { visits: u64, before: u64, rows: u64 },
    Unlisted { visits: u64, before: u64, rows: u64 },
    Stopped { visits: u64, before: u64 },
    Refused(u8),
}

/// A planner: a problem, the allowance, and the lent timetable, picks and reasons.
pub type Plan = fn(&Problem, u32, &mut [i32], &mut [u8], &mut [u8]) -> Answer;

/// A plan request as its line gives it.
struct Asked {
    problem: Problem,
    allowance: u32,
    timetable: usize,
    picks: usize,
    reasons: usize,
}

/// Replies to each line until the input ends; without the reasons where the program's word is `quiet`.
pub fn reply_to_all(plan: Plan) -> io::Result<()> {
    let quiet = std::env::args().nth(1).as_deref() == Some("quiet");
    let mut input = io::stdin().lock();
    let mut output = io::stdout().lock();
    let (mut line, mut reply) = (Vec::new(), String::new());
    while input.read_until(b'\n', &mut line)? > 0 {
        reply.clear();
        match asked(line.strip_suffix(b"\n").unwrap_or(&line)) {
            Some(asked) => answer(plan, &asked, quiet, &mut reply).expect("a string can be written to"),
            None => reply.push_str("malformed"),
        }
        reply.push('\n');
        output.write_all(reply.as_bytes())?;
        output.flush()?;
        line.clear();
    }
    Ok(())
}

/// The request of a line: plan N ALLOWANCE T P R K t1 … tK M e1 … eM.
fn asked(line: &[u8]) -> Option<Asked> {
    let mut words = std::str::from_utf8(line).ok()?.strip_prefix("plan ")?.split(' ');
    let mut number = || words.next()?.parse::<u32>().ok();
    let (events, allowance) = (number()?, number()?);
    let (timetable, picks, reasons) = (number()? as usize, number()? as usize, number()? as usize);
    let numbers = number()?;
    let triples = (0..numbers).map(|_| words.next()?.parse().ok()).collect::<Option<Vec<i32>>>()?;
    let clauses: u32 = words.next()?.parse().ok()?;
    let counts = (0..clauses).map(|_| words.next()?.parse().ok()).collect::<Option<Vec<u32>>>()?;
    let fits = timetable <= 64 && picks <= 64 && reasons <= 65_536 && words.next().is_none();
    fits.then_some(Asked { problem: Problem { events, triples, counts }, allowance, timetable, picks, reasons })
}

/// Lends the memory, plans, and writes the reply.
fn answer(plan: Plan, asked: &Asked, quiet: bool, reply: &mut String) -> fmt::Result {
    let mut timetable = vec![i32::from(BEFORE); asked.timetable];
    let mut picks = vec![BEFORE; asked.picks];
    let mut reasons = vec![BEFORE; asked.reasons];
    match plan(&asked.problem, asked.allowance, &mut timetable, &mut picks, &mut reasons) {
        Answer::Plan { visits, before } => write!(reply, "plan {visits} {before}")?,
        Answer::NoPlan { visits, before, rows } => write!(reply, "none {visits} {before} {rows}")?,
        Answer::Unlisted { visits, before, rows } => write!(reply, "unlisted {visits} {before} {rows}")?,
        Answer::Stopped { visits, before } => write!(reply, "stopped {visits} {before}")?,
        Answer::Refused(number) => write!(reply, "refused {number}")?,
    }
    write_list(reply, &timetable);
    write_list(reply, &picks);
    write_list(reply, if quiet { &[] } else { &reasons });
    Ok(())
}

fn write_list<T: Copy + Into<i64>>(reply: &mut String, elements: &[T]) {
    reply.push_str(" | ");
    for (place, element) in elements.iter().enumerate() {
        if place > 0 {
            reply.push(' ');
        }
        write_number(reply, (*element).into());
    }
}

/// The number in decimal, without the costs of a formatter.
fn write_number(reply: &mut String, number: i64) {
    if number < 0 {
        reply.push('-');
    }
    let size = number.unsigned_abs();
    let mut place = 1;
    while size / place >= 10 {
        place *= 10;
    }
    while place > 0 {
        reply.push(char::from(b'0' + (size / place % 10) as u8));
        place /= 10;
    }
}
