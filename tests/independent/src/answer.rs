//! The answer to a request by the definitions, and its reply as the dialogue writes it.

use crate::day::{self, After};
use crate::dialogue::{Asked, Parts, Request, Spaced};
use crate::lamps::{dark, panel, Panel};
use crate::plain::latest_timetable;
use crate::problem::{Lent, Problem, Refusal, MOST_ALLOWANCE};
use crate::reasons::{self, FILLING, ROW};
use crate::script::{self, Refused};
use crate::search::{search, Ending, Outcome, Row};
use crate::slider::slide;
use crate::text::{page, Page};
use std::fmt::{self, Display};

#[derive(Clone, Debug)]
pub enum Reply {
    Malformed,
    Screen(Screen),
    Judged(Result<bool, Refusal>),
    Lamps(Refusal, Panel),
    Bound(Result<i64, Refusal>),
    Script(Result<Lent, Refused>),
    Written(Page),
    Day(After),
}

/// What the screen says, and every lent element afterwards.
#[derive(Clone, Debug)]
pub struct Screen {
    pub answer: Answer,
    pub timetable: Vec<i64>,
    pub picks: Vec<u8>,
    pub reasons: Vec<u8>,
    /// The rows that stand in the reasons.
    pub rows: Vec<Row>,
}

#[derive(Clone, Copy, Debug, PartialEq, Eq)]
pub enum Answer {
    Plan { visits: u64, before: u64 },
    NoPlan { visits: u64, before: u64, rows: u64 },
    Unlisted { visits: u64, before: u64, rows: u64 },
    Stopped { visits: u64, before: u64 },
    Refused(Refusal),
}

/// The answer to a request; None is a malformed line.
pub fn answer(request: Option<&Request>) -> Reply {
    match request {
        None => Reply::Malformed,
        Some(Request::Plan(asked)) => Reply::Screen(plan(asked)),
        Some(Request::Reasons { lent, list }) => {
            Reply::Judged(lent.accepted().map(|problem| reasons::read(&problem, list)))
        }
        Some(Request::Times { lent, times }) => Reply::Judged(read_timetable(lent, times)),
        Some(Request::Lamps { lent }) => match lent.accepted() {
            Ok(problem) => Reply::Lamps(0, panel(&problem)),
            Err(number) => Reply::Lamps(number, dark()),
        },
        Some(Request::Slide { kind, position, used }) => Reply::Bound(slide(*kind, *position, *used)),
        Some(Request::Script { text }) => Reply::Script(script::read(text)),
        Some(Request::Write { room, lent }) => Reply::Written(page(lent, *room)),
        Some(Request::Day { day, added, timetable }) => Reply::Day(day::after(day, *added, *timetable)),
    }
}

/// The accepted problem of a plan request, or the problem's refusal, and after it 7, then 8.
pub fn accepted(asked: &Asked) -> Result<Problem, Refusal> {
    let problem = asked.lent.accepted()?;
    if asked.allowance > MOST_ALLOWANCE {
        return Err(7);
    }
    if asked.timetable < problem.events || asked.picks < problem.clauses.len() {
        return Err(8);
    }
    Ok(problem)
}

fn plan(asked: &Asked) -> Screen {
    match accepted(asked) {
        Err(number) => cleared(asked, Answer::Refused(number)),
        Ok(problem) => {
            let outcome = search(&problem, u64::from(asked.allowance), asked.reasons / ROW);
            let mut screen = cleared(asked, told(&outcome, asked.reasons / ROW));
            screen.fill(&problem, outcome);
            screen
        }
    }
}

/// An answer with all that was lent cleared.
fn cleared(asked: &Asked, answer: Answer) -> Screen {
    Screen {
        answer,
        timetable: vec![1; asked.timetable],
        picks: vec![FILLING; asked.picks],
        reasons: vec![FILLING; asked.reasons],
        rows: Vec::new(),
    }
}

/// What is said of an outcome where there is room for so many rows.
fn told(outcome: &Outcome, room: usize) -> Answer {
    let Outcome { visits, before, rows, .. } = *outcome;
    match outcome.ending {
        Ending::Plan(_) => Answer::Plan { visits, before },
        Ending::NoPlan if rows > room as u64 => Answer::Unlisted { visits, before, rows },
        Ending::NoPlan => Answer::NoPlan { visits, before, rows },
        Ending::Stopped => Answer::Stopped { visits, before },
    }
}

impl Screen {
    /// Writes over the cleared memory what the outcome calls for.
    fn fill(&mut self, problem: &Problem, outcome: Outcome) {
        if let Ending::Plan(picks) = &outcome.ending {
            self.write_plan(problem, picks);
        }
        if let Answer::NoPlan { .. } = self.answer {
            self.rows = outcome.listed;
            self.write_rows(problem);
        }
    }

    fn write_plan(&mut self, problem: &Problem, picks: &[usize]) {
        let times = latest_timetable(problem, picks).expect("the plan's selection holds");
        self.timetable[..times.len()].copy_from_slice(&times);
        for (place, pick) in picks.iter().enumerate() {
            self.picks[place] = *pick as u8;
        }
    }

    fn write_rows(&mut self, problem: &Problem) {
        for (bytes, row) in self.reasons.chunks_mut(ROW).zip(&self.rows) {
            bytes.copy_from_slice(&reasons::row_bytes(problem, *row));
        }
    }
}

/// Yes exactly when the first n times keep the problem; 8 if there are fewer.
fn read_timetable(lent: &Lent, times: &[i32]) -> Result<bool, Refusal> {
    let problem = lent.accepted()?;
    if times.len() < problem.events {
        return Err(8);
    }
    let times: Vec<i64> = times.iter().map(|time| i64::from(*time)).collect();
    Ok(problem.kept_by(&times))
}

impl Display for Answer {
    fn fmt(&self, f: &mut fmt::Formatter) -> fmt::Result {
        match self {
            Answer::Plan { visits, before } => write!(f, "plan {visits} {before}"),
            Answer::NoPlan { visits, before, rows } => write!(f, "none {visits} {before} {rows}"),
            Answer::Unlisted { visits, before, rows } => write!(f, "unlisted {visits} {before} {rows}"),
            Answer::Stopped { visits, before } => write!(f, "stopped {visits} {before}"),
            Answer::Refused(number) => write!(f, "refused {number}"),
        }
    }
}

impl Display for Reply {
    fn fmt(&self, f: &mut fmt::Formatter) -> fmt::Result {
        match self {
            Reply::Malformed => f.write_str("malformed"),
            Reply::Screen(Screen { answer, timetable, picks, reasons, .. }) => {
                write!(f, "{answer} | {} | {} | {}", Spaced(timetable), Spaced(picks), Spaced(reasons))
            }
            Reply::Judged(Ok(yes)) => f.write_str(if *yes { "yes" } else { "no" }),
            Reply::Bound(Ok(bound)) => write!(f, "bound {bound}"),
            Reply::Judged(Err(number)) | Reply::Bound(Err(number)) => write!(f, "refused {number}"),
            Reply::Lamps(number, panel) => {
                let Panel { lit, total, first, counts } = panel;
                write!(f, "lamps {number} {lit} {total} {first} {}", Spaced(counts))
            }
            Reply::Script(Ok(lent)) => write!(f, "problem {} {}", lent.events, Parts(lent)),
            Reply::Script(Err(Refused { number, place })) => write!(f, "refused {number} {place}"),
            Reply::Written(Page { said: Ok(length), room }) => write!(f, "text {length} | {}", Spaced(room)),
            Reply::Written(Page { said: Err(number), room }) => write!(f, "refused {number} | {}", Spaced(room)),
            Reply::Day(After { refused, entries, refused_off, timetable }) => {
                write!(f, "day {refused} {refused_off} | {} | {}", Spaced(entries), Spaced(timetable))
            }
        }
    }
}
