//! Ways of answering wrongly, to see that each is noticed (check-the-checker); those for days are in spoil_day.rs.

use crate::answer::{accepted, answer, Answer, Reply, Screen};
use crate::day::Added;
use crate::dialogue::{request, Request};
use crate::facts::{members, Numbers};
use crate::problem::{Lent, Problem, Refusal, AGAINST_ITSELF, FARTHEST_BOUND};
use crate::reasons::{cycle_bytes, filled, is_cycle_row, whole_reading, FILLING, GOES_ON, ROW};
use crate::requests::{closed_first, closed_pair_not_below_0, cut_short, turned, twice_round};
use crate::script::{Refused, NOT_ALLOWED};
use crate::search::Row;
use crate::serve;
use crate::shortest::Walks;
use crate::slider::Use;
use crate::spoil_day;
use crate::text::{self, Page, LONGER_THAN_ROOM};
use std::ops::RangeInclusive;

/// What a way changes: the line before it is read, the request, the problem of the requests with this first word, the
/// reply, or the texts that are written.
enum Way {
    Line(fn(&[u8]) -> Vec<u8>),
    Request(fn(&mut Request)),
    Lent(&'static str, fn(&mut Lent)),
    Reply(fn(&Request, &mut Reply)),
    Screen(fn(&Problem, &mut Screen)),
    Texts(fn(usize, String) -> Vec<String>),
}

type Bytes = [u8; ROW];

const WAYS: [(&str, Way); 100] = [
    ("visits one more", Way::Screen(|_, screen| change_numbers(screen, |visits, _, _| *visits += 1))),
    (
        "before one less",
        Way::Screen(|_, screen| change_numbers(screen, |_, before, _| *before = before.saturating_sub(1))),
    ),
    ("rows one more", Way::Screen(|_, screen| change_numbers(screen, |_, _, rows| *rows += 1))),
    (
        "a time one later",
        Way::Screen(|_, screen| {
            if is_plan(screen) {
                screen.timetable[0] += 1
            }
        }),
    ),
    ("all times one earlier", Way::Screen(all_earlier)),
    ("a pick changed", Way::Screen(|_, screen| change_first(&mut screen.picks, |pick| pick < 4, |pick| pick ^ 1))),
    ("a 7 left in the timetable", Way::Screen(|_, screen| change_last(&mut screen.timetable, |time| time == 1, 7))),
    ("a 7 left in the picks", Way::Screen(|_, screen| change_last(&mut screen.picks, |pick| pick == FILLING, 7))),
    ("a 7 left in the reasons", Way::Screen(|_, screen| change_last(&mut screen.reasons, |byte| byte == FILLING, 7))),
    ("a refusal that clears nothing", Way::Reply(|_, reply| uncleared(reply, |_| true))),
    ("12 that clears nothing", Way::Reply(|_, reply| uncleared(reply, |number| number == AGAINST_ITSELF))),
    (
        "a cycle of sum 0 or more",
        Way::Screen(|problem, screen| {
            other_cycles(problem, screen, |problem, numbers, _| closed_pair_not_below_0(problem, numbers))
        }),
    ),
    ("a cycle over an opposite that is no fact", Way::Screen(|_, screen| change_cycles(screen, |row| row[0] ^= 64))),
    ("a broken cycle", Way::Screen(|_, screen| change_cycles(screen, broken))),
    (
        "a cycle without its last number",
        Way::Screen(|problem, screen| other_cycles(problem, screen, |_, _, row| Some(cut_short(row)))),
    ),
    (
        "a valid cycle begun at its second arc",
        Way::Screen(|problem, screen| other_cycles(problem, screen, |_, _, row| Some(turned(row, 1)))),
    ),
    ("a valid cycle begun at its second arc, in the last row only", Way::Screen(|_, screen| last_turned(screen))),
    (
        "a valid cycle begun at its second arc, in a full row only",
        Way::Screen(|problem, screen| {
            other_cycles(problem, screen, |_, _, row| (row[ROW - 1] != FILLING).then(|| turned(row, 1)))
        }),
    ),
    (
        "a valid cycle begun at its second arc, in a dead clause's first row only",
        Way::Screen(|_, screen| turned_after(screen, |row| matches!(row, Row::Dead(_)))),
    ),
    (
        "a valid cycle begun at its second arc, in an unsound standing's row only",
        Way::Screen(|_, screen| turned_after(screen, |row| row == Row::GoesOn)),
    ),
    (
        "a valid cycle gone round twice",
        Way::Screen(|problem, screen| other_cycles(problem, screen, |_, _, row| Some(twice_round(row)))),
    ),
    (
        "a valid cycle with another first byte",
        Way::Screen(|problem, screen| {
            other_cycles(problem, screen, |problem, numbers, row| with_other_byte(problem, numbers, row, 0))
        }),
    ),
    ("a valid cycle with another last byte", Way::Screen(|problem, screen| other_cycles(problem, screen, other_last))),
    ("a valid cycle of more arcs", Way::Screen(|problem, screen| other_cycles(problem, screen, of_more_arcs))),
    (
        "a valid cycle that the numbers close first, taken from the lowest",
        Way::Screen(|problem, screen| {
            other_cycles(problem, screen, |problem, numbers, _| closed_by(problem, members(numbers).collect()))
        }),
    ),
    (
        "a valid cycle that the numbers close first, taken from the highest",
        Way::Screen(|problem, screen| {
            other_cycles(problem, screen, |problem, numbers, _| closed_by(problem, members(numbers).rev().collect()))
        }),
    ),
    ("a 7 after a cycle's end", Way::Screen(|_, screen| change_cycles(screen, |row| row[ROW - 1] = 7))),
    ("a cycle row left all 255", Way::Screen(|_, screen| change_cycles(screen, |row| row.fill(FILLING)))),
    ("a mark with the next clause", Way::Screen(|_, screen| change_marks(screen, |row| row[0] += 1))),
    ("a mark with a 0 after it", Way::Screen(|_, screen| change_marks(screen, |row| row[1] = 0))),
    ("the first row missing", Way::Screen(|_, screen| row_missing(screen))),
    ("rows written although they do not fit", Way::Screen(|_, screen| written_in_part(screen))),
    ("unlisted although the rows fit", Way::Screen(|_, screen| unlisted(screen))),
    ("stopped one visit early", Way::Request(|request| change_allowance(request, -1))),
    ("stopped one visit late", Way::Request(|request| change_allowance(request, 1))),
    ("the last clause forgotten", Way::Request(last_clause_forgotten)),
    ("a bound of the last alternative one more", Way::Request(last_bound_looser)),
    ("reasons: yes for no", Way::Reply(|request, reply| judged(request, reply, true, |_| true))),
    ("reasons: no for yes", Way::Reply(|request, reply| judged(request, reply, true, |_| false))),
    ("reasons: what comes after the reading is not looked at", Way::Reply(after_not_looked_at)),
    ("times: yes for no", Way::Reply(|request, reply| judged(request, reply, false, |_| true))),
    ("times: no for yes", Way::Reply(|request, reply| judged(request, reply, false, |_| false))),
    ("a refusal's number one more", Way::Reply(|_, reply| next_refusal(reply))),
    ("12 answered as 5", Way::Reply(|_, reply| change_12(reply, 5))),
    ("12 answered as 6", Way::Reply(|_, reply| change_12(reply, 6))),
    ("plan: 12 not looked for", Way::Lent("plan", without_12)),
    ("plan: 12 before 5", Way::Lent("plan", without_5_beside_12)),
    ("plan: 6 before 12", Way::Lent("plan", without_12_beside_6)),
    ("reasons: 12 not looked for", Way::Lent("reasons", without_12)),
    ("reasons: 12 before 5", Way::Lent("reasons", without_5_beside_12)),
    ("reasons: 6 before 12", Way::Lent("reasons", without_12_beside_6)),
    ("times: 12 not looked for", Way::Lent("times", without_12)),
    ("times: 12 before 5", Way::Lent("times", without_5_beside_12)),
    ("times: 6 before 12", Way::Lent("times", without_12_beside_6)),
    ("lamps: 12 not looked for", Way::Lent("lamps", without_12)),
    ("lamps: 12 before 5", Way::Lent("lamps", without_5_beside_12)),
    ("lamps: 6 before 12", Way::Lent("lamps", without_12_beside_6)),
    ("write: 12 not looked for", Way::Lent("write", without_12)),
    ("write: 12 before 5", Way::Lent("write", without_5_beside_12)),
    ("write: 6 before 12", Way::Lent("write", without_12_beside_6)),
    ("a lamp flipped", Way::Reply(|_, reply| change_lamps(reply, |lit, _, _, _| *lit ^= 1))),
    ("the number of lamps one more", Way::Reply(|_, reply| change_lamps(reply, |_, total, _, _| *total += 1))),
    ("the first lit lamp 64", Way::Reply(|_, reply| change_lamps(reply, |_, _, first, _| *first = 64))),
    ("a clause's lamps one more", Way::Reply(|_, reply| change_lamps(reply, |_, _, _, counts| counts[31] += 1))),
    (
        "a bound one more",
        Way::Reply(|_, reply| {
            if let Reply::Bound(Ok(bound)) = reply {
                *bound += 1
            }
        }),
    ),
    (
        "at least taken as at most",
        Way::Request(|request| {
            if let Request::Slide { used, .. } = request {
                *used = Use::AtMost
            }
        }),
    ),
    ("script: a place one more", Way::Reply(|_, reply| change_refused(reply, NOT_ALLOWED..=NOT_ALLOWED, next_place))),
    ("script: a place with 1, 2, 3 or 6", Way::Reply(|_, reply| change_refused(reply, 1..=6, next_place))),
    (
        "script: a refusal's number one more",
        Way::Reply(|_, reply| change_refused(reply, 1..=6, |refused| refused.number += 1)),
    ),
    (
        "script: 20 for 1, 2, 3 or 6",
        Way::Reply(|_, reply| change_refused(reply, 1..=6, |refused| refused.number = NOT_ALLOWED)),
    ),
    ("script: a place with 12", Way::Reply(|_, reply| change_refused(reply, 12..=12, next_place))),
    ("script: 6 for 12", Way::Reply(|_, reply| change_refused(reply, 12..=12, |refused| refused.number = 6))),
    (
        "script: 20 for 12",
        Way::Reply(|_, reply| change_refused(reply, 12..=12, |refused| refused.number = NOT_ALLOWED)),
    ),
    (
        "script: a refusal for a problem",
        Way::Reply(|_, reply| {
            if let Reply::Script(read @ Ok(_)) = reply {
                *read = Err(Refused { number: NOT_ALLOWED, place: 0 })
            }
        }),
    ),
    (
        "script: a problem for a refusal",
        Way::Reply(|_, reply| {
            if let Reply::Script(read @ Err(_)) = reply {
                *read = Ok(Lent::default())
            }
        }),
    ),
    ("script: events one more", Way::Reply(|_, reply| change_read(reply, |lent| lent.events += 1))),
    ("script: an alternative's events exchanged", Way::Reply(|_, reply| change_read(reply, events_exchanged))),
    ("script: the sign of a bound lost", Way::Reply(|_, reply| change_read(reply, sign_lost))),
    (
        "script: a count one more",
        Way::Reply(|_, reply| change_read(reply, |lent| lent.counts.iter_mut().take(1).for_each(|count| *count += 1))),
    ),
    ("script: empty clauses left out", Way::Reply(|_, reply| change_read(reply, |lent| lent.counts.dedup()))),
    ("script: the last clause forgotten", Way::Reply(|_, reply| change_read(reply, without_last_clause))),
    (
        "script: the last byte not read",
        Way::Request(|request| change_text(request, |text| text.truncate(text.len().saturating_sub(1)))),
    ),
    (
        "script: carriage returns taken as spaces",
        Way::Request(|request| {
            change_text(request, |text| text.iter_mut().filter(|byte| **byte == b'\r').for_each(|byte| *byte = b' '))
        }),
    ),
    ("write: the length one more", Way::Reply(|_, reply| change_said(reply, |said| said.map(|length| length + 1)))),
    (
        "write: a refusal's number one more",
        Way::Reply(|_, reply| change_said(reply, |said| said.map_err(|number| number + 1))),
    ),
    (
        "write: a 7 left after the text",
        Way::Reply(|_, reply| {
            if let Reply::Written(Page { said: Ok(_), room }) = reply {
                change_last(room, |byte| byte == 0, 7)
            }
        }),
    ),
    ("write: 6 that clears nothing", Way::Reply(|_, reply| left_as_lent(reply, 6))),
    ("write: 12 that clears nothing", Way::Reply(|_, reply| left_as_lent(reply, AGAINST_ITSELF))),
    ("write: 21 that clears nothing", Way::Reply(|_, reply| left_as_lent(reply, LONGER_THAN_ROOM))),
    ("write: 21 that leaves the text's front", Way::Reply(front_left)),
    ("write: 21 before 6", Way::Reply(room_before_bounds)),
    ("write: 21 before all others where there is no room", Way::Reply(|_, reply| no_room_first(reply))),
    (
        "day: the opposite added for the alternative",
        Way::Request(|request| change_added(request, |added| added.opposite = !added.opposite)),
    ),
    (
        "day: x and y exchanged",
        Way::Request(|request| change_added(request, |added| std::mem::swap(&mut added.x, &mut added.y))),
    ),
    ("a plus sign taken", Way::Line(|line| line.iter().copied().filter(|byte| *byte != b'+').collect())),
    ("a carriage return taken", Way::Line(|line| line.strip_suffix(b"\r").unwrap_or(line).to_vec())),
    ("malformed answered as refused", Way::Texts(|_, text| vec![text.replace("malformed", "refused 1")])),
    ("a space missing at a reply's end", Way::Texts(|_, text| vec![text.trim_end().to_string()])),
    ("a reply missing", Way::Texts(|number, text| if number == 2_000 { vec![] } else { vec![text] })),
    ("a space at a reply's end", Way::Texts(|number, text| vec![if number == 2_000 { text + " " } else { text }])),
];

/// The ways' names, in order; the first is way 1, and those for days come last.
pub fn names() -> Vec<String> {
    let of_days = spoil_day::WAYS.iter().map(|(name, _)| name);
    WAYS.iter().map(|(name, _)| name).chain(of_days).map(|name| name.to_string()).collect()
}

/// The replies to a line, spoiled in a way where that applies.
pub fn replies(way: usize, number: usize, line: &[u8]) -> Vec<String> {
    let place = way.wrapping_sub(1);
    match WAYS.get(place).map(|(_, way)| way) {
        Some(Way::Line(change)) => vec![serve::reply(&change(line))],
        Some(Way::Texts(change)) => change(number, serve::reply(line)),
        Some(change) => vec![spoiled_reply(change, line)],
        None => match spoil_day::WAYS.get(place.wrapping_sub(WAYS.len())) {
            Some((_, change)) => vec![spoil_day::reply(*change, line)],
            None => vec![serve::reply(line)],
        },
    }
}

fn spoiled_reply(way: &Way, line: &[u8]) -> String {
    let Some(mut request) = request(line) else {
        return serve::reply(line);
    };
    match way {
        Way::Request(change) => change(&mut request),
        Way::Lent(word, change) if line.starts_with(word.as_bytes()) => {
            lent_of(&mut request).into_iter().for_each(change)
        }
        _ => {}
    }
    let mut reply = answer(Some(&request));
    match (way, &request, &mut reply) {
        (Way::Screen(change), Request::Plan(asked), Reply::Screen(screen)) => {
            accepted(asked).iter().for_each(|problem| change(problem, screen))
        }
        (Way::Reply(change), request, reply) => change(request, reply),
        _ => {}
    }
    reply.to_string()
}

fn is_plan(screen: &Screen) -> bool {
    matches!(screen.answer, Answer::Plan { .. }) && !screen.timetable.is_empty()
}

/// Changes an answer's visits, before and rows, where it has them.
fn change_numbers(screen: &mut Screen, change: fn(&mut u64, &mut u64, &mut u64)) {
    match &mut screen.answer {
        Answer::Plan { visits, before } | Answer::Stopped { visits, before } => change(visits, before, &mut 0),
        Answer::NoPlan { visits, before, rows } | Answer::Unlisted { visits, before, rows } => {
            change(visits, before, rows)
        }
        Answer::Refused(_) => {}
    }
}

/// A timetable that keeps the problem as well, and is not the latest.
fn all_earlier(problem: &Problem, screen: &mut Screen) {
    if is_plan(screen) {
        screen.timetable[..problem.events].iter_mut().for_each(|time| *time -= 1);
    }
}

fn change_first(bytes: &mut [u8], chosen: fn(u8) -> bool, change: fn(u8) -> u8) {
    if let Some(byte) = bytes.iter_mut().find(|byte| chosen(**byte)) {
        *byte = change(*byte);
    }
}

/// Puts another element at the end, where the one there is as chosen.
fn change_last<T: Copy>(elements: &mut [T], chosen: fn(T) -> bool, other: T) {
    if let Some(last) = elements.last_mut() {
        if chosen(*last) {
            *last = other;
        }
    }
}

fn uncleared(reply: &mut Reply, chosen: fn(Refusal) -> bool) {
    if let Reply::Screen(Screen { answer: Answer::Refused(number), timetable, picks, reasons, .. }) = reply {
        if chosen(*number) {
            timetable.fill(7);
            picks.fill(7);
            reasons.fill(7);
        }
    }
}

/// Changes the listed rows that are as chosen.
fn change_rows(screen: &mut Screen, chosen: fn(&[u8]) -> bool, change: fn(&mut [u8])) {
    let listed = screen.rows.len() * ROW;
    screen.reasons[..listed].chunks_mut(ROW).filter(|row| chosen(row)).for_each(change);
}

fn change_cycles(screen: &mut Screen, change: fn(&mut [u8])) {
    change_rows(screen, |row| row[0] < 128, change);
}

fn change_marks(screen: &mut Screen, change: fn(&mut [u8])) {
    change_rows(screen, |row| row[0] >= 128 && row[0] != GOES_ON, change);
}

fn broken(row: &mut [u8]) {
    if row[2] != FILLING {
        row.swap(0, 1);
    }
}

/// Puts another row in the place of each cycle row, where one is found by its numbers and its bytes.
fn other_cycles(problem: &Problem, screen: &mut Screen, other: fn(&Problem, Numbers, &Bytes) -> Option<Bytes>) {
    for (bytes, row) in screen.reasons.chunks_mut(ROW).zip(&screen.rows) {
        if let Row::Cycle(numbers) = row {
            other(problem, *numbers, &filled(bytes)).iter().for_each(|other| bytes.copy_from_slice(other));
        }
    }
}

/// The row with one byte changed so that a valid cycle stands there again.
fn with_other_byte(problem: &Problem, numbers: Numbers, row: &Bytes, place: usize) -> Option<Bytes> {
    let with = |number: usize| {
        let mut other = *row;
        other[place] = number as u8;
        other
    };
    members(numbers).map(with).find(|other| other != row && is_cycle_row(problem, numbers, other))
}

fn other_last(problem: &Problem, numbers: Numbers, row: &Bytes) -> Option<Bytes> {
    let last = row.iter().rposition(|byte| *byte != FILLING)?;
    with_other_byte(problem, numbers, row, last)
}

/// A valid cycle of as few arcs more as there is one of.
fn of_more_arcs(problem: &Problem, numbers: Numbers, row: &Bytes) -> Option<Bytes> {
    let arcs = row.iter().filter(|byte| **byte != FILLING).count();
    let mut walks = Walks::new(problem, numbers);
    (arcs + 1..=ROW).find_map(|arcs| walks.first_below_0(arcs)).map(|cycle| cycle_bytes(&cycle))
}

fn closed_by(problem: &Problem, order: Vec<usize>) -> Option<Bytes> {
    closed_first(problem, &order).map(|cycle| cycle_bytes(&cycle))
}

fn turn(screen: &mut Screen, place: usize) {
    if let Row::Cycle(_) = screen.rows[place] {
        let row = &mut screen.reasons[place * ROW..(place + 1) * ROW];
        row.copy_from_slice(&turned(&filled(row), 1));
    }
}

fn last_turned(screen: &mut Screen) {
    if !screen.rows.is_empty() {
        turn(screen, screen.rows.len() - 1);
    }
}

/// Turns the cycle rows that come right after such a row.
fn turned_after(screen: &mut Screen, chosen: fn(Row) -> bool) {
    for place in 1..screen.rows.len() {
        if chosen(screen.rows[place - 1]) {
            turn(screen, place);
        }
    }
}

fn row_missing(screen: &mut Screen) {
    let listed = screen.rows.len() * ROW;
    if listed > 0 {
        screen.reasons[..listed].rotate_left(ROW);
        screen.reasons[listed - ROW..listed].fill(FILLING);
    }
}

fn written_in_part(screen: &mut Screen) {
    if let Answer::Unlisted { .. } = screen.answer {
        change_first(&mut screen.reasons, |byte| byte == FILLING, |_| GOES_ON);
    }
}

fn unlisted(screen: &mut Screen) {
    if let Answer::NoPlan { visits, before, rows } = screen.answer {
        screen.answer = Answer::Unlisted { visits, before, rows };
        screen.reasons.fill(FILLING);
    }
}

fn change_allowance(request: &mut Request, by: i32) {
    if let Request::Plan(asked) = request {
        if (1..1_000_000).contains(&asked.allowance) {
            asked.allowance = asked.allowance.saturating_add_signed(by);
        }
    }
}

fn lent_of(request: &mut Request) -> Option<&mut Lent> {
    match request {
        Request::Plan(asked) => Some(&mut asked.lent),
        Request::Reasons { lent, .. }
        | Request::Times { lent, .. }
        | Request::Lamps { lent }
        | Request::Write { lent, .. } => Some(lent),
        Request::Slide { .. } | Request::Script { .. } | Request::Day { .. } => None,
    }
}

fn is_refused_with(lent: &Lent, number: Refusal) -> bool {
    lent.accepted().err() == Some(number)
}

/// Takes away 12 where it is given: another event stands second, if there is one.
fn without_12(lent: &mut Lent) {
    if is_refused_with(lent, AGAINST_ITSELF) {
        let events = lent.events as i32;
        for triple in lent.triples.chunks_mut(3).filter(|triple| triple[0] == triple[1]) {
            triple[1] = (triple[0] + 1) % events;
        }
    }
}

/// Takes away 5 where it is given beside 12, which is left.
fn without_5_beside_12(lent: &mut Lent) {
    let against_itself = lent.triples.chunks_exact(3).any(|triple| triple[0] == triple[1]);
    if against_itself && is_refused_with(lent, 5) {
        lent.triples.chunks_mut(3).for_each(|triple| triple[..2].fill(0));
    }
}

/// Takes away 12 where it is given beside 6, which is left.
fn without_12_beside_6(lent: &mut Lent) {
    let mut apart = lent.clone();
    without_12(&mut apart);
    if is_refused_with(&apart, 6) {
        *lent = apart;
    }
}

fn last_clause_forgotten(request: &mut Request) {
    if let Some(lent) = lent_of(request) {
        if lent.accepted().is_ok() {
            without_last_clause(lent);
        }
    }
}

fn without_last_clause(lent: &mut Lent) {
    lent.counts.pop();
    lent.triples.truncate(3 * lent.counts.last().map_or(0, |count| *count as usize));
}

fn last_bound_looser(request: &mut Request) {
    if let Some(bound) = lent_of(request).and_then(|lent| lent.triples.last_mut()) {
        *bound = *bound + i32::from(*bound < 100_000);
    }
}

/// Changes what a reader said: the reason-list reader or the timetable reader.
fn judged(request: &Request, reply: &mut Reply, of_reasons: bool, change: fn(bool) -> bool) {
    let asked = matches!(request, Request::Reasons { .. }) == of_reasons;
    if let (true, Reply::Judged(Ok(yes))) = (asked, reply) {
        *yes = change(*yes);
    }
}

fn after_not_looked_at(request: &Request, reply: &mut Reply) {
    if let (Request::Reasons { lent, list }, Reply::Judged(Ok(yes))) = (request, reply) {
        *yes = lent.accepted().is_ok_and(|problem| whole_reading(&problem, list).is_some());
    }
}

fn next_refusal(reply: &mut Reply) {
    match reply {
        Reply::Screen(Screen { answer: Answer::Refused(number), .. }) => *number += 1,
        Reply::Judged(Err(number)) | Reply::Bound(Err(number)) => *number += 1,
        _ => {}
    }
}

/// Says another number for 12.
fn change_12(reply: &mut Reply, other: Refusal) {
    let number = match reply {
        Reply::Screen(Screen { answer: Answer::Refused(number), .. }) => number,
        Reply::Judged(Err(number)) | Reply::Lamps(number, _) => number,
        Reply::Written(Page { said: Err(number), .. }) => number,
        _ => return,
    };
    if *number == AGAINST_ITSELF {
        *number = other;
    }
}

fn change_lamps(reply: &mut Reply, change: fn(&mut u64, &mut usize, &mut usize, &mut [usize; 32])) {
    if let Reply::Lamps(_, panel) = reply {
        change(&mut panel.lit, &mut panel.total, &mut panel.first, &mut panel.counts);
    }
}

/// Changes the problem that was read of a script.
fn change_read(reply: &mut Reply, change: fn(&mut Lent)) {
    if let Reply::Script(Ok(lent)) = reply {
        change(lent);
    }
}

/// Changes a script's refusal, where its number is one of these.
fn change_refused(reply: &mut Reply, numbers: RangeInclusive<Refusal>, change: fn(&mut Refused)) {
    if let Reply::Script(Err(refused)) = reply {
        if numbers.contains(&refused.number) {
            change(refused);
        }
    }
}

fn next_place(refused: &mut Refused) {
    refused.place += 1;
}

fn events_exchanged(lent: &mut Lent) {
    lent.triples.chunks_mut(3).take(1).for_each(|triple| triple.swap(0, 1));
}

fn sign_lost(lent: &mut Lent) {
    bounds(lent).for_each(|bound| *bound = bound.abs());
}

fn bounds(lent: &mut Lent) -> impl Iterator<Item = &mut i32> {
    lent.triples.iter_mut().skip(2).step_by(3)
}

/// Changes the text of a script before it is read.
fn change_text(request: &mut Request, change: fn(&mut Vec<u8>)) {
    if let Request::Script { text } = request {
        change(text);
    }
}

/// Changes what is to be added to a day.
fn change_added(request: &mut Request, change: fn(&mut Added)) {
    if let Request::Day { added, .. } = request {
        change(added);
    }
}

/// Changes what is said of a text.
fn change_said(reply: &mut Reply, change: fn(Result<usize, Refusal>) -> Result<usize, Refusal>) {
    if let Reply::Written(page) = reply {
        page.said = change(page.said);
    }
}

/// Leaves the room as it was lent, where a text is refused with this number.
fn left_as_lent(reply: &mut Reply, number: Refusal) {
    if let Reply::Written(Page { said: Err(refused), room }) = reply {
        if *refused == number {
            room.fill(7);
        }
    }
}

/// Leaves as much of the text as there is room for, where it is longer.
fn front_left(request: &Request, reply: &mut Reply) {
    if let (Request::Write { lent, .. }, Reply::Written(page)) = (request, reply) {
        if let (Err(LONGER_THAN_ROOM), Ok(problem)) = (page.said, lent.accepted()) {
            page.room = text::filled(&text::text(&problem), page.room.len());
        }
    }
}

/// Says 21 for 6 where the text is longer than the room with the bounds brought into their range.
fn room_before_bounds(request: &Request, reply: &mut Reply) {
    if let (Request::Write { room, lent }, Reply::Written(page @ Page { said: Err(6), .. })) = (request, reply) {
        let mut lent = lent.clone();
        bounds(&mut lent).for_each(|bound| *bound = (*bound).clamp(-FARTHEST_BOUND as i32, FARTHEST_BOUND as i32));
        let in_range = text::page(&lent, *room);
        if in_range.said == Err(LONGER_THAN_ROOM) {
            *page = in_range;
        }
    }
}

/// Says 21 for every refusal where there is no room.
fn no_room_first(reply: &mut Reply) {
    if let Reply::Written(Page { said: said @ Err(_), room }) = reply {
        if room.is_empty() {
            *said = Err(LONGER_THAN_ROOM);
        }
    }
}
