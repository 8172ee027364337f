//! The shortest reason of facts that have no timetable: of the cycles below 0 with the fewest arcs, the one whose numbers,
//! read from its smallest, come first in dictionary order. How many arcs that is, the newest facts tell, without which
//! the others have a timetable; it is then the best of the first cycles of so many arcs from each event.

mod first;
mod least;
mod pair;

use crate::problem::{Arc, ROW};
use first::{first_from, smallest_from};
use least::closes_after;
pub use least::Least;
use pair::pair;

/// The numbers of a cycle in the order of its arcs, and zeros after them.
pub type Numbers = [u8; ROW];

/// The numbers of the shortest reason, and how many they are; the facts before the last `news` have a timetable.
/// Where one fact is new the reason may have two, and then needs no sums.
pub fn reason(events: usize, facts: &[Arc], news: usize, least: &mut Least) -> (Numbers, usize) {
    let two = if news == 1 { pair(facts) } else { None };
    two.map_or_else(|| by_sums(events, facts, news, least), |numbers| (numbers, 2))
}

/// The shortest reason by least sums alone. An event is passed over where no cycle from it could start with a smaller
/// number than the best so far.
fn by_sums(events: usize, facts: &[Arc], news: usize, least: &mut Least) -> (Numbers, usize) {
    let size = fewest(events, facts, news, least);
    let mut best: Numbers = [u8::MAX; ROW];
    for (event, smallest) in smallest_from(facts)[..events].iter().enumerate() {
        if *smallest < best[0] && closes_after(facts, event, size, least).is_some() {
            let numbers = first_from(facts, event, size, least);
            if numbers[0] < best[0] {
                best = numbers;
            }
        }
    }
    (best, size)
}

/// The fewest arcs of a cycle below 0. Each passes over one of the last `news` facts, so the cycles through their starts
/// tell; each is looked at for fewer than were found so far.
fn fewest(events: usize, facts: &[Arc], news: usize, least: &mut Least) -> usize {
    let newest = facts[facts.len() - news..].iter().rev();
    newest.fold(events + 1, |size, fact| closes_after(facts, fact.from, size - 1, least).unwrap_or(size))
}
