//! The shortest reason where it has two facts: the newest one, without which the others have a timetable, and one that
//! leads from its end back to its start.

use super::Numbers;
use crate::problem::{Arc, ROW};

/// The numbers of the last fact and of the smallest-numbered that leads back, the smaller first.
/// None are fewer, since no arc leads from an event to itself.
pub fn pair(facts: &[Arc]) -> Option<Numbers> {
    let (new, others) = facts.split_last()?;
    let leads_back = |arc: &&Arc| arc.from == new.to && arc.to == new.from && arc.weight + new.weight < 0;
    let back = others.iter().filter(leads_back).map(|arc| arc.number).min()?;
    let mut numbers = [0; ROW];
    (numbers[0], numbers[1]) = (back.min(new.number), back.max(new.number));
    Some(numbers)
}
