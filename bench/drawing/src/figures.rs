//! The figures as text: what is read off each set, and then every point.

use crate::points::{Point, Set};
use std::fmt::Write;

pub fn figures(sets: &[Set]) -> String {
    let mut text = String::from(
        "\n| Events | Half have a plan at the ratio | Most visits (median) | at the ratio | 95 % of it from | to |\n\
         |---|---|---|---|---|---|\n",
    );
    for set in sets {
        let half = set.half().map_or("–".to_string(), |ratio| format!("{ratio:.2}"));
        let (hardest, (from, to)) = (set.hardest(), set.hard());
        let (events, visits, ratio) = (set.events, hardest.visits, hardest.ratio);
        writeln!(text, "| {events} | {half} | {visits} | {ratio:.2} | {from:.2} | {to:.2} |").expect("a string grows");
    }
    text.push_str("\n| Events | Clauses | Ratio | Plans | Visits (median) | table, µs | simple | z3 |\n");
    text.push_str("|---|---|---|---|---|---|---|---|\n");
    for set in sets {
        set.points.iter().for_each(|point| text.push_str(&line(set.events, point)));
    }
    text
}

fn line(events: u32, point: &Point) -> String {
    let Point { clauses, ratio, share, visits, times } = point;
    let times: String = times.iter().map(|time| format!(" {time:.1} |")).collect();
    format!("| {events} | {clauses} | {ratio:.2} | {share:.1} % | {visits} |{times}\n")
}
