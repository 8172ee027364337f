//! Measures additions to a standing day, each way over the same facts, and prints Markdown tables.
//! Usage: additions COUNT RUNS SEED. The ways are those of bench/additions/run; they have to agree in every answer and table.

#![no_main]

mod afresh;
mod agree;
mod facts;
mod library;
mod measure;

use facts::{Kind, FACTS};
use measure::{measure, Measured};

/// The numbers of events that are measured.
const SIZES: [usize; 5] = [5, 6, 10, 12, 24];

/// The steps of growth that are shown, each a doubling.
const STEPS: [(usize, usize); 2] = [(6, 12), (12, 24)];

/// The ways, as the tables name them.
const WAYS: [&str; 5] = ["(a), rows of 24", "(a), rows of n", "(b)", "(c)", "(d)"];

/// Started as C starts a program: Rust's own start looks up the stack's place, and the kit's emulator fails there.
#[no_mangle]
pub extern "C" fn main() -> i32 {
    let words: Vec<u64> = std::env::args().skip(1).filter_map(|word| word.parse().ok()).collect();
    match words[..] {
        [count, runs, seed] if count > 0 && runs > 0 => {
            show("Random facts", Kind::Any, count as usize, runs, seed);
            println!();
            show("Facts that all fit", Kind::Fitting, count as usize, runs, seed);
            0
        }
        _ => {
            eprintln!("usage: additions COUNT RUNS SEED");
            2
        }
    }
}

/// Measures one kind of facts at every size, and prints the two tables of it.
fn show(title: &str, kind: Kind, count: usize, runs: u64, seed: u64) {
    println!("{title}: nanoseconds for each addition asked\n");
    println!("| Events | Refused | {} | (a) / (c) | (b) / (c) | (a) / (d) | (b) / (d) |", WAYS.join(" | "));
    println!("|{}", "---|".repeat(6 + WAYS.len()));
    let mut shown = Vec::new();
    for n in SIZES {
        let days = facts::days(seed, kind, n, count);
        let refused = agree::refused(n, &days);
        let spent = measure(n, &days, count * FACTS - refused, runs);
        println!("{}", line(n, refused, count * FACTS, &spent));
        shown.push((n, spent));
    }
    println!("\n| Growth | {} |", WAYS.join(" | "));
    println!("|{}", "---|".repeat(1 + WAYS.len()));
    for (small, large) in STEPS {
        let at = |size| shown.iter().find(|(n, _)| *n == size).expect("a size that is measured").1;
        let (before, after) = (at(small), at(large));
        let times: Vec<String> = (0..WAYS.len()).map(|way| format!("{:.2}", after[way] / before[way])).collect();
        println!("| {small} to {large} events | {} |", times.join(" | "));
    }
}

/// One line of the table of times.
fn line(n: usize, refused: usize, asked: usize, spent: &Measured) -> String {
    let [added, _, public, afresh, reaching] = spent;
    let times: Vec<String> = spent.iter().map(|time| format!("{time:.0}")).collect();
    let ratios = [added / afresh, public / afresh, added / reaching, public / reaching];
    let ratios: Vec<String> = ratios.iter().map(|ratio| format!("{ratio:.2}")).collect();
    let share = 100.0 * refused as f64 / asked as f64;
    format!("| {n} | {refused} of {asked}, {share:.1} % | {} | {} |", times.join(" | "), ratios.join(" | "))
}
