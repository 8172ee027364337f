//! The bench's clock: runs programs in turn, round after round, and prints the least processor time (user and system)
//! of each in microseconds, one to a line. What they print is thrown away.
//! Usage: clock ROUNDS INPUT COMMAND... [-- INPUT COMMAND...]...      INPUT is the file of a program's standard input

mod usage;

use std::error::Error;
use std::fs::File;
use std::process::{Command, Stdio};

fn main() -> Result<(), Box<dyn Error>> {
    let words: Vec<String> = std::env::args().skip(1).collect();
    let (rounds, programs) =
        words.split_first().ok_or("usage: clock ROUNDS INPUT COMMAND... [-- INPUT COMMAND...]...")?;
    let programs: Vec<&[String]> = programs.split(|word| word == "--").collect();
    let mut least = vec![u64::MAX; programs.len()];
    for _ in 0..rounds.parse::<u32>()? {
        for (least, program) in least.iter_mut().zip(&programs) {
            *least = (*least).min(spent(program)?);
        }
    }
    least.iter().for_each(|least| println!("{least}"));
    Ok(())
}

/// The processor time of one run of a program, given by its input and the words of its command.
fn spent(program: &[String]) -> Result<u64, Box<dyn Error>> {
    let (input, command) = program.split_first().ok_or("a program has an input and a command")?;
    let (name, words) = command.split_first().ok_or("a program has a command")?;
    let child = Command::new(name).args(words).stdin(File::open(input)?).stdout(Stdio::null()).spawn()?;
    let ended = usage::wait(&child)?;
    if ended.status != 0 {
        return Err(format!("{name} ended with the status {}", ended.status).into());
    }
    Ok(ended.spent)
}
