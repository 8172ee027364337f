//! The independent program: makes requests, pipes them to the table's program, and compares every reply.
//! It is written from papers 01 and 02 alone and shares no line with the planner.

#[cfg(test)]
mod against_itself_tests;
mod answer;
mod compare;
mod day;
#[cfg(test)]
mod day_laws_tests;
#[cfg(test)]
mod day_tests;
#[cfg(test)]
mod days_tests;
mod dialogue;
#[cfg(test)]
mod events_tests;
mod facts;
mod lamps;
mod pipe;
mod plain;
mod problem;
mod random;
mod reasons;
mod requests;
mod script;
#[cfg(test)]
mod script_tests;
mod search;
mod serve;
mod shortest;
#[cfg(test)]
mod shortest_tests;
mod slider;
mod spoil;
mod spoil_day;
mod text;
#[cfg(test)]
mod text_tests;

use requests::peers::Script;
use std::fs;
use std::io::{self, Write};
use std::path::Path;
use std::process::ExitCode;

const USAGE: &str = "usage:
  independent --seed S --requests N -- COMMAND...        pipe N requests to the command and compare every reply
  independent --seed S --requests N --print              print the requests instead
  independent --answer [--spoil K]                       answer requests from standard input, spoiled in the K-th way
  independent --ways                                     name the ways of spoiling, one to a line
  independent --bench EVENTS CLAUSES COUNT SEED ROOM     print plan requests for the figures
  independent --scripts EVENTS CLAUSES COUNT SEED FOLDER write scripts for solvers, and what each is to say
  independent --writes COUNT SEED                        print for each problem a write request and a plan request
  independent --long-script BYTES                        print one script of exactly so many bytes";

fn main() -> ExitCode {
    let words: Vec<String> = std::env::args().skip(1).collect();
    match told(&words) {
        Ok(code) => code,
        Err(message) => {
            eprintln!("independent: {message}\n{USAGE}");
            ExitCode::from(2)
        }
    }
}

fn told(words: &[String]) -> Result<ExitCode, String> {
    let parts: Vec<&str> = words.iter().map(String::as_str).collect();
    match parts[..] {
        ["--seed", seed, "--requests", requests, "--", ..] => {
            compared(number(seed)?, number(requests)? as usize, &words[5..])
        }
        ["--seed", seed, "--requests", requests, "--print"] => printed(number(seed)?, number(requests)? as usize),
        ["--answer"] => served(None),
        ["--answer", "--spoil", way] => served(Some(number(way)? as usize)),
        ["--ways"] => listed(spoil::names()),
        ["--bench", events, clauses, count, seed, room] => listed(requests::bench::lines(
            number(events)? as usize,
            number(clauses)? as usize,
            number(count)? as usize,
            number(seed)?,
            number(room)? as usize,
        )),
        ["--scripts", events, clauses, count, seed, folder] => {
            let (events, clauses) = (number(events)? as usize, number(clauses)? as usize);
            written(requests::peers::scripts(events, clauses, number(count)? as usize, number(seed)?)?, folder)
        }
        ["--writes", count, seed] => listed(requests::peers::lines(number(count)? as usize, number(seed)?)),
        ["--long-script", length] => {
            let text = requests::peers::long_script(number(length)? as usize)?;
            io::stdout().write_all(&text).map_err(|error| error.to_string())?;
            Ok(ExitCode::SUCCESS)
        }
        _ => Err("these words are not understood".into()),
    }
}

fn number(word: &str) -> Result<u64, String> {
    word.parse().map_err(|_| format!("{word} is not a number"))
}

fn compared(seed: u64, requests: usize, command: &[String]) -> Result<ExitCode, String> {
    let tally = pipe::run(seed, requests, command)?;
    println!("{} passed, {} failed", tally.passed, tally.failed);
    Ok(ExitCode::from(u8::from(tally.failed > 0)))
}

fn printed(seed: u64, requests: usize) -> Result<ExitCode, String> {
    let mut maker = requests::Maker::new(seed);
    let lines = (0..requests).map(|_| maker.next());
    serve::write_lines(lines).map_err(|error| error.to_string())?;
    Ok(ExitCode::SUCCESS)
}

fn listed(lines: Vec<String>) -> Result<ExitCode, String> {
    serve::write_lines(lines.into_iter().map(String::into_bytes)).map_err(|error| error.to_string())?;
    Ok(ExitCode::SUCCESS)
}

/// Writes each script as NUMBER.smt2, and beside it, as NUMBER.expected, what is to be said of it.
fn written(scripts: Vec<Script>, folder: &str) -> Result<ExitCode, String> {
    let write = |number: usize, end: &str, bytes: &[u8]| {
        let path = Path::new(folder).join(format!("{number}.{end}"));
        fs::write(&path, bytes).map_err(|error| format!("{}: {error}", path.display()))
    };
    fs::create_dir_all(folder).map_err(|error| format!("{folder}: {error}"))?;
    for (number, script) in scripts.iter().enumerate() {
        write(number, "smt2", &script.text)?;
        write(number, "expected", format!("{}\n", script.expected).as_bytes())?;
    }
    Ok(ExitCode::SUCCESS)
}

fn served(way: Option<usize>) -> Result<ExitCode, String> {
    serve::serve(way).map_err(|error| error.to_string())?;
    Ok(ExitCode::SUCCESS)
}
