//! Answers requests from standard input as the table does, from this program's own definitions.

use crate::answer::answer;
use crate::dialogue::request;
use crate::spoil;
use std::io::{self, BufRead, BufWriter, Write};

/// Replies to each line until the input ends; spoiled in a way where one is given.
pub fn serve(way: Option<usize>) -> io::Result<()> {
    let mut input = io::stdin().lock();
    let mut output = io::stdout().lock();
    let mut line = Vec::new();
    let mut number = 0;
    while input.read_until(b'\n', &mut line)? > 0 {
        let text = line.strip_suffix(b"\n").unwrap_or(&line);
        number += 1;
        let replies = match way {
            None => vec![reply(text)],
            Some(way) => spoil::replies(way, number, text),
        };
        for mut reply in replies {
            reply.push('\n');
            output.write_all(reply.as_bytes())?;
        }
        output.flush()?;
        line.clear();
    }
    Ok(())
}

/// The reply to a line.
pub fn reply(line: &[u8]) -> String {
    answer(request(line).as_ref()).to_string()
}

/// Writes lines to standard output.
pub fn write_lines(lines: impl Iterator<Item = Vec<u8>>) -> io::Result<()> {
    let mut output = BufWriter::new(io::stdout().lock());
    for line in lines {
        output.write_all(&line)?;
        output.write_all(b"\n")?;
    }
    output.flush()
}
