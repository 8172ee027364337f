//! Runs the table's command: one thread writes the requests, one reads the replies, and each reply is compared.

use crate::compare::compare;
use crate::requests::Maker;
use std::io::{BufRead, BufReader, Read, Write};
use std::process::{Child, Command, Stdio};
use std::sync::mpsc::{sync_channel, Receiver, SyncSender};
use std::thread;
use std::time::Duration;

/// How many requests may wait for their reply.
const WAITING: usize = 256;
/// How long a reply may take.
const PATIENCE: Duration = Duration::from_secs(120);
/// How many failing requests are printed.
const MOST_PRINTED: usize = 10;
/// The longest text that is printed whole.
const LONGEST_PRINTED: usize = 20_000;

#[derive(Default)]
pub struct Tally {
    pub passed: usize,
    pub failed: usize,
}

/// Pipes the seed's requests to the command and compares every reply.
pub fn run(seed: u64, requests: usize, command: &[String]) -> Result<Tally, String> {
    let mut child = started(command)?;
    let stdin = child.stdin.take().ok_or("no pipe to the program")?;
    let stdout = child.stdout.take().ok_or("no pipe from the program")?;
    let (sent, lines) = sync_channel(WAITING);
    let (heard, replies) = sync_channel(WAITING);
    thread::spawn(move || write_requests(seed, requests, stdin, sent));
    thread::spawn(move || read_replies(stdout, heard));
    let mut tally = compare_all(seed, requests, lines, &replies);
    if let Err(fault) = ended_well(&mut child, &replies) {
        println!("{fault}");
        tally.failed += 1;
    }
    Ok(tally)
}

fn started(command: &[String]) -> Result<Child, String> {
    let (program, words) = command.split_first().ok_or("no command was given after --")?;
    let mut command = Command::new(program);
    command.args(words).stdin(Stdio::piped()).stdout(Stdio::piped());
    command.spawn().map_err(|error| format!("{program} could not be run: {error}"))
}

/// Writes the lines; the last ends with the input and not with a line feed.
fn write_requests(seed: u64, requests: usize, mut stdin: impl Write, sent: SyncSender<Vec<u8>>) {
    let mut maker = Maker::new(seed);
    for request in 0..requests {
        let mut line = maker.next();
        let last = request + 1 == requests;
        if last {
            line = b"lamps 1 0 0".to_vec();
        }
        if sent.send(line.clone()).is_err() {
            return;
        }
        if !last {
            line.push(b'\n');
        }
        if stdin.write_all(&line).is_err() {
            return;
        }
    }
}

fn read_replies(stdout: impl Read, heard: SyncSender<Vec<u8>>) {
    let mut reader = BufReader::new(stdout);
    loop {
        let mut reply = Vec::new();
        match reader.read_until(b'\n', &mut reply) {
            Ok(0) | Err(_) => return,
            Ok(_) => {}
        }
        if heard.send(reply).is_err() {
            return;
        }
    }
}

/// Compares the replies in order, until one does not come: then all that are left failed.
fn compare_all(seed: u64, requests: usize, lines: Receiver<Vec<u8>>, replies: &Receiver<Vec<u8>>) -> Tally {
    let mut tally = Tally::default();
    for request in 1..=requests {
        let Ok(line) = lines.recv() else {
            break;
        };
        let Ok(reply) = replies.recv_timeout(PATIENCE) else {
            println!("no reply came to request {request} of seed {seed}: {}", shown(&line));
            break;
        };
        match fault(&line, &reply) {
            None => tally.passed += 1,
            Some(expected) => {
                tally.failed += 1;
                if tally.failed <= MOST_PRINTED {
                    print_failure(seed, request, &line, &expected, &reply);
                }
            }
        }
    }
    tally.failed = requests - tally.passed;
    tally
}

/// What was expected instead of the reply, if it is wrong. A reply ends with a line feed.
fn fault(line: &[u8], reply: &[u8]) -> Option<String> {
    match reply.strip_suffix(b"\n") {
        Some(reply) => compare(line, reply).err().map(|fault| fault.expected),
        None => Some("a reply that ends with a line feed".into()),
    }
}

fn print_failure(seed: u64, request: usize, line: &[u8], expected: &str, reply: &[u8]) {
    println!("request {request} of seed {seed} failed");
    println!("  line:     {}", shown(line));
    println!("  expected: {}", shown(expected.as_bytes()));
    println!("  got:      {}", shown(reply.strip_suffix(b"\n").unwrap_or(reply)));
}

/// The text with odd bytes escaped; cut where it is very long (`--print` gives a request whole).
fn shown(text: &[u8]) -> String {
    if text.len() <= LONGEST_PRINTED {
        return text.escape_ascii().to_string();
    }
    format!("{}... ({} bytes)", text[..LONGEST_PRINTED].escape_ascii(), text.len())
}

/// After the last reply: nothing more is said, and the program ends with status 0.
fn ended_well(child: &mut Child, replies: &Receiver<Vec<u8>>) -> Result<(), String> {
    match replies.recv_timeout(PATIENCE) {
        Ok(reply) => {
            stop(child);
            return Err(format!("more replies than requests: {}", shown(&reply)));
        }
        Err(std::sync::mpsc::RecvTimeoutError::Timeout) => {
            stop(child);
            return Err("the program did not end with its input".into());
        }
        Err(std::sync::mpsc::RecvTimeoutError::Disconnected) => {}
    }
    let status = child.wait().map_err(|error| error.to_string())?;
    if status.success() {
        Ok(())
    } else {
        Err(format!("the program ended with {status}"))
    }
}

fn stop(child: &mut Child) {
    let _ = child.kill();
    let _ = child.wait();
}
