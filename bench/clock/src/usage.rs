//! The end of a process with the processor time that it took, as the C library's `wait4` tells it on Linux.

use std::io;
use std::process::Child;

pub struct Ended {
    /// As the C library gives it: 0 where the program ended well.
    pub status: i32,
    /// In microseconds, user and system.
    pub spent: u64,
}

/// C's `struct rusage`; a time is its seconds and microseconds.
#[repr(C)]
#[derive(Default)]
struct Usage {
    user: [i64; 2],
    system: [i64; 2],
    others: [i64; 14],
}

extern "C" {
    fn wait4(process: i32, status: *mut i32, options: i32, usage: *mut Usage) -> i32;
}

/// Waits for the child to end.
pub fn wait(child: &Child) -> io::Result<Ended> {
    let (mut status, mut usage) = (0, Usage::default());
    // Both places outlive the call, which writes an int to the one and a struct rusage to the other.
    let process = unsafe { wait4(child.id() as i32, &mut status, 0, &mut usage) };
    if process < 0 {
        return Err(io::Error::last_os_error());
    }
    let spent = [usage.user, usage.system].iter().map(|[seconds, micros]| 1_000_000 * seconds + micros).sum::<i64>();
    Ok(Ended { status, spent: spent as u64 })
}
