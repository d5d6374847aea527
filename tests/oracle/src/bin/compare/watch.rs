//! Runs comparisons in a process of their own and watches it, so that a library that ends the process, or does not
//! return, is told like any other difference.

use crate::board::Board;
use std::io::Write;
use std::process::exit;
use std::time::{Duration, Instant};

/// Time between two looks at the other process.
const PAUSE: Duration = Duration::from_millis(2);

// Values of Linux.
const WITHOUT_WAITING: i32 = 1;
const KILL: i32 = 9;
const BROKEN_PIPE: i32 = 13;
const AS_USUAL: usize = 0;

extern "C" {
    fn fork() -> i32;
    fn waitpid(process: i32, status: *mut i32, options: i32) -> i32;
    fn kill(process: i32, signal: i32) -> i32;
    fn signal(number: i32, handler: usize) -> usize;
}

/// Lets this program end silently where nobody reads what it prints, as others do.
pub fn end_with_reader() {
    // SAFETY: the usual way to end takes no handler.
    unsafe {
        signal(BROKEN_PIPE, AS_USUAL);
    }
}

/// How the other process ended.
pub enum End {
    Finished,
    /// In other words than it should.
    Broken(String),
}

/// Runs a task in a process of its own, in which no call may take longer than the limit.
pub fn watched(board: &Board, limit: Duration, task: impl FnOnce()) -> End {
    std::io::stdout().flush().expect("standard output can be written");
    // SAFETY: this program has one thread.
    let process = unsafe { fork() };
    assert!(process >= 0, "no process can be made");
    if process == 0 {
        task();
        board.finish();
        exit(0);
    }
    let (mut steps, mut since) = (board.steps(), Instant::now());
    loop {
        let mut status = 0;
        // SAFETY: the process is this one's child, and the status has a place.
        if unsafe { waitpid(process, &mut status, WITHOUT_WAITING) } == process {
            return end(board, status);
        }
        if steps != board.steps() {
            (steps, since) = (board.steps(), Instant::now());
        }
        if steps % 2 == 1 && since.elapsed() > limit {
            // SAFETY: as above; the child is not waited for yet, so its number is its own.
            unsafe {
                kill(process, KILL);
                waitpid(process, &mut status, 0);
            }
            return End::Broken(format!("no answer within {} s", limit.as_secs()));
        }
        std::thread::sleep(PAUSE);
    }
}

/// The end that a status tells of.
fn end(board: &Board, status: i32) -> End {
    let (signal, code) = (status & 0x7f, status >> 8 & 0xff);
    match (signal, code) {
        (0, 0) if board.finished() => End::Finished,
        (0, code) => End::Broken(format!("the process was ended with status {code}")),
        (signal, _) => {
            End::Broken(format!("the process was ended by signal {signal}{}", signal_name(signal)))
        }
    }
}

/// The name of a signal that a wrong library may lead to.
fn signal_name(signal: i32) -> &'static str {
    match signal {
        4 => ", an illegal instruction",
        6 => ", abort",
        7 => ", a bus error",
        8 => ", an arithmetic error",
        11 => ", a step outside memory or past the end of the stack",
        _ => "",
    }
}
