//! Runs a program once, and prints two times in nanoseconds and the KiB that it took:
//! `measure INPUT OUTPUT PROGRAM WORD..`.
//!
//! The program's standard input is the file INPUT and its standard output the file
//! OUTPUT. The first time runs from before the program is started until it has ended.
//! The second one is the processor's, for the program and for what the system did on its
//! behalf. The memory is the most that was resident at one time. Linux, 64 bits.

use std::env;
use std::fs::File;
use std::process::{Command, ExitCode};
use std::time::Instant;

/// The C library's `struct rusage`: the processor's two times, in seconds and microseconds
/// each, and 14 words.
#[derive(Default)]
#[repr(C)]
struct Usage {
    times: [i64; 4],
    most_resident: i64,
    others: [i64; 13],
}

extern "C" {
    fn wait4(process: i32, status: *mut i32, options: i32, usage: *mut Usage) -> i32;
}

fn main() -> ExitCode {
    let words: Vec<String> = env::args().skip(1).collect();
    let [input, output, program, words @ ..] = words.as_slice() else {
        eprintln!("usage: measure INPUT OUTPUT PROGRAM WORD..");
        return ExitCode::from(2);
    };
    let input = File::open(input).expect("the input opens");
    let output = File::create(output).expect("the output opens");
    let mut command = Command::new(program);
    command.args(words).stdin(input).stdout(output);
    let began = Instant::now();
    let child = command.spawn().expect("the program starts");
    let (mut status, mut usage) = (0, Usage::default());
    // SAFETY: both pointers are to live values of the layout that wait4 writes.
    let ended = unsafe { wait4(child.id() as i32, &mut status, 0, &mut usage) };
    let took = began.elapsed();
    if ended != child.id() as i32 || status != 0 {
        eprintln!("measure: {program} ended with wait status {status}");
        return ExitCode::FAILURE;
    }
    let [seconds, microseconds, more_seconds, more_microseconds] = usage.times;
    let processor = (seconds + more_seconds) * 1_000_000_000 + (microseconds + more_microseconds) * 1000;
    println!("{} {processor} {}", took.as_nanos(), usage.most_resident);
    ExitCode::SUCCESS
}
