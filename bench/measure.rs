//! Runs a command with its output thrown away, and prints what it cost: processor time in
//! microseconds, peak memory in kilobytes, exit status.
//!
//! It is a program of its own because Linux counts the peak memory of the process that starts a
//! program as that program's own, and this one is small.

use std::process::{Command, ExitCode, Stdio};

/// `struct rusage` of 64-bit Linux: seconds and microseconds of user time, of system time, then the
/// peak memory.
type Usage = [i64; 18];

extern "C" {
    fn wait4(pid: i32, status: *mut i32, options: i32, usage: *mut Usage) -> i32;
}

fn main() -> ExitCode {
    let mut words = std::env::args_os().skip(1);
    let Some(program) = words.next() else {
        eprintln!("usage: measure PROGRAM [WORD ..]");
        return ExitCode::from(2);
    };
    let started = Command::new(&program)
        .args(words)
        .stdout(Stdio::null())
        .spawn();
    let Ok(child) = started else {
        eprintln!("cannot start {}", program.display());
        return ExitCode::from(2);
    };
    let mut status = 0;
    let mut usage: Usage = [0; 18];
    // SAFETY: both pointers are to values of this frame, of the sizes that the C library writes.
    let waited = unsafe { wait4(child.id() as i32, &mut status, 0, &mut usage) };
    if waited < 0 {
        eprintln!("cannot wait for {}", program.display());
        return ExitCode::from(2);
    }
    let time = (usage[0] + usage[2]) * 1_000_000 + usage[1] + usage[3];
    println!("{time} {} {}", usage[4], status >> 8 & 0xff);
    ExitCode::SUCCESS
}
