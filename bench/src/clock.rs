//! Processor time, of this thread and of commands. Every `unsafe` that calls the system stands in this file.

use std::process::{Command, Stdio};
use std::time::Instant;

#[repr(C)]
#[derive(Default)]
struct Span {
    seconds: i64,
    /// Nanoseconds from the clock, microseconds in `Usage`.
    parts: i64,
}

#[repr(C)]
#[derive(Default)]
struct Usage {
    user: Span,
    system: Span,
    others: [i64; 14],
}

const THREAD_CPUTIME: i32 = 3;

extern "C" {
    fn clock_gettime(clock: i32, time: *mut Span) -> i32;
    fn wait4(pid: i32, status: *mut i32, options: i32, usage: *mut Usage) -> i32;
}

/// The processor time that this thread has used, in nanoseconds: other work on the machine doesn't count.
pub fn thread_ns() -> f64 {
    let mut t = Span::default();
    // SAFETY: Linux's clock for this thread; `t` has the layout of its timespec.
    assert_eq!(unsafe { clock_gettime(THREAD_CPUTIME, &mut t) }, 0, "the thread's clock is there");
    t.seconds as f64 * 1e9 + t.parts as f64
}

/// What a command took, in seconds: by the clock on the wall, and of processor time.
#[derive(Clone, Copy)]
pub struct Cost {
    pub wall: f64,
    pub processor: f64,
}

/// Runs a command line by `sh` with its output thrown away.
pub fn run(line: &str) -> Result<Cost, String> {
    let begin = Instant::now();
    let mut command = Command::new("sh");
    command.args(["-c", line]).stdin(Stdio::null()).stdout(Stdio::null()).stderr(Stdio::null());
    let child = command.spawn().map_err(|e| e.to_string())?;
    let (mut status, mut usage) = (0, Usage::default());
    // SAFETY: waits for the child just started, which nobody else waits for; `usage` has the layout of Linux's rusage.
    let got = unsafe { wait4(child.id() as i32, &mut status, 0, &mut usage) };
    let wall = begin.elapsed().as_secs_f64();
    if got != child.id() as i32 || status != 0 {
        return Err(format!("'{line}' ended with the status {}", status >> 8));
    }
    let seconds = |s: &Span| s.seconds as f64 + s.parts as f64 / 1e6;
    Ok(Cost { wall, processor: seconds(&usage.user) + seconds(&usage.system) })
}
