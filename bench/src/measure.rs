// Time as processor time, user and system: of a program from its start to its
// end, and of this thread.

use std::fs::File;
use std::path::Path;
use std::process::{Command, Stdio};

#[repr(C)]
#[derive(Clone, Copy, Default)]
struct Time {
    seconds: i64,
    parts: i64,
}

impl Time {
    fn seconds(self, of: f64) -> f64 {
        self.seconds as f64 + self.parts as f64 / of
    }
}

/// The C library's `struct rusage` on 64-bit Linux.
#[repr(C)]
#[derive(Default)]
struct Usage {
    user: Time,
    system: Time,
    rest: [i64; 14],
}

const THREAD_CPU_TIME: i32 = 3;

extern "C" {
    fn wait4(pid: i32, status: *mut i32, options: i32, usage: *mut Usage) -> i32;
    fn clock_gettime(clock: i32, time: *mut Time) -> i32;
}

/// Processor time of a program with a file as its input and its output thrown
/// away.
pub fn program(path: &Path, args: &[&str], input: &Path) -> f64 {
    let open = |p: &Path| File::open(p).unwrap_or_else(|e| panic!("{}: {}", p.display(), e));
    let child = Command::new(path)
        .args(args)
        .stdin(open(input))
        .stdout(Stdio::null())
        .stderr(Stdio::null())
        .spawn()
        .unwrap_or_else(|e| panic!("{}: {}", path.display(), e));
    let (mut status, mut usage) = (0, Usage::default());
    let pid = child.id() as i32;
    // The child is waited for here and nowhere else.
    let found = unsafe { wait4(pid, &mut status, 0, &mut usage) };
    assert_eq!(found, pid, "{} was not waited for", path.display());
    assert_eq!(status, 0, "{} did not end well", path.display());
    usage.user.seconds(1e6) + usage.system.seconds(1e6)
}

pub fn now() -> f64 {
    let mut time = Time::default();
    unsafe { clock_gettime(THREAD_CPU_TIME, &mut time) };
    time.seconds(1e9)
}

/// The best of some rounds in which all of these run in turn.
pub fn best(rounds: usize, what: &mut [&mut dyn FnMut() -> f64]) -> Vec<f64> {
    let mut best = vec![f64::MAX; what.len()];
    for _ in 0..rounds {
        for (b, run) in best.iter_mut().zip(what.iter_mut()) {
            *b = b.min(run());
        }
    }
    best
}
