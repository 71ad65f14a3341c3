//! A call that the system stops, or that does not end, is named like one that differs.

use std::sync::atomic::{AtomicU64, Ordering};

static SEED: AtomicU64 = AtomicU64::new(0);
static CALL: AtomicU64 = AtomicU64::new(0);

/// Seconds after which a call counts as without end.
const LONGEST: u32 = 60;

const SIGILL: i32 = 4;
const SIGBUS: i32 = 7;
const SIGFPE: i32 = 8;
const SIGSEGV: i32 = 11;
const SIGALRM: i32 = 14;

extern "C" {
    fn signal(number: i32, handler: extern "C" fn(i32)) -> usize;
    fn alarm(seconds: u32) -> u32;
}

/// What repeats a call.
pub fn repeated(seed: u64, call: u64) -> String {
    format!("call {call} differs; this repeats it: make soak CALLS=1 SEED={seed} FROM={call}")
}

extern "C" fn stopped(number: i32) {
    let what = if number == SIGALRM {
        "did not end"
    } else {
        "was stopped by the system"
    };
    eprintln!("a call {what}, signal {number}");
    let (seed, call) = (SEED.load(Ordering::Relaxed), CALL.load(Ordering::Relaxed));
    eprintln!("{}", repeated(seed, call));
    std::process::exit(1);
}

pub fn start() {
    for number in [SIGILL, SIGBUS, SIGFPE, SIGSEGV, SIGALRM] {
        // The handler ends the process, so that nothing goes on with what a stopped call left.
        unsafe { signal(number, stopped) };
    }
}

/// The call begins.
pub fn begin(seed: u64, call: u64) {
    SEED.store(seed, Ordering::Relaxed);
    CALL.store(call, Ordering::Relaxed);
    // Sets the one alarm of the process anew.
    unsafe { alarm(LONGEST) };
}

/// No call is under way.
pub fn end() {
    unsafe { alarm(0) };
}
