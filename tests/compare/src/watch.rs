//! The processor time, and what is said where the library does not come back: it touched memory that was not
//! lent, or did not end.

use std::sync::atomic::{AtomicU64, Ordering};

static SEED: AtomicU64 = AtomicU64::new(0);
static GROUP: AtomicU64 = AtomicU64::new(0);

const SIGBUS: i32 = 7;
const SIGSEGV: i32 = 11;
const SIGALRM: i32 = 14;
/// Far more than any group takes.
const SECONDS: u32 = 300;

#[repr(C)]
struct Time {
    seconds: i64,
    nanoseconds: i64,
}

const CLOCK_PROCESS_CPUTIME_ID: i32 = 2;

extern "C" {
    fn clock_gettime(clock: i32, time: *mut Time) -> i32;
    fn signal(number: i32, handler: extern "C" fn(i32)) -> usize;
    fn alarm(seconds: u32) -> u32;
    fn write(file: i32, bytes: *const u8, len: usize) -> isize;
    fn _exit(status: i32) -> !;
}

/// Only calls that are allowed in a signal handler.
extern "C" fn report(number: i32) {
    let what: &[u8] = match number {
        SIGALRM => b"DIFFERS: a call has not returned",
        _ => b"DIFFERS: memory that was not lent was read or written, or an input was written",
    };
    say(what);
    say(b"\nrun again with the arguments: ");
    say_number(SEED.load(Ordering::Relaxed));
    say(b" --group ");
    say_number(GROUP.load(Ordering::Relaxed));
    say(b"\n");
    unsafe { _exit(1) }
}

fn say(text: &[u8]) {
    unsafe { write(1, text.as_ptr(), text.len()) };
}

fn say_number(mut number: u64) {
    let mut digits = [0; 20];
    let mut at = digits.len();
    loop {
        at -= 1;
        digits[at] = b'0' + (number % 10) as u8;
        number /= 10;
        if number == 0 {
            break;
        }
    }
    say(&digits[at..]);
}

pub fn start(seed: u64) {
    SEED.store(seed, Ordering::Relaxed);
    for number in [SIGBUS, SIGSEGV, SIGALRM] {
        unsafe { signal(number, report) };
    }
}

/// Called before each group.
pub fn group(number: usize) {
    GROUP.store(number as u64, Ordering::Relaxed);
    unsafe { alarm(SECONDS) };
}

/// Processor time of this run so far.
pub fn seconds() -> f64 {
    let mut time = Time {
        seconds: 0,
        nanoseconds: 0,
    };
    let failed = unsafe { clock_gettime(CLOCK_PROCESS_CPUTIME_ID, &mut time) };
    assert_eq!(failed, 0, "clock_gettime failed");
    time.seconds as f64 + time.nanoseconds as f64 / 1e9
}
