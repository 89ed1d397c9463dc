//! Shows the input when the product ends or stalls the tests: a call that
//! aborts gives no answer that could be compared.

use std::sync::atomic::{AtomicPtr, AtomicU64, AtomicUsize, Ordering::Relaxed};

use outside::text::spaced;

/// Seconds a group of comparisons may take; each needs a fraction of this.
const PATIENCE: u32 = 300;
/// Illegal instruction, abort, bus, arithmetic, memory, alarm.
const SIGNALS: [i32; 6] = [4, 6, 7, 8, 11, 14];
const ALARM: i32 = 14;

extern "C" {
    fn signal(number: i32, handler: extern "C" fn(i32)) -> usize;
    fn alarm(seconds: u32) -> u32;
    fn _exit(code: i32) -> !;
}

static NAME: AtomicUsize = AtomicUsize::new(0);
static WORDS: AtomicPtr<i32> = AtomicPtr::new(std::ptr::null_mut());
static LENGTH: AtomicUsize = AtomicUsize::new(0);
static SIZE: AtomicU64 = AtomicU64::new(0);
static ALLOWANCE: AtomicU64 = AtomicU64::new(0);

/// The calls that can be under way.
#[derive(Clone, Copy)]
pub enum Call {
    Nothing,
    Check,
    Reduce,
    Decide { size: u32, allowance: u64 },
}

/// Notes a call before it is made; `Nothing` is noted after it.
pub fn note(call: Call, words: &[i32]) {
    WORDS.store(words.as_ptr().cast_mut(), Relaxed);
    LENGTH.store(words.len(), Relaxed);
    let name = match call {
        Call::Nothing => 0,
        Call::Check => 1,
        Call::Reduce => 2,
        Call::Decide { size, allowance } => {
            SIZE.store(u64::from(size), Relaxed);
            ALLOWANCE.store(allowance, Relaxed);
            3
        }
    };
    NAME.store(name, Relaxed);
}

/// Starts watching, and with each group anew.
pub fn start() {
    for number in SIGNALS {
        // Safe because the handler ends the process and returns nowhere.
        unsafe { signal(number, ended) };
    }
    unsafe { alarm(PATIENCE) };
}

/// Prints the call under way and ends with failure. The process is lost
/// anyway, so printing here is a risk worth taking.
extern "C" fn ended(number: i32) {
    let (size, allowance) = (SIZE.load(Relaxed), ALLOWANCE.load(Relaxed));
    let call = match NAME.load(Relaxed) {
        0 => "no library call".to_string(),
        1 => "check".to_string(),
        2 => "reduce".to_string(),
        _ => format!("decide at size {size}, allowance {allowance},"),
    };
    let why = if number == ALARM { "a group stalled" } else { "the tests were ended" };
    let (words, length) = (WORDS.load(Relaxed), LENGTH.load(Relaxed));
    let words = match NAME.load(Relaxed) {
        0 => &[],
        // Safe because the caller of a noted call still lends its words.
        _ => unsafe { std::slice::from_raw_parts(words, length) },
    };
    println!("FAILED: {why} (signal {number}) in {call} of words: {}", spaced(words));
    unsafe { _exit(1) }
}
