//! How much stack the library takes. No proof bounds a stack, so it is
//! measured: calls run on a thread whose stack was filled with a pattern.

use std::alloc::{alloc, dealloc, Layout};
use std::ffi::c_void;

use outside::draft::Draft;

use super::limits::{largest, of_nodes};
use super::tally::Tally;
use crate::engine;

/// What the README says that a call takes at most.
const STATED: usize = 256 * 1024;
/// The stack lent, so that a call that takes more is still measured.
const LENT: usize = 1024 * 1024;
const PATTERN: u8 = 0xA5;
/// The splits of eight sets: the search is nowhere deeper.
const DEEPEST: usize = 255;

extern "C" {
    fn pthread_attr_init(attributes: *mut c_void) -> i32;
    fn pthread_attr_setstack(attributes: *mut c_void, start: *mut c_void, size: usize) -> i32;
    fn pthread_create(
        thread: *mut usize,
        attributes: *const c_void,
        run: extern "C" fn(*mut c_void) -> *mut c_void,
        given: *mut c_void,
    ) -> i32;
    fn pthread_join(thread: usize, result: *mut *mut c_void) -> i32;
}

/// What a thread is given to do.
enum Call {
    Check(Vec<i32>),
    Reduce(Vec<i32>, Vec<i32>),
    Decide(Vec<i32>, u32),
}

extern "C" fn run_call(given: *mut c_void) -> *mut c_void {
    match unsafe { &mut *given.cast::<Call>() } {
        Call::Check(words) => drop(engine::check(words)),
        Call::Reduce(words, out) => drop(engine::reduce(words, out)),
        Call::Decide(words, size) => drop(engine::decide(words, *size, 100_000)),
    }
    given
}

/// How many bytes of its stack a thread wrote to while it made a call.
fn taken(mut call: Call) -> usize {
    let layout = Layout::from_size_align(LENT, 4096).expect("a layout");
    // Room for the attributes, whose layout is the C library's own.
    let mut attributes = [0u64; 64];
    let (attributes, mut thread) = (attributes.as_mut_ptr().cast(), 0);
    unsafe {
        let stack = alloc(layout);
        stack.write_bytes(PATTERN, LENT);
        assert_eq!(pthread_attr_init(attributes), 0);
        assert_eq!(pthread_attr_setstack(attributes, stack.cast(), LENT), 0);
        let given = (&raw mut call).cast();
        assert_eq!(pthread_create(&mut thread, attributes, run_call, given), 0);
        assert_eq!(pthread_join(thread, std::ptr::null_mut()), 0);
        let bytes = std::slice::from_raw_parts(stack, LENT);
        let left = bytes.iter().take_while(|&&byte| byte == PATTERN).count();
        dealloc(stack, layout);
        LENT - left
    }
}

/// For all of eight sets, whole equals whole: every count is tried.
fn exhaustive() -> Vec<i32> {
    let mut draft = Draft::new(&[4; 8]);
    draft.put(3, 0, 0);
    draft.put(23, 0, 0);
    draft.finished()
}

pub fn run(tally: &mut Tally) {
    let mut most = 0;
    for words in [of_nodes(1024), largest(6), largest(8)] {
        most = most.max(taken(Call::Check(words.clone())));
        most = most.max(taken(Call::Reduce(words.clone(), vec![0; 1_700_000])));
        most = most.max(taken(Call::Decide(words, 1)));
    }
    // With one port the search is eight splits deep, with two sixteen.
    let [one, two] = [1, 2].map(|size| taken(Call::Decide(exhaustive(), size)));
    let level = two.saturating_sub(one).div_ceil(8);
    let deepest = one + (DEEPEST - 8) * level;
    println!("  bytes of stack: {most} for the largest tables, {level} a split, {deepest} for the deepest search");
    tally.compare(&true, &(most <= STATED), || format!("{most} bytes of stack"));
    tally.compare(&true, &(deepest <= STATED), || format!("{deepest} bytes of stack"));
}
