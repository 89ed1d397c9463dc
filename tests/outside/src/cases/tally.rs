//! The count of comparisons, and the printing of failures.
//!
//! One comparison is one whole answer held against what it has to be: one
//! call of the library with its row (and with every word of the output slice
//! and the unchanged input, for the reducer), one run of a program with all
//! it printed, or one truth value found in two independent ways.

use std::fmt::Debug;

/// Failures printed per group; the rest are counted only.
const SHOWN: u64 = 5;

#[derive(Default)]
pub struct Tally {
    passed: u64,
    failed: u64,
    group_passed: u64,
    group_failed: u64,
    /// Only groups with this in their names are run; all have the empty one.
    part: String,
}

impl Tally {
    pub fn of_groups_with(part: &str) -> Tally {
        Tally { part: part.to_string(), ..Tally::default() }
    }

    /// Runs a group and prints its line.
    pub fn group(&mut self, name: &str, run: impl FnOnce(&mut Tally)) {
        if !name.contains(&self.part) {
            return;
        }
        (self.group_passed, self.group_failed) = (0, 0);
        crate::watch::start();
        let start = std::time::Instant::now();
        run(self);
        let seconds = start.elapsed().as_secs_f64();
        let (passed, failed) = (self.group_passed, self.group_failed);
        println!("{name}: {passed} passed, {failed} failed ({seconds:.1} s)");
        self.passed += passed;
        self.failed += failed;
    }

    /// Counts one comparison; `input` is only asked for when it failed.
    pub fn compare<T>(&mut self, expected: &T, found: &T, input: impl FnOnce() -> String)
    where
        T: PartialEq + Debug + ?Sized,
    {
        if expected == found {
            self.group_passed += 1;
            return;
        }
        self.group_failed += 1;
        if self.group_failed <= SHOWN {
            println!("FAILED on {}", input());
            println!("  expected {}", shortened(&format!("{expected:?}")));
            println!("  found    {}", shortened(&format!("{found:?}")));
        }
    }

    /// Prints the last line; true when nothing failed.
    pub fn finish(&self) -> bool {
        println!("{} passed, {} failed", self.passed, self.failed);
        self.failed == 0
    }
}

/// Answers can be 400,000 words long; the start of them tells enough.
fn shortened(answer: &str) -> String {
    match answer.char_indices().nth(4000) {
        Some((end, _)) => format!("{} ...", &answer[..end]),
        None => answer.to_string(),
    }
}
