//! How the product is called: through its C library, and through its
//! programs. Without the library a stand-in answers (see build.rs).

use std::ffi::OsStr;
use std::io::Write;
use std::os::unix::ffi::OsStrExt;
use std::os::unix::process::ExitStatusExt;
use std::path::PathBuf;
use std::process::{Command, Stdio};

use outside::rule::Outcome;
use outside::table::{Refusal, Shape};

use crate::watch::{note, Call};

/// The words of an answer: outcome, refusal number, place, four values.
pub const ROW: usize = 7;
pub type Row = [u64; ROW];

/// What every row and output slice holds before a call, so that a word the
/// product did not write can be told from a word it wrote.
pub const UNTOUCHED: u64 = 0xA5A5_5A5A_DEAD_2005;

#[cfg(product)]
mod calls {
    #[link(name = "exports", kind = "static")]
    extern "C" {
        fn zuccarvento_check(words: *const i32, words_len: usize, row: *mut u64, row_len: usize);
        fn zuccarvento_reduce(
            words: *const i32,
            words_len: usize,
            out: *mut i32,
            out_len: usize,
            row: *mut u64,
            row_len: usize,
        );
        fn zuccarvento_decide(
            words: *const i32,
            words_len: usize,
            size: u32,
            allowance: u64,
            row: *mut u64,
            row_len: usize,
        );
    }

    pub const NAME: &str = "the product's library";

    // Safe because every pointer comes with the length of its slice.
    pub fn check(words: &[i32], row: &mut [u64]) {
        unsafe { zuccarvento_check(words.as_ptr(), words.len(), row.as_mut_ptr(), row.len()) }
    }

    pub fn reduce(words: &[i32], out: &mut [i32], row: &mut [u64]) {
        let (out, out_len) = (out.as_mut_ptr(), out.len());
        let (row, row_len) = (row.as_mut_ptr(), row.len());
        unsafe { zuccarvento_reduce(words.as_ptr(), words.len(), out, out_len, row, row_len) }
    }

    pub fn decide(words: &[i32], size: u32, allowance: u64, row: &mut [u64]) {
        let (row, row_len) = (row.as_mut_ptr(), row.len());
        unsafe { zuccarvento_decide(words.as_ptr(), words.len(), size, allowance, row, row_len) }
    }
}

#[cfg(not(product))]
mod calls {
    use super::{check_row, outcome_row, reduce_row, Row};

    pub const NAME: &str = "a STAND-IN over these tests' own functions (no product)";

    fn fill(row: &mut [u64], answer: Row) {
        for (word, value) in row.iter_mut().zip(answer) {
            *word = value;
        }
    }

    pub fn check(words: &[i32], row: &mut [u64]) {
        fill(row, check_row(outside::table::check(words)));
    }

    pub fn reduce(words: &[i32], out: &mut [i32], row: &mut [u64]) {
        let answer = outside::emit::reduce(words, out.len());
        if let Ok(emission) = &answer {
            out[..emission.len()].copy_from_slice(emission);
        }
        fill(row, reduce_row(answer.map(|emission| emission.len())));
    }

    pub fn decide(words: &[i32], size: u32, allowance: u64, row: &mut [u64]) {
        fill(row, outcome_row(outside::rule::decide(words, size, allowance)));
    }
}

pub use calls::NAME;

fn refused(refusal: Refusal) -> Row {
    [0, refusal.number, refusal.place, 0, 0, 0, 0]
}

/// The row of a refusal.
pub fn refused_row(number: u64, place: usize) -> Row {
    refused(Refusal { number, place: place as u64 })
}

/// The row an answer of the checker has to have.
pub fn check_row(answer: Result<Shape, Refusal>) -> Row {
    match answer {
        Ok(shape) => {
            let values = [shape.nodes, shape.quantifiers, shape.sets, shape.root];
            let [nodes, quantifiers, sets, root] = values.map(|value| value as u64);
            [1, 0, 0, nodes, quantifiers, sets, root]
        }
        Err(refusal) => refused(refusal),
    }
}

/// The row an answer of the reducer, in words written, has to have.
pub fn reduce_row(answer: Result<usize, Refusal>) -> Row {
    match answer {
        Ok(words) => [1, 0, 0, words as u64, 0, 0, 0],
        Err(refusal) => refused(refusal),
    }
}

/// The row an answer of the decider has to have.
pub fn outcome_row(outcome: Outcome) -> Row {
    match outcome {
        Outcome::Refused(refusal) => refused(refusal),
        Outcome::True(steps) => [1, 0, 0, steps, 0, 0, 0],
        Outcome::False(steps) => [2, 0, 0, steps, 0, 0, 0],
        Outcome::Spent(steps) => [3, 0, 0, steps, 0, 0, 0],
    }
}

/// Calls with a row of any length inside a longer lent run of words: what
/// comes back is the whole run, so that writing past the row shows.
pub fn check_into(words: &[i32], row_len: usize, lent: usize) -> Vec<u64> {
    watched(Call::Check, words, row_len, lent, |row| calls::check(words, row))
}

pub fn reduce_into(words: &[i32], out: &mut [i32], row_len: usize, lent: usize) -> Vec<u64> {
    watched(Call::Reduce, words, row_len, lent, |row| calls::reduce(words, out, row))
}

pub fn decide_into(
    words: &[i32],
    (size, allowance): (u32, u64),
    row_len: usize,
    lent: usize,
) -> Vec<u64> {
    let call = Call::Decide { size, allowance };
    watched(call, words, row_len, lent, |row| calls::decide(words, size, allowance, row))
}

fn watched(
    call: Call,
    words: &[i32],
    row_len: usize,
    lent: usize,
    make: impl FnOnce(&mut [u64]),
) -> Vec<u64> {
    let mut run = vec![UNTOUCHED; lent];
    note(call, words);
    make(&mut run[..row_len]);
    note(Call::Nothing, &[]);
    run
}

fn whole(run: Vec<u64>) -> Row {
    run.try_into().expect("a whole row was lent")
}

pub fn check(words: &[i32]) -> Row {
    whole(check_into(words, ROW, ROW))
}

/// Calls the reducer with the whole of `out` as its slice.
pub fn reduce(words: &[i32], out: &mut [i32]) -> Row {
    whole(reduce_into(words, out, ROW, ROW))
}

pub fn decide(words: &[i32], size: u32, allowance: u64) -> Row {
    whole(decide_into(words, (size, allowance), ROW, ROW))
}

/// Programs that are run by name.
pub enum Programs {
    /// The product's: each is `NAME/out/NAME` in the folder of its crates.
    Product(PathBuf),
    /// Others, found by the shell's path.
    Installed,
}

impl Programs {
    fn path(&self, program: &str) -> PathBuf {
        match self {
            Programs::Product(crates) => crates.join(program).join("out").join(program),
            Programs::Installed => PathBuf::from(program),
        }
    }

    /// What a program prints for arguments and a text, or how it ended if it
    /// did not end by itself. The exit code is left open.
    pub fn run(&self, program: &str, arguments: &[Vec<u8>], text: &[u8]) -> Result<String, String> {
        let mut child = Command::new(self.path(program))
            .args(arguments.iter().map(|argument| OsStr::from_bytes(argument)))
            .stdin(Stdio::piped())
            .stdout(Stdio::piped())
            .stderr(Stdio::null())
            .spawn()
            .map_err(|error| format!("{program} does not start: {error}"))?;
        let mut input = child.stdin.take().expect("stdin is piped");
        let output = std::thread::scope(|scope| {
            // A program may refuse before it has read everything, so a
            // broken pipe is no failure; the thread keeps both ends moving.
            scope.spawn(move || drop(input.write_all(text)));
            child.wait_with_output()
        });
        let output = output.map_err(|error| format!("{program} gives no output: {error}"))?;
        match output.status.code() {
            // Bytes that are no text cannot equal any answer.
            Some(_) => String::from_utf8(output.stdout).map_err(|error| format!("{error:?}")),
            None => Err(format!("{program} was ended by a signal: {}", output.status)),
        }
    }

    /// How a program ends whose streams the shell sets up: redirections, and
    /// behind a semicolon commands to run before it.
    pub fn in_shell(
        &self,
        program: &str,
        arguments: &[&str],
        shell: &str,
        text: &[u8],
        out: Stdio,
    ) -> Ended {
        let (redirections, before) = shell.split_once(';').unwrap_or((shell, ":"));
        let mut child = Command::new("sh")
            .args(["-c", &format!("{before}\nexec \"$0\" \"$@\" {redirections}")])
            .arg(self.path(program))
            .args(arguments)
            .stdin(Stdio::piped())
            .stdout(out)
            .stderr(Stdio::piped())
            .spawn()
            .expect("a shell");
        // Small enough for a pipe that nobody reads, or already closed.
        drop(child.stdin.take().expect("stdin is piped").write_all(text));
        let output = child.wait_with_output().expect("the shell's end");
        Ended {
            status: output.status.code().ok_or(output.status.signal().unwrap_or(0)),
            printed: String::from_utf8_lossy(&output.stdout).into_owned(),
            said: String::from_utf8_lossy(&output.stderr).into_owned(),
        }
    }
}

/// How a program ended: its status, or the signal that ended it, and what it
/// wrote to standard output and to standard error.
pub struct Ended {
    pub status: Result<i32, i32>,
    pub printed: String,
    pub said: String,
}
