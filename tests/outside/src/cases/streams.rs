//! The programs where standard input or output is closed or fails: they print
//! nothing, say in one line on standard error which of the two failed, and
//! end with status 0.

use std::process::Stdio;

use outside::text::spaced;

use super::examples::ONE_ELEMENT;
use super::tally::Tally;
use crate::engine::{Ended, Programs};

/// What the shell does to the streams, and the stream that fails by it. A
/// directory opens and cannot be read; a full device opens and takes nothing.
const FAILING: [(&str, &str); 7] = [
    ("<&-", "standard input"),
    ("</", "standard input"),
    ("<&- >&-", "standard input"),
    (">&-", "standard output"),
    (">/dev/full", "standard output"),
    ("</dev/null >/dev/full", "standard output"),
    ("</dev/null >&-", "standard output"),
];

/// The programs with arguments; without, `decide` refuses.
const PROGRAMS: [(&str, &[&str]); 4] =
    [("reduce", &[]), ("decide", &["3", "9"]), ("decide", &[]), ("smt", &[])];

/// Status, standard output, and what standard error begins with.
type Shown = (Result<i32, i32>, String, String);

fn shown(ended: Ended, expected: &str) -> Shown {
    let about = ended.said.starts_with(&format!("{expected}: ")) && ended.said.lines().count() == 1;
    let said = if about { expected.to_string() } else { ended.said };
    (ended.status, ended.printed, said)
}

pub fn run(tally: &mut Tally, programs: &Programs) {
    let text = spaced(&ONE_ELEMENT);
    for (program, arguments) in PROGRAMS {
        let mut ends = |shell: &str, out: Stdio, status: Result<i32, i32>, says: &str| {
            let found = programs.in_shell(program, arguments, shell, text.as_bytes(), out);
            let expected = (status, String::new(), says.to_string());
            let input = || format!("{program} {}, {shell}", arguments.join(" "));
            tally.compare(&expected, &shown(found, says), input);
        };
        for (shell, stream) in FAILING {
            ends(shell, Stdio::piped(), Ok(0), stream);
            // With nowhere to say it, it is not said.
            ends(&format!("{shell} 2>&-"), Stdio::piped(), Ok(0), "");
        }
        // A pipe that nobody reads: a Rattle program is not ended by the
        // signal for that, however it was started.
        ends("", unread_pipe(), Ok(0), "standard output");
        ends("; trap '' PIPE", unread_pipe(), Ok(0), "standard output");
    }
}

fn unread_pipe() -> Stdio {
    let (_, writer) = std::io::pipe().expect("a pipe");
    Stdio::from(writer)
}
