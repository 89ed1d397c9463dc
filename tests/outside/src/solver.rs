//! How the solvers z3 and cvc5 are asked: all questions about one claim in
//! one process, and each from nothing.

use outside::solver_text::ENDING;

use crate::engine::Programs;

/// Milliseconds for one question. A solver that needs longer has no answer.
const PATIENCE: usize = 2_000;
/// Sizes that are pinned by one more assert.
pub const PINNED: std::ops::RangeInclusive<u32> = 0..=4;
/// Stands on the line before an answer.
const MARK: &str = "question";
/// Starts the line of a model's size.
const VALUE: &str = "((MAXC ";

pub const SOLVERS: [&str; 2] = ["z3", "cvc5"];

/// What a solver says to one question.
#[derive(Clone, Copy, Debug, PartialEq, Eq)]
pub enum Said {
    Sat,
    Unsat,
    Nothing,
}

/// What a solver says about one claim.
#[derive(Clone, Debug, PartialEq, Eq)]
pub struct Answers {
    /// One per pinned size.
    pub pinned: Vec<Said>,
    /// With the size left open.
    pub open: Said,
    /// The size at which "sat" holds with the size left open.
    pub model: Option<u64>,
}

/// A solver's answers about a text, or what went wrong: the solver is not
/// there, or it does not understand the text.
pub fn ask(solver: &str, text: &str) -> Result<Answers, String> {
    let Some(asserted) = text.strip_suffix(ENDING) else {
        return Err(format!("no text for a solver: {text:?}"));
    };
    let printed =
        Programs::Installed.run(solver, &arguments(solver), script(asserted).as_bytes())?;
    answers(&printed)
}

/// The solver's limits, per question and for the whole.
fn arguments(solver: &str) -> Vec<Vec<u8>> {
    let whole = PATIENCE * (PINNED.count() + 2);
    let arguments = match solver {
        "z3" => format!("-in -smt2 -t:{PATIENCE} -T:{}", whole / 1000),
        _ => format!("--lang=smt2 --produce-models --tlimit-per={PATIENCE} --tlimit={whole}"),
    };
    arguments.split(' ').map(|argument| argument.as_bytes().to_vec()).collect()
}

/// The text with each size pinned, and at last as it is.
fn script(asserted: &str) -> String {
    let mut script = String::new();
    for size in PINNED {
        let pin = format!("(assert (= MAXC {size}))\n");
        script += &format!("(echo \"{MARK}\")\n{asserted}{pin}{ENDING}(reset)\n");
    }
    // Without a model there is no value, and that question fails: it is last.
    script + &format!("(echo \"{MARK}\")\n{asserted}{ENDING}(get-value (MAXC))\n")
}

fn answers(printed: &str) -> Result<Answers, String> {
    let mut said = Vec::new();
    let mut model = None;
    for line in printed.lines() {
        match line.trim_matches('"') {
            MARK => said.push(Said::Nothing),
            "sat" => settle(&mut said, Said::Sat)?,
            "unsat" => settle(&mut said, Said::Unsat)?,
            line if line.starts_with(VALUE) => model = number_in(line),
            line if line.starts_with("(error") && !is_about_models(&said) => {
                return Err(line.to_string());
            }
            // Out of time or patience, in one of several wordings.
            _ => {}
        }
    }
    // A solver that ran out of all its time was not asked the rest.
    said.resize(PINNED.count() + 1, Said::Nothing);
    let open = said.pop().expect("the last question");
    // After "unknown" a solver may show a model that is none.
    let model = model.filter(|_| open == Said::Sat);
    Ok(Answers { pinned: said, open, model })
}

fn settle(said: &mut [Said], answer: Said) -> Result<(), String> {
    *said.last_mut().ok_or("an answer before any question")? = answer;
    Ok(())
}

/// An error after the last question without "sat" is the value's.
fn is_about_models(said: &[Said]) -> bool {
    said.len() == PINNED.count() + 1 && said.last() != Some(&Said::Sat)
}

fn number_in(value: &str) -> Option<u64> {
    value.strip_prefix(VALUE)?.strip_suffix("))")?.parse().ok()
}
