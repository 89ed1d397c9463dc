//! The solvers z3 and cvc5 on what the program `smt` prints: at pinned sizes
//! against the meaning over subsets, and with the size left open against
//! the rule and the program `decide`.

use std::fmt::Debug;
use std::sync::atomic::{AtomicUsize, Ordering::Relaxed};
use std::sync::Mutex;

use outside::emit;
use outside::table::Claim;
use outside::text::spaced;

use super::solver_claims::{claims, first_false, only_sets, truth, truth_in_reach, STEPS};
use super::tally::Tally;
use crate::engine::Programs;
use crate::solver::{ask, Answers, Said, PINNED, SOLVERS};

/// What the program `smt` printed for a claim, and what each solver says.
type Printed = Result<String, String>;
type Heard = Vec<Result<Answers, String>>;

/// How often a solver agreed, at pinned sizes, with "unsat" and with "sat"
/// at the open size; had no answer; and named a size out of reach here.
#[derive(Default)]
struct Count {
    pinned: u64,
    unsat: u64,
    sat: u64,
    nothing: u64,
    out_of_reach: u64,
}

/// One solver's answers about one claim being compared.
struct Hearing<'a> {
    tally: &'a mut Tally,
    programs: &'a Programs,
    words: &'a [i32],
    solver: &'static str,
}

pub fn run(tally: &mut Tally, programs: &Programs) {
    let claims = claims();
    let texts: Vec<Printed> =
        claims.iter().map(|words| programs.run("smt", &[], spaced(words).as_bytes())).collect();
    let mut counts = SOLVERS.map(|_| Count::default());
    for (words, heard) in claims.iter().zip(all_heard(&texts)) {
        let truths: Vec<bool> = PINNED.map(|size| truth(words, size)).collect();
        for ((solver, answers), count) in SOLVERS.into_iter().zip(heard).zip(&mut counts) {
            let mut hearing = Hearing { tally: &mut *tally, programs, words, solver };
            match answers {
                Ok(answers) => {
                    hearing.at_pinned_sizes(&answers, &truths, count);
                    hearing.at_open_size(&answers, count);
                }
                Err(wrong) => drop(hearing.agrees("an answer", &*wrong, "a process")),
            }
        }
    }
    // A solver that never answers is as good as absent.
    for (solver, count) in SOLVERS.iter().zip(&counts) {
        tally.compare(&true, &(count.pinned > 0), || format!("any answer of {solver}"));
    }
    report(&claims, &texts, &counts);
}

/// The answers about every text, in as many threads as the machine can run.
fn all_heard(texts: &[Printed]) -> Vec<Heard> {
    let next = AtomicUsize::new(0);
    let heard = Mutex::new(vec![vec![Err("not asked".to_string()); SOLVERS.len()]; texts.len()]);
    let work = || loop {
        let turn = next.fetch_add(1, Relaxed);
        let (at, solver) = (turn / SOLVERS.len(), turn % SOLVERS.len());
        let Some(text) = texts.get(at) else {
            return;
        };
        let answers = text.clone().and_then(|text| ask(SOLVERS[solver], &text));
        heard.lock().expect("no thread fails")[at][solver] = answers;
    };
    let threads = std::thread::available_parallelism().map_or(1, usize::from);
    std::thread::scope(|scope| {
        for _ in 0..threads {
            scope.spawn(work);
        }
    });
    heard.into_inner().expect("no thread fails")
}

impl Hearing<'_> {
    /// Counts one comparison, and says whether it agreed.
    fn agrees<T>(&mut self, expected: &T, found: &T, about: &str) -> u64
    where
        T: PartialEq + Debug + ?Sized,
    {
        let (solver, words) = (self.solver, self.words);
        let input = || format!("{about} of {solver}, words: {}", spaced(words));
        self.tally.compare(expected, found, input);
        u64::from(expected == found)
    }

    /// "unsat" says true, and "sat" says false.
    fn at_pinned_sizes(&mut self, answers: &Answers, truths: &[bool], count: &mut Count) {
        for ((size, truth), said) in PINNED.zip(truths).zip(&answers.pinned) {
            match said {
                Said::Nothing => count.nothing += 1,
                said => {
                    let about = format!("size {size}");
                    count.pinned += self.agrees(truth, &(*said == Said::Unsat), &about);
                }
            }
        }
    }

    /// "unsat" says true at every size, and "sat" false at the model's.
    fn at_open_size(&mut self, answers: &Answers, count: &mut Count) {
        match answers.open {
            Said::Nothing => count.nothing += 1,
            Said::Unsat => {
                let found = first_false(self.words);
                count.unsat += self.agrees(&None, &found, "every size");
            }
            Said::Sat => match answers.model {
                None => drop(self.agrees(&true, &false, "a model's size")),
                Some(size) => self.at_model(size, count),
            },
        }
    }

    fn at_model(&mut self, size: u64, count: &mut Count) {
        let reached = u32::try_from(size).ok().and_then(|size| truth_in_reach(self.words, size));
        let Some(truth) = reached else {
            count.out_of_reach += 1;
            return;
        };
        let about = format!("the model's size {size}");
        let mut agreed = self.agrees(&false, &truth, &about);
        if only_sets(self.words) {
            agreed &= self.agrees(&Ok("false".to_string()), &self.decided(size), &about);
        }
        count.sat += agreed;
    }

    /// The first word that the program `decide` prints.
    fn decided(&self, size: u64) -> Result<String, String> {
        let arguments = [size, STEPS].map(|number| number.to_string().into_bytes());
        let printed = self.programs.run("decide", &arguments, spaced(self.words).as_bytes())?;
        Ok(printed.split(' ').next().unwrap_or_default().to_string())
    }
}

fn report(claims: &[Vec<i32>], texts: &[Printed], counts: &[Count]) {
    let nodes = |words: &Vec<i32>| {
        emit::reduce(words, usize::MAX).map_or(0, |emission| Claim::read(&emission).nodes.len())
    };
    let nodes: usize = claims.iter().map(nodes).sum();
    let bytes: usize = texts.iter().flatten().map(String::len).sum();
    let per_node = bytes as f64 / nodes as f64;
    println!("  claims: {}; text: {per_node:.1} bytes per node", claims.len());
    for (solver, count) in SOLVERS.iter().zip(counts) {
        let Count { pinned, unsat, sat, nothing, out_of_reach } = count;
        println!(
            "  {solver} agrees at {pinned} pinned sizes, {unsat} times with unsat and {sat} with \
             sat at any size; no answer: {nothing}; models out of reach: {out_of_reach}"
        );
    }
}
