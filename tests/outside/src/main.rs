//! The outside tests of Zuccarvento. The first argument is the folder of the
//! product's crates, where the programs `reduce`, `decide` and `smt` are
//! `NAME/out/NAME`; its library is linked in, and the solvers z3 and cvc5 are
//! found by the shell's path. With a second argument only the groups with
//! that in their names are run.
//!
//! One line per group tells how many comparisons it made; the last line is
//! their sum. What one comparison is, `cases/tally.rs` says.

mod cases;
mod engine;
mod solver;
mod watch;

use cases::tally::Tally;
use cases::{
    bounds, decisions, examples, exhaustive, figures, limits, ourselves, programs, rows,
    solver_texts, solvers, stack, streams, tables, truth,
};
use engine::Programs;

fn main() -> std::process::ExitCode {
    let Some(folder) = std::env::args_os().nth(1) else {
        eprintln!(
            "usage: outside FOLDER [PART], where FOLDER holds the crates of the programs reduce, decide and smt"
        );
        return std::process::ExitCode::from(2);
    };
    let part = std::env::args().nth(2).unwrap_or_default();
    println!("library calls are answered by {}", engine::NAME);
    let mut tally = Tally::of_groups_with(&part);
    without_product(&mut tally);
    through_library(&mut tally);
    through_programs(&mut tally, &Programs::Product(folder.into()));
    match tally.finish() {
        true => std::process::ExitCode::SUCCESS,
        false => std::process::ExitCode::FAILURE,
    }
}

fn without_product(tally: &mut Tally) {
    tally.group("tests themselves: known claims", examples::with_ourselves);
    tally.group("tests themselves: rule and emission against subsets", ourselves::truths);
    tally.group("tests themselves: search against trying all", ourselves::searches);
    tally.group("tests themselves: lengths of emissions", ourselves::lengths);
    tally.group("tests themselves: texts", ourselves::texts);
    tally.group("tests themselves: texts for a solver", solver_texts::with_ourselves);
}

fn through_library(tally: &mut Tally) {
    tally.group("known claims", examples::with_library);
    tally.group("rows of every length", rows::run);
    tally.group("limits of tables, outputs and sizes", limits::run);
    tally.group("limits of term bounds", bounds::run);
    tally.group("largest tables on a small stack", stack::run);
    tally.group("figures 6 and 11 of 003", figures::run);
    tally.group("all runs of up to 7 words", exhaustive::short_runs);
    tally.group("all tables of one node", exhaustive::one_node);
    tally.group("all tables of two nodes", exhaustive::two_nodes);
    tally.group("all well-sorted tables of three or four nodes", exhaustive::well_sorted);
    tally.group("random tables, checker and reducer", tables::accepted);
    tally.group("damaged tables, checker and reducer", tables::damaged);
    tally.group("tables at the limits, checker and reducer", tables::at_limits);
    tally.group("large tables, checker and reducer", tables::large);
    tally.group("decisions at small sizes", decisions::small);
    tally.group("decisions about seven and eight sets", decisions::many_sets);
    tally.group("decisions at large sizes", decisions::large);
    tally.group("decisions that are refused", decisions::refused);
    tally.group("decisions under every allowance", decisions::every_allowance);
    tally.group("emissions and decisions against subsets", truth::of_sets);
    tally.group("emissions with number quantifiers against subsets", truth::of_mixed);
    tally.group("claims about sets alone from size 2^S on", truth::of_pure_claims);
}

fn through_programs(tally: &mut Tally, folder: &Programs) {
    tally.group("programs: known claims", |tally| examples::with_programs(tally, folder));
    tally.group("programs: texts at the edges", |tally| programs::edge_texts(tally, folder));
    tally.group("programs: random texts", |tally| programs::random_texts(tally, folder));
    tally.group("programs: arguments", |tally| programs::arguments(tally, folder));
    tally.group("programs: long outputs", |tally| programs::long_outputs(tally, folder));
    tally.group("programs: streams that fail", |tally| streams::run(tally, folder));
    tally.group("programs: texts for a solver", |tally| solver_texts::run(tally, folder));
    tally.group("solvers", |tally| solvers::run(tally, folder));
}
