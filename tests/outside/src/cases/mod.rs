//! The comparisons, group by group.

pub mod bounds;
pub mod calls;
pub mod decisions;
pub mod examples;
pub mod exhaustive;
pub mod figures;
pub mod limits;
pub mod ourselves;
pub mod programs;
pub mod properties;
pub mod rows;
pub mod solver_claims;
pub mod solver_texts;
pub mod solvers;
pub mod stack;
pub mod streams;
pub mod tables;
pub mod tally;
pub mod truth;
