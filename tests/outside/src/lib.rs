//! The outside tests of Zuccarvento: an independent reading of what its
//! checker, reducer and decider must answer, written for comparison.
//!
//! Everything here aims at being plain, not fast: a definition is followed
//! word by word wherever that is affordable.

pub mod claims;
pub mod counting;
pub mod damage;
pub mod draft;
pub mod emit;
pub mod figure;
pub mod guard;
pub mod meaning;
pub mod random;
pub mod region;
pub mod rule;
pub mod scribble;
pub mod solver_text;
pub mod table;
pub mod text;
