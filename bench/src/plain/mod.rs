// The same work in plain Rust: check a table, emit it, decide it. Written to be measured.
mod decide;
mod reduce;
mod table;

pub use decide::decide;
pub use reduce::reduce;
