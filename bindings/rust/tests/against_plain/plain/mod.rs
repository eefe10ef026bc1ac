//! Document 01, with the requests that are in, in plain Rust. A refusal is its number, `Err(number)`; sites count from 1 and streets, in code, from 0.
pub mod balanced;
pub mod division;
pub mod file;
pub mod free;
pub mod hand;
pub mod loads;
pub mod refusals;
pub mod shares;
pub mod survey;

/// The two kinds of plan.
pub const FREE: usize = 0;
pub const BALANCED: usize = 1;

/// The two forms of a file.
pub const OLD_FORM: usize = 0;
pub const NEW_FORM: usize = 1;
