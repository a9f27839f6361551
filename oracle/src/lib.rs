//! A second implementation of shift program rewrites, written from their defining documents alone.
//!
//! It serves as the oracle of tests: the same calls, the same refusal numbers and the same contents of the
//! lent buffers, by other algorithms. `generate` makes the random cases, `folder` those of files. `tuned` has the calls once more, made to
//! be fast, as the yardstick of the benchmark; `limit` has runs, tables and judging at the limit.

pub mod check;
pub mod condition;
pub mod desk;
pub mod folder;
pub mod forcing;
pub mod generate;
pub mod join;
pub mod limit;
pub mod listing;
pub mod liveness;
pub mod machine;
pub mod marks;
pub mod paths;
pub mod pricing;
pub mod program;
pub mod review;
pub mod stages;
pub mod steps;
pub mod tuned;

#[cfg(test)]
mod tests;
