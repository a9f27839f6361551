//! The calls that run a program's text, tabulate a condition and judge marks once more, at the limit of what plain Rust can do: they
//! tell how far `tuned`, and the library, are from there. Tests hold them to the plain ones.

mod condition;
mod flow;
mod judge;
mod marks;
mod names;
mod read;
mod run;
mod tabulate;
mod write;

pub use judge::judge;
pub use run::run;
pub use tabulate::tabulate;
