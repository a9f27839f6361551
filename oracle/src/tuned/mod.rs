//! The same calls once more, tuned: readers over bytes, bit sets, worklists, and no allocation. They are the
//! yardstick of the benchmark; tests hold them to the plain ones.

mod filled;
mod flow;
mod force;
mod join;
mod judge;
mod listing;
mod paths;
mod prices;
mod read;
mod review;
mod run;
mod stages;
mod tabulate;
mod write;

pub use force::force;
pub use join::join;
pub use judge::{judge, judge_by_labels, report};
pub use listing::{list, relist};
pub use paths::{why, witness, Told};
pub use prices::replace;
pub use review::review;
pub use run::run;
pub use stages::{go_back, keep};
pub use tabulate::tabulate;
