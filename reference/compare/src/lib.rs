//! The proved service and the reference, run on the same cases: every reply and every lent cell is compared, of refused calls too.

mod comparison;
mod outcome;
mod parallel;
mod parts;
mod process;
mod report;
mod runs;
mod service;
mod small_tables;
mod tally;
mod writing;

pub use comparison::{all_lines, answered, Answered, Comparison};
pub use outcome::{outcome, Outcome};
pub use parallel::in_order;
pub use parts::{
    by_chance, every_small_table, large_cases, on_purpose, writings_on_purpose, SEEDS,
};
pub use process::{standard_path, Ended, Feeding, Program};
pub use report::{Report, REQUIRED};
pub use runs::{program_runs, runs_by_chance, runs_of_limits, runs_on_purpose, Run};
pub use service::{Counts, Desk, Proved, Reference, Reply, Service};
pub use small_tables::{small_jobs, SmallJob};
pub use tally::Tally;
pub use writing::{written, Written};
