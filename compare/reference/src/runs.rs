//! The runs of an exchange (document 02, request 01): their count, and what tells one run from another.

use crate::numbers::{require, Number, PARAMETER_OUTSIDE_LIMITS};
use crate::strings::{prefix, run_root, Prefix, Salt, Seed};

/// The most runs that an exchange may have.
pub const GREATEST_RUNS: usize = 32;

/// Refuses with 1 unless the run count is within its limits.
pub fn check_run_count(runs: usize) -> Result<(), Number> {
    require((1..=GREATEST_RUNS).contains(&runs), PARAMETER_OUTSIDE_LIMITS)
}

/// One run as the prover has it. All that is derived from a run comes from these two.
#[derive(Clone, Copy, Debug, PartialEq, Eq)]
pub struct Run {
    /// The salt and the run byte.
    pub prefix: Prefix,
    /// The root seed of the run's own tree.
    pub root: Seed,
}

impl Run {
    /// The run of this number, from 0, of an exchange with this salt and this root seed.
    pub fn new(salt: &Salt, number: usize, root: &Seed) -> Run {
        let prefix = prefix(salt, number);
        Run { prefix, root: run_root(&prefix, root) }
    }
}
