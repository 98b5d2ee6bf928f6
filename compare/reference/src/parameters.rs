//! The five parameters, their limits, and every length that follows from them.

use crate::numbers::{require, Number, LEAF_NOT_BELOW_N, PARAMETER_OUTSIDE_LIMITS};
use crate::points_field::POINT_BYTES;
use crate::strings::{DIGEST_BYTES, SALT_BYTES, SEED_BYTES};

/// Parameters as a caller gives them; lengths may be asked for only once `check` has passed.
#[derive(Clone, Copy, Debug, PartialEq, Eq)]
pub struct Parameters {
    /// Length m of x.
    pub m: usize,
    /// Dimension k: the length of x_A.
    pub k: usize,
    /// Weight w: the most nonzero entries that x may have.
    pub w: usize,
    /// Axes D of the hypercube.
    pub axes: usize,
    /// Positions t: the number of points and of multipliers.
    pub t: usize,
}

impl Parameters {
    /// The shipped set of document 01.
    pub const SHIPPED: Parameters = Parameters::new(230, 126, 79, 8, 3);

    /// The parameters m, k, w, D, t in document 01's order.
    pub const fn new(m: usize, k: usize, w: usize, axes: usize, t: usize) -> Parameters {
        Parameters { m, k, w, axes, t }
    }

    /// Refuses with 1 unless every parameter is within its limits.
    pub fn check(&self) -> Result<(), Number> {
        let within = (2..=255).contains(&self.m)
            && (1..self.m).contains(&self.k)
            && (1..=self.m).contains(&self.w)
            && (1..=8).contains(&self.axes)
            && (1..=8).contains(&self.t);
        require(within, PARAMETER_OUTSIDE_LIMITS)
    }

    /// The parameters as a session stores them, a byte each, once `check` has passed.
    pub fn to_bytes(&self) -> [u8; 5] {
        [self.m, self.k, self.w, self.axes, self.t].map(|parameter| parameter as u8)
    }

    /// Parameters as stored.
    pub fn from_bytes(bytes: [u8; 5]) -> Parameters {
        let [m, k, w, axes, t] = bytes.map(usize::from);
        Parameters { m, k, w, axes, t }
    }

    /// The number n = 2^D of leaves.
    pub fn leaves(&self) -> usize {
        1 << self.axes
    }

    /// The last leaf, n−1, which has aux.
    pub fn last_leaf(&self) -> usize {
        self.leaves() - 1
    }

    /// Bytes of the matrix H': m−k rows of k.
    pub fn matrix_bytes(&self) -> usize {
        self.syndrome_bytes() * self.k
    }

    /// Bytes of y: m−k.
    pub fn syndrome_bytes(&self) -> usize {
        self.m - self.k
    }

    /// Bytes of one point at each position: 4t.
    pub fn position_bytes(&self) -> usize {
        POINT_BYTES * self.t
    }

    /// Bytes of aux: k + 2w + 4t.
    pub fn aux_bytes(&self) -> usize {
        self.k + 2 * self.w + self.position_bytes()
    }

    /// Bytes of all shares of a leaf or a party: k + 2w + 12t.
    pub fn share_bytes(&self) -> usize {
        self.k + 2 * self.w + 3 * self.position_bytes()
    }

    /// The named length of the work area: 2·D·(k+2w+12t).
    pub fn work_bytes(&self) -> usize {
        2 * self.axes * self.share_bytes()
    }

    /// Bytes of a run's part of message 2: t points and t multipliers.
    pub fn challenge_bytes(&self) -> usize {
        2 * self.position_bytes()
    }

    /// Bytes of a run's part of message 5 for its hidden leaf; for a leaf not below n the longer length counts.
    pub fn opening_bytes(&self, leaf: u8) -> usize {
        let shorter = SEED_BYTES * self.axes + DIGEST_BYTES + 2 * self.position_bytes();
        if usize::from(leaf) == self.last_leaf() {
            shorter
        } else {
            shorter + self.aux_bytes()
        }
    }

    /// Bytes of a run's part of the extractor's output: 32n + k + 2w + 4t.
    pub fn states_bytes(&self) -> usize {
        2 * SEED_BYTES * self.leaves() + self.aux_bytes()
    }
}

/// Lengths of what an exchange of several runs sends and gives.
impl Parameters {
    /// Bytes of message 1: the salt, and h of each run.
    pub fn message_1_bytes(runs: usize) -> usize {
        SALT_BYTES + DIGEST_BYTES * runs
    }

    /// Bytes of message 2: points and multipliers of each run.
    pub fn message_2_bytes(&self, runs: usize) -> usize {
        self.challenge_bytes() * runs
    }

    /// Bytes of message 3: h' of each run.
    pub fn message_3_bytes(runs: usize) -> usize {
        DIGEST_BYTES * runs
    }

    /// Bytes of message 5: the opening of each run, as its leaf gives it.
    pub fn message_5_bytes(&self, leaves: &[u8]) -> usize {
        leaves.iter().map(|&leaf| self.opening_bytes(leaf)).sum()
    }

    /// Bytes of the extractor's output: a part for each run.
    pub fn extractor_bytes(&self, runs: usize) -> usize {
        self.states_bytes() * runs
    }

    /// Refuses with 4 unless every leaf is below n.
    pub fn check_leaves(&self, leaves: &[u8]) -> Result<(), Number> {
        require(leaves.iter().all(|&leaf| usize::from(leaf) < self.leaves()), LEAF_NOT_BELOW_N)
    }
}
