//! The matrix, y and work area that the prover's calls, the verifier's opening and the extractor are lent.

use crate::key::PublicKey;
use crate::numbers::{require, Number, WRONG_LENGTH};
use crate::parameters::Parameters;

/// Lent for the length of one call.
pub struct Lent<'a> {
    /// The matrix H'.
    pub matrix: &'a [u8],
    /// The syndrome y.
    pub y: &'a [u8],
    /// The work area: at least 2·D·(k+2w+12t) bytes.
    pub work: &'a mut [u8],
}

impl Lent<'_> {
    /// The key as lent.
    pub fn key(&self) -> PublicKey<'_> {
        PublicKey { matrix: self.matrix, y: self.y }
    }

    /// Refuses with 2 unless matrix and y have their lengths and the work area is long enough.
    pub fn check(&self, parameters: &Parameters) -> Result<(), Number> {
        self.key().check(parameters)?;
        require(self.work.len() >= parameters.work_bytes(), WRONG_LENGTH)
    }

    /// Leaves the named length of the work area as zeros, as every call does that is past the checks before 5.
    pub fn clear_work(&mut self, parameters: &Parameters) {
        self.work[..parameters.work_bytes()].fill(0);
    }
}
