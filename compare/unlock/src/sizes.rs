//! Lengths, 0 where the parameters or the run count are outside their limits or the set has another length.

use crate::interface;

/// The named length of the work area.
pub fn work(set: &[u64]) -> usize {
    // SAFETY: the pointer stands with the length of its slice.
    unsafe { interface::unlock_work_size(set.as_ptr(), set.len() as u64) as usize }
}

/// The length of message 5 for the hidden leaves, one a run.
pub fn opening(set: &[u64], leaves: &[u8]) -> usize {
    let (leaves, leaves_len) = (leaves.as_ptr(), leaves.len() as u64);
    // SAFETY: each pointer stands with the length of its slice.
    unsafe { interface::unlock_opening_size(set.as_ptr(), set.len() as u64, leaves, leaves_len) as usize }
}

/// The length of the extractor's output for so many runs.
pub fn extract(set: &[u64], runs: u64) -> usize {
    // SAFETY: the pointer stands with the length of its slice.
    unsafe { interface::unlock_extract_size(set.as_ptr(), set.len() as u64, runs) as usize }
}
