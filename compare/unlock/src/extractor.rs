//! The extractor.

use crate::interface;

/// Messages 1 to 5 of an exchange.
#[derive(Clone, Copy, Debug)]
#[allow(missing_docs)]
pub struct Messages<'a> {
    pub message_1: &'a [u8],
    pub message_2: &'a [u8],
    pub message_3: &'a [u8],
    pub leaves: &'a [u8],
    pub message_5: &'a [u8],
}

/// What the extractor answers: the number of a refusal as it stands, 256·(run + 1) + axis where the output is filled,
/// 65536·layer + 256·run + number for an unequal pair; runs count from 0.
#[allow(clippy::too_many_arguments)]
pub fn extract(
    set: &[u64],
    runs: u64,
    first: Messages,
    second: Messages,
    matrix: &[u8],
    y: &[u8],
    work: &mut [u8],
    out: &mut [u8],
) -> u32 {
    // SAFETY: each pointer stands with the length of its slice, and what is written overlaps nothing.
    unsafe {
        interface::unlock_extract(
            set.as_ptr(),
            set.len() as u64,
            runs,
            first.message_1.as_ptr(),
            first.message_1.len() as u64,
            first.message_2.as_ptr(),
            first.message_2.len() as u64,
            first.message_3.as_ptr(),
            first.message_3.len() as u64,
            first.leaves.as_ptr(),
            first.leaves.len() as u64,
            first.message_5.as_ptr(),
            first.message_5.len() as u64,
            second.message_1.as_ptr(),
            second.message_1.len() as u64,
            second.message_2.as_ptr(),
            second.message_2.len() as u64,
            second.message_3.as_ptr(),
            second.message_3.len() as u64,
            second.leaves.as_ptr(),
            second.leaves.len() as u64,
            second.message_5.as_ptr(),
            second.message_5.len() as u64,
            matrix.as_ptr(),
            matrix.len() as u64,
            y.as_ptr(),
            y.len() as u64,
            work.as_mut_ptr(),
            work.len() as u64,
            out.as_mut_ptr(),
            out.len() as u64,
        )
    }
}
