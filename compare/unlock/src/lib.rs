//! The proved library through its C interface (include/unlock.h), without unsafe code for its users: a slice passes as
//! pointer and length, a session is the bytes that the library keeps in it, the parameters are the numbers of a set. A call
//! answers document 01's numbers; 0 is carried out.

#![warn(missing_docs)]

mod interface;

pub mod extractor;
pub mod prover;
pub mod sizes;
pub mod verifier;

/// How many numbers a set has: m, k, w, D, t, in this order.
pub const SET_LENGTH: usize = 5;

/// Fills the output with SHAKE256 of a message.
pub fn shake256(message: &[u8], output: &mut [u8]) {
    // SAFETY: each pointer stands with the length of its slice, and the output overlaps nothing.
    unsafe {
        interface::unlock_shake256(message.as_ptr(), message.len() as u64, output.as_mut_ptr(), output.len() as u64)
    }
}
