//! The prover's session.

use crate::interface;

/// A session, as the bytes that the library keeps in it.
#[derive(Clone, Debug, PartialEq, Eq)]
pub struct Prover {
    session: Vec<u8>,
}

impl Default for Prover {
    fn default() -> Prover {
        Prover::new()
    }
}

impl Prover {
    /// A session before its first begin.
    pub fn new() -> Prover {
        let mut session = vec![0; Prover::size()];
        // SAFETY: the pointer stands with the length of its slice.
        let number = unsafe { interface::unlock_prover_new(session.as_mut_ptr(), session.len() as u64) };
        assert_eq!(number, 0);
        Prover { session }
    }

    /// How many bytes a session has.
    pub fn size() -> usize {
        // SAFETY: no argument.
        unsafe { interface::unlock_prover_size() as usize }
    }

    /// Any bytes as a session.
    pub fn from_bytes(session: Vec<u8>) -> Prover {
        Prover { session }
    }

    /// The bytes of the session.
    pub fn bytes(&self) -> &[u8] {
        &self.session
    }

    /// Starts an exchange of so many runs and writes message 1.
    #[allow(clippy::too_many_arguments)]
    pub fn begin(
        &mut self,
        set: &[u64],
        runs: u64,
        x_a: &[u8],
        salt: &[u8],
        root: &[u8],
        matrix: &[u8],
        y: &[u8],
        work: &mut [u8],
        out: &mut [u8],
    ) -> u8 {
        // SAFETY: each pointer stands with the length of its slice, and what is written overlaps nothing.
        unsafe {
            interface::unlock_prover_begin(
                self.session.as_mut_ptr(),
                self.session.len() as u64,
                set.as_ptr(),
                set.len() as u64,
                runs,
                x_a.as_ptr(),
                x_a.len() as u64,
                salt.as_ptr(),
                salt.len() as u64,
                root.as_ptr(),
                root.len() as u64,
                matrix.as_ptr(),
                matrix.len() as u64,
                y.as_ptr(),
                y.len() as u64,
                work.as_mut_ptr(),
                work.len() as u64,
                out.as_mut_ptr(),
                out.len() as u64,
            )
        }
    }

    /// Takes message 2 and writes message 3.
    pub fn points(&mut self, message_2: &[u8], matrix: &[u8], y: &[u8], work: &mut [u8], out: &mut [u8]) -> u8 {
        // SAFETY: each pointer stands with the length of its slice, and what is written overlaps nothing.
        unsafe {
            interface::unlock_prover_points(
                self.session.as_mut_ptr(),
                self.session.len() as u64,
                message_2.as_ptr(),
                message_2.len() as u64,
                matrix.as_ptr(),
                matrix.len() as u64,
                y.as_ptr(),
                y.len() as u64,
                work.as_mut_ptr(),
                work.len() as u64,
                out.as_mut_ptr(),
                out.len() as u64,
            )
        }
    }

    /// Takes message 4, writes message 5 and closes the exchange.
    pub fn leaf(&mut self, leaves: &[u8], matrix: &[u8], y: &[u8], work: &mut [u8], out: &mut [u8]) -> u8 {
        // SAFETY: each pointer stands with the length of its slice, and what is written overlaps nothing.
        unsafe {
            interface::unlock_prover_leaf(
                self.session.as_mut_ptr(),
                self.session.len() as u64,
                leaves.as_ptr(),
                leaves.len() as u64,
                matrix.as_ptr(),
                matrix.len() as u64,
                y.as_ptr(),
                y.len() as u64,
                work.as_mut_ptr(),
                work.len() as u64,
                out.as_mut_ptr(),
                out.len() as u64,
            )
        }
    }
}
