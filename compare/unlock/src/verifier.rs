//! The verifier's session.

use crate::interface;

/// A session, as the bytes that the library keeps in it.
#[derive(Clone, Debug, PartialEq, Eq)]
pub struct Verifier {
    session: Vec<u8>,
}

impl Default for Verifier {
    fn default() -> Verifier {
        Verifier::new()
    }
}

impl Verifier {
    /// A session before its first begin.
    pub fn new() -> Verifier {
        let mut session = vec![0; Verifier::size()];
        // SAFETY: the pointer stands with the length of its slice.
        let number = unsafe { interface::unlock_verifier_new(session.as_mut_ptr(), session.len() as u64) };
        assert_eq!(number, 0);
        Verifier { session }
    }

    /// How many bytes a session has.
    pub fn size() -> usize {
        // SAFETY: no argument.
        unsafe { interface::unlock_verifier_size() as usize }
    }

    /// Any bytes as a session.
    pub fn from_bytes(session: Vec<u8>) -> Verifier {
        Verifier { session }
    }

    /// The bytes of the session.
    pub fn bytes(&self) -> &[u8] {
        &self.session
    }

    /// Starts an exchange of so many runs with message 1.
    pub fn begin(&mut self, set: &[u64], runs: u64, message_1: &[u8]) -> u8 {
        let (session, len) = (self.session.as_mut_ptr(), self.session.len() as u64);
        // SAFETY: each pointer stands with the length of its slice, and the session overlaps nothing.
        unsafe {
            interface::unlock_verifier_begin(
                session,
                len,
                set.as_ptr(),
                set.len() as u64,
                runs,
                message_1.as_ptr(),
                message_1.len() as u64,
            )
        }
    }

    /// Takes message 2, which was sent.
    pub fn points(&mut self, message_2: &[u8]) -> u8 {
        let (session, len) = (self.session.as_mut_ptr(), self.session.len() as u64);
        // SAFETY: each pointer stands with the length of its slice, and the session overlaps nothing.
        unsafe { interface::unlock_verifier_points(session, len, message_2.as_ptr(), message_2.len() as u64) }
    }

    /// Takes message 3.
    pub fn response(&mut self, message_3: &[u8]) -> u8 {
        let (session, len) = (self.session.as_mut_ptr(), self.session.len() as u64);
        // SAFETY: each pointer stands with the length of its slice, and the session overlaps nothing.
        unsafe { interface::unlock_verifier_response(session, len, message_3.as_ptr(), message_3.len() as u64) }
    }

    /// Takes message 4, which was sent.
    pub fn leaf(&mut self, leaves: &[u8]) -> u8 {
        let (session, len) = (self.session.as_mut_ptr(), self.session.len() as u64);
        // SAFETY: each pointer stands with the length of its slice, and the session overlaps nothing.
        unsafe { interface::unlock_verifier_leaf(session, len, leaves.as_ptr(), leaves.len() as u64) }
    }

    /// Takes message 5 and closes the exchange with the verdict.
    pub fn opening(&mut self, message_5: &[u8], matrix: &[u8], y: &[u8], work: &mut [u8]) -> u8 {
        // SAFETY: each pointer stands with the length of its slice, and what is written overlaps nothing.
        unsafe {
            interface::unlock_verifier_opening(
                self.session.as_mut_ptr(),
                self.session.len() as u64,
                message_5.as_ptr(),
                message_5.len() as u64,
                matrix.as_ptr(),
                matrix.len() as u64,
                y.as_ptr(),
                y.len() as u64,
                work.as_mut_ptr(),
                work.len() as u64,
            )
        }
    }
}
