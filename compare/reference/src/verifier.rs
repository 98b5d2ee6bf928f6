//! The verifier's session: begin, points, response, leaf, and the opening that closes it.
//!
//! A session may be damaged where it is stored. It fails closed: one that is not fresh counts as closed if its parameters
//! or its run count are outside their limits or a leaf of its runs is not below n.

use crate::check::check;
use crate::lent::Lent;
use crate::messages::{check_points, Messages};
use crate::numbers::{number_of, require, Number, CLOSED, NOT_DUE, WRONG_LENGTH};
use crate::parameters::Parameters;
use crate::runs::{check_run_count, GREATEST_RUNS};
use crate::stored::{byte_of, padded, phase_of, write_front, Reader};
use crate::strings::{number_byte, DIGEST_BYTES, SALT_BYTES};

/// The bytes that a session has for message 1: past 32 and 32 a run they are zeros.
const MESSAGE_1_BYTES: usize = SALT_BYTES + DIGEST_BYTES * GREATEST_RUNS;
/// The bytes that a session has for message 2: past 8t a run they are zeros.
const MESSAGE_2_BYTES: usize = 64 * GREATEST_RUNS;
/// The bytes that a session has for message 3: past 32 a run they are zeros.
const MESSAGE_3_BYTES: usize = DIGEST_BYTES * GREATEST_RUNS;

/// Which call is due besides begin.
#[derive(Clone, Copy, Debug, PartialEq, Eq)]
enum Phase {
    Fresh,
    Points,
    Response,
    Leaf,
    Opening,
    Closed,
}

impl Phase {
    /// Each phase as a byte; any two differ in at least four bits.
    const BYTES: [(Phase, u8); 6] = [
        (Phase::Fresh, 0x0f),
        (Phase::Points, 0x33),
        (Phase::Response, 0x3c),
        (Phase::Leaf, 0x55),
        (Phase::Opening, 0x5a),
        (Phase::Closed, 0x66),
    ];
}

/// A verifier's session; `default` is one before its first begin. Messages not yet given are zeros.
#[derive(Clone, Debug, PartialEq, Eq)]
pub struct Verifier {
    phase: Phase,
    parameters: Parameters,
    runs: usize,
    message_1: [u8; MESSAGE_1_BYTES],
    message_2: [u8; MESSAGE_2_BYTES],
    message_3: [u8; MESSAGE_3_BYTES],
    leaves: [u8; GREATEST_RUNS],
}

impl Default for Verifier {
    fn default() -> Verifier {
        Verifier {
            phase: Phase::Fresh,
            parameters: Parameters::new(0, 0, 0, 0, 0),
            runs: 0,
            message_1: [0; MESSAGE_1_BYTES],
            message_2: [0; MESSAGE_2_BYTES],
            message_3: [0; MESSAGE_3_BYTES],
            leaves: [0; GREATEST_RUNS],
        }
    }
}

impl Verifier {
    /// Starts an exchange of so many runs with message 1.
    pub fn begin(&mut self, parameters: Parameters, runs: usize, message_1: &[u8]) -> Number {
        number_of(self.try_begin(parameters, runs, message_1))
    }

    /// Takes message 2, which the verifier's side has drawn.
    pub fn points(&mut self, message_2: &[u8]) -> Number {
        number_of(self.try_points(message_2))
    }

    /// Takes message 3.
    pub fn response(&mut self, message_3: &[u8]) -> Number {
        number_of(self.try_response(message_3))
    }

    /// Takes message 4, which the verifier's side has drawn.
    pub fn leaf(&mut self, leaves: &[u8]) -> Number {
        number_of(self.try_leaf(leaves))
    }

    /// Takes message 5 and closes with accepted, or with 5 or 7 of the lowest refused run.
    pub fn opening(&mut self, message_5: &[u8], lent: Lent) -> Number {
        number_of(self.try_opening(message_5, lent))
    }

    fn try_begin(&mut self, parameters: Parameters, runs: usize, message_1: &[u8]) -> Result<(), Number> {
        parameters.check()?;
        check_run_count(runs)?;
        require(message_1.len() == Parameters::message_1_bytes(runs), WRONG_LENGTH)?;
        let message_1 = padded(message_1);
        *self = Verifier { phase: Phase::Points, parameters, runs, message_1, ..Verifier::default() };
        Ok(())
    }

    fn try_points(&mut self, message_2: &[u8]) -> Result<(), Number> {
        self.require_due(Phase::Points)?;
        require(message_2.len() == self.parameters.message_2_bytes(self.runs), WRONG_LENGTH)?;
        check_points(&self.parameters, message_2)?;
        write_front(&mut self.message_2, message_2);
        self.phase = Phase::Response;
        Ok(())
    }

    fn try_response(&mut self, message_3: &[u8]) -> Result<(), Number> {
        self.require_due(Phase::Response)?;
        require(message_3.len() == Parameters::message_3_bytes(self.runs), WRONG_LENGTH)?;
        write_front(&mut self.message_3, message_3);
        self.phase = Phase::Leaf;
        Ok(())
    }

    fn try_leaf(&mut self, leaves: &[u8]) -> Result<(), Number> {
        self.require_due(Phase::Leaf)?;
        require(leaves.len() == self.runs, WRONG_LENGTH)?;
        self.parameters.check_leaves(leaves)?;
        write_front(&mut self.leaves, leaves);
        self.phase = Phase::Opening;
        Ok(())
    }

    fn try_opening(&mut self, message_5: &[u8], mut lent: Lent) -> Result<(), Number> {
        self.require_due(Phase::Opening)?;
        let messages = Messages {
            message_1: &self.message_1[..Parameters::message_1_bytes(self.runs)],
            message_2: &self.message_2[..self.parameters.message_2_bytes(self.runs)],
            message_3: &self.message_3[..Parameters::message_3_bytes(self.runs)],
            leaves: &self.leaves[..self.runs],
            message_5,
        };
        messages.check(&self.parameters, self.runs)?;
        lent.check(&self.parameters)?;
        let outcome = check(&self.parameters, lent.key(), &messages);
        lent.clear_work(&self.parameters);
        self.phase = Phase::Closed;
        outcome.map(|_| ())
    }

    /// Whether what is held can come from calls.
    fn intact(&self) -> bool {
        self.parameters.check().is_ok()
            && check_run_count(self.runs).is_ok()
            && self.parameters.check_leaves(&self.leaves[..self.runs]).is_ok()
    }

    /// Refuses with 12 if the session is closed or damaged, and with 11 if another call is due.
    fn require_due(&self, phase: Phase) -> Result<(), Number> {
        require(self.phase != Phase::Closed, CLOSED)?;
        require(self.phase == Phase::Fresh || self.intact(), CLOSED)?;
        require(self.phase == phase, NOT_DUE)
    }

    /// The session as it is stored: phase, m, k, w, D, t, run count, messages 1 to 4.
    pub fn to_bytes(&self) -> Vec<u8> {
        let phase = [byte_of(&Phase::BYTES, self.phase)];
        let numbers = [&self.parameters.to_bytes()[..], &[number_byte(self.runs)]].concat();
        [&phase[..], &numbers, &self.message_1, &self.message_2, &self.message_3, &self.leaves].concat()
    }

    /// The session that stored bytes stand for; a byte that is no phase reads as closed.
    pub fn from_bytes(bytes: &[u8]) -> Verifier {
        let mut reader = Reader::new(bytes);
        Verifier {
            phase: phase_of(&Phase::BYTES, reader.byte(), Phase::Closed),
            parameters: Parameters::from_bytes(reader.array()),
            runs: usize::from(reader.byte()),
            message_1: reader.array(),
            message_2: reader.array(),
            message_3: reader.array(),
            leaves: reader.array(),
        }
    }
}
