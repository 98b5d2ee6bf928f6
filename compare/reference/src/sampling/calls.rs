//! Calls with all that they are lent, so that one call can be made of two implementations and its effects compared.

use crate::extractor::{extract, Answer};
use crate::lent::Lent;
use crate::numbers::Number;
use crate::parameters::Parameters;
use crate::prover::Prover;
use crate::sampling::exchanges::Exchange;
use crate::verifier::Verifier;

/// Matrix, y and work area before a call.
#[derive(Clone, Debug, Default, PartialEq, Eq)]
pub struct LentBytes {
    /// The matrix H'.
    pub matrix: Vec<u8>,
    /// The syndrome y.
    pub y: Vec<u8>,
    /// The work area.
    pub work: Vec<u8>,
}

/// What a call leaves behind.
#[derive(Clone, Debug, PartialEq, Eq)]
pub struct Effect {
    /// The number answered.
    pub number: Number,
    /// The work area after the call.
    pub work: Vec<u8>,
    /// The output after the call.
    pub output: Vec<u8>,
}

/// What distinguishes the prover's calls.
#[derive(Clone, Debug, PartialEq, Eq)]
#[allow(missing_docs)]
pub enum ProverInput {
    /// begin
    Begin { parameters: Parameters, runs: usize, x_a: Vec<u8>, salt: Vec<u8>, root: Vec<u8> },
    /// points
    Points { message_2: Vec<u8> },
    /// leaf
    Leaf { leaves: Vec<u8> },
}

/// A call of the prover.
#[derive(Clone, Debug, PartialEq, Eq)]
pub struct ProverCall {
    /// The call and its own arguments.
    pub input: ProverInput,
    /// Matrix, y and work area.
    pub lent: LentBytes,
    /// The output before the call.
    pub output: Vec<u8>,
}

/// A call of the verifier.
#[derive(Clone, Debug, PartialEq, Eq)]
#[allow(missing_docs)]
pub enum VerifierCall {
    /// begin
    Begin { parameters: Parameters, runs: usize, message_1: Vec<u8> },
    /// points
    Points { message_2: Vec<u8> },
    /// response
    Response { message_3: Vec<u8> },
    /// leaf
    Leaf { leaves: Vec<u8> },
    /// opening
    Opening { message_5: Vec<u8>, lent: LentBytes },
}

/// A call of the extractor.
#[derive(Clone, Debug, PartialEq, Eq)]
pub struct ExtractorCall {
    /// The parameters.
    pub parameters: Parameters,
    /// The run count.
    pub runs: usize,
    /// The first exchange.
    pub first: Exchange,
    /// The second exchange.
    pub second: Exchange,
    /// Matrix, y and work area.
    pub lent: LentBytes,
    /// The output before the call.
    pub output: Vec<u8>,
}

impl LentBytes {
    /// Lends copies of these bytes; the work area is the one that the call may write.
    fn lend<'a>(&'a self, work: &'a mut [u8]) -> Lent<'a> {
        Lent { matrix: &self.matrix, y: &self.y, work }
    }
}

impl ProverCall {
    /// Makes the call.
    pub fn make(&self, prover: &mut Prover) -> Effect {
        let (mut work, mut output) = (self.lent.work.clone(), self.output.clone());
        let lent = self.lent.lend(&mut work);
        let number = match &self.input {
            ProverInput::Begin { parameters, runs, x_a, salt, root } => {
                prover.begin(*parameters, *runs, x_a, salt, root, lent, &mut output)
            }
            ProverInput::Points { message_2 } => prover.points(message_2, lent, &mut output),
            ProverInput::Leaf { leaves } => prover.leaf(leaves, lent, &mut output),
        };
        Effect { number, work, output }
    }
}

impl VerifierCall {
    /// Makes the call; a call without work area leaves an empty one.
    pub fn make(&self, verifier: &mut Verifier) -> Effect {
        let mut work = Vec::new();
        let number = match self {
            VerifierCall::Begin { parameters, runs, message_1 } => verifier.begin(*parameters, *runs, message_1),
            VerifierCall::Points { message_2 } => verifier.points(message_2),
            VerifierCall::Response { message_3 } => verifier.response(message_3),
            VerifierCall::Leaf { leaves } => verifier.leaf(leaves),
            VerifierCall::Opening { message_5, lent } => {
                work.clone_from(&lent.work);
                verifier.opening(message_5, lent.lend(&mut work))
            }
        };
        Effect { number, work, output: Vec::new() }
    }
}

impl ExtractorCall {
    /// Makes the call: its answer, the work area and the output after it.
    pub fn make(&self) -> (Answer, Vec<u8>, Vec<u8>) {
        let (mut work, mut output) = (self.lent.work.clone(), self.output.clone());
        let (first, second) = (self.first.messages(), self.second.messages());
        let answer = extract(self.parameters, self.runs, first, second, self.lent.lend(&mut work), &mut output);
        (answer, work, output)
    }
}
