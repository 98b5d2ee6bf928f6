//! Messages 1 to 5 of an exchange, and the parts of them that belong to one run.

use crate::challenge::Challenge;
use crate::numbers::{require, Number, WRONG_LENGTH};
use crate::parameters::Parameters;
use crate::parties::AlphaBeta;
use crate::points_field::{points_from_bytes, points_to_bytes};
use crate::shares::Aux;
use crate::strings::{front, prefix, Digest, Prefix, Salt, Seed, DIGEST_BYTES, SALT_BYTES, SEED_BYTES};

/// Messages 1 to 5 of one exchange, as lent.
#[derive(Clone, Copy, Debug)]
pub struct Messages<'a> {
    /// Message 1: the salt, and h of each run.
    pub message_1: &'a [u8],
    /// Message 2: points and multipliers of each run.
    pub message_2: &'a [u8],
    /// Message 3: h' of each run.
    pub message_3: &'a [u8],
    /// Message 4: the hidden leaf of each run.
    pub leaves: &'a [u8],
    /// Message 5: the opening of each run.
    pub message_5: &'a [u8],
}

/// What the messages of an exchange hold of one run.
#[derive(Clone, Debug)]
pub struct RunMessages<'a> {
    /// The salt and the run byte.
    pub prefix: Prefix,
    /// h.
    pub h: Digest,
    /// Points and multipliers.
    pub challenge: Challenge,
    /// h'.
    pub response: Digest,
    /// The hidden leaf.
    pub leaf: u8,
    /// The run's part of message 5.
    pub opening: &'a [u8],
}

impl Messages<'_> {
    /// Refuses with 2 unless every message has its length for so many runs.
    pub fn check(&self, parameters: &Parameters, runs: usize) -> Result<(), Number> {
        require(self.message_1.len() == Parameters::message_1_bytes(runs), WRONG_LENGTH)?;
        require(self.message_2.len() == parameters.message_2_bytes(runs), WRONG_LENGTH)?;
        require(self.message_3.len() == Parameters::message_3_bytes(runs), WRONG_LENGTH)?;
        require(self.leaves.len() == runs, WRONG_LENGTH)?;
        require(self.message_5.len() == parameters.message_5_bytes(self.leaves), WRONG_LENGTH)
    }

    /// The salt of message 1.
    pub fn salt(&self) -> Salt {
        front(self.message_1)
    }

    /// The messages of one run, of messages that have their lengths.
    pub fn run(&self, parameters: &Parameters, run: usize) -> RunMessages<'_> {
        let leaf = self.leaves[run];
        let opening = parameters.message_5_bytes(&self.leaves[..run]);
        RunMessages {
            prefix: prefix(&self.salt(), run),
            h: front(&self.message_1[SALT_BYTES + run * DIGEST_BYTES..]),
            challenge: Challenge::from_bytes(part(self.message_2, run, parameters.challenge_bytes())),
            response: front(&self.message_3[run * DIGEST_BYTES..]),
            leaf,
            opening: &self.message_5[opening..opening + parameters.opening_bytes(leaf)],
        }
    }

    /// The messages of each run, of messages that have their lengths.
    pub fn runs(&self, parameters: &Parameters) -> Vec<RunMessages<'_>> {
        (0..self.leaves.len()).map(|run| self.run(parameters, run)).collect()
    }
}

/// The part of a run where every run's has the same length.
pub fn part(message: &[u8], run: usize, length: usize) -> &[u8] {
    &message[run * length..(run + 1) * length]
}

/// The challenge of each run in a message 2 that has its length.
pub fn challenges(parameters: &Parameters, message_2: &[u8]) -> Vec<Challenge> {
    message_2.chunks_exact(parameters.challenge_bytes()).map(Challenge::from_bytes).collect()
}

/// Refuses with 14 if two points of one run are equal in a message 2 that has its length; runs are not compared with each
/// other.
pub fn check_points(parameters: &Parameters, message_2: &[u8]) -> Result<(), Number> {
    challenges(parameters, message_2).iter().try_for_each(Challenge::check_points)
}

/// Message 1 from the salt and h of each run.
pub fn message_1(salt: &Salt, h: &[Digest]) -> Vec<u8> {
    [&salt[..], &h.concat()].concat()
}

/// What a run's part of message 5 holds.
#[derive(Clone, Debug, PartialEq, Eq)]
pub struct Opening {
    /// The D sibling seeds, from the root side down.
    pub siblings: Vec<Seed>,
    /// The commitment of the hidden leaf.
    pub commitment: Digest,
    /// α and β of the hidden leaf, without constants.
    pub alpha_beta: AlphaBeta,
    /// aux, unless leaf n−1 is hidden.
    pub aux: Option<Aux>,
}

impl Opening {
    /// The content of a part that has the length for its hidden leaf.
    pub fn from_bytes(parameters: &Parameters, leaf: u8, bytes: &[u8]) -> Opening {
        assert_eq!(bytes.len(), parameters.opening_bytes(leaf));
        let (siblings, rest) = bytes.split_at(SEED_BYTES * parameters.axes);
        let (commitment, rest) = rest.split_at(DIGEST_BYTES);
        let (alpha, rest) = rest.split_at(parameters.position_bytes());
        let (beta, aux) = rest.split_at(parameters.position_bytes());
        Opening {
            siblings: siblings.chunks_exact(SEED_BYTES).map(front).collect(),
            commitment: front(commitment),
            alpha_beta: AlphaBeta { alpha: points_from_bytes(alpha), beta: points_from_bytes(beta) },
            aux: (usize::from(leaf) != parameters.last_leaf()).then(|| Aux::from_bytes(parameters, aux)),
        }
    }

    /// The run's part of message 5.
    pub fn to_bytes(&self) -> Vec<u8> {
        let siblings = self.siblings.concat();
        let alpha = points_to_bytes(&self.alpha_beta.alpha);
        let beta = points_to_bytes(&self.alpha_beta.beta);
        let aux = self.aux.as_ref().map(Aux::to_bytes).unwrap_or_default();
        [siblings, self.commitment.to_vec(), alpha, beta, aux].concat()
    }
}
