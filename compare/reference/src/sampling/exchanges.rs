//! Whole exchanges through the sessions.

use crate::challenge::Challenge;
use crate::extractor::{extract, Answer};
use crate::key::PublicKey;
use crate::lent::Lent;
use crate::messages::{part, Messages};
use crate::numbers::{Number, CARRIED_OUT};
use crate::parameters::Parameters;
use crate::points_field::POINT_BYTES;
use crate::prover::Prover;
use crate::sampling::damage::nearly_repeat_point;
use crate::sampling::keys::Key;
use crate::sampling::Random;
use crate::strings::{Salt, Seed, DIGEST_BYTES, SALT_BYTES};
use crate::verifier::Verifier;

/// Messages 1 to 5 of one exchange.
#[derive(Clone, Debug, PartialEq, Eq)]
pub struct Exchange {
    /// Message 1.
    pub message_1: Vec<u8>,
    /// Message 2.
    pub message_2: Vec<u8>,
    /// Message 3.
    pub message_3: Vec<u8>,
    /// Message 4.
    pub leaves: Vec<u8>,
    /// Message 5.
    pub message_5: Vec<u8>,
}

impl Exchange {
    /// The messages, to be lent.
    pub fn messages(&self) -> Messages<'_> {
        Messages {
            message_1: &self.message_1,
            message_2: &self.message_2,
            message_3: &self.message_3,
            leaves: &self.leaves,
            message_5: &self.message_5,
        }
    }

    /// The run count of an exchange whose message 4 has its length.
    pub fn runs(&self) -> usize {
        self.leaves.len()
    }

    /// h of a run.
    pub fn h_mut(&mut self, run: usize) -> &mut [u8] {
        let place = SALT_BYTES + run * DIGEST_BYTES;
        &mut self.message_1[place..place + DIGEST_BYTES]
    }

    /// Points and multipliers of a run.
    pub fn challenge_mut(&mut self, parameters: &Parameters, run: usize) -> &mut [u8] {
        let length = parameters.challenge_bytes();
        &mut self.message_2[run * length..(run + 1) * length]
    }

    /// h' of a run.
    pub fn response_mut(&mut self, run: usize) -> &mut [u8] {
        &mut self.message_3[run * DIGEST_BYTES..(run + 1) * DIGEST_BYTES]
    }

    /// The opening of a run.
    pub fn opening_mut(&mut self, parameters: &Parameters, run: usize) -> &mut [u8] {
        let place = parameters.message_5_bytes(&self.leaves[..run]);
        &mut self.message_5[place..place + parameters.opening_bytes(self.leaves[run])]
    }
}

/// What a prover starts an exchange with, and message 2.
#[derive(Clone, Debug)]
pub struct Start {
    /// The salt.
    pub salt: Salt,
    /// The root seed.
    pub root: Seed,
    /// Message 2.
    pub message_2: Vec<u8>,
}

impl Start {
    /// A random start of so many runs.
    pub fn random(random: &mut Random, parameters: &Parameters, runs: usize) -> Start {
        let message_2 = random_message_2(random, parameters, runs);
        Start { salt: random.array(), root: random.array(), message_2 }
    }
}

/// A message 2 whose points differ in each run, sometimes in one byte only. Sometimes points or multipliers are zero or bytes,
/// multipliers repeat or equal points, and a run has the points of the run before.
pub fn random_message_2(random: &mut Random, parameters: &Parameters, runs: usize) -> Vec<u8> {
    let mut message: Vec<u8> = Vec::new();
    for run in 0..runs {
        let mut challenge = distinct_challenge(random, parameters);
        if run > 0 && random.once_in(4) {
            let points = parameters.position_bytes();
            challenge[..points].copy_from_slice(&part(&message, run - 1, parameters.challenge_bytes())[..points]);
        }
        message.extend(challenge);
    }
    message
}

/// A run's part of message 2, drawn again until its points differ.
fn distinct_challenge(random: &mut Random, parameters: &Parameters) -> Vec<u8> {
    loop {
        let challenge = any_challenge(random, parameters);
        if Challenge::from_bytes(&challenge).check_points().is_ok() {
            return challenge;
        }
    }
}

/// A run's part of message 2, whose points may repeat.
fn any_challenge(random: &mut Random, parameters: &Parameters) -> Vec<u8> {
    let mut challenge = random.bytes(parameters.challenge_bytes());
    for point in challenge.chunks_exact_mut(POINT_BYTES) {
        match random.below(8) {
            0 => point.fill(0),
            1 => point[1..].fill(0),
            2 => point.copy_from_slice(&[1, 2, 3, 4]),
            _ => (),
        }
    }
    if parameters.t > 1 && random.once_in(4) {
        nearly_repeat_point(random, &mut challenge[..parameters.position_bytes()]);
    }
    challenge
}

/// The messages that an honest prover gives where these leaves are hidden, one a run.
pub fn honest_exchange(key: &Key, start: &Start, leaves: &[u8]) -> Exchange {
    let (parameters, runs) = (key.parameters, leaves.len());
    let mut work = vec![0xa5; parameters.work_bytes()];
    let mut prover = Prover::default();
    let mut message_1 = vec![0; Parameters::message_1_bytes(runs)];
    let mut message_3 = vec![0; Parameters::message_3_bytes(runs)];
    let mut message_5 = vec![0; parameters.message_5_bytes(leaves)];
    let lent = Lent { matrix: &key.matrix, y: &key.y, work: &mut work };
    assert_eq!(prover.begin(parameters, runs, &key.x_a, &start.salt, &start.root, lent, &mut message_1), CARRIED_OUT);
    let lent = Lent { matrix: &key.matrix, y: &key.y, work: &mut work };
    assert_eq!(prover.points(&start.message_2, lent, &mut message_3), CARRIED_OUT);
    let lent = Lent { matrix: &key.matrix, y: &key.y, work: &mut work };
    assert_eq!(prover.leaf(leaves, lent, &mut message_5), CARRIED_OUT);
    Exchange { message_1, message_2: start.message_2.clone(), message_3, leaves: leaves.to_vec(), message_5 }
}

/// What a fresh verifier answers to the opening of an exchange whose other calls are carried out.
pub fn verdict(parameters: &Parameters, key: PublicKey, exchange: &Exchange) -> Number {
    let mut work = vec![0xa5; parameters.work_bytes()];
    let mut verifier = Verifier::default();
    assert_eq!(verifier.begin(*parameters, exchange.runs(), &exchange.message_1), CARRIED_OUT);
    assert_eq!(verifier.points(&exchange.message_2), CARRIED_OUT);
    assert_eq!(verifier.response(&exchange.message_3), CARRIED_OUT);
    assert_eq!(verifier.leaf(&exchange.leaves), CARRIED_OUT);
    verifier.opening(&exchange.message_5, Lent { matrix: key.matrix, y: key.y, work: &mut work })
}

/// What the extractor answers to two exchanges, and its output, which starts as bytes a5.
pub fn extraction(parameters: &Parameters, key: PublicKey, first: &Exchange, second: &Exchange) -> (Answer, Vec<u8>) {
    let runs = first.runs();
    let mut work = vec![0xa5; parameters.work_bytes()];
    let mut output = vec![0xa5; parameters.extractor_bytes(runs)];
    let lent = Lent { matrix: key.matrix, y: key.y, work: &mut work };
    let answer = extract(*parameters, runs, first.messages(), second.messages(), lent, &mut output);
    (answer, output)
}
