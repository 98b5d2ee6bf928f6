//! Keys and starts, each drawn from a seed.

use reference::parameters::Parameters;
use reference::points_field::POINT_BYTES;
use reference::sampling::exchanges::{honest_exchange, Exchange, Start};
use reference::sampling::keys::{key_of_vector, vector_of_weight, Key};
use reference::sampling::Random;

/// What a lent work area holds.
pub const WORK: u8 = 0xa5;

/// What a lent output holds.
pub const OUTPUT: u8 = 0x5a;

/// A key and what a prover starts an exchange with.
pub struct Sample {
    /// The key.
    pub key: Key,
    /// Salt, root and message 2.
    pub start: Start,
}

impl Sample {
    /// A sample of so many runs with a vector of this weight.
    pub fn new(seed: u64, set: Parameters, weight: usize, runs: usize) -> Sample {
        let mut random = Random::new(seed);
        let x = vector_of_weight(&mut random, set.m, weight);
        let key = key_of_vector(&mut random, &set, &x);
        let message_2 = random.bytes(set.message_2_bytes(runs));
        Sample { key, start: Start { salt: random.array(), root: random.array(), message_2 } }
    }

    /// The run count.
    pub fn runs(&self) -> usize {
        self.start.message_2.len() / self.key.parameters.challenge_bytes()
    }

    /// Message 2 with the point of a position of a run at another one too.
    pub fn repeated(&self, run: usize, first: usize, second: usize) -> Vec<u8> {
        let mut message_2 = self.start.message_2.clone();
        let [from, to] = [first, second].map(|at| run * self.key.parameters.challenge_bytes() + POINT_BYTES * at);
        message_2.copy_within(from..from + POINT_BYTES, to);
        message_2
    }

    /// Message 2 with all that points may share: in each run the same points, of which every other one differs from the
    /// first in one byte alone, and that first one as every multiplier. The bytes that differ count from this one.
    pub fn alike(&self, byte: usize) -> Vec<u8> {
        let t = self.key.parameters.t;
        let mut run = self.start.message_2[..POINT_BYTES].repeat(2 * t);
        for position in 1..t {
            run[POINT_BYTES * position + byte + position - 1] ^= 1;
        }
        run.repeat(self.runs())
    }

    /// The honest exchange that hides these leaves, one a run.
    pub fn exchange(&self, leaves: &[u8]) -> Exchange {
        honest_exchange(&self.key, &self.start, leaves)
    }

    /// The honest exchange that hides one leaf in every run.
    pub fn exchange_hiding(&self, leaf: usize) -> Exchange {
        self.exchange(&vec![leaf as u8; self.runs()])
    }
}

/// What of an opening is changed.
#[derive(Clone, Copy)]
pub enum Part {
    /// The sibling seed of this level, 0 on the root side.
    Sibling(usize),
    /// The hidden leaf's commitment.
    Commitment,
    /// Its α.
    Alpha,
    /// aux.
    Aux,
}

/// The exchange with the lowest bit of the first byte of a part of a run's opening changed.
pub fn changed(set: &Parameters, exchange: &Exchange, run: usize, part: Part) -> Exchange {
    let commitment = 16 * set.axes;
    let place = match part {
        Part::Sibling(level) => 16 * level,
        Part::Commitment => commitment,
        Part::Alpha => commitment + 32,
        Part::Aux => commitment + 32 + 8 * set.t,
    };
    let mut exchange = exchange.clone();
    exchange.opening_mut(set, run)[place] ^= 1;
    exchange
}
