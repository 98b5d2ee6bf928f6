//! The prover's session: begin gives message 1, points gives message 3, leaf gives message 5 and closes, each
//! of all runs.
//!
//! A session may be damaged where it is stored. It fails closed: one that is not fresh counts as closed if its parameters
//! or its run count are outside their limits or its x is too heavy, and its salt and root still count as those of the exchange held.

use crate::challenge::Challenge;
use crate::commitment::{Committed, Witness};
use crate::key::check_weight;
use crate::lent::Lent;
use crate::messages::{challenges, check_points, message_1};
use crate::numbers::{number_of, require, Number, CLOSED, NOT_DUE, SALT_AND_ROOT_HELD, WRONG_LENGTH};
use crate::parameters::Parameters;
use crate::runs::{check_run_count, Run, GREATEST_RUNS};
use crate::stored::{byte_of, padded, phase_of, write_front, Reader};
use crate::strings::{front, number_byte, Digest, Salt, Seed, SALT_BYTES, SEED_BYTES};

/// The bytes that a session has for x: x past m entries is zeros.
const X_BYTES: usize = 255;
/// The bytes that a session has for message 2: past 8t a run they are zeros.
const MESSAGE_2_BYTES: usize = 64 * GREATEST_RUNS;

/// Which call is due besides begin.
#[derive(Clone, Copy, Debug, PartialEq, Eq)]
enum Phase {
    Fresh,
    Points,
    Leaf,
    Closed,
}

impl Phase {
    /// Each phase as a byte; any two differ in at least four bits.
    const BYTES: [(Phase, u8); 4] =
        [(Phase::Fresh, 0x0f), (Phase::Points, 0x33), (Phase::Leaf, 0x55), (Phase::Closed, 0x66)];
}

/// A prover's session; `default` is one before its first begin.
#[derive(Clone, Debug, PartialEq, Eq)]
pub struct Prover {
    phase: Phase,
    parameters: Parameters,
    runs: usize,
    x: [u8; X_BYTES],
    salt: Salt,
    root: Seed,
    message_2: [u8; MESSAGE_2_BYTES],
}

impl Default for Prover {
    fn default() -> Prover {
        Prover {
            phase: Phase::Fresh,
            parameters: Parameters::new(0, 0, 0, 0, 0),
            runs: 0,
            x: [0; X_BYTES],
            salt: Salt::default(),
            root: Seed::default(),
            message_2: [0; MESSAGE_2_BYTES],
        }
    }
}

impl Prover {
    /// Starts an exchange of so many runs under a key, a salt and a root seed, and writes message 1.
    #[allow(clippy::too_many_arguments)]
    pub fn begin(
        &mut self,
        parameters: Parameters,
        runs: usize,
        x_a: &[u8],
        salt: &[u8],
        root: &[u8],
        lent: Lent,
        output: &mut [u8],
    ) -> Number {
        number_of(self.try_begin(parameters, runs, x_a, salt, root, lent, output))
    }

    /// Takes message 2 and writes message 3.
    pub fn points(&mut self, message_2: &[u8], lent: Lent, output: &mut [u8]) -> Number {
        number_of(self.try_points(message_2, lent, output))
    }

    /// Takes message 4, writes message 5 and closes the exchange.
    pub fn leaf(&mut self, leaves: &[u8], lent: Lent, output: &mut [u8]) -> Number {
        number_of(self.try_leaf(leaves, lent, output))
    }

    #[allow(clippy::too_many_arguments)]
    fn try_begin(
        &mut self,
        parameters: Parameters,
        runs: usize,
        x_a: &[u8],
        salt: &[u8],
        root: &[u8],
        mut lent: Lent,
        output: &mut [u8],
    ) -> Result<(), Number> {
        parameters.check()?;
        check_run_count(runs)?;
        require(x_a.len() == parameters.k, WRONG_LENGTH)?;
        require(salt.len() == SALT_BYTES, WRONG_LENGTH)?;
        require(root.len() == SEED_BYTES, WRONG_LENGTH)?;
        lent.check(&parameters)?;
        require(output.len() == Parameters::message_1_bytes(runs), WRONG_LENGTH)?;
        let x = lent.key().vector(x_a);
        check_weight(&parameters, &x)?;
        require(!self.holds(salt, root), SALT_AND_ROOT_HELD)?;
        let begun = Prover {
            phase: Phase::Points,
            parameters,
            runs,
            x: padded(&x),
            salt: front(salt),
            root: front(root),
            message_2: [0; MESSAGE_2_BYTES],
        };
        let h: Vec<Digest> = begun.committed().iter().map(Committed::h).collect();
        output.copy_from_slice(&message_1(&begun.salt, &h));
        lent.clear_work(&parameters);
        *self = begun;
        Ok(())
    }

    fn try_points(&mut self, message_2: &[u8], mut lent: Lent, output: &mut [u8]) -> Result<(), Number> {
        self.require_due(Phase::Points)?;
        require(message_2.len() == self.parameters.message_2_bytes(self.runs), WRONG_LENGTH)?;
        lent.check(&self.parameters)?;
        require(output.len() == Parameters::message_3_bytes(self.runs), WRONG_LENGTH)?;
        check_points(&self.parameters, message_2)?;
        let runs = self.committed().into_iter().zip(challenges(&self.parameters, message_2));
        let responses: Vec<Digest> = runs.map(|(run, challenge)| run.response(&challenge, lent.key())).collect();
        output.copy_from_slice(&responses.concat());
        lent.clear_work(&self.parameters);
        write_front(&mut self.message_2, message_2);
        self.phase = Phase::Leaf;
        Ok(())
    }

    fn try_leaf(&mut self, leaves: &[u8], mut lent: Lent, output: &mut [u8]) -> Result<(), Number> {
        self.require_due(Phase::Leaf)?;
        require(leaves.len() == self.runs, WRONG_LENGTH)?;
        lent.check(&self.parameters)?;
        require(output.len() == self.parameters.message_5_bytes(leaves), WRONG_LENGTH)?;
        self.parameters.check_leaves(leaves)?;
        let message_2 = &self.message_2[..self.parameters.message_2_bytes(self.runs)];
        let runs = self.committed().into_iter().zip(challenges(&self.parameters, message_2)).zip(leaves);
        let opening = |((run, challenge), &leaf): ((Committed, Challenge), &u8)| {
            run.opening(&challenge, leaf, lent.key()).to_bytes()
        };
        let message_5: Vec<u8> = runs.flat_map(opening).collect();
        output.copy_from_slice(&message_5);
        lent.clear_work(&self.parameters);
        self.phase = Phase::Closed;
        Ok(())
    }

    /// x as held: m entries.
    fn vector(&self) -> &[u8] {
        &self.x[..self.parameters.m]
    }

    /// The leaves of each run.
    fn committed(&self) -> Vec<Committed> {
        let witness = Witness::of_vector(&self.parameters, self.vector());
        let runs = (0..self.runs).map(|number| Run::new(&self.salt, number, &self.root));
        runs.map(|run| Committed::new(&self.parameters, &run, &witness)).collect()
    }

    /// Whether what is held can come from a begin.
    fn intact(&self) -> bool {
        self.parameters.check().is_ok()
            && check_run_count(self.runs).is_ok()
            && check_weight(&self.parameters, self.vector()).is_ok()
    }

    /// Refuses with 12 if the session is closed or damaged, and with 11 if another call is due.
    fn require_due(&self, phase: Phase) -> Result<(), Number> {
        require(self.phase != Phase::Closed, CLOSED)?;
        require(self.phase == Phase::Fresh || self.intact(), CLOSED)?;
        require(self.phase == phase, NOT_DUE)
    }

    /// Whether the exchange held, open or closed or damaged, has this salt and this root.
    fn holds(&self, salt: &[u8], root: &[u8]) -> bool {
        self.phase != Phase::Fresh && self.salt == salt && self.root == root
    }

    /// The session as it is stored: phase, m, k, w, D, t, run count, x, salt, root, message 2.
    pub fn to_bytes(&self) -> Vec<u8> {
        let phase = [byte_of(&Phase::BYTES, self.phase)];
        let numbers = [&self.parameters.to_bytes()[..], &[number_byte(self.runs)]].concat();
        [&phase[..], &numbers, &self.x, &self.salt, &self.root, &self.message_2].concat()
    }

    /// The session that stored bytes stand for; a byte that is no phase reads as closed.
    pub fn from_bytes(bytes: &[u8]) -> Prover {
        let mut reader = Reader::new(bytes);
        Prover {
            phase: phase_of(&Phase::BYTES, reader.byte(), Phase::Closed),
            parameters: Parameters::from_bytes(reader.array()),
            runs: usize::from(reader.byte()),
            x: reader.array(),
            salt: reader.array(),
            root: reader.array(),
            message_2: reader.array(),
        }
    }
}
