//! Scripts of a prover's session.

use super::{damage_leaves, fitting_lent, pool_of_keys, random_leaves, resize_lent, Size, DAMAGE, REPEAT, STRAY};
use crate::numbers::CARRIED_OUT;
use crate::parameters::Parameters;
use crate::prover::Prover;
use crate::runs::GREATEST_RUNS;
use crate::sampling::calls::{LentBytes, ProverCall, ProverInput};
use crate::sampling::damage::{damage_points, resize};
use crate::sampling::exchanges::random_message_2;
use crate::sampling::keys::Key;
use crate::sampling::parameter_sets::{outside_runs, outside_set, random_runs};
use crate::sampling::Random;
use crate::strings::{SALT_BYTES, SEED_BYTES};

/// Draws the calls of a prover's script, following a session of its own to know which call is due.
struct ProverScript<'a> {
    random: &'a mut Random,
    keys: Vec<Key>,
    salts: Vec<Vec<u8>>,
    roots: Vec<Vec<u8>>,
    session: Prover,
    key: Key,
    runs: usize,
    due: usize,
}

impl ProverScript<'_> {
    fn begin(&mut self, key: &Key) -> ProverInput {
        let salt = self.random.choose(&self.salts);
        let root = self.random.choose(&self.roots);
        let runs = random_runs(self.random);
        ProverInput::Begin { parameters: key.parameters, runs, x_a: key.x_a.clone(), salt, root }
    }

    /// A message 2 that fits the session, now and then with repeated points.
    fn points(&mut self, set: &Parameters) -> ProverInput {
        let mut message_2 = random_message_2(self.random, set, self.runs);
        if self.random.once_in(REPEAT) {
            damage_points(self.random, set, &mut message_2);
        }
        ProverInput::Points { message_2 }
    }

    /// The call's own arguments and the length of its output.
    fn input(&mut self, kind: usize, key: &Key) -> (ProverInput, usize) {
        let set = self.key.parameters;
        let input = match kind {
            0 => self.begin(key),
            1 => self.points(&set),
            _ => ProverInput::Leaf { leaves: random_leaves(self.random, &set, self.runs) },
        };
        let length = match &input {
            ProverInput::Begin { runs, .. } => Parameters::message_1_bytes(*runs),
            ProverInput::Points { .. } => Parameters::message_3_bytes(self.runs),
            ProverInput::Leaf { leaves } => set.message_5_bytes(leaves),
        };
        (input, length)
    }

    fn call(&mut self, kind: usize) -> ProverCall {
        let stray = kind == 0 || self.random.once_in(STRAY);
        let key = if stray { self.random.choose(&self.keys) } else { self.key.clone() };
        let (input, output_length) = self.input(kind, &key);
        let lent = fitting_lent(self.random, &key);
        let mut call = ProverCall { input, lent, output: self.random.bytes(output_length) };
        let faults = if self.random.once_in(DAMAGE) { self.random.between(1, 2) } else { 0 };
        for _ in 0..faults {
            self.damage(&mut call);
        }
        call
    }

    fn damage(&mut self, call: &mut ProverCall) {
        match self.random.below(3) {
            0 => resize_lent(self.random, &mut call.lent),
            1 => resize(self.random, &mut call.output),
            _ => self.damage_input(&mut call.input),
        }
    }

    fn damage_input(&mut self, input: &mut ProverInput) {
        match input {
            ProverInput::Begin { parameters, runs, x_a, salt, root } => match self.random.below(6) {
                0 => *parameters = outside_set(self.random),
                4 => *runs = outside_runs(self.random),
                5 => *runs = self.random.between(1, GREATEST_RUNS),
                1 => resize(self.random, x_a),
                2 => resize(self.random, salt),
                _ => resize(self.random, root),
            },
            ProverInput::Points { message_2 } => resize(self.random, message_2),
            ProverInput::Leaf { leaves } => damage_leaves(self.random, leaves),
        }
    }

    fn next(&mut self) -> ProverCall {
        let kind = if self.random.once_in(DAMAGE) { self.random.below(3) } else { self.due };
        let call = self.call(kind);
        if call.make(&mut self.session).number == CARRIED_OUT {
            self.due = (kind + 1) % 3;
            if let ProverInput::Begin { parameters, runs, x_a, .. } = &call.input {
                self.runs = *runs;
                let LentBytes { matrix, y, .. } = call.lent.clone();
                self.key = Key { parameters: *parameters, matrix, y, x_a: x_a.clone() };
            }
        }
        call
    }
}

/// A script of so many calls of a prover's session.
pub fn prover_script(random: &mut Random, size: Size, length: usize) -> Vec<ProverCall> {
    let keys = pool_of_keys(random, size);
    let salts = (0..2).map(|_| random.bytes(SALT_BYTES)).collect();
    let roots = (0..2).map(|_| random.bytes(SEED_BYTES)).collect();
    let key = keys[0].clone();
    let mut script = ProverScript { random, keys, salts, roots, session: Prover::default(), key, runs: 1, due: 0 };
    (0..length).map(|_| script.next()).collect()
}
