//! Scripts of a verifier's session.

use super::{
    damage_leaves, fitting_lent, pool_of_keys, random_exchange, random_leaves, resize_lent, Size, DAMAGE, REPEAT, STRAY,
};
use crate::numbers::CARRIED_OUT;
use crate::sampling::calls::VerifierCall;
use crate::sampling::damage::{damage_points, flip_bit, resize};
use crate::sampling::exchanges::Exchange;
use crate::sampling::keys::Key;
use crate::sampling::parameter_sets::{outside_runs, outside_set, random_runs};
use crate::sampling::Random;
use crate::verifier::Verifier;

/// Draws the calls of a verifier's script, following a session of its own to know which call is due.
struct VerifierScript<'a> {
    random: &'a mut Random,
    exchanges: Vec<(Key, Exchange)>,
    session: Verifier,
    current: (Key, Exchange),
    due: usize,
}

impl VerifierScript<'_> {
    fn call(&mut self, kind: usize) -> VerifierCall {
        if kind == 0 {
            self.current = self.random.choose(&self.exchanges);
        }
        let stray = self.random.once_in(STRAY);
        let (key, exchange) = if stray { self.random.choose(&self.exchanges) } else { self.current.clone() };
        match kind {
            0 => {
                let (runs, message_1) = (exchange.runs(), exchange.message_1);
                VerifierCall::Begin { parameters: key.parameters, runs, message_1 }
            }
            1 => self.points(&key, exchange.message_2),
            2 => VerifierCall::Response { message_3: exchange.message_3 },
            3 => VerifierCall::Leaf { leaves: exchange.leaves },
            _ => VerifierCall::Opening { message_5: exchange.message_5, lent: fitting_lent(self.random, &key) },
        }
    }

    /// Points with a message 2, now and then with repeated points.
    fn points(&mut self, key: &Key, mut message_2: Vec<u8>) -> VerifierCall {
        if self.random.once_in(REPEAT) {
            damage_points(self.random, &key.parameters, &mut message_2);
        }
        VerifierCall::Points { message_2 }
    }

    /// Changes a bit, which only the opening tells, or the leaves.
    fn flip(&mut self, call: &mut VerifierCall) {
        match call {
            VerifierCall::Begin { message_1, .. } => flip_bit(self.random, message_1),
            VerifierCall::Points { message_2 } => flip_bit(self.random, message_2),
            VerifierCall::Response { message_3 } => flip_bit(self.random, message_3),
            VerifierCall::Leaf { leaves } => {
                let (key, exchange) = &self.current;
                *leaves = random_leaves(self.random, &key.parameters, exchange.runs());
            }
            VerifierCall::Opening { message_5, .. } => flip_bit(self.random, message_5),
        }
    }

    /// Gives some argument another length, or parameters or a run count outside their limits.
    fn resize(&mut self, call: &mut VerifierCall) {
        match call {
            VerifierCall::Begin { parameters, runs, message_1 } => match self.random.below(4) {
                0 => *parameters = outside_set(self.random),
                1 => *runs = outside_runs(self.random),
                2 => *runs = random_runs(self.random),
                _ => resize(self.random, message_1),
            },
            VerifierCall::Points { message_2 } => resize(self.random, message_2),
            VerifierCall::Response { message_3 } => resize(self.random, message_3),
            VerifierCall::Leaf { leaves } => damage_leaves(self.random, leaves),
            VerifierCall::Opening { lent, .. } if self.random.once_in(2) => resize_lent(self.random, lent),
            VerifierCall::Opening { message_5, .. } => resize(self.random, message_5),
        }
    }

    fn next(&mut self) -> VerifierCall {
        let kind = if self.random.once_in(2 * DAMAGE) { self.random.below(5) } else { self.due };
        let mut call = self.call(kind);
        match self.random.below(4 * DAMAGE) {
            0 => self.flip(&mut call),
            1 => self.resize(&mut call),
            2 => {
                self.resize(&mut call);
                self.resize(&mut call);
            }
            _ => (),
        }
        let carried_out = call.make(&mut self.session).number == CARRIED_OUT;
        if carried_out || matches!(call, VerifierCall::Opening { .. }) {
            self.due = (kind + 1) % 5;
        }
        call
    }
}

/// A script of so many calls of a verifier's session.
pub fn verifier_script(random: &mut Random, size: Size, length: usize) -> Vec<VerifierCall> {
    let mut exchanges = Vec::new();
    for key in pool_of_keys(random, size).into_iter().take(3) {
        for _ in 0..2 {
            let runs = random_runs(random);
            exchanges.push((key.clone(), random_exchange(random, &key, runs)));
        }
    }
    let current = exchanges[0].clone();
    let mut script = VerifierScript { random, exchanges, session: Verifier::default(), current, due: 0 };
    (0..length).map(|_| script.next()).collect()
}
