//! Scripts of calls: mostly the call that is due with fitting arguments, and every kind of fault among them.

use crate::parameters::Parameters;
use crate::sampling::calls::LentBytes;
use crate::sampling::damage::resize;
use crate::sampling::exchanges::{honest_exchange, random_message_2, Exchange, Start};
use crate::sampling::keys::{overweight_key, valid_key, Key};
use crate::sampling::made_up::any_leaves;
use crate::sampling::parameter_sets::random_set;
use crate::sampling::simulated::{leaf_first, PointsFirst};
use crate::sampling::Random;

mod extractor;
mod prover;
mod verifier;

pub use extractor::extractor_call;
pub use prover::prover_script;
pub use verifier::verifier_script;

/// Limits of the sets that a script draws from.
#[derive(Clone, Copy, Debug)]
pub struct Size {
    /// The greatest m.
    pub greatest_m: usize,
    /// The greatest D.
    pub greatest_axes: usize,
}

/// How often a call is damaged: once in so many.
pub(super) const DAMAGE: usize = 4;

/// How often a call takes something else than what fits the exchange: once in so many.
pub(super) const STRAY: usize = 8;

/// How often points are made to repeat, beside all other damage: once in so many.
pub(super) const REPEAT: usize = 4;

/// A leaf below n, the last one often.
fn random_leaf(random: &mut Random, parameters: &Parameters) -> u8 {
    match random.below(8) {
        0 | 1 => parameters.last_leaf() as u8,
        2 => 0,
        _ => random.below(parameters.leaves()) as u8,
    }
}

/// So many leaves; once in eight times one of them is any byte.
pub fn random_leaves(random: &mut Random, parameters: &Parameters, runs: usize) -> Vec<u8> {
    let mut leaves: Vec<u8> = (0..runs).map(|_| random_leaf(random, parameters)).collect();
    if runs > 0 && random.once_in(8) {
        let run = random.below(runs);
        leaves[run] = random.byte();
    }
    leaves
}

/// Gives message 4 another length, or a run any leaf.
pub(super) fn damage_leaves(random: &mut Random, leaves: &mut Vec<u8>) {
    if leaves.is_empty() || random.once_in(2) {
        resize(random, leaves);
    } else {
        let run = random.below(leaves.len());
        leaves[run] = random.byte();
    }
}

/// What fits a key: its matrix and y, and a work area that is sometimes longer than its named length.
pub(super) fn fitting_lent(random: &mut Random, key: &Key) -> LentBytes {
    let longer = if random.once_in(2) { random.below(40) } else { 0 };
    let work = random.bytes(key.parameters.work_bytes() + longer);
    LentBytes { matrix: key.matrix.clone(), y: key.y.clone(), work }
}

pub(super) fn resize_lent(random: &mut Random, lent: &mut LentBytes) {
    match random.below(3) {
        0 => resize(random, &mut lent.matrix),
        1 => resize(random, &mut lent.y),
        _ => resize(random, &mut lent.work),
    }
}

/// Keys of which two share their parameters, one is overweight where that can be, and one has other parameters.
pub(super) fn pool_of_keys(random: &mut Random, size: Size) -> Vec<Key> {
    let shared = random_set(random, size.greatest_m, size.greatest_axes);
    let other = random_set(random, size.greatest_m, size.greatest_axes);
    let mut keys: Vec<Key> = [shared, shared, other].iter().map(|set| valid_key(random, set)).collect();
    keys.extend(overweight_key(random, &shared));
    keys
}

/// An exchange of so many runs under a key, honest or simulated.
pub(super) fn random_exchange(random: &mut Random, key: &Key, runs: usize) -> Exchange {
    let set = key.parameters;
    let leaves = any_leaves(random, &set, runs);
    match random.below(4) {
        0 => leaf_first(random, &set, key.public(), &leaves),
        1 => {
            let message_2 = random_message_2(random, &set, runs);
            PointsFirst::new(random, &set, key.public(), &message_2).exchange(&leaves)
        }
        _ => {
            let start = Start::random(random, &set, runs);
            honest_exchange(key, &start, &leaves)
        }
    }
}
