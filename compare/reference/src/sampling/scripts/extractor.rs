//! Calls of the extractor.

use super::{damage_leaves, fitting_lent, random_exchange, resize_lent, Size, REPEAT};
use crate::parameters::Parameters;
use crate::runs::GREATEST_RUNS;
use crate::sampling::calls::ExtractorCall;
use crate::sampling::damage::{damage_points, flip_bit, resize};
use crate::sampling::exchanges::{honest_exchange, random_message_2, Exchange, Start};
use crate::sampling::keys::{valid_key, Key};
use crate::sampling::made_up::two_leaf_lists;
use crate::sampling::parameter_sets::{outside_runs, outside_set, random_runs, random_set};
use crate::sampling::simulated::{leaf_first, PointsFirst};
use crate::sampling::Random;

/// Two exchanges of so many runs under one key: rewound, of the same leaves, or unrelated.
fn two_exchanges(random: &mut Random, key: &Key, runs: usize) -> (Exchange, Exchange) {
    let set = key.parameters;
    let [first, mut second] = two_leaf_lists(random, &set, runs);
    if random.once_in(8) {
        second.clone_from(&first);
    }
    match random.below(6) {
        0 => (random_exchange(random, key, runs), random_exchange(random, key, runs)),
        1 => {
            let exchange = leaf_first(random, &set, key.public(), &first);
            let message_5 = random.bytes(set.message_5_bytes(&second));
            (exchange.clone(), Exchange { leaves: second, message_5, ..exchange })
        }
        2 | 3 => {
            let message_2 = random_message_2(random, &set, runs);
            let prover = PointsFirst::new(random, &set, key.public(), &message_2);
            (prover.exchange(&first), prover.exchange(&second))
        }
        _ => {
            let start = Start::random(random, &set, runs);
            (honest_exchange(key, &start, &first), honest_exchange(key, &start, &second))
        }
    }
}

fn damage_exchange(random: &mut Random, exchange: &mut Exchange, flip: bool) {
    let kind = random.below(5);
    let message = match kind {
        0 => &mut exchange.message_1,
        1 => &mut exchange.message_2,
        2 => &mut exchange.message_3,
        3 => return damage_leaves(random, &mut exchange.leaves),
        _ => &mut exchange.message_5,
    };
    if flip {
        flip_some(random, message);
    } else {
        resize(random, message);
    }
}

fn damage(random: &mut Random, call: &mut ExtractorCall) {
    match random.below(9) {
        0 => call.parameters = outside_set(random),
        1 => call.runs = outside_runs(random),
        2 => call.runs = random.between(1, GREATEST_RUNS),
        3 => resize_lent(random, &mut call.lent),
        4 => resize(random, &mut call.output),
        5 => damage_exchange(random, &mut call.first, true),
        6 => damage_exchange(random, &mut call.second, true),
        7 => damage_exchange(random, &mut call.second, false),
        _ => flip_some(random, &mut call.lent.matrix),
    }
}

/// Makes points repeat in the first exchange, in the second or in both, which then have one message 2.
fn repeat(random: &mut Random, call: &mut ExtractorCall) {
    let set = call.parameters;
    match random.below(5) {
        0 => damage_points(random, &set, &mut call.first.message_2),
        1 => damage_points(random, &set, &mut call.second.message_2),
        _ => {
            damage_points(random, &set, &mut call.first.message_2);
            call.second.message_2.clone_from(&call.first.message_2);
        }
    }
}

/// Gives some run a leaf not below n, where a byte can be one, and message 5 the length that then counts.
fn leaf_beyond(random: &mut Random, set: &Parameters, exchange: &mut Exchange) {
    if set.leaves() < 256 {
        let run = random.below(exchange.leaves.len());
        exchange.leaves[run] = random.between(set.leaves(), 255) as u8;
        exchange.message_5 = random.bytes(set.message_5_bytes(&exchange.leaves));
    }
}

/// Now and then adds a fault that stands behind 14 in the order and leaves the lengths right: a leaf not below n, or the
/// same leaves.
fn add_later_fault(random: &mut Random, call: &mut ExtractorCall) {
    let set = call.parameters;
    match random.below(8) {
        0 => leaf_beyond(random, &set, &mut call.first),
        1 => leaf_beyond(random, &set, &mut call.second),
        2 | 3 => {
            let Exchange { leaves, message_5, .. } = call.first.clone();
            call.second = Exchange { leaves, message_5, ..call.second.clone() };
        }
        _ => (),
    }
}

fn flip_some(random: &mut Random, bytes: &mut [u8]) {
    if !bytes.is_empty() {
        flip_bit(random, bytes);
    }
}

/// A call of the extractor: two exchanges under one key, often undamaged, sometimes with two faults, and now and then with
/// repeated points, which stand beside the faults.
pub fn extractor_call(random: &mut Random, size: Size) -> ExtractorCall {
    let set = random_set(random, size.greatest_m, size.greatest_axes);
    let runs = random_runs(random);
    let key = valid_key(random, &set);
    let (first, second) = two_exchanges(random, &key, runs);
    let output = random.bytes(set.extractor_bytes(runs));
    let mut call = ExtractorCall { parameters: set, runs, first, second, lent: fitting_lent(random, &key), output };
    if random.once_in(REPEAT) {
        repeat(random, &mut call);
        add_later_fault(random, &mut call);
    }
    let faults = random.choose(&[0, 0, 0, 1, 1, 2]);
    for _ in 0..faults {
        damage(random, &mut call);
    }
    call
}
