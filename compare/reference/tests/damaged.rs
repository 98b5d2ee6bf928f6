//! Damaged exchanges are refused with 5 or 7, whichever run is damaged.

use reference::numbers::{COMMITMENT_DIFFERS, RESPONSE_DIFFERS};
use reference::parameters::Parameters;
use reference::sampling::damage::flip_bit;
use reference::sampling::exchanges::{honest_exchange, verdict, Exchange, Start};
use reference::sampling::keys::{valid_key, Key};
use reference::sampling::made_up::any_leaves;
use reference::sampling::parameter_sets::random_set;
use reference::sampling::Random;

/// A random honest exchange under a random key, and a run of it. Points and multipliers are no bytes, at which a change
/// could go unseen.
fn random_exchange(random: &mut Random) -> (Key, Exchange, usize) {
    let set = random_set(random, 16, 4);
    let runs = random.between(1, 4);
    let key = valid_key(random, &set);
    let mut start = Start::random(random, &set, runs);
    start.message_2 = (0..set.message_2_bytes(runs)).map(|_| random.nonzero_byte()).collect();
    let leaves = any_leaves(random, &set, runs);
    let exchange = honest_exchange(&key, &start, &leaves);
    let run = random.below(runs);
    (key, exchange, run)
}

/// Where α of the hidden leaf starts in a run's part of message 5.
fn alpha_place(set: &Parameters) -> usize {
    16 * set.axes + 32
}

fn assert_verdict(key: &Key, exchange: &Exchange, expected: u8) {
    assert_eq!(verdict(&key.parameters, key.public(), exchange), expected, "{:?}", key.parameters);
}

#[test]
fn message_1_gives_5() {
    let mut random = Random::new(20);
    for _ in 0..100 {
        let (key, mut exchange, _) = random_exchange(&mut random);
        flip_bit(&mut random, &mut exchange.message_1);
        assert_verdict(&key, &exchange, COMMITMENT_DIFFERS);
    }
}

#[test]
fn message_3_gives_7() {
    let mut random = Random::new(21);
    for _ in 0..100 {
        let (key, mut exchange, _) = random_exchange(&mut random);
        flip_bit(&mut random, &mut exchange.message_3);
        assert_verdict(&key, &exchange, RESPONSE_DIFFERS);
    }
}

#[test]
fn siblings_and_commitment_give_5() {
    let mut random = Random::new(22);
    for _ in 0..100 {
        let (key, mut exchange, run) = random_exchange(&mut random);
        let opening = exchange.opening_mut(&key.parameters, run);
        flip_bit(&mut random, &mut opening[..alpha_place(&key.parameters)]);
        assert_verdict(&key, &exchange, COMMITMENT_DIFFERS);
    }
}

#[test]
fn alpha_and_beta_give_7() {
    let mut random = Random::new(23);
    for _ in 0..100 {
        let (key, mut exchange, run) = random_exchange(&mut random);
        let place = alpha_place(&key.parameters);
        let opening = exchange.opening_mut(&key.parameters, run);
        flip_bit(&mut random, &mut opening[place..place + 8 * key.parameters.t]);
        assert_verdict(&key, &exchange, RESPONSE_DIFFERS);
    }
}

#[test]
fn aux_gives_5() {
    let mut random = Random::new(24);
    for _ in 0..100 {
        let (key, mut exchange, run) = random_exchange(&mut random);
        let aux = alpha_place(&key.parameters) + 8 * key.parameters.t;
        let opening = exchange.opening_mut(&key.parameters, run);
        if opening.len() > aux {
            flip_bit(&mut random, &mut opening[aux..]);
            assert_verdict(&key, &exchange, COMMITMENT_DIFFERS);
        }
    }
}

#[test]
fn changed_points_multipliers_or_syndrome_give_7() {
    let mut random = Random::new(25);
    for _ in 0..100 {
        let (mut key, mut exchange, run) = random_exchange(&mut random);
        if random.once_in(2) {
            let multipliers = key.parameters.position_bytes();
            flip_bit(&mut random, &mut exchange.challenge_mut(&key.parameters, run)[multipliers..]);
        } else {
            flip_bit(&mut random, &mut key.y);
        }
        assert_verdict(&key, &exchange, RESPONSE_DIFFERS);
    }
}

#[test]
fn random_openings_give_5() {
    let mut random = Random::new(26);
    for _ in 0..100 {
        let (key, mut exchange, run) = random_exchange(&mut random);
        let opening = exchange.opening_mut(&key.parameters, run);
        opening.copy_from_slice(&random.bytes(opening.len()));
        assert_verdict(&key, &exchange, COMMITMENT_DIFFERS);
    }
}
