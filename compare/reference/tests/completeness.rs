//! With a valid key, every start, message 2 with distinct points and leaf lead to acceptance.

use reference::parameters::Parameters;
use reference::sampling::exchanges::{honest_exchange, verdict, Start};
use reference::sampling::keys::{key_of_vector, valid_key, vector_of_weight};
use reference::sampling::made_up::some_leaves;
use reference::sampling::parameter_sets::{extreme_sets, random_set};
use reference::sampling::Random;

/// Asserts that exchanges of one run are accepted, one for each leaf.
fn assert_accepted(random: &mut Random, parameters: &Parameters, leaves: &[usize]) {
    let key = valid_key(random, parameters);
    let start = Start::random(random, parameters, 1);
    for &leaf in leaves {
        let exchange = honest_exchange(&key, &start, &[leaf as u8]);
        assert_eq!(verdict(parameters, key.public(), &exchange), 0, "{parameters:?}, leaf {leaf}");
    }
}

/// Asserts that exchanges of so many runs are accepted.
fn assert_runs_accepted(random: &mut Random, parameters: &Parameters, runs: usize) {
    let key = valid_key(random, parameters);
    let start = Start::random(random, parameters, runs);
    for leaves in some_leaves(random, parameters, runs) {
        let exchange = honest_exchange(&key, &start, &leaves);
        assert_eq!(verdict(parameters, key.public(), &exchange), 0, "{parameters:?}, leaves {leaves:?}");
    }
}

#[test]
fn several_runs() {
    let mut random = Random::new(16);
    for runs in [1, 2, 5, 32] {
        for _ in 0..8 {
            let set = random_set(&mut random, 16, 4);
            assert_runs_accepted(&mut random, &set, runs);
        }
    }
}

#[test]
fn every_run_count() {
    let mut random = Random::new(17);
    for runs in 1..=32 {
        let set = random_set(&mut random, 10, 3);
        assert_runs_accepted(&mut random, &set, runs);
    }
}

#[test]
fn several_runs_at_eight_axes() {
    let mut random = Random::new(18);
    for runs in [2, 5] {
        let set = Parameters { axes: 8, ..random_set(&mut random, 12, 1) };
        assert_runs_accepted(&mut random, &set, runs);
    }
}

#[test]
fn every_leaf_of_small_cubes() {
    let mut random = Random::new(10);
    for axes in 1..=4 {
        for _ in 0..8 {
            let set = Parameters { axes, ..random_set(&mut random, 20, 1) };
            let leaves: Vec<usize> = (0..set.leaves()).collect();
            assert_accepted(&mut random, &set, &leaves);
        }
    }
}

#[test]
fn every_leaf_of_a_large_cube() {
    let mut random = Random::new(11);
    let leaves: Vec<usize> = (0..256).collect();
    assert_accepted(&mut random, &Parameters::new(6, 3, 2, 8, 1), &leaves);
}

#[test]
fn extreme_parameters() {
    let mut random = Random::new(12);
    for set in extreme_sets() {
        let between = random.below(set.leaves());
        assert_accepted(&mut random, &set, &[0, between, set.last_leaf()]);
    }
}

#[test]
fn random_parameters() {
    let mut random = Random::new(13);
    for _ in 0..60 {
        let set = random_set(&mut random, 255, 5);
        let leaf = random.below(set.leaves());
        assert_accepted(&mut random, &set, &[leaf]);
    }
}

#[test]
fn every_weight_up_to_w() {
    let mut random = Random::new(14);
    let set = Parameters::new(12, 5, 12, 2, 2);
    for weight in 0..=12 {
        let x = vector_of_weight(&mut random, 12, weight);
        let key = key_of_vector(&mut random, &set, &x);
        assert_eq!(key.vector(), x);
        let start = Start::random(&mut random, &set, 2);
        for leaf in 0..4 {
            let exchange = honest_exchange(&key, &start, &[leaf, 3 - leaf]);
            assert_eq!(verdict(&set, key.public(), &exchange), 0);
        }
    }
}

#[test]
fn challenges_of_zeros_and_interpolation_points() {
    let mut random = Random::new(15);
    let set = Parameters::new(10, 4, 3, 3, 2);
    let key = valid_key(&mut random, &set);
    let zero_and_one = [0, 0, 0, 0, 1, 0, 0, 0, 0, 0, 0, 0, 0, 0, 0, 0];
    let ones = [255, 255, 255, 255, 255, 255, 255, 254, 255, 255, 255, 255, 255, 255, 255, 255];
    let points_1_and_10: [u8; 16] = [1, 0, 0, 0, 10, 0, 0, 0, 1, 0, 0, 0, 255, 0, 0, 0];
    for message_2 in [zero_and_one, ones, points_1_and_10] {
        let start = Start { message_2: message_2.to_vec(), ..Start::random(&mut random, &set, 1) };
        for leaf in 0..8 {
            assert_eq!(verdict(&set, key.public(), &honest_exchange(&key, &start, &[leaf])), 0);
        }
    }
}
