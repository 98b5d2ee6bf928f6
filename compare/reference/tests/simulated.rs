//! Exchanges made without a key's secret: accepted for the leaf or the message 2 known beforehand, and else refused.

use reference::extractor::Answer;
use reference::messages::challenges;
use reference::numbers::{CARRIED_OUT, COMMITMENT_DIFFERS, RESPONSE_DIFFERS};
use reference::parameters::Parameters;
use reference::sampling::exchanges::{extraction, random_message_2, verdict, Exchange};
use reference::sampling::keys::{valid_key, Key};
use reference::sampling::made_up::any_leaves;
use reference::sampling::parameter_sets::random_set;
use reference::sampling::simulated::{leaf_first, PointsFirst};
use reference::sampling::Random;

/// Parameters, a key, and a run count.
fn random_public_key(random: &mut Random) -> (Parameters, Key, usize) {
    let set = random_set(random, 20, 4);
    (set, valid_key(random, &set), random.between(1, 3))
}

#[test]
fn leaf_known_beforehand_is_accepted() {
    let mut random = Random::new(30);
    for _ in 0..100 {
        let (set, key, runs) = random_public_key(&mut random);
        let leaves = any_leaves(&mut random, &set, runs);
        let exchange = leaf_first(&mut random, &set, key.public(), &leaves);
        assert_eq!(verdict(&set, key.public(), &exchange), CARRIED_OUT);
    }
}

#[test]
fn leaf_known_beforehand_does_not_extract() {
    let mut random = Random::new(31);
    for _ in 0..50 {
        let (set, key, runs) = random_public_key(&mut random);
        let leaves = any_leaves(&mut random, &set, runs);
        let first = leaf_first(&mut random, &set, key.public(), &leaves);
        let others: Vec<u8> = leaves.iter().map(|leaf| leaf ^ 1).collect();
        let message_5 = random.bytes(set.message_5_bytes(&others));
        let second = Exchange { leaves: others, message_5, ..first.clone() };
        let (answer, output) = extraction(&set, key.public(), &first, &second);
        assert_eq!(answer, Answer::Refused(COMMITMENT_DIFFERS));
        assert!(output.iter().all(|&byte| byte == 0xa5));
    }
}

#[test]
fn message_2_known_beforehand_is_accepted_for_every_leaf() {
    let mut random = Random::new(32);
    for _ in 0..40 {
        let (set, key, runs) = random_public_key(&mut random);
        let message_2 = random_message_2(&mut random, &set, runs);
        let prover = PointsFirst::new(&mut random, &set, key.public(), &message_2);
        for leaf in 0..set.leaves() {
            let exchange = prover.exchange(&vec![leaf as u8; runs]);
            assert_eq!(verdict(&set, key.public(), &exchange), CARRIED_OUT, "{set:?}, leaf {leaf}");
        }
    }
}

/// In one run.
#[test]
fn another_message_2_is_refused() {
    let mut random = Random::new(33);
    for _ in 0..40 {
        let (set, key, runs) = random_public_key(&mut random);
        let guessed = random.bytes(set.message_2_bytes(runs));
        let mut asked = guessed.clone();
        let run = random.below(runs) * set.challenge_bytes();
        asked[run..run + set.challenge_bytes()].copy_from_slice(&random.bytes(set.challenge_bytes()));
        assert_ne!(challenges(&set, &guessed), challenges(&set, &asked));
        let prover = PointsFirst::new(&mut random, &set, key.public(), &guessed);
        let exchange = Exchange { message_2: asked, ..prover.exchange(&vec![0; runs]) };
        assert_eq!(verdict(&set, key.public(), &exchange), RESPONSE_DIFFERS);
    }
}
