//! Number 6, retired by request 05: the sums of α, β and v agree on all axes of every opening, and no call answers 6.

use reference::check::{check, recompute, require_accepted, sums_agree, Recomputed};
use reference::numbers::*;
use reference::parameters::Parameters;
use reference::parties::{Axis, Sent};
use reference::points_field::{Point, POINT_BYTES};
use reference::sampling::damage::{flip_bit, flip_challenge_bit};
use reference::sampling::exchanges::{extraction, honest_exchange, verdict, Exchange, Start};
use reference::sampling::keys::{any_key, valid_key, Key};
use reference::sampling::made_up::{any_leaves, openings, pairs, some_leaves};
use reference::sampling::parameter_sets::{random_set, sets_of_every_shape};
use reference::sampling::simulated::leaf_first;
use reference::sampling::Random;

/// A random honest exchange under a random key.
fn random_exchange(random: &mut Random) -> (Key, Exchange) {
    let set = random_set(random, 16, 4);
    let key = valid_key(random, &set);
    let runs = random.between(1, 2);
    let start = Start::random(random, &set, runs);
    let leaves = any_leaves(random, &set, runs);
    let exchange = honest_exchange(&key, &start, &leaves);
    (key, exchange)
}

/// Each run of an exchange recomputed.
fn recomputed(key: &Key, exchange: &Exchange) -> Vec<Recomputed> {
    let runs = exchange.messages();
    runs.runs(&key.parameters).iter().map(|run| recompute(&key.parameters, key.public(), run)).collect()
}

/// The sums of both parties' α, β and v, read from a layer 6 string: layer, salt, run and axis take 35 bytes, each party
/// half of the rest.
fn sums_in_string(string: &[u8]) -> Vec<u8> {
    let parties = &string[35..];
    let (first, second) = parties.split_at(parties.len() / 2);
    first.iter().zip(second).map(|(a, b)| a ^ b).collect()
}

/// Asserts that the sums agree in every run, as the axes have them and as the strings hashed show them.
fn assert_sums_agree(runs: &[Recomputed]) {
    for opening in runs {
        assert!(sums_agree(&opening.axes));
        let sums: Vec<Vec<u8>> = opening.strings.axes.iter().map(|string| sums_in_string(string)).collect();
        assert!(sums.iter().all(|sum| *sum == sums[0]));
    }
}

#[test]
fn number_6_is_never_seen() {
    let mut random = Random::new(27);
    for _ in 0..300 {
        let (mut key, mut exchange) = random_exchange(&mut random);
        for _ in 0..random.between(1, 3) {
            match random.below(6) {
                0 => flip_bit(&mut random, &mut exchange.message_1),
                1 => flip_challenge_bit(&mut random, &key.parameters, &mut exchange.message_2),
                2 => flip_bit(&mut random, &mut exchange.message_3),
                3 => flip_bit(&mut random, &mut exchange.message_5),
                4 => flip_bit(&mut random, &mut key.matrix),
                _ => flip_bit(&mut random, &mut key.y),
            }
        }
        let number = verdict(&key.parameters, key.public(), &exchange);
        assert!([CARRIED_OUT, COMMITMENT_DIFFERS, RESPONSE_DIFFERS].contains(&number), "{number}");
    }
}

/// Whether or not h is right.
#[test]
fn sums_agree_on_all_axes_for_any_opening() {
    let mut random = Random::new(28);
    for _ in 0..300 {
        let (key, mut exchange) = random_exchange(&mut random);
        exchange.message_5 = random.bytes(exchange.message_5.len());
        assert_sums_agree(&recomputed(&key, &exchange));
    }
}

/// α, β and v.
const VALUES: usize = 3;

/// One of the values of a party at a position.
fn value_of(sent: &mut Sent, value: usize, position: usize) -> &mut Point {
    let points = match value {
        0 => &mut sent.alpha_beta.alpha,
        1 => &mut sent.alpha_beta.beta,
        _ => &mut sent.v,
    };
    &mut points[position]
}

/// The axes with one byte changed, for every byte of every value of every party.
fn changed_in_one_byte(random: &mut Random, set: &Parameters, axes: &[Axis]) -> Vec<Vec<Axis>> {
    let mut all = Vec::new();
    for number in 0..VALUES * 2 * set.axes * set.t * POINT_BYTES {
        let (byte, rest) = (number % POINT_BYTES, number / POINT_BYTES);
        let (position, rest) = (rest % set.t, rest / set.t);
        let (value, rest) = (rest % VALUES, rest / VALUES);
        let (party, axis) = (rest % 2, rest / 2);
        let mut changed = axes.to_vec();
        value_of(&mut changed[axis].parties[party], value, position).0[byte] ^= random.nonzero_byte();
        all.push(changed);
    }
    all
}

/// A made-up exchange of one run under a key of any bytes.
fn made_up_exchange(random: &mut Random, set: &Parameters) -> (Key, Exchange) {
    let key = any_key(random, set);
    let leaves = any_leaves(random, set, 1);
    let exchange = leaf_first(random, set, key.public(), &leaves);
    (key, exchange)
}

/// Any change of one byte is seen, but for a single axis, which has no other to agree with.
#[test]
fn comparison_of_sums_is_not_blind() {
    let mut random = Random::new(29);
    for set in sets_of_every_shape(&mut random, 8) {
        let (key, exchange) = made_up_exchange(&mut random, &set);
        let openings = recomputed(&key, &exchange);
        assert_sums_agree(&openings);
        let opening = &openings[0];
        for changed in changed_in_one_byte(&mut random, &set, &opening.axes) {
            assert_ne!(changed, opening.axes);
            assert_eq!(sums_agree(&changed), set.axes == 1, "{set:?}");
        }
    }
}

fn number_of_checks(set: &Parameters, opening: &Recomputed, exchange: &Exchange) -> Number {
    let messages = exchange.messages();
    number_of(require_accepted(opening, &messages.run(set, 0)))
}

/// If sums differed, the three checks would say so after 5 and before 7.
#[test]
fn check_of_6_stands_between_5_and_7() {
    let mut random = Random::new(34);
    for axes in 2..=8 {
        let set = Parameters { axes, ..random_set(&mut random, 8, 1) };
        let key = any_key(&mut random, &set);
        let exchanges: Vec<Exchange> = openings(&mut random, &key, &[1]).into_iter().map(|(made, _)| made).collect();
        let mut opening = recomputed(&key, &exchanges[0]).remove(0);
        value_of(&mut opening.axes[axes - 1].parties[1], 0, 0).0[0] ^= 1;
        let numbers = exchanges.iter().map(|exchange| number_of_checks(&set, &opening, exchange));
        // As it is, with another h', with another h, with both.
        let expected = [SUMS_DIFFER, SUMS_DIFFER, COMMITMENT_DIFFERS, COMMITMENT_DIFFERS];
        assert_eq!(numbers.collect::<Vec<Number>>(), expected);
    }
}

/// By the checks alone and by all calls of a verifier's session.
#[test]
fn made_up_openings_get_0_5_or_7() {
    let mut random = Random::new(35);
    for set in sets_of_every_shape(&mut random, 8) {
        let runs = random.between(1, 2);
        for leaves in some_leaves(&mut random, &set, runs) {
            let key = any_key(&mut random, &set);
            for (exchange, number) in openings(&mut random, &key, &leaves) {
                let checked = check(&set, key.public(), &exchange.messages());
                assert_eq!(number_of(checked.map(|_| ())), number, "{set:?}");
                assert_eq!(verdict(&set, key.public(), &exchange), number, "{set:?}");
                assert_sums_agree(&recomputed(&key, &exchange));
            }
        }
    }
}

/// In the extractor they are extracted or get 5 or 7, whichever of the two is refused, or 8 or 14.
#[test]
fn made_up_pairs_are_extracted_or_get_5_7_8_or_14() {
    let mut random = Random::new(36);
    for set in sets_of_every_shape(&mut random, 8) {
        let key = any_key(&mut random, &set);
        let runs = random.between(1, 2);
        for ([first, second], answer) in pairs(&mut random, &key, runs) {
            assert_eq!(extraction(&set, key.public(), &first, &second).0, answer, "{set:?}");
            assert_sums_agree(&recomputed(&key, &first));
            assert_sums_agree(&recomputed(&key, &second));
        }
    }
}
