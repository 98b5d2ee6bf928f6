//! Openings that somebody made up so that they get past 5, also with h or h' spoiled: the verifier and the extractor.

use crate::count::Count;
use crate::effects::require;
use crate::{extractor, verifier, RUN_COUNTS};
use reference::numbers::{Number, CARRIED_OUT, NOT_DUE, POINT_REPEATED};
use reference::sampling::keys::{any_key, Key};
use reference::sampling::made_up;
use reference::sampling::parameter_sets::{random_set, sets_of_every_shape};
use reference::sampling::Random;

/// The greatest m of the sets.
const GREATEST_M: usize = 8;

/// Asks that all calls of an exchange but the opening are carried out and the opening answers a number.
fn ends_in(number: Number, numbers: &[Number]) -> Result<(), String> {
    let wanted = [CARRIED_OUT, CARRIED_OUT, CARRIED_OUT, CARRIED_OUT, number];
    require(numbers == wanted, &format!("numbers {numbers:?}, not {wanted:?}"))
}

/// One run for most sets, two for every fourth.
fn runs_of(place: usize) -> usize {
    1 + usize::from(place.is_multiple_of(4))
}

/// Made-up openings through all calls of a verifier, for every D and t: leaf 0, leaf n−1 and any leaves, with h and h' that
/// fit or not in some run.
pub fn openings(seed: u64, count: &mut Count) {
    let mut random = Random::new(seed ^ 0x3ade);
    for (place, set) in sets_of_every_shape(&mut random, GREATEST_M).into_iter().enumerate() {
        for leaves in made_up::some_leaves(&mut random, &set, runs_of(place)) {
            let key = any_key(&mut random, &set);
            for (exchange, number) in made_up::openings(&mut random, &key, &leaves) {
                let calls = verifier::calls(&mut random, &key, &exchange);
                let numbers = verifier::compare(&calls, unlock::verifier::Verifier::new(), count);
                let outcome = numbers.and_then(|numbers| ends_in(number, &numbers));
                count.settle(&format!("made-up opening of leaves {leaves:?} at {set:?}"), outcome);
            }
        }
    }
}

/// Made-up exchanges of which two points of a run are equal, for every D and t but 1, else accepted: points get 14, and no
/// later call is due.
pub fn repeated_points(seed: u64, count: &mut Count) {
    let mut random = Random::new(seed ^ 0x3ae0);
    for (place, set) in sets_of_every_shape(&mut random, GREATEST_M).into_iter().enumerate() {
        let key = any_key(&mut random, &set);
        let leaves = made_up::any_leaves(&mut random, &set, runs_of(place));
        if let Some(exchange) = made_up::with_repeated_point(&mut random, &key, &leaves) {
            let calls = verifier::calls(&mut random, &key, &exchange);
            let numbers = verifier::compare(&calls, unlock::verifier::Verifier::new(), count);
            let wanted = [CARRIED_OUT, POINT_REPEATED, NOT_DUE, NOT_DUE, NOT_DUE];
            let outcome =
                numbers.and_then(|numbers| require(numbers == wanted, &format!("numbers {numbers:?}, not {wanted:?}")));
            count.settle(&format!("made-up exchange with repeated points at {set:?}"), outcome);
        }
    }
}

fn compare_pairs(random: &mut Random, key: &Key, runs: usize, count: &mut Count) {
    for ([first, second], wanted) in made_up::pairs(random, key, runs) {
        let call = extractor::call(random, key, first, second);
        let outcome = extractor::compare(&call, count)
            .and_then(|answer| require(answer == wanted, &format!("{answer:?}, not {wanted:?}")));
        count.settle(&format!("made-up pair of {runs} runs at {:?}", key.parameters), outcome);
    }
}

/// Made-up pairs through the extractor, for every D and t; and small ones of one, two, five and 32 runs.
pub fn pairs(seed: u64, count: &mut Count) {
    let mut random = Random::new(seed ^ 0x3adf);
    for (place, set) in sets_of_every_shape(&mut random, GREATEST_M).into_iter().enumerate() {
        let key = any_key(&mut random, &set);
        compare_pairs(&mut random, &key, runs_of(place), count);
    }
    for runs in RUN_COUNTS {
        let set = random_set(&mut random, GREATEST_M, 3);
        let key = any_key(&mut random, &set);
        compare_pairs(&mut random, &key, runs, count);
    }
}
