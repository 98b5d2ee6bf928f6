//! The extractor.

use crate::count::Count;
use crate::effects::{answer_number, make_extractor};
use crate::{size, RUN_COUNTS};
use reference::extractor::Answer;
use reference::sampling::calls::{ExtractorCall, LentBytes};
use reference::sampling::exchanges::{honest_exchange, Exchange, Start};
use reference::sampling::keys::{valid_key, Key};
use reference::sampling::made_up::{other_leaf, two_leaf_lists};
use reference::sampling::parameter_sets::random_set;
use reference::sampling::scripts::extractor_call;
use reference::sampling::Random;
use std::ops::Range;

/// Makes a call of both implementations; the answer.
pub fn compare(call: &ExtractorCall, count: &mut Count) -> Result<Answer, String> {
    let (answer, work, output) = call.make();
    count.answer("extractor", answer_number(answer));
    let found = make_extractor(call);
    if found.0 != answer_number(answer) {
        return Err(format!("{} for {answer:?}", found.0));
    }
    if found.1 != work {
        return Err("another work area".to_string());
    }
    if found.2 != output {
        return Err("another output".to_string());
    }
    Ok(answer)
}

/// Random calls: honest and simulated exchanges, undamaged and damaged.
pub fn calls(seed: u64, numbers: Range<u64>, count: &mut Count) {
    for number in numbers {
        let mut random = Random::new(seed.wrapping_mul(1_000_081).wrapping_add(number));
        let outcome = compare(&extractor_call(&mut random, size(number)), count);
        count.settle(&format!("extractor call {number}"), outcome.map(|_| ()));
    }
}

/// The call for two exchanges of as many runs under a key.
pub fn call(random: &mut Random, key: &Key, first: Exchange, second: Exchange) -> ExtractorCall {
    let (parameters, runs) = (key.parameters, first.runs());
    let work = random.bytes(parameters.work_bytes());
    let lent = LentBytes { matrix: key.matrix.clone(), y: key.y.clone(), work };
    let output = random.bytes(parameters.extractor_bytes(runs));
    ExtractorCall { parameters, runs, first, second, lent, output }
}

/// Every two leaves of honest exchanges of one run at small D.
pub fn pairs(seed: u64, sets: usize, count: &mut Count) {
    let mut random = Random::new(seed ^ 0xec57);
    for _ in 0..sets {
        let set = random_set(&mut random, 16, 2);
        let key = valid_key(&mut random, &set);
        let start = Start::random(&mut random, &set, 1);
        for (first, second) in (0..set.leaves()).flat_map(|first| (0..set.leaves()).map(move |second| (first, second)))
        {
            let [one, other] = [first, second].map(|leaf| honest_exchange(&key, &start, &[leaf as u8]));
            let call = call(&mut random, &key, one, other);
            let outcome = compare(&call, count);
            count.settle(&format!("leaves {first} and {second} at {set:?}"), outcome.map(|_| ()));
        }
    }
}

/// Rewound exchanges of one, two, five and 32 runs: leaves that differ in every run, in one of them and in any.
pub fn runs(seed: u64, rounds: usize, count: &mut Count) {
    let mut random = Random::new(seed ^ 0xec58);
    for round in 0..rounds {
        for runs in RUN_COUNTS {
            let set = random_set(&mut random, 12, 3);
            let key = valid_key(&mut random, &set);
            let start = Start::random(&mut random, &set, runs);
            let [first, any] = two_leaf_lists(&mut random, &set, runs);
            let all: Vec<u8> = first.iter().map(|&leaf| other_leaf(&mut random, &set, leaf)).collect();
            let mut single = first.clone();
            let run = random.below(runs);
            single[run] = all[run];
            for second in [all, single, any] {
                let [one, other] = [&first, &second].map(|leaves| honest_exchange(&key, &start, leaves));
                let outcome = compare(&call(&mut random, &key, one, other), count);
                count.settle(&format!("{runs} runs in round {round}"), outcome.map(|_| ()));
            }
        }
    }
}
