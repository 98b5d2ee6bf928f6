//! The verifier's session.

use crate::count::Count;
use crate::effects::{make_verifier, require, same};
use crate::{size, stranger, RUN_COUNTS};
use reference::sampling::calls::{LentBytes, VerifierCall};
use reference::sampling::damage::{flip_bit, repeat_point};
use reference::sampling::exchanges::{honest_exchange, Exchange, Start};
use reference::sampling::keys::{valid_key, Key};
use reference::sampling::made_up::{any_leaves, some_leaves};
use reference::sampling::parameter_sets::{extreme_sets, random_set};
use reference::sampling::scripts::{verifier_script, Size};
use reference::sampling::Random;
use reference::verifier::Verifier;
use std::ops::Range;

/// The bytes of the phases.
pub const PHASES: [u8; 6] = [0x0f, 0x33, 0x3c, 0x55, 0x5a, 0x66];

fn name(call: &VerifierCall) -> &'static str {
    match call {
        VerifierCall::Begin { .. } => "verifier begin",
        VerifierCall::Points { .. } => "verifier points",
        VerifierCall::Response { .. } => "verifier response",
        VerifierCall::Leaf { .. } => "verifier leaf",
        VerifierCall::Opening { .. } => "verifier opening",
    }
}

/// Makes a call of both implementations; the number answered.
pub fn compare_one(
    call: &VerifierCall,
    expected: &mut Verifier,
    found: &mut unlock::verifier::Verifier,
    count: &mut Count,
) -> Result<u8, String> {
    let before = found.clone();
    let effect = call.make(expected);
    count.answer(name(call), effect.number);
    same(&effect, &make_verifier(call, found))?;
    if ![0, 5, 7].contains(&effect.number) {
        require(*found == before, "refused, but another session")?;
    } else {
        require(found.bytes() == expected.to_bytes(), "another session")?;
    }
    Ok(effect.number)
}

/// Makes the calls of both implementations, from one session; the numbers answered.
pub fn compare(
    calls: &[VerifierCall],
    mut found: unlock::verifier::Verifier,
    count: &mut Count,
) -> Result<Vec<u8>, String> {
    let mut expected = Verifier::from_bytes(found.bytes());
    let mut numbers = Vec::new();
    for (place, call) in calls.iter().enumerate() {
        let number = compare_one(call, &mut expected, &mut found, count);
        numbers.push(number.map_err(|difference| format!("call {place}: {difference}"))?);
    }
    Ok(numbers)
}

/// Random scripts of up to 20 calls.
pub fn scripts(seed: u64, numbers: Range<u64>, count: &mut Count) {
    for number in numbers {
        let mut random = Random::new(seed.wrapping_mul(1_000_037).wrapping_add(number));
        let length = random.between(1, 20);
        let calls = verifier_script(&mut random, size(number), length);
        let outcome = compare(&calls, unlock::verifier::Verifier::new(), count);
        count.settle(&format!("verifier script {number}"), outcome.map(|_| ()));
    }
}

/// The calls that hand an exchange to a verifier.
pub fn calls(random: &mut Random, key: &Key, exchange: &Exchange) -> Vec<VerifierCall> {
    let longer = random.below(3);
    let work = random.bytes(key.parameters.work_bytes() + longer);
    let lent = LentBytes { matrix: key.matrix.clone(), y: key.y.clone(), work };
    vec![
        VerifierCall::Begin {
            parameters: key.parameters,
            runs: exchange.runs(),
            message_1: exchange.message_1.clone(),
        },
        VerifierCall::Points { message_2: exchange.message_2.clone() },
        VerifierCall::Response { message_3: exchange.message_3.clone() },
        VerifierCall::Leaf { leaves: exchange.leaves.clone() },
        VerifierCall::Opening { message_5: exchange.message_5.clone(), lent },
    ]
}

fn accepted(outcome: Result<Vec<u8>, String>) -> Result<(), String> {
    match outcome?.last() {
        Some(0) => Ok(()),
        other => Err(format!("not accepted: {other:?}")),
    }
}

/// Hands an exchange that must be accepted to both verifiers.
fn settle_accepted(random: &mut Random, key: &Key, exchange: &Exchange, count: &mut Count) {
    let calls = calls(random, key, exchange);
    let outcome = accepted(compare(&calls, unlock::verifier::Verifier::new(), count));
    count.settle(&format!("leaves {:?} at {:?}", exchange.leaves, key.parameters), outcome);
}

/// Honest exchanges: every leaf for small D, one for the extreme parameters, and some of one, two, five and 32 runs.
pub fn honest(seed: u64, sets: usize, count: &mut Count) {
    let mut random = Random::new(seed ^ 0x0b0e);
    for _ in 0..sets {
        let set = random_set(&mut random, 20, 3);
        let key = valid_key(&mut random, &set);
        let start = Start::random(&mut random, &set, 1);
        for leaf in 0..set.leaves() {
            settle_accepted(&mut random, &key, &honest_exchange(&key, &start, &[leaf as u8]), count);
        }
    }
    for set in extreme_sets() {
        let key = valid_key(&mut random, &set);
        let start = Start::random(&mut random, &set, 1);
        let leaves = any_leaves(&mut random, &set, 1);
        settle_accepted(&mut random, &key, &honest_exchange(&key, &start, &leaves), count);
    }
    for runs in RUN_COUNTS {
        let set = random_set(&mut random, 20, 4);
        let key = valid_key(&mut random, &set);
        let start = Start::random(&mut random, &set, runs);
        for leaves in some_leaves(&mut random, &set, runs) {
            settle_accepted(&mut random, &key, &honest_exchange(&key, &start, &leaves), count);
        }
    }
}

/// The fields of a run and what else an opening depends on.
const DAMAGES: usize = 13;

/// Changes one bit of one of them, or makes points repeat; false if there is nothing to change.
fn damage(random: &mut Random, kind: usize, key: &mut Key, exchange: &mut Exchange, run: usize) -> bool {
    let set = key.parameters;
    let siblings = 16 * set.axes;
    let values = siblings + 32;
    let aux = values + 8 * set.t;
    if kind == 12 {
        return repeat_point(random, &set, exchange.challenge_mut(&set, run));
    }
    let field = match kind {
        0 => &mut exchange.message_1[..32],
        1 => exchange.h_mut(run),
        2 => &mut exchange.challenge_mut(&set, run)[..4 * set.t],
        3 => &mut exchange.challenge_mut(&set, run)[4 * set.t..],
        4 => exchange.response_mut(run),
        5 => &mut exchange.opening_mut(&set, run)[..siblings],
        6 => &mut exchange.opening_mut(&set, run)[siblings..values],
        7 => &mut exchange.opening_mut(&set, run)[values..values + 4 * set.t],
        8 => &mut exchange.opening_mut(&set, run)[values + 4 * set.t..aux],
        9 => &mut exchange.opening_mut(&set, run)[aux..],
        10 => &mut key.matrix[..],
        _ => &mut key.y[..],
    };
    if field.is_empty() {
        return false;
    }
    flip_bit(random, field);
    true
}

/// Compares an exchange damaged in one field of a run, and in one of another run too.
fn damaged_run(random: &mut Random, key: &Key, exchange: &Exchange, run: usize, count: &mut Count) {
    for kind in 0..DAMAGES {
        for twice in [false, true] {
            let (mut key, mut exchange) = (key.clone(), exchange.clone());
            if !damage(random, kind, &mut key, &mut exchange, run) {
                continue;
            }
            if twice {
                let (other, kind) = (random.below(exchange.runs()), random.below(DAMAGES));
                damage(random, kind, &mut key, &mut exchange, other);
            }
            let calls = calls(random, &key, &exchange);
            let outcome = compare(&calls, unlock::verifier::Verifier::new(), count);
            count.settle(&format!("damage {kind} of run {run} of {}", exchange.runs()), outcome.map(|_| ()));
        }
    }
}

/// Honest exchanges damaged in one field of one run or of two, or opened at other leaves.
pub fn damaged(seed: u64, rounds: usize, count: &mut Count) {
    let mut random = Random::new(seed ^ 0xda3a);
    for round in 0..rounds {
        let (set, runs) = (random_set(&mut random, 24, 4), random.between(1, 3));
        let key = valid_key(&mut random, &set);
        let start = Start::random(&mut random, &set, runs);
        let leaves = any_leaves(&mut random, &set, runs);
        let exchange = honest_exchange(&key, &start, &leaves);
        let run = random.below(runs);
        damaged_run(&mut random, &key, &exchange, run, count);
        let other = Exchange { leaves: any_leaves(&mut random, &set, runs), ..exchange };
        let calls = calls(&mut random, &key, &other);
        let outcome = compare(&calls, unlock::verifier::Verifier::new(), count);
        count.settle(&format!("other leaves in round {round}"), outcome.map(|_| ()));
    }
}

/// Exchanges of one, two, five and 32 runs, damaged in every run.
pub fn damaged_runs(seed: u64, count: &mut Count) {
    let mut random = Random::new(seed ^ 0xda3b);
    for runs in RUN_COUNTS {
        let set = random_set(&mut random, 8, 2);
        let key = valid_key(&mut random, &set);
        let start = Start::random(&mut random, &set, runs);
        let leaves = any_leaves(&mut random, &set, runs);
        let exchange = honest_exchange(&key, &start, &leaves);
        for run in 0..runs {
            damaged_run(&mut random, &key, &exchange, run, count);
        }
    }
}

/// Scripts from sessions that no call made.
pub fn strangers(seed: u64, scripts: usize, count: &mut Count) {
    for number in 0..scripts {
        let mut random = Random::new(seed.wrapping_mul(1_000_039).wrapping_add(number as u64));
        let session = stranger(&mut random, unlock::verifier::Verifier::size(), &PHASES);
        let calls = verifier_script(&mut random, Size { greatest_m: 12, greatest_axes: 3 }, 8);
        let outcome = compare(&calls, unlock::verifier::Verifier::from_bytes(session), count);
        count.settle(&format!("verifier script {number} from a session that no call made"), outcome.map(|_| ()));
    }
}
