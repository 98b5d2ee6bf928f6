//! The prover's session.

use crate::count::Count;
use crate::effects::{make_prover, require, same};
use crate::{size, stranger, RUN_COUNTS};
use reference::numbers::CARRIED_OUT;
use reference::parameters::Parameters;
use reference::prover::Prover;
use reference::sampling::calls::{LentBytes, ProverCall, ProverInput};
use reference::sampling::exchanges::Start;
use reference::sampling::keys::{valid_key, Key};
use reference::sampling::made_up::{any_leaves, some_leaves};
use reference::sampling::parameter_sets::{extreme_sets, random_set};
use reference::sampling::scripts::{prover_script, Size};
use reference::sampling::Random;
use std::ops::Range;

/// The bytes of the phases.
pub const PHASES: [u8; 4] = [0x0f, 0x33, 0x55, 0x66];

fn name(input: &ProverInput) -> &'static str {
    match input {
        ProverInput::Begin { .. } => "prover begin",
        ProverInput::Points { .. } => "prover points",
        ProverInput::Leaf { .. } => "prover leaf",
    }
}

/// Makes a call of both implementations; the number answered.
pub fn compare_one(
    call: &ProverCall,
    expected: &mut Prover,
    found: &mut unlock::prover::Prover,
    count: &mut Count,
) -> Result<u8, String> {
    let before = found.clone();
    let effect = call.make(expected);
    count.answer(name(&call.input), effect.number);
    same(&effect, &make_prover(call, found))?;
    if effect.number != CARRIED_OUT {
        require(*found == before, "refused, but another session")?;
    } else {
        require(found.bytes() == expected.to_bytes(), "another session")?;
    }
    Ok(effect.number)
}

/// Makes the calls of both implementations, from one session.
fn compare(calls: &[ProverCall], mut found: unlock::prover::Prover, count: &mut Count) -> Result<(), String> {
    let mut expected = Prover::from_bytes(found.bytes());
    for (place, call) in calls.iter().enumerate() {
        compare_one(call, &mut expected, &mut found, count)
            .map_err(|difference| format!("call {place}: {difference}"))?;
    }
    Ok(())
}

/// Random scripts of up to 20 calls: wrong orders, wrong lengths, bad parameters, repeated salt and root.
pub fn scripts(seed: u64, numbers: Range<u64>, count: &mut Count) {
    for number in numbers {
        let mut random = Random::new(seed.wrapping_mul(1_000_003).wrapping_add(number));
        let length = random.between(1, 20);
        let calls = prover_script(&mut random, size(number), length);
        let outcome = compare(&calls, unlock::prover::Prover::new(), count);
        count.settle(&format!("prover script {number}"), outcome);
    }
}

fn lent(key: &Key, random: &mut Random) -> LentBytes {
    LentBytes { matrix: key.matrix.clone(), y: key.y.clone(), work: random.bytes(key.parameters.work_bytes() + 3) }
}

/// The calls of an exchange in the right order.
pub fn calls(random: &mut Random, key: &Key, start: Start, leaves: &[u8]) -> Vec<ProverCall> {
    let Start { salt, root, message_2 } = start;
    let (set, runs) = (key.parameters, leaves.len());
    let (x_a, salt, root) = (key.x_a.clone(), salt.to_vec(), root.to_vec());
    [
        (ProverInput::Begin { parameters: set, runs, x_a, salt, root }, Parameters::message_1_bytes(runs)),
        (ProverInput::Points { message_2 }, Parameters::message_3_bytes(runs)),
        (ProverInput::Leaf { leaves: leaves.to_vec() }, set.message_5_bytes(leaves)),
    ]
    .into_iter()
    .map(|(input, length)| ProverCall { input, lent: lent(key, random), output: random.bytes(length) })
    .collect()
}

/// An exchange at each combination of extreme parameters.
pub fn extremes(seed: u64, count: &mut Count) {
    let mut random = Random::new(seed);
    for set in extreme_sets() {
        let key = valid_key(&mut random, &set);
        let start = Start::random(&mut random, &set, 1);
        let leaves = any_leaves(&mut random, &set, 1);
        let calls = calls(&mut random, &key, start, &leaves);
        let outcome = compare(&calls, unlock::prover::Prover::new(), count);
        count.settle(&format!("prover at {set:?}"), outcome);
    }
}

/// Exchanges of one, two, five and 32 runs: leaf 0 in all of them, leaf n−1, and any leaves.
pub fn runs(seed: u64, rounds: usize, count: &mut Count) {
    let mut random = Random::new(seed ^ 0x3055);
    for round in 0..rounds {
        for runs in RUN_COUNTS {
            let set = random_set(&mut random, 16, 4);
            let key = valid_key(&mut random, &set);
            for leaves in some_leaves(&mut random, &set, runs) {
                let start = Start::random(&mut random, &set, runs);
                let calls = calls(&mut random, &key, start, &leaves);
                let outcome = compare(&calls, unlock::prover::Prover::new(), count);
                count.settle(&format!("prover of {runs} runs in round {round}"), outcome);
            }
        }
    }
}

/// Scripts from sessions that no call made.
pub fn strangers(seed: u64, scripts: usize, count: &mut Count) {
    for number in 0..scripts {
        let mut random = Random::new(seed.wrapping_mul(1_000_033).wrapping_add(number as u64));
        let session = stranger(&mut random, unlock::prover::Prover::size(), &PHASES);
        let calls = prover_script(&mut random, Size { greatest_m: 12, greatest_axes: 3 }, 8);
        let outcome = compare(&calls, unlock::prover::Prover::from_bytes(session), count);
        count.settle(&format!("prover script {number} from a session that no call made"), outcome);
    }
}
