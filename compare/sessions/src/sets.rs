//! Sets of another length: a call answers 2 before everything else and changes nothing, a size is 0. Document 01 has no such
//! call, so the rule is that of the C interface alone.

use crate::count::Count;
use crate::effects::{make_prover, make_verifier, messages, require, set_of};
use crate::{extractor, prover, verifier};
use reference::numbers::WRONG_LENGTH;
use reference::parameters::Parameters;
use reference::runs::check_run_count;
use reference::sampling::calls::{ExtractorCall, LentBytes, ProverCall, ProverInput, VerifierCall};
use reference::sampling::exchanges::{honest_exchange, Start};
use reference::sampling::keys::valid_key;
use reference::sampling::parameter_sets::{outside_set, random_set};
use reference::sampling::Random;

/// Lengths that are not a set's.
const LENGTHS: [usize; 5] = [0, 1, 4, 6, 10];

/// The set cut or drawn out to each of these lengths, and so with m 256.
fn other_sets(set: [u64; unlock::SET_LENGTH]) -> Vec<Vec<u64>> {
    let mut outside = set;
    outside[0] = 256;
    let of = |numbers: [u64; unlock::SET_LENGTH]| {
        LENGTHS.map(|length| numbers.into_iter().chain(std::iter::repeat(1)).take(length).collect())
    };
    of(set).into_iter().chain(of(outside)).collect()
}

/// The session, and buffers one byte shorter and longer.
fn buffers(session: &[u8]) -> [Vec<u8>; 3] {
    let longer = session.iter().copied().chain([0]).collect();
    [session.to_vec(), session[1..].to_vec(), longer]
}

fn refused(number: u32, unchanged: bool) -> Result<(), String> {
    require(number == u32::from(WRONG_LENGTH), &format!("number {number}, not {WRONG_LENGTH}"))?;
    require(unchanged, "refused, but something changed")
}

fn prover_begin(call: &ProverCall, set: &[u64], session: &[u8]) -> Result<(), String> {
    let ProverInput::Begin { runs, x_a, salt, root, .. } = &call.input else { return Ok(()) };
    let mut found = unlock::prover::Prover::from_bytes(session.to_vec());
    let (mut work, mut output) = (call.lent.work.clone(), call.output.clone());
    let (runs, LentBytes { matrix, y, .. }) = (*runs as u64, &call.lent);
    let number = found.begin(set, runs, x_a, salt, root, matrix, y, &mut work, &mut output);
    refused(number.into(), found.bytes() == session && work == call.lent.work && output == call.output)
}

fn verifier_begin(call: &VerifierCall, set: &[u64], session: &[u8]) -> Result<(), String> {
    let VerifierCall::Begin { runs, message_1, .. } = call else { return Ok(()) };
    let mut found = unlock::verifier::Verifier::from_bytes(session.to_vec());
    let number = found.begin(set, *runs as u64, message_1);
    refused(number.into(), found.bytes() == session)
}

fn extract(call: &ExtractorCall, set: &[u64]) -> Result<(), String> {
    let (mut work, mut output) = (call.lent.work.clone(), call.output.clone());
    let (first, second) = (messages(&call.first), messages(&call.second));
    let (runs, LentBytes { matrix, y, .. }) = (call.runs as u64, &call.lent);
    let number = unlock::extractor::extract(set, runs, first, second, matrix, y, &mut work, &mut output);
    refused(number, work == call.lent.work && output == call.output)
}

fn no_sizes(set: &[u64]) -> Result<(), String> {
    let sizes = [unlock::sizes::work(set), unlock::sizes::opening(set, &[0]), unlock::sizes::extract(set, 1)];
    require(sizes == [0; 3], &format!("sizes {sizes:?}"))
}

/// Begin of a prover before the first of the calls and after each, with a set of another length.
fn provers(calls: &[ProverCall], set: &[u64], name: &str, count: &mut Count) {
    let mut session = unlock::prover::Prover::new();
    for done in 0..=calls.len() {
        for buffer in buffers(session.bytes()) {
            count.settle(&format!("prover, {name}, after {done} calls"), prover_begin(&calls[0], set, &buffer));
        }
        if let Some(call) = calls.get(done) {
            make_prover(call, &mut session);
        }
    }
}

/// The same of a verifier.
fn verifiers(calls: &[VerifierCall], set: &[u64], name: &str, count: &mut Count) {
    let mut session = unlock::verifier::Verifier::new();
    for done in 0..=calls.len() {
        for buffer in buffers(session.bytes()) {
            count.settle(&format!("verifier, {name}, after {done} calls"), verifier_begin(&calls[0], set, &buffer));
        }
        if let Some(call) = calls.get(done) {
            make_verifier(call, &mut session);
        }
    }
}

/// The calls that take a set, with sets of other lengths.
pub fn of_other_lengths(seed: u64, exchanges: usize, count: &mut Count) {
    let mut random = Random::new(seed ^ 0x5e75);
    for exchange in 0..exchanges {
        let set = random_set(&mut random, 12, 3);
        let key = valid_key(&mut random, &set);
        let runs = 1 + exchange % 3;
        let start = Start::random(&mut random, &set, runs);
        let [one, other] = [0, 1].map(|leaf| honest_exchange(&key, &start, &vec![leaf; runs]));
        let prover_calls = prover::calls(&mut random, &key, start, &vec![0; runs]);
        let verifier_calls = verifier::calls(&mut random, &key, &one);
        let extractor_call = extractor::call(&mut random, &key, one, other);
        for set in other_sets(set_of(&set)) {
            let name = format!("exchange {exchange}, set {set:?}");
            provers(&prover_calls, &set, &name, count);
            verifiers(&verifier_calls, &set, &name, count);
            count.settle(&format!("extractor, {name}"), extract(&extractor_call, &set));
            count.settle(&format!("sizes, {name}"), no_sizes(&set));
        }
    }
}

/// What the sizes must be for parameters and a run count, as the second implementation has them.
fn sizes_are(set: &Parameters, leaves: &[u8]) -> Result<(), String> {
    let (numbers, runs) = (set_of(set), leaves.len());
    let found = [unlock::sizes::opening(&numbers, leaves), unlock::sizes::extract(&numbers, runs as u64)];
    let outside = set.check().is_err() || check_run_count(runs).is_err();
    let wanted = if outside { [0; 2] } else { [set.message_5_bytes(leaves), set.extractor_bytes(runs)] };
    require(found == wanted, &format!("sizes {found:?}, not {wanted:?}"))
}

/// The lengths that a caller asks for, at every run count and at some outside the limits, with leaves that are below n and
/// not.
pub fn lengths(seed: u64, count: &mut Count) {
    let mut random = Random::new(seed ^ 0x5e76);
    for runs in (0..=34).chain([255, 256, 257]) {
        for set in [random_set(&mut random, 255, 8), outside_set(&mut random)] {
            let leaves = random.bytes(runs);
            count.settle(&format!("sizes at {set:?} and {runs} runs"), sizes_are(&set, &leaves));
        }
    }
}
