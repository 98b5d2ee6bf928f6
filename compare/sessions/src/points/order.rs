//! Repeated points beside what stands before 14 in the order and behind it.

use super::{in_either, refused, Sample, Sessions, POINTS, SET};
use crate::count::Count;
use crate::effects::answers;
use crate::{prover, verifier};
use reference::numbers::{
    Number, CARRIED_OUT, CLOSED, COMMITMENT_DIFFERS, EXCHANGES_DIFFER, LEAF_NOT_BELOW_N, NOT_DUE,
    PARAMETER_OUTSIDE_LIMITS, POINT_REPEATED, RESPONSE_DIFFERS, SAME_HIDDEN_LEAVES, WRONG_LENGTH,
};
use reference::prover::Prover;
use reference::sampling::calls::{ExtractorCall, ProverCall, VerifierCall};
use reference::verifier::Verifier;

/// Makes a prover's call that must answer a number, of sessions that go on.
pub(super) fn prover_step(
    (expected, found): &mut Sessions<Prover, unlock::prover::Prover>,
    (call, wanted): (&ProverCall, Number),
    name: &str,
    count: &mut Count,
) {
    let number = prover::compare_one(call, expected, found, count);
    count.settle(name, number.and_then(|number| answers(number, wanted)));
}

/// The same of a verifier's call.
fn verifier_step(
    (expected, found): &mut Sessions<Verifier, unlock::verifier::Verifier>,
    (call, wanted): (&VerifierCall, Number),
    name: &str,
    count: &mut Count,
) {
    let number = verifier::compare_one(call, expected, found, count);
    count.settle(name, number.and_then(|number| answers(number, wanted)));
}

/// A prover's session refuses repeated points twice, takes distinct ones and goes on; 11 and 12 come before 14.
pub(super) fn prover_goes_on(sample: &Sample, count: &mut Count) {
    let repeated = sample.points_call(&sample.repeated(sample.runs - 1, 0, 7));
    let [begin, points, leaf] = &sample.prover_calls[..] else { unreachable!() };
    let calls = [
        (&repeated, NOT_DUE),
        (begin, CARRIED_OUT),
        (&repeated, POINT_REPEATED),
        (leaf, NOT_DUE),
        (&repeated, POINT_REPEATED),
        (points, CARRIED_OUT),
        (&repeated, NOT_DUE),
        (leaf, CARRIED_OUT),
        (&repeated, CLOSED),
    ];
    let mut sessions = (Prover::default(), unlock::prover::Prover::new());
    for (place, call) in calls.into_iter().enumerate() {
        prover_step(&mut sessions, call, &format!("prover of {} runs, call {place}", sample.runs), count);
    }
}

/// The same of a verifier's session.
pub(super) fn verifier_goes_on(sample: &Sample, count: &mut Count) {
    let repeated = VerifierCall::Points { message_2: sample.repeated(sample.runs - 1, 0, 7) };
    let [begin, points, response, leaf, opening] = &sample.verifier_calls[..] else { unreachable!() };
    let calls = [
        (&repeated, NOT_DUE),
        (begin, CARRIED_OUT),
        (&repeated, POINT_REPEATED),
        (response, NOT_DUE),
        (&repeated, POINT_REPEATED),
        (points, CARRIED_OUT),
        (&repeated, NOT_DUE),
        (response, CARRIED_OUT),
        (&repeated, NOT_DUE),
        (leaf, CARRIED_OUT),
        (&repeated, NOT_DUE),
        (opening, CARRIED_OUT),
        (&repeated, CLOSED),
    ];
    let mut sessions = (Verifier::default(), unlock::verifier::Verifier::new());
    for (place, call) in calls.into_iter().enumerate() {
        verifier_step(&mut sessions, call, &format!("verifier of {} runs, call {place}", sample.runs), count);
    }
}

/// Where message 2 starts in a prover's session: behind phase, parameters, run count, x, salt and root.
const PROVER_MESSAGE_2: usize = 7 + 255 + 32 + 16;
/// Where message 2 starts in a verifier's session: behind phase, parameters, run count and message 1.
const VERIFIER_MESSAGE_2: usize = 7 + 32 + 32 * 32;

/// A session's bytes with other bytes from a place on.
fn overwritten(session: &[u8], place: usize, bytes: &[u8]) -> Vec<u8> {
    let mut session = session.to_vec();
    session[place..place + bytes.len()].copy_from_slice(bytes);
    session
}

/// 14 comes at the points alone: a session that was damaged to hold equal points goes on, and the opening gets 7.
pub(super) fn held_points(sample: &Sample, count: &mut Count) {
    let repeated = sample.repeated(sample.runs - 1, 2, 5);
    let name = format!("{} runs, equal points held", sample.runs);
    let mut sessions = sample.prover.clone();
    let [_, points, leaf] = &sample.prover_calls[..] else { unreachable!() };
    prover_step(&mut sessions, (points, CARRIED_OUT), &name, count);
    let held = overwritten(sessions.1.bytes(), PROVER_MESSAGE_2, &repeated);
    let mut damaged = (Prover::from_bytes(&held), unlock::prover::Prover::from_bytes(held));
    prover_step(&mut damaged, (leaf, CARRIED_OUT), &format!("prover of {name}"), count);
    let mut sessions = sample.verifier.clone();
    let [_, points, response, leaf, opening] = &sample.verifier_calls[..] else { unreachable!() };
    verifier_step(&mut sessions, (points, CARRIED_OUT), &name, count);
    let held = overwritten(sessions.1.bytes(), VERIFIER_MESSAGE_2, &repeated);
    let mut damaged = (Verifier::from_bytes(&held), unlock::verifier::Verifier::from_bytes(held));
    for call in [(response, CARRIED_OUT), (leaf, CARRIED_OUT), (opening, RESPONSE_DIFFERS)] {
        verifier_step(&mut damaged, call, &format!("verifier of {name}"), count);
    }
}

/// A change that damages a call of the prover.
type ProverChange = fn(&mut ProverCall);

/// A change that damages a call of the extractor.
type Change = fn(&mut ExtractorCall);

/// Wrong lengths of what points are lent beside message 2.
const LENT_CHANGES: [ProverChange; 5] = [
    |call| call.lent.matrix.push(0),
    |call| call.lent.y.clear(),
    |call| call.lent.work.truncate(SET.work_bytes() - 1),
    |call| call.output.push(0),
    |call| call.output.clear(),
];

/// 2 comes before 14 at both points calls.
pub(super) fn lengths_first(sample: &Sample, count: &mut Count) {
    let message_2 = sample.repeated(0, 1, 6);
    for (place, change) in LENT_CHANGES.iter().enumerate() {
        let mut call = sample.points_call(&message_2);
        change(&mut call);
        let outcome = sample.prover_answers(&call, WRONG_LENGTH, count);
        count.settle(&format!("prover, repeated points and wrong length {place}"), outcome);
    }
    for length in [4, message_2.len() - 1, message_2.len() + 1, message_2.len() + SET.challenge_bytes()] {
        let mut message_2 = message_2.clone();
        message_2.resize(length, 0);
        let outcome = sample.prover_answers(&sample.points_call(&message_2), WRONG_LENGTH, count);
        count.settle(&format!("prover, repeated points in {length} bytes"), outcome);
        let outcome = sample.verifier_answers(&message_2, WRONG_LENGTH, count);
        count.settle(&format!("verifier, repeated points in {length} bytes"), outcome);
    }
}

/// Faults of the extractor's call that stand before 14, each with its number.
const EARLIER: [(Number, Change); 9] = [
    (PARAMETER_OUTSIDE_LIMITS, |call| call.parameters.t = 9),
    (PARAMETER_OUTSIDE_LIMITS, |call| call.runs = 33),
    (WRONG_LENGTH, |call| call.first.message_1.push(0)),
    (WRONG_LENGTH, |call| call.second.message_2.push(0)),
    (WRONG_LENGTH, |call| call.second.leaves.push(0)),
    (WRONG_LENGTH, |call| call.second.message_5.push(0)),
    (WRONG_LENGTH, |call| call.lent.y.push(0)),
    (WRONG_LENGTH, |call| call.lent.work.truncate(SET.work_bytes() - 1)),
    (WRONG_LENGTH, |call| call.output.push(0)),
];

/// Faults of the extractor's call that stand behind 14, each with its number.
const LATER: [(Number, Change); 8] = [
    (LEAF_NOT_BELOW_N, |call| call.first.leaves[0] = SET.leaves() as u8),
    (EXCHANGES_DIFFER, |call| call.second.message_1[0] ^= 1),
    (EXCHANGES_DIFFER, |call| call.first.message_2[POINTS] ^= 1),
    (EXCHANGES_DIFFER, |call| call.second.message_3[31] ^= 1),
    (SAME_HIDDEN_LEAVES, |call| call.second = call.first.clone()),
    (COMMITMENT_DIFFERS, |call| call.first.message_5[0] ^= 1),
    (COMMITMENT_DIFFERS, |call| call.second.message_5[0] ^= 1),
    (RESPONSE_DIFFERS, |call| call.second.message_5[16 * SET.axes + 32] ^= 1),
];

/// The extractor's call with a fault, which alone gives its number, and repeated points: what comes first counts.
pub(super) fn extractor_order(sample: &Sample, count: &mut Count) {
    let place = (sample.runs - 1) * SET.challenge_bytes();
    let repeat = |message_2: &mut Vec<u8>| message_2.copy_within(place + 4..place + 8, place + 20);
    let faults = EARLIER.map(|fault| (fault, false)).into_iter().chain(LATER.map(|fault| (fault, true)));
    for (place, ((number, change), later)) in faults.enumerate() {
        let name = format!("extractor, {} runs, fault {place}", sample.runs);
        let mut alone = sample.extractor_call.clone();
        change(&mut alone);
        let outcome = refused(&alone, number, count);
        count.settle(&name, outcome);
        for mut call in in_either(&sample.extractor_call, repeat) {
            change(&mut call);
            // The same leaves come with the first exchange's message 2.
            let hidden = number == SAME_HIDDEN_LEAVES && call.first.message_2 == sample.extractor_call.first.message_2;
            let wanted = if later && !hidden { POINT_REPEATED } else { number };
            let outcome = refused(&call, wanted, count);
            count.settle(&format!("{name} and repeated points"), outcome);
        }
    }
}
