//! Sessions: which call is due, the order of the numbers, and what a refused call leaves as it was.

use reference::messages::part;
use reference::numbers::*;
use reference::parameters::Parameters;
use reference::prover::Prover;
use reference::sampling::calls::{Effect, LentBytes, ProverCall, ProverInput, VerifierCall};
use reference::sampling::exchanges::{honest_exchange, Exchange, Start};
use reference::sampling::keys::{overweight_key, valid_key, Key};
use reference::sampling::Random;
use reference::verifier::Verifier;

const SET: Parameters = Parameters::new(9, 4, 3, 3, 2);
const RUNS: usize = 2;

/// Message 4: a leaf in the first run, leaf 5 in the second.
fn leaves(first: u8) -> Vec<u8> {
    vec![first, 5]
}

fn sample_key() -> Key {
    valid_key(&mut Random::new(50), &SET)
}

fn sample_start() -> Start {
    Start::random(&mut Random::new(51), &SET, RUNS)
}

fn lent() -> LentBytes {
    let key = sample_key();
    LentBytes { matrix: key.matrix, y: key.y, work: vec![0xa5; SET.work_bytes() + 5] }
}

fn begin_with(salt: u8, root: u8) -> ProverCall {
    let x_a = sample_key().x_a;
    let input = ProverInput::Begin { parameters: SET, runs: RUNS, x_a, salt: vec![salt; 32], root: vec![root; 16] };
    ProverCall { input, lent: lent(), output: vec![0xa5; 96] }
}

fn points() -> ProverCall {
    let message_2 = sample_start().message_2;
    ProverCall { input: ProverInput::Points { message_2 }, lent: lent(), output: vec![0xa5; 64] }
}

fn leaf_call(leaves: Vec<u8>) -> ProverCall {
    let output = vec![0xa5; SET.message_5_bytes(&leaves)];
    ProverCall { input: ProverInput::Leaf { leaves }, lent: lent(), output }
}

fn leaf(first: u8) -> ProverCall {
    leaf_call(leaves(first))
}

/// Makes a call that must be carried out: it fills its output and clears the named part of the work area.
fn carry_out(prover: &mut Prover, call: &ProverCall) -> Vec<u8> {
    let effect = call.make(prover);
    assert_eq!(effect.number, CARRIED_OUT);
    let named = SET.work_bytes();
    assert!(effect.work[..named].iter().all(|&byte| byte == 0));
    assert_eq!(effect.work[named..], call.lent.work[named..]);
    assert_ne!(effect.output, call.output);
    effect.output
}

/// Makes a call that must be refused and change nothing.
fn refuse(prover: &mut Prover, call: &ProverCall, number: Number) {
    let before = prover.clone();
    let effect = call.make(prover);
    let expected = Effect { number, work: call.lent.work.clone(), output: call.output.clone() };
    assert_eq!(effect, expected);
    assert_eq!(*prover, before);
}

#[test]
fn prover_calls_are_due_in_turn() {
    let mut prover = Prover::default();
    refuse(&mut prover, &points(), NOT_DUE);
    refuse(&mut prover, &leaf(0), NOT_DUE);
    carry_out(&mut prover, &begin_with(1, 1));
    refuse(&mut prover, &leaf(0), NOT_DUE);
    carry_out(&mut prover, &points());
    refuse(&mut prover, &points(), NOT_DUE);
    carry_out(&mut prover, &leaf(0));
    refuse(&mut prover, &leaf(0), CLOSED);
    refuse(&mut prover, &leaf(1), CLOSED);
    refuse(&mut prover, &points(), CLOSED);
    carry_out(&mut prover, &begin_with(1, 2));
    refuse(&mut prover, &leaf(0), NOT_DUE);
}

#[test]
fn prover_begins_afresh_at_any_time() {
    let mut prover = Prover::default();
    let first = carry_out(&mut prover, &begin_with(1, 1));
    let second = carry_out(&mut prover, &begin_with(2, 1));
    carry_out(&mut prover, &points());
    let third = carry_out(&mut prover, &begin_with(1, 1));
    assert_eq!(first, third);
    assert_ne!(first, second);
    refuse(&mut prover, &leaf(0), NOT_DUE);
}

#[test]
fn salt_and_root_of_the_exchange_held_give_13() {
    let mut prover = Prover::default();
    carry_out(&mut prover, &begin_with(1, 1));
    refuse(&mut prover, &begin_with(1, 1), SALT_AND_ROOT_HELD);
    carry_out(&mut prover, &points());
    refuse(&mut prover, &begin_with(1, 1), SALT_AND_ROOT_HELD);
    carry_out(&mut prover, &leaf(7));
    refuse(&mut prover, &begin_with(1, 1), SALT_AND_ROOT_HELD);
    carry_out(&mut prover, &begin_with(1, 2));
    carry_out(&mut prover, &begin_with(2, 2));
    carry_out(&mut prover, &begin_with(1, 1));
}

/// The run count is not compared.
#[test]
fn another_run_count_gives_13_too() {
    let mut prover = Prover::default();
    carry_out(&mut prover, &begin_with(1, 1));
    for runs in [1, 3, 32] {
        let mut begin = begin_with(1, 1);
        set_runs(&mut begin, runs);
        refuse(&mut prover, &begin, SALT_AND_ROOT_HELD);
    }
}

#[test]
fn salt_and_root_of_zeros_may_start_a_session() {
    carry_out(&mut Prover::default(), &begin_with(0, 0));
}

#[test]
fn a_refused_begin_keeps_the_exchange() {
    let mut prover = Prover::default();
    carry_out(&mut prover, &begin_with(1, 1));
    let mut outside = begin_with(2, 2);
    set_parameters(&mut outside, Parameters { t: 9, ..SET });
    refuse(&mut prover, &outside, PARAMETER_OUTSIDE_LIMITS);
    for runs in [0, 33, 256] {
        let mut outside = begin_with(2, 2);
        set_runs(&mut outside, runs);
        refuse(&mut prover, &outside, PARAMETER_OUTSIDE_LIMITS);
    }
    refuse(&mut prover, &begin_with(1, 1), SALT_AND_ROOT_HELD);
    carry_out(&mut prover, &points());
}

fn set_parameters(call: &mut ProverCall, parameters: Parameters) {
    if let ProverInput::Begin { parameters: given, .. } = &mut call.input {
        *given = parameters;
    }
}

/// Another run count, with an output of the length for it.
fn set_runs(call: &mut ProverCall, runs: usize) {
    if let ProverInput::Begin { runs: given, .. } = &mut call.input {
        *given = runs;
        call.output = vec![0xa5; 32 + 32 * runs];
    }
}

/// A change that damages a call of the prover.
type Change = fn(&mut ProverCall);

const LENT_CHANGES: [Change; 6] = [
    |call| call.lent.matrix.push(0),
    |call| call.lent.matrix.truncate(19),
    |call| call.lent.y.push(0),
    |call| call.lent.work.truncate(SET.work_bytes() - 1),
    |call| call.output.push(0),
    |call| call.output.clear(),
];

#[test]
fn wrong_lengths_give_2() {
    let mut prover = Prover::default();
    for call in [begin_with(1, 1), points(), leaf(3)] {
        for change in LENT_CHANGES {
            let mut damaged = call.clone();
            change(&mut damaged);
            refuse(&mut prover, &damaged, WRONG_LENGTH);
        }
        carry_out(&mut prover, &call);
    }
}

#[test]
fn wrong_lengths_of_begin_give_2() {
    let mut prover = Prover::default();
    for length in [0, 15, 17, 31, 33] {
        for place in 0..3 {
            let mut call = begin_with(1, 1);
            if let ProverInput::Begin { x_a, salt, root, .. } = &mut call.input {
                [x_a, salt, root][place].resize(length, 0);
            }
            refuse(&mut prover, &call, WRONG_LENGTH);
        }
    }
}

#[test]
fn wrong_lengths_of_message_2_give_2() {
    let mut prover = Prover::default();
    carry_out(&mut prover, &begin_with(1, 1));
    for length in [0, 16, 31, 33, 48] {
        let input = ProverInput::Points { message_2: vec![0; length] };
        refuse(&mut prover, &ProverCall { input, ..points() }, WRONG_LENGTH);
    }
}

#[test]
fn wrong_lengths_of_message_4_give_2() {
    let mut prover = Prover::default();
    carry_out(&mut prover, &begin_with(1, 1));
    carry_out(&mut prover, &points());
    for leaves in [vec![], vec![0], vec![0, 5, 0], vec![8], vec![0; 32], vec![8; 33]] {
        refuse(&mut prover, &leaf_call(leaves), WRONG_LENGTH);
    }
    carry_out(&mut prover, &leaf(7));
}

/// In whatever run the leaf is not below n.
#[test]
fn longer_length_counts_for_leaves_not_below_n() {
    let mut prover = Prover::default();
    carry_out(&mut prover, &begin_with(1, 1));
    carry_out(&mut prover, &points());
    for number in [8, 9, 255] {
        for leaves in [[number, 0], [7, number], [number, number]] {
            let call = leaf_call(leaves.to_vec());
            let lower = leaves.map(|leaf| if leaf == 7 { 7 } else { 0 });
            assert_eq!(call.output.len(), SET.message_5_bytes(&lower));
            refuse(&mut prover, &call, LEAF_NOT_BELOW_N);
            let output = vec![0xa5; SET.message_5_bytes(&[7, 7])];
            refuse(&mut prover, &ProverCall { output, ..call }, WRONG_LENGTH);
        }
    }
    carry_out(&mut prover, &leaf(7));
}

/// Faults are added from the last number of the order to the first; each time the earlier number wins.
#[test]
fn begin_answers_in_order() {
    let mut prover = Prover::default();
    carry_out(&mut prover, &begin_with(1, 1));
    let mut call = begin_with(1, 1);
    refuse(&mut prover, &call, SALT_AND_ROOT_HELD);
    let overweight = overweight_key(&mut Random::new(52), &SET).expect("w is below m");
    call.lent.matrix = overweight.matrix;
    call.lent.y = overweight.y;
    if let ProverInput::Begin { x_a, .. } = &mut call.input {
        *x_a = overweight.x_a;
    }
    refuse(&mut prover, &call, OVERWEIGHT);
    call.output.pop();
    refuse(&mut prover, &call, WRONG_LENGTH);
    let fitting = call.clone();
    set_parameters(&mut call, Parameters { m: 256, ..SET });
    refuse(&mut prover, &call, PARAMETER_OUTSIDE_LIMITS);
    for runs in [0, 33] {
        let mut call = fitting.clone();
        set_runs(&mut call, runs);
        refuse(&mut prover, &call, PARAMETER_OUTSIDE_LIMITS);
    }
}

/// State comes before the arguments: a call that is not due is 11 or 12 whatever it is lent.
#[test]
fn state_comes_before_lengths_and_leaves() {
    let mut prover = Prover::default();
    let mut damaged_leaf = leaf(255);
    damaged_leaf.lent.work.clear();
    let mut damaged_points = points();
    damaged_points.output.clear();
    refuse(&mut prover, &damaged_leaf, NOT_DUE);
    carry_out(&mut prover, &begin_with(1, 1));
    refuse(&mut prover, &damaged_leaf, NOT_DUE);
    carry_out(&mut prover, &points());
    refuse(&mut prover, &damaged_points, NOT_DUE);
    carry_out(&mut prover, &leaf(0));
    refuse(&mut prover, &damaged_leaf, CLOSED);
    refuse(&mut prover, &damaged_points, CLOSED);
}

/// x is held; the parties take the matrix and y of each call.
#[test]
fn matrix_and_y_are_those_of_the_call() {
    let run = |damaged: [bool; 3]| -> [Vec<u8>; 3] {
        let mut prover = Prover::default();
        let mut calls = [begin_with(1, 1), points(), leaf(2)];
        for (call, _) in calls.iter_mut().zip(damaged).filter(|(_, damaged)| *damaged) {
            call.lent.matrix[3] ^= 1;
            call.lent.y[0] ^= 1;
        }
        calls.map(|call| carry_out(&mut prover, &call))
    };
    let plain = run([false; 3]);
    let other_points = run([false, true, false]);
    let other_leaf = run([false, false, true]);
    assert_eq!(plain[0], other_points[0]);
    assert_ne!(plain[1], other_points[1]);
    assert_eq!(plain[2], other_points[2]);
    assert_eq!(plain[..2], other_leaf[..2]);
    let beta = 16 * SET.axes + 32 + 4 * SET.t;
    for run in 0..RUNS {
        let [plain, other_leaf] = [&plain, &other_leaf].map(|given| part(&given[2], run, SET.opening_bytes(2)));
        assert_eq!(plain[..beta], other_leaf[..beta]);
        assert_ne!(plain[beta..beta + 4 * SET.t], other_leaf[beta..beta + 4 * SET.t]);
        assert_eq!(plain[beta + 4 * SET.t..], other_leaf[beta + 4 * SET.t..]);
    }
}

fn sample_exchange(leaf: u8) -> Exchange {
    honest_exchange(&sample_key(), &sample_start(), &leaves(leaf))
}

/// The verifier's five calls on an exchange.
fn verifier_calls(exchange: &Exchange) -> [VerifierCall; 5] {
    [
        VerifierCall::Begin { parameters: SET, runs: RUNS, message_1: exchange.message_1.clone() },
        VerifierCall::Points { message_2: exchange.message_2.clone() },
        VerifierCall::Response { message_3: exchange.message_3.clone() },
        VerifierCall::Leaf { leaves: exchange.leaves.clone() },
        VerifierCall::Opening { message_5: exchange.message_5.clone(), lent: lent() },
    ]
}

fn verifier_refuses(verifier: &mut Verifier, call: &VerifierCall, number: Number) {
    let before = verifier.clone();
    let effect = call.make(verifier);
    assert_eq!(effect.number, number, "{call:?}");
    assert_eq!(*verifier, before);
    if let VerifierCall::Opening { lent, .. } = call {
        assert_eq!(effect.work, lent.work);
    }
}

/// A verifier that has carried out so many calls of an exchange.
fn verifier_after(exchange: &Exchange, calls: usize) -> Verifier {
    let mut verifier = Verifier::default();
    for call in &verifier_calls(exchange)[..calls] {
        assert_eq!(call.make(&mut verifier).number, CARRIED_OUT);
    }
    verifier
}

#[test]
fn verifier_calls_are_due_in_turn() {
    let exchange = sample_exchange(5);
    let calls = verifier_calls(&exchange);
    for done in 0..=5 {
        let mut verifier = verifier_after(&exchange, done);
        let number = if done == 5 { CLOSED } else { NOT_DUE };
        for (place, call) in calls.iter().enumerate().skip(1).filter(|(place, _)| *place != done || done == 5) {
            println!("call {place} after {done}");
            verifier_refuses(&mut verifier, call, number);
        }
        assert_eq!(calls[0].make(&mut verifier).number, CARRIED_OUT);
        assert_eq!(verifier, verifier_after(&exchange, 1));
    }
}

#[test]
fn verifier_state_comes_before_lengths() {
    let exchange = sample_exchange(5);
    let calls = [
        VerifierCall::Points { message_2: vec![] },
        VerifierCall::Response { message_3: vec![] },
        VerifierCall::Leaf { leaves: vec![255] },
        VerifierCall::Opening { message_5: vec![], lent: LentBytes::default() },
    ];
    for call in &calls {
        verifier_refuses(&mut Verifier::default(), call, NOT_DUE);
        verifier_refuses(&mut verifier_after(&exchange, 5), call, CLOSED);
    }
    for (place, call) in calls.iter().enumerate() {
        verifier_refuses(&mut verifier_after(&exchange, place + 1), call, WRONG_LENGTH);
    }
}

#[test]
fn verifier_leaf_refuses_with_2_before_4() {
    let mut verifier = verifier_after(&sample_exchange(5), 3);
    for leaves in [vec![], vec![8], vec![5], vec![5, 5, 5], vec![0; 32], vec![8; 33]] {
        verifier_refuses(&mut verifier, &VerifierCall::Leaf { leaves }, WRONG_LENGTH);
    }
    for leaves in [vec![8, 0], vec![0, 8], vec![255, 255]] {
        verifier_refuses(&mut verifier, &VerifierCall::Leaf { leaves }, LEAF_NOT_BELOW_N);
    }
    assert_eq!(verifier.leaf(&[7, 7]), CARRIED_OUT);
}

#[test]
fn verifier_begin_refuses_with_1_before_2() {
    let exchange = sample_exchange(5);
    for calls in [0, 3, 5] {
        let mut verifier = verifier_after(&exchange, calls);
        for length in [0, 64, 95, 97, 32 + 32 * 33] {
            let message_1 = vec![0; length];
            for (parameters, runs) in [(Parameters { axes: 9, ..SET }, RUNS), (SET, 0), (SET, 33)] {
                let outside = VerifierCall::Begin { parameters, runs, message_1: message_1.clone() };
                verifier_refuses(&mut verifier, &outside, PARAMETER_OUTSIDE_LIMITS);
            }
            let short = VerifierCall::Begin { parameters: SET, runs: RUNS, message_1 };
            verifier_refuses(&mut verifier, &short, WRONG_LENGTH);
        }
    }
}

/// Message 5 has the length for the leaves held: the shorter one for leaf n−1 alone.
#[test]
fn opening_length_follows_the_leaf_held() {
    for (held, other) in [(5, 7), (7, 5)] {
        let mut verifier = verifier_after(&sample_exchange(held), 4);
        let message_5 = sample_exchange(other).message_5;
        verifier_refuses(&mut verifier, &VerifierCall::Opening { message_5, lent: lent() }, WRONG_LENGTH);
    }
}

#[test]
fn opening_lengths_give_2() {
    let exchange = sample_exchange(5);
    let mut verifier = verifier_after(&exchange, 4);
    for place in 0..4 {
        let (mut message_5, mut lent) = (exchange.message_5.clone(), lent());
        match place {
            0 => message_5.push(0),
            1 => lent.matrix.push(0),
            2 => lent.y.truncate(1),
            _ => lent.work.truncate(SET.work_bytes() - 1),
        }
        verifier_refuses(&mut verifier, &VerifierCall::Opening { message_5, lent }, WRONG_LENGTH);
    }
    assert_eq!(verifier_calls(&exchange)[4].make(&mut verifier).number, CARRIED_OUT);
}

/// Accepted or refused with 5 or 7, the opening closes the session and clears the named part of the work area.
#[test]
fn openings_close_and_clear() {
    let beta = 16 * SET.axes + 32 + 4 * SET.t;
    for (place, number) in [(None, CARRIED_OUT), (Some(0), COMMITMENT_DIFFERS), (Some(beta), RESPONSE_DIFFERS)] {
        let mut exchange = sample_exchange(5);
        if let Some(place) = place {
            exchange.message_5[place] ^= 1;
        }
        let mut verifier = verifier_after(&exchange, 4);
        let effect = verifier_calls(&exchange)[4].make(&mut verifier);
        assert_eq!(effect.number, number);
        let expected = [vec![0; SET.work_bytes()], vec![0xa5; 5]].concat();
        assert_eq!(effect.work, expected);
        verifier_refuses(&mut verifier, &verifier_calls(&exchange)[4], CLOSED);
    }
}

/// An opening with several faults gets the first number of the order: 5 before 7.
#[test]
fn h_comes_before_the_response() {
    let mut exchange = sample_exchange(5);
    exchange.message_3[0] ^= 1;
    exchange.message_5[0] ^= 1;
    assert_eq!(verifier_calls(&exchange)[4].make(&mut verifier_after(&exchange, 4)).number, COMMITMENT_DIFFERS);
}

/// A session's bytes with one bit flipped.
fn flipped(mut session: Vec<u8>, place: usize, bit: usize) -> Vec<u8> {
    session[place] ^= 1 << bit;
    session
}

#[test]
fn sessions_are_stored_and_read_back() {
    let mut prover = Prover::default();
    for call in [begin_with(1, 1), points(), leaf(2)] {
        assert_eq!(prover.to_bytes().len(), 2358);
        assert_eq!(Prover::from_bytes(&prover.to_bytes()), prover);
        carry_out(&mut prover, &call);
    }
    assert_eq!(Prover::from_bytes(&prover.to_bytes()), prover);
    for calls in 0..=5 {
        let verifier = verifier_after(&sample_exchange(5), calls);
        assert_eq!(verifier.to_bytes().len(), 4167);
        assert_eq!(Verifier::from_bytes(&verifier.to_bytes()), verifier);
    }
}

/// Whatever bit of m was flipped after the leaf call, no second leaf is opened: 12, and 13 to the same salt and root.
#[test]
fn a_damaged_length_opens_no_second_leaf() {
    let mut prover = Prover::default();
    for call in [begin_with(1, 1), points(), leaf(2)] {
        carry_out(&mut prover, &call);
    }
    for bit in 0..8 {
        let mut damaged = Prover::from_bytes(&flipped(prover.to_bytes(), 1, bit));
        refuse(&mut damaged, &points(), CLOSED);
        refuse(&mut damaged, &leaf(3), CLOSED);
        refuse(&mut damaged, &begin_with(1, 1), SALT_AND_ROOT_HELD);
        carry_out(&mut damaged, &begin_with(1, 2));
    }
}

/// A begun session with parameters or a run count outside their limits or an x that is too heavy is closed; its salt and root still count.
#[test]
fn damaged_provers_are_closed() {
    let mut begun = Prover::default();
    carry_out(&mut begun, &begin_with(1, 1));
    let mut answered = begun.clone();
    carry_out(&mut answered, &points());
    for session in [begun.to_bytes(), answered.to_bytes()] {
        // m 9 as 1, k 4 as 12, w 3 as 19, D 3 as 11, t 2 as 10, 2 runs as 0, 34 and 130
        for (place, bit) in [(1, 3), (2, 3), (3, 4), (4, 3), (5, 3), (6, 1), (6, 5), (6, 7)] {
            let mut damaged = Prover::from_bytes(&flipped(session.clone(), place, bit));
            refuse(&mut damaged, &points(), CLOSED);
            refuse(&mut damaged, &leaf(0), CLOSED);
            refuse(&mut damaged, &begin_with(1, 1), SALT_AND_ROOT_HELD);
            carry_out(&mut damaged, &begin_with(1, 2));
        }
        let mut heavy = session;
        heavy[7..7 + SET.m].fill(1);
        let mut heavy = Prover::from_bytes(&heavy);
        refuse(&mut heavy, &points(), CLOSED);
        refuse(&mut heavy, &leaf(0), CLOSED);
        refuse(&mut heavy, &begin_with(1, 1), SALT_AND_ROOT_HELD);
    }
}

/// A byte that is no phase reads as closed, and up to three flipped bits never make another phase.
#[test]
fn damaged_phases_are_closed() {
    let mut prover = Prover::default();
    let calls = [begin_with(1, 1), points(), leaf(2)];
    let exchange = sample_exchange(5);
    for done in 0..=calls.len() {
        for mask in (1..=255u8).filter(|mask| mask.count_ones() <= 3) {
            let mut session = prover.to_bytes();
            session[0] ^= mask;
            let mut damaged = Prover::from_bytes(&session);
            refuse(&mut damaged, &points(), CLOSED);
            refuse(&mut damaged, &leaf(0), CLOSED);
        }
        if let Some(call) = calls.get(done) {
            carry_out(&mut prover, call);
        }
    }
    for done in 0..=5 {
        for mask in (1..=255u8).filter(|mask| mask.count_ones() <= 3) {
            let mut session = verifier_after(&exchange, done).to_bytes();
            session[0] ^= mask;
            for call in &verifier_calls(&exchange)[1..] {
                verifier_refuses(&mut Verifier::from_bytes(&session), call, CLOSED);
            }
        }
    }
}

/// Where the leaves start in a verifier's session.
const LEAVES: usize = 4167 - 32;

/// What a verifier keeps past the messages of its runs is not looked at, and later calls leave it.
#[test]
fn bytes_past_the_messages_stay() {
    let exchange = sample_exchange(5);
    let places = [7 + 96, 7 + 1056 + 32, 7 + 1056 + 2048 + 64, LEAVES + 2];
    for done in 1..5 {
        let mut session = verifier_after(&exchange, done).to_bytes();
        places.iter().for_each(|&place| session[place] = 0xff);
        let mut verifier = Verifier::from_bytes(&session);
        for call in &verifier_calls(&exchange)[done..] {
            assert_eq!(call.make(&mut verifier).number, CARRIED_OUT);
        }
        let mut expected = verifier_after(&exchange, 5).to_bytes();
        places.iter().for_each(|&place| expected[place] = 0xff);
        assert_eq!(verifier.to_bytes(), expected);
        assert_eq!(verifier_calls(&exchange)[0].make(&mut verifier).number, CARRIED_OUT);
        assert_eq!(verifier, verifier_after(&exchange, 1));
    }
}

/// A begun verifier with a leaf of its runs that is not below n, or a parameter or run count outside its limits, is closed.
#[test]
fn damaged_verifiers_are_closed() {
    let exchange = sample_exchange(5);
    for done in 1..=5 {
        let session = verifier_after(&exchange, done).to_bytes();
        for (place, bit) in [(1, 3), (4, 3), (5, 3), (6, 1), (6, 5), (LEAVES, 3), (LEAVES, 7), (LEAVES + 1, 3)] {
            let damaged = flipped(session.clone(), place, bit);
            for call in &verifier_calls(&exchange)[1..] {
                verifier_refuses(&mut Verifier::from_bytes(&damaged), call, CLOSED);
            }
            let mut begun = Verifier::from_bytes(&damaged);
            assert_eq!(verifier_calls(&exchange)[0].make(&mut begun).number, CARRIED_OUT);
            assert_eq!(begun, verifier_after(&exchange, 1));
        }
    }
}
