//! Random scripts of calls: what holds of every call whatever it is lent, and that every number is met.

use reference::challenge::Challenge;
use reference::extractor::Answer;
use reference::messages::{challenges, check_points};
use reference::numbers::*;
use reference::parameters::Parameters;
use reference::points_field::Point;
use reference::prover::Prover;
use reference::sampling::calls::{ExtractorCall, ProverInput, VerifierCall};
use reference::sampling::scripts::{extractor_call, prover_script, verifier_script, Size};
use reference::sampling::Random;
use reference::verifier::Verifier;
use std::collections::BTreeMap;

const SIZE: Size = Size { greatest_m: 16, greatest_axes: 4 };

/// How often each number was answered.
type Counts = BTreeMap<Number, usize>;

/// The work area as a call must leave it once the checks before 5 are past.
fn cleared(work: &[u8], parameters: &Parameters) -> Vec<u8> {
    let mut cleared = work.to_vec();
    cleared[..parameters.work_bytes()].fill(0);
    cleared
}

fn assert_numbers(counts: &Counts, numbers: &[Number]) {
    let met: Vec<Number> = counts.keys().copied().collect();
    assert_eq!(met, numbers, "{counts:?}");
}

#[test]
fn prover_scripts() {
    let mut random = Random::new(60);
    let mut counts = Counts::new();
    for _ in 0..60 {
        let mut prover = Prover::default();
        let mut parameters = None;
        let mut given = [0; 3];
        for call in prover_script(&mut random, SIZE, 40) {
            let before = prover.clone();
            let effect = call.make(&mut prover);
            *counts.entry(effect.number).or_default() += 1;
            if effect.number != CARRIED_OUT {
                assert_eq!((&effect.work, &effect.output), (&call.lent.work, &call.output));
                assert_eq!(prover, before);
                continue;
            }
            match &call.input {
                ProverInput::Begin { parameters: begun, .. } => (parameters, given) = (Some(*begun), [1, 0, 0]),
                ProverInput::Points { .. } => given[1] += 1,
                ProverInput::Leaf { .. } => given[2] += 1,
            }
            assert!(given.iter().all(|&count| count <= 1), "at most one response and one opening between two starts");
            assert_eq!(effect.work, cleared(&call.lent.work, &parameters.expect("begun")));
        }
    }
    assert_numbers(&counts, &[0, 1, 2, 3, 4, 11, 12, 13, 14]);
}

#[test]
fn verifier_scripts() {
    let mut random = Random::new(61);
    let mut counts = Counts::new();
    for _ in 0..60 {
        let mut verifier = Verifier::default();
        let mut parameters = None;
        for call in verifier_script(&mut random, SIZE, 60) {
            let before = verifier.clone();
            let effect = call.make(&mut verifier);
            *counts.entry(effect.number).or_default() += 1;
            match &call {
                VerifierCall::Begin { parameters: begun, .. } if effect.number == 0 => parameters = Some(*begun),
                VerifierCall::Opening { lent, .. } if [0, 5, 7].contains(&effect.number) => {
                    assert_eq!(effect.work, cleared(&lent.work, &parameters.expect("begun")));
                }
                VerifierCall::Opening { lent, .. } => assert_eq!(effect.work, lent.work),
                _ => (),
            }
            if ![0, 5, 7].contains(&effect.number) {
                assert_eq!(verifier, before);
            }
        }
    }
    assert_numbers(&counts, &[0, 1, 2, 4, 5, 7, 11, 12, 14]);
}

/// Asserts that just the parts of the runs whose leaves differ are written.
fn assert_parts(call: &ExtractorCall, differences: &[u8], output: &[u8]) {
    let length = call.parameters.states_bytes();
    for (run, difference) in differences.iter().enumerate() {
        let place = run * length..(run + 1) * length;
        assert_eq!(output[place.clone()] == call.output[place], *difference == 0);
    }
}

#[test]
fn extractor_calls() {
    let mut random = Random::new(62);
    let mut counts = Counts::new();
    for _ in 0..400 {
        let call = extractor_call(&mut random, SIZE);
        let (answer, work, output) = call.make();
        let number = match answer {
            Answer::Refused(number) => number,
            Answer::Extracted { run, axis } => {
                let differences: Vec<u8> =
                    call.first.leaves.iter().zip(&call.second.leaves).map(|(a, b)| a ^ b).collect();
                let (lowest, difference) = differences.iter().enumerate().find(|(_, bits)| **bits != 0).expect("9");
                assert_eq!((usize::from(run), u32::from(axis)), (lowest, difference.trailing_zeros() + 1));
                assert_parts(&call, &differences, &output);
                CARRIED_OUT
            }
            Answer::Unequal { .. } => panic!("two strings with one digest: {call:?}"),
        };
        *counts.entry(number).or_default() += 1;
        let used = [0, 5, 7].contains(&number);
        let expected = if used { cleared(&call.lent.work, &call.parameters) } else { call.lent.work.clone() };
        assert_eq!(work, expected);
        assert_eq!(output == call.output, number != CARRIED_OUT);
    }
    assert_numbers(&counts, &[0, 1, 2, 4, 5, 7, 8, 9, 14]);
}

/// How often each case was met.
type Cases = BTreeMap<&'static str, usize>;

/// Asserts that each of these cases was met so many times at least.
fn assert_met(met: &Cases, times: usize, cases: &[&str]) {
    for case in cases {
        assert!(met.get(case).is_some_and(|&found| found >= times), "{case}: {met:?}");
    }
}

/// Whether two points of some run are equal in three of their four bytes and no two in all.
fn nearly_repeats(set: &Parameters, message_2: &[u8]) -> bool {
    let near = |a: &Point, b: &Point| a.0.iter().zip(&b.0).filter(|(a, b)| a == b).count() == 3;
    let any_near = |run: &Challenge| run.points.iter().any(|a| run.points.iter().any(|b| near(a, b)));
    check_points(set, message_2).is_ok() && challenges(set, message_2).iter().any(any_near)
}

/// What a points call with this message 2 met, by the number that it got. The message has its length for some run count.
fn points_case(set: &Parameters, message_2: &[u8], number: Number) -> Option<&'static str> {
    let whole = message_2.len().is_multiple_of(set.challenge_bytes());
    let repeats = whole && check_points(set, message_2).is_err();
    match number {
        POINT_REPEATED => Some("14"),
        WRONG_LENGTH if repeats => Some("2 before 14"),
        NOT_DUE if repeats => Some("11 before 14"),
        CLOSED if repeats => Some("12 before 14"),
        CARRIED_OUT if nearly_repeats(set, message_2) => Some("three bytes"),
        _ => None,
    }
}

#[test]
fn prover_scripts_repeat_points() {
    let mut random = Random::new(63);
    let mut met = Cases::new();
    for _ in 0..200 {
        let (mut prover, mut set) = (Prover::default(), None);
        for call in prover_script(&mut random, SIZE, 40) {
            let number = call.make(&mut prover).number;
            match (&call.input, set) {
                (ProverInput::Begin { parameters, .. }, _) if number == CARRIED_OUT => set = Some(*parameters),
                (ProverInput::Points { message_2 }, Some(set)) => {
                    if let Some(case) = points_case(&set, message_2, number) {
                        *met.entry(case).or_default() += 1;
                    }
                }
                _ => (),
            }
        }
    }
    assert_met(&met, 20, &["14", "2 before 14", "three bytes"]);
    assert_met(&met, 1, &["11 before 14", "12 before 14"]);
}

#[test]
fn verifier_scripts_repeat_points() {
    let mut random = Random::new(64);
    let mut met = Cases::new();
    for _ in 0..200 {
        let (mut verifier, mut set) = (Verifier::default(), None);
        for call in verifier_script(&mut random, SIZE, 60) {
            let number = call.make(&mut verifier).number;
            match (&call, set) {
                (VerifierCall::Begin { parameters, .. }, _) if number == CARRIED_OUT => set = Some(*parameters),
                (VerifierCall::Points { message_2 }, Some(set)) => {
                    if let Some(case) = points_case(&set, message_2, number) {
                        *met.entry(case).or_default() += 1;
                    }
                }
                _ => (),
            }
        }
    }
    assert_met(&met, 20, &["14", "2 before 14", "three bytes"]);
    assert_met(&met, 1, &["11 before 14", "12 before 14"]);
}

/// What stands behind 14 in a call that got it.
fn hidden_cases(call: &ExtractorCall) -> Vec<&'static str> {
    let (set, first, second) = (&call.parameters, &call.first, &call.second);
    let apart = [&first.message_1, &first.message_2, &first.message_3]
        != [&second.message_1, &second.message_2, &second.message_3];
    let beyond = [first, second].iter().any(|exchange| set.check_leaves(&exchange.leaves).is_err());
    let repeats = [first, second].map(|exchange| check_points(set, &exchange.message_2).is_err());
    let cases = [
        ("first", repeats == [true, false]),
        ("second", repeats == [false, true]),
        ("both", repeats == [true, true]),
        ("14 before 4", beyond),
        ("14 before 8", apart),
        ("14 before 9", !apart && first.leaves == second.leaves),
        ("14 alone", !apart && !beyond && first.leaves != second.leaves),
    ];
    cases.into_iter().filter(|(_, met)| *met).map(|(case, _)| case).collect()
}

#[test]
fn extractor_calls_repeat_points() {
    let mut random = Random::new(65);
    let mut met = Cases::new();
    for _ in 0..2000 {
        let call = extractor_call(&mut random, Size { greatest_m: 5, greatest_axes: 2 });
        let lengths = [&call.first, &call.second].map(|exchange| exchange.message_2.len());
        let cases = match call.make().0 {
            Answer::Refused(POINT_REPEATED) => hidden_cases(&call),
            Answer::Refused(WRONG_LENGTH) if lengths == [call.parameters.message_2_bytes(call.runs); 2] => {
                let repeats =
                    [&call.first, &call.second].map(|e| check_points(&call.parameters, &e.message_2).is_err());
                if repeats == [false, false] {
                    vec![]
                } else {
                    vec!["2 before 14"]
                }
            }
            Answer::Extracted { .. } if nearly_repeats(&call.parameters, &call.first.message_2) => vec!["three bytes"],
            _ => vec![],
        };
        cases.into_iter().for_each(|case| *met.entry(case).or_default() += 1);
    }
    let behind = ["14 alone", "14 before 4", "14 before 8", "14 before 9"];
    assert_met(&met, 20, &["first", "second", "both", "2 before 14", "three bytes"]);
    assert_met(&met, 20, &behind);
}
