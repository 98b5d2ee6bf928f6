//! No point twice (document 02, request 02): the points of a run differ pairwise at the prover's and the verifier's points and
//! at the extractor, 14 stands straight after 2, and multipliers and runs are free.

use reference::check::check;
use reference::extractor::Answer;
use reference::messages::part;
use reference::numbers::*;
use reference::parameters::Parameters;
use reference::prover::Prover;
use reference::sampling::calls::{Effect, ExtractorCall, LentBytes, ProverCall, ProverInput, VerifierCall};
use reference::sampling::exchanges::{honest_exchange, verdict, Exchange, Start};
use reference::sampling::keys::{any_key, valid_key, Key};
use reference::sampling::made_up::{any_leaves, with_repeated_point};
use reference::sampling::parameter_sets::sets_of_every_shape;
use reference::sampling::Random;
use reference::verifier::Verifier;

/// Eight positions, the most that there can be.
const SET: Parameters = Parameters::new(5, 2, 2, 2, 8);

const RUN_COUNTS: [usize; 3] = [1, 2, 5];

/// A key, and what an exchange starts with.
struct Sample {
    key: Key,
    start: Start,
    runs: usize,
}

impl Sample {
    fn new(set: Parameters, runs: usize) -> Sample {
        let mut random = Random::new(90 + runs as u64);
        let key = valid_key(&mut random, &set);
        let start = Start::random(&mut random, &set, runs);
        Sample { key, start, runs }
    }

    fn set(&self) -> Parameters {
        self.key.parameters
    }

    fn lent(&self) -> LentBytes {
        let work = vec![0xa5; self.set().work_bytes() + 3];
        LentBytes { matrix: self.key.matrix.clone(), y: self.key.y.clone(), work }
    }

    /// Message 2 with a change to a run's points.
    fn message_2(&self, run: usize, change: impl Fn(&mut [u8])) -> Vec<u8> {
        let mut message_2 = self.start.message_2.clone();
        let place = run * self.set().challenge_bytes();
        change(&mut message_2[place..place + self.set().challenge_bytes()]);
        message_2
    }

    /// Message 2 where two positions of a run have one point.
    fn repeated(&self, run: usize, first: usize, second: usize) -> Vec<u8> {
        self.message_2(run, |challenge| challenge.copy_within(4 * first..4 * first + 4, 4 * second))
    }

    /// Message 2 where two positions of a run have points that differ in one byte.
    fn nearly_repeated(&self, run: usize, first: usize, second: usize, byte: usize) -> Vec<u8> {
        self.message_2(run, |challenge| {
            challenge.copy_within(4 * first..4 * first + 4, 4 * second);
            challenge[4 * second + byte] ^= 0x10;
        })
    }

    fn begin(&self) -> ProverCall {
        let input = ProverInput::Begin {
            parameters: self.set(),
            runs: self.runs,
            x_a: self.key.x_a.clone(),
            salt: self.start.salt.to_vec(),
            root: self.start.root.to_vec(),
        };
        ProverCall { input, lent: self.lent(), output: vec![0x5a; Parameters::message_1_bytes(self.runs)] }
    }

    fn points(&self, message_2: &[u8]) -> ProverCall {
        let input = ProverInput::Points { message_2: message_2.to_vec() };
        ProverCall { input, lent: self.lent(), output: vec![0x5a; Parameters::message_3_bytes(self.runs)] }
    }

    fn leaf(&self) -> ProverCall {
        let leaves = vec![0; self.runs];
        let output = vec![0x5a; self.set().message_5_bytes(&leaves)];
        ProverCall { input: ProverInput::Leaf { leaves }, lent: self.lent(), output }
    }

    /// A prover whose points are due.
    fn prover(&self) -> Prover {
        let mut prover = Prover::default();
        assert_eq!(self.begin().make(&mut prover).number, CARRIED_OUT);
        prover
    }

    /// A verifier whose points are due.
    fn verifier(&self) -> Verifier {
        let mut verifier = Verifier::default();
        let message_1 = vec![7; Parameters::message_1_bytes(self.runs)];
        assert_eq!(verifier.begin(self.set(), self.runs, &message_1), CARRIED_OUT);
        verifier
    }

    /// The honest exchange with another message 2 that hides one leaf in every run.
    fn exchange(&self, message_2: &[u8], leaf: u8) -> Exchange {
        let start = Start { message_2: message_2.to_vec(), ..self.start.clone() };
        honest_exchange(&self.key, &start, &vec![leaf; self.runs])
    }

    /// The extractor's call for honest exchanges that hide leaves 0 and n−1 in every run.
    fn extractor(&self, message_2: &[u8]) -> ExtractorCall {
        let last = self.set().last_leaf() as u8;
        ExtractorCall {
            parameters: self.set(),
            runs: self.runs,
            first: self.exchange(message_2, 0),
            second: self.exchange(message_2, last),
            lent: self.lent(),
            output: vec![0x5a; self.set().extractor_bytes(self.runs)],
        }
    }
}

/// Every two positions of eight.
fn pairs_of_positions() -> impl Iterator<Item = (usize, usize)> {
    (0..8).flat_map(|second| (0..second).map(move |first| (first, second)))
}

/// Makes a call that must be refused and change nothing.
fn prover_refuses(prover: &mut Prover, call: &ProverCall, number: Number) {
    let before = prover.clone();
    let expected = Effect { number, work: call.lent.work.clone(), output: call.output.clone() };
    assert_eq!(call.make(prover), expected);
    assert_eq!(*prover, before);
}

fn verifier_refuses(verifier: &mut Verifier, message_2: &[u8], number: Number) {
    let before = verifier.clone();
    assert_eq!(verifier.points(message_2), number);
    assert_eq!(*verifier, before);
}

fn extractor_refuses(call: &ExtractorCall, number: Number) {
    let expected = (Answer::Refused(number), call.lent.work.clone(), call.output.clone());
    assert_eq!(call.make(), expected);
}

/// Asserts that a message 2 is taken at all three places and leads to acceptance.
fn assert_taken(sample: &Sample, message_2: &[u8]) {
    assert_eq!(sample.points(message_2).make(&mut sample.prover()).number, CARRIED_OUT);
    assert_eq!(sample.verifier().points(message_2), CARRIED_OUT);
    let call = sample.extractor(message_2);
    assert!(matches!(call.make().0, Answer::Extracted { run: 0, axis: 1 }));
    assert_eq!(verdict(&sample.set(), sample.key.public(), &call.second), CARRIED_OUT);
}

#[test]
fn every_two_positions_of_every_run_at_the_prover() {
    for runs in RUN_COUNTS {
        let sample = Sample::new(SET, runs);
        let mut prover = sample.prover();
        for run in 0..runs {
            for (first, second) in pairs_of_positions() {
                let message_2 = sample.repeated(run, first, second);
                prover_refuses(&mut prover, &sample.points(&message_2), POINT_REPEATED);
            }
        }
        assert_eq!(sample.points(&sample.start.message_2).make(&mut prover).number, CARRIED_OUT);
    }
}

#[test]
fn every_two_positions_of_every_run_at_the_verifier() {
    for runs in RUN_COUNTS {
        let sample = Sample::new(SET, runs);
        let mut verifier = sample.verifier();
        for run in 0..runs {
            for (first, second) in pairs_of_positions() {
                verifier_refuses(&mut verifier, &sample.repeated(run, first, second), POINT_REPEATED);
            }
        }
        assert_eq!(verifier.points(&sample.start.message_2), CARRIED_OUT);
    }
}

/// In the first exchange alone, in the second alone, and in both: messages 2 that differ would else give 8.
#[test]
fn every_two_positions_of_every_run_at_the_extractor() {
    for runs in RUN_COUNTS {
        let sample = Sample::new(SET, runs);
        let honest = sample.extractor(&sample.start.message_2);
        for run in 0..runs {
            for (first, second) in pairs_of_positions() {
                let message_2 = sample.repeated(run, first, second);
                let mut both = honest.clone();
                both.first.message_2.clone_from(&message_2);
                let mut other = honest.clone();
                other.second.message_2.clone_from(&message_2);
                extractor_refuses(&both, POINT_REPEATED);
                extractor_refuses(&other, POINT_REPEATED);
                both.second.message_2 = message_2;
                extractor_refuses(&both, POINT_REPEATED);
            }
        }
    }
}

/// Three or more equal points are no less repeated than two, nor are points that are all zero.
#[test]
fn points_that_are_all_equal() {
    let sample = Sample::new(SET, 2);
    for byte in [0, 1, 255] {
        let message_2 = sample.message_2(1, |challenge| challenge[..32].fill(byte));
        prover_refuses(&mut sample.prover(), &sample.points(&message_2), POINT_REPEATED);
        verifier_refuses(&mut sample.verifier(), &message_2, POINT_REPEATED);
    }
}

/// Each of the four bytes may be the one that differs.
#[test]
fn points_equal_in_three_bytes_are_taken() {
    for runs in RUN_COUNTS {
        let sample = Sample::new(SET, runs);
        for byte in 0..4 {
            for (first, second) in [(0, 1), (0, 7), (2, 5), (6, 7)] {
                assert_taken(&sample, &sample.nearly_repeated(runs - 1, first, second, byte));
            }
            for (first, second) in pairs_of_positions() {
                let message_2 = sample.nearly_repeated(0, first, second, byte);
                assert_eq!(sample.verifier().points(&message_2), CARRIED_OUT);
            }
        }
    }
}

#[test]
fn runs_may_have_the_same_points() {
    for runs in [2, 5] {
        let sample = Sample::new(SET, runs);
        let challenge = part(&sample.start.message_2, 0, SET.challenge_bytes());
        assert_taken(&sample, &challenge.repeat(runs));
        let turned = |challenge: &mut [u8]| challenge[..32].copy_from_slice(&sample.start.message_2[..32]);
        assert_taken(&sample, &sample.message_2(runs - 1, turned));
    }
}

#[test]
fn multipliers_may_repeat_and_equal_points() {
    let sample = Sample::new(SET, 2);
    for run in 0..2 {
        assert_taken(&sample, &sample.message_2(run, |challenge| challenge[32..].fill(0)));
        assert_taken(&sample, &sample.message_2(run, |challenge| challenge.copy_within(32..36, 60)));
        assert_taken(&sample, &sample.message_2(run, |challenge| challenge.copy_within(..32, 32)));
        assert_taken(&sample, &sample.message_2(run, |challenge| challenge.copy_within(28..32, 32)));
        assert_taken(&sample, &sample.message_2(run, |challenge| challenge.copy_within(..4, 60)));
    }
}

/// One point a run repeats none, not even that of another run or the multiplier.
#[test]
fn one_position_never_gives_14() {
    let sample = Sample::new(Parameters { t: 1, ..SET }, 3);
    for byte in [0, 1, 255] {
        assert_taken(&sample, &[byte; 24]);
    }
}

#[test]
fn wrong_lengths_come_before_14_at_the_prover() {
    let sample = Sample::new(SET, 2);
    let repeated = sample.repeated(0, 2, 6);
    let mut prover = sample.prover();
    let changes: [fn(&mut ProverCall); 6] = [
        |call| call.lent.matrix.push(0),
        |call| call.lent.y.clear(),
        |call| call.lent.work.truncate(SET.work_bytes() - 1),
        |call| call.output.push(0),
        |call| call.input = ProverInput::Points { message_2: vec![0; 127] },
        |call| call.input = ProverInput::Points { message_2: vec![0; 192] },
    ];
    for change in changes {
        let mut call = sample.points(&repeated);
        change(&mut call);
        prover_refuses(&mut prover, &call, WRONG_LENGTH);
    }
    prover_refuses(&mut prover, &sample.points(&repeated), POINT_REPEATED);
}

#[test]
fn wrong_lengths_come_before_14_at_the_verifier() {
    let sample = Sample::new(SET, 2);
    let mut verifier = sample.verifier();
    for length in [4, 8, 64, 127, 129, 192] {
        verifier_refuses(&mut verifier, &vec![0; length], WRONG_LENGTH);
    }
    verifier_refuses(&mut verifier, &[0; 128], POINT_REPEATED);
}

/// 11 before the first begin and where another call is due, 12 once closed.
#[test]
fn state_comes_before_14() {
    let sample = Sample::new(SET, 2);
    let honest = &sample.start.message_2;
    let repeated = sample.repeated(1, 0, 1);
    let mut prover = Prover::default();
    prover_refuses(&mut prover, &sample.points(&repeated), NOT_DUE);
    prover = sample.prover();
    assert_eq!(sample.points(honest).make(&mut prover).number, CARRIED_OUT);
    prover_refuses(&mut prover, &sample.points(&repeated), NOT_DUE);
    assert_eq!(sample.leaf().make(&mut prover).number, CARRIED_OUT);
    prover_refuses(&mut prover, &sample.points(&repeated), CLOSED);
    let mut verifier = Verifier::default();
    verifier_refuses(&mut verifier, &repeated, NOT_DUE);
    for call in verifier_calls(&sample, &sample.exchange(honest, 0)) {
        assert_eq!(call.make(&mut verifier).number, CARRIED_OUT);
        let number = match call {
            VerifierCall::Begin { .. } => POINT_REPEATED,
            VerifierCall::Opening { .. } => CLOSED,
            _ => NOT_DUE,
        };
        verifier_refuses(&mut verifier, &repeated, number);
    }
}

/// The verifier's five calls on an exchange.
fn verifier_calls(sample: &Sample, exchange: &Exchange) -> [VerifierCall; 5] {
    let (parameters, runs) = (sample.set(), sample.runs);
    [
        VerifierCall::Begin { parameters, runs, message_1: exchange.message_1.clone() },
        VerifierCall::Points { message_2: exchange.message_2.clone() },
        VerifierCall::Response { message_3: exchange.message_3.clone() },
        VerifierCall::Leaf { leaves: exchange.leaves.clone() },
        VerifierCall::Opening { message_5: exchange.message_5.clone(), lent: sample.lent() },
    ]
}

/// An exchange that would be accepted gets 14 at its points for nothing but its points, and no later call is due.
#[test]
fn made_up_exchanges_with_repeated_points() {
    let mut random = Random::new(97);
    for set in sets_of_every_shape(&mut random, 6) {
        let key = any_key(&mut random, &set);
        let leaves = any_leaves(&mut random, &set, 2);
        let Some(exchange) = with_repeated_point(&mut random, &key, &leaves) else {
            assert_eq!(set.t, 1);
            continue;
        };
        assert!(check(&set, key.public(), &exchange.messages()).is_ok());
        let sample = Sample { start: Start::random(&mut random, &set, 2), key, runs: 2 };
        let mut verifier = Verifier::default();
        let numbers = verifier_calls(&sample, &exchange).map(|call| call.make(&mut verifier).number);
        assert_eq!(numbers, [CARRIED_OUT, POINT_REPEATED, NOT_DUE, NOT_DUE, NOT_DUE]);
    }
}

/// A change that damages a call of the extractor.
type Change = fn(&mut ExtractorCall);

/// Faults that stand behind 14 in the order, each with its number.
const LATER_FAULTS: [(Number, Change); 9] = [
    (LEAF_NOT_BELOW_N, |call| call.first.leaves[0] = 4),
    (LEAF_NOT_BELOW_N, |call| call.first.leaves[1] = 255),
    (EXCHANGES_DIFFER, |call| call.first.message_1[0] ^= 1),
    (EXCHANGES_DIFFER, |call| call.second.message_2[32] ^= 1),
    (EXCHANGES_DIFFER, |call| call.second.message_3[63] ^= 1),
    (SAME_HIDDEN_LEAVES, |call| call.second = call.first.clone()),
    (COMMITMENT_DIFFERS, |call| call.first.message_5[0] ^= 1),
    (COMMITMENT_DIFFERS, |call| call.second.message_5[32] ^= 1),
    (RESPONSE_DIFFERS, |call| call.second.message_5[64] ^= 1),
];

/// Faults that stand before 14 in the order, each with its number.
const EARLIER_FAULTS: [(Number, Change); 10] = [
    (PARAMETER_OUTSIDE_LIMITS, |call| call.parameters.t = 9),
    (PARAMETER_OUTSIDE_LIMITS, |call| call.runs = 33),
    (WRONG_LENGTH, |call| call.runs = 1),
    (WRONG_LENGTH, |call| call.first.message_2.truncate(64)),
    (WRONG_LENGTH, |call| call.second.message_2.push(0)),
    (WRONG_LENGTH, |call| call.second.message_5.push(0)),
    (WRONG_LENGTH, |call| call.second.leaves[0] = 4),
    (WRONG_LENGTH, |call| call.lent.y.push(0)),
    (WRONG_LENGTH, |call| call.lent.work.truncate(SET.work_bytes() - 1)),
    (WRONG_LENGTH, |call| call.output.truncate(SET.states_bytes())),
];

/// The call with the points of a run repeated in the first exchange, in the second and in both.
fn with_repeats(call: &ExtractorCall) -> [ExtractorCall; 3] {
    [[true, false], [false, true], [true, true]].map(|[first, second]| {
        let mut call = call.clone();
        for (exchange, _) in [(&mut call.first, first), (&mut call.second, second)].into_iter().filter(|(_, is)| *is) {
            exchange.message_2.copy_within(..4, 28);
        }
        call
    })
}

#[test]
fn extractor_answers_14_before_4_8_9_5_and_7() {
    let sample = Sample::new(SET, 2);
    let honest = sample.extractor(&sample.start.message_2);
    for (number, change) in LATER_FAULTS {
        let mut call = honest.clone();
        change(&mut call);
        assert_eq!(call.make().0, Answer::Refused(number));
        for call in with_repeats(&call) {
            extractor_refuses(&call, POINT_REPEATED);
        }
    }
}

#[test]
fn extractor_answers_1_and_2_before_14() {
    let sample = Sample::new(SET, 2);
    for mut call in with_repeats(&sample.extractor(&sample.start.message_2)) {
        extractor_refuses(&call, POINT_REPEATED);
        call.lent.matrix[0] ^= 1;
        for (number, change) in EARLIER_FAULTS {
            let mut call = call.clone();
            change(&mut call);
            extractor_refuses(&call, number);
        }
    }
}

/// Where message 2 starts in a prover's session: behind phase, parameters, run count, x, salt and root.
const PROVER_MESSAGE_2: usize = 7 + 255 + 32 + 16;
/// Where message 2 starts in a verifier's session: behind phase, parameters, run count and message 1.
const VERIFIER_MESSAGE_2: usize = 7 + 1056;

/// 14 comes at the points alone: a session that was damaged to hold equal points is not looked at for them.
#[test]
fn points_that_are_held_are_not_checked() {
    let sample = Sample::new(SET, 2);
    let honest = sample.exchange(&sample.start.message_2, 0);
    let repeated = sample.repeated(1, 3, 4);
    let mut prover = sample.prover();
    assert_eq!(sample.points(&honest.message_2).make(&mut prover).number, CARRIED_OUT);
    let mut session = prover.to_bytes();
    session[PROVER_MESSAGE_2..PROVER_MESSAGE_2 + repeated.len()].copy_from_slice(&repeated);
    assert_eq!(sample.leaf().make(&mut Prover::from_bytes(&session)).number, CARRIED_OUT);
    let calls = verifier_calls(&sample, &honest);
    let mut verifier = Verifier::default();
    for (done, call) in calls.iter().enumerate() {
        let mut session = verifier.to_bytes();
        session[VERIFIER_MESSAGE_2..VERIFIER_MESSAGE_2 + repeated.len()].copy_from_slice(&repeated);
        let number = call.make(&mut Verifier::from_bytes(&session)).number;
        assert_eq!(number, if done == 4 { RESPONSE_DIFFERS } else { CARRIED_OUT });
        assert_eq!(call.make(&mut verifier).number, CARRIED_OUT);
    }
}
