//! No point twice (document 02, request 02): message 2 with points that repeat, that nearly do and that may, at the prover, the
//! verifier and the extractor, with eight positions. Every call is held to the second implementation and to the number that
//! it must answer.

mod order;

use crate::count::Count;
use crate::effects::{answers, require};
use crate::{extractor, prover, verifier};
use reference::extractor::Answer;
use reference::numbers::{Number, CARRIED_OUT, POINT_REPEATED};
use reference::parameters::Parameters;
use reference::prover::Prover;
use reference::sampling::calls::{ExtractorCall, ProverCall, ProverInput, VerifierCall};
use reference::sampling::exchanges::{honest_exchange, Start};
use reference::sampling::keys::{valid_key, Key};
use reference::sampling::Random;
use reference::verifier::Verifier;

/// Eight positions, the most that there can be.
const SET: Parameters = Parameters::new(4, 2, 2, 2, 8);

/// The run counts, in each of whose runs points repeat.
const RUNS: [usize; 3] = [1, 2, 32];

/// The bytes of the points of a run.
const POINTS: usize = 32;

/// Every two of the eight positions.
fn pairs_of_positions() -> impl Iterator<Item = (usize, usize)> {
    (0..8).flat_map(|second| (0..second).map(move |first| (first, second)))
}

/// A session of both implementations.
type Sessions<Expected, Found> = (Expected, Found);

/// An exchange of a key: its calls at all three places, and the sessions whose points are due.
struct Sample {
    key: Key,
    start: Start,
    runs: usize,
    prover_calls: Vec<ProverCall>,
    verifier_calls: Vec<VerifierCall>,
    extractor_call: ExtractorCall,
    prover: Sessions<Prover, unlock::prover::Prover>,
    verifier: Sessions<Verifier, unlock::verifier::Verifier>,
}

/// The extractor's call for openings that hide leaf 0 and leaf n−1 in every run.
fn extracting_call(random: &mut Random, key: &Key, start: &Start, runs: usize) -> ExtractorCall {
    let [first, second] = [0, SET.last_leaf() as u8].map(|leaf| honest_exchange(key, start, &vec![leaf; runs]));
    extractor::call(random, key, first, second)
}

impl Sample {
    fn new(random: &mut Random, runs: usize, count: &mut Count) -> Result<Sample, String> {
        let key = valid_key(random, &SET);
        let start = Start::random(random, &SET, runs);
        let extractor_call = extracting_call(random, &key, &start, runs);
        let mut sample = Sample {
            prover_calls: prover::calls(random, &key, start.clone(), &vec![0; runs]),
            verifier_calls: verifier::calls(random, &key, &extractor_call.first),
            prover: (Prover::default(), unlock::prover::Prover::new()),
            verifier: (Verifier::default(), unlock::verifier::Verifier::new()),
            key,
            start,
            runs,
            extractor_call,
        };
        let (expected, found) = &mut sample.prover;
        prover::compare_one(&sample.prover_calls[0], expected, found, count)?;
        let (expected, found) = &mut sample.verifier;
        verifier::compare_one(&sample.verifier_calls[0], expected, found, count)?;
        Ok(sample)
    }

    /// Message 2 with a change to the points and multipliers of a run.
    fn message_2(&self, run: usize, change: impl Fn(&mut [u8])) -> Vec<u8> {
        let mut message_2 = self.start.message_2.clone();
        let length = SET.challenge_bytes();
        change(&mut message_2[run * length..(run + 1) * length]);
        message_2
    }

    /// Message 2 with the point of a position at another one too.
    fn repeated(&self, run: usize, first: usize, second: usize) -> Vec<u8> {
        self.message_2(run, |challenge| challenge.copy_within(4 * first..4 * first + 4, 4 * second))
    }

    /// Message 2 with the point of a position at another one too, but for one byte.
    fn nearly_repeated(&self, run: usize, first: usize, second: usize, byte: usize) -> Vec<u8> {
        self.message_2(run, |challenge| {
            challenge.copy_within(4 * first..4 * first + 4, 4 * second);
            challenge[4 * second + byte] ^= 1 << ((first + byte + run) % 8);
        })
    }

    fn points_call(&self, message_2: &[u8]) -> ProverCall {
        ProverCall { input: ProverInput::Points { message_2: message_2.to_vec() }, ..self.prover_calls[1].clone() }
    }

    /// Points of the prover, with a call that fits or not.
    fn prover_answers(&self, call: &ProverCall, wanted: Number, count: &mut Count) -> Result<(), String> {
        let (mut expected, mut found) = self.prover.clone();
        answers(prover::compare_one(call, &mut expected, &mut found, count)?, wanted)
    }

    /// Points of the verifier.
    fn verifier_answers(&self, message_2: &[u8], wanted: Number, count: &mut Count) -> Result<(), String> {
        let (mut expected, mut found) = self.verifier.clone();
        let call = VerifierCall::Points { message_2: message_2.to_vec() };
        answers(verifier::compare_one(&call, &mut expected, &mut found, count)?, wanted)
    }

    /// Both sessions and the extractor refuse a message 2 with 14: in the first exchange, in the second and in both.
    fn refuse(&self, message_2: &[u8], name: &str, count: &mut Count) {
        let outcome = self.prover_answers(&self.points_call(message_2), POINT_REPEATED, count);
        count.settle(&format!("prover, {name}"), outcome);
        let outcome = self.verifier_answers(message_2, POINT_REPEATED, count);
        count.settle(&format!("verifier, {name}"), outcome);
        let repeat = |given: &mut Vec<u8>| *given = message_2.to_vec();
        for (place, call) in in_either(&self.extractor_call, repeat).iter().enumerate() {
            let outcome = refused(call, POINT_REPEATED, count);
            count.settle(&format!("extractor, {name}, case {place}"), outcome);
        }
    }

    /// Both sessions and the extractor take a message 2.
    fn take(&self, random: &mut Random, message_2: &[u8], name: &str, count: &mut Count) {
        let outcome = self.prover_answers(&self.points_call(message_2), CARRIED_OUT, count);
        count.settle(&format!("prover, {name}"), outcome);
        let outcome = self.verifier_answers(message_2, CARRIED_OUT, count);
        count.settle(&format!("verifier, {name}"), outcome);
        let start = Start { message_2: message_2.to_vec(), ..self.start.clone() };
        let outcome = extractor::compare(&extracting_call(random, &self.key, &start, self.runs), count)
            .and_then(|answer| require(answer == Answer::Extracted { run: 0, axis: 1 }, &format!("{answer:?}")));
        count.settle(&format!("extractor, {name}"), outcome);
    }
}

/// The call with a change to message 2 of the first exchange, of the second and of both.
fn in_either(call: &ExtractorCall, change: impl Fn(&mut Vec<u8>)) -> [ExtractorCall; 3] {
    let [mut first, mut second, mut both] = [(); 3].map(|()| call.clone());
    for exchange in [&mut first.first, &mut second.second, &mut both.first, &mut both.second] {
        change(&mut exchange.message_2);
    }
    [first, second, both]
}

/// The extractor refuses a call with a number.
fn refused(call: &ExtractorCall, wanted: Number, count: &mut Count) -> Result<(), String> {
    let answer = extractor::compare(call, count)?;
    require(answer == Answer::Refused(wanted), &format!("{answer:?}, not {wanted}"))
}

/// Every two positions of every run with one point.
fn repeated(sample: &Sample, count: &mut Count) {
    for run in 0..sample.runs {
        for (first, second) in pairs_of_positions() {
            let name = format!("positions {first} and {second} of run {run} of {}", sample.runs);
            sample.refuse(&sample.repeated(run, first, second), &name, count);
        }
        let all = sample.message_2(run, |challenge| challenge[..POINTS].fill(run as u8));
        sample.refuse(&all, &format!("all points of run {run} of {}", sample.runs), count);
    }
}

/// Points that are equal in three bytes, whichever is the fourth: every two positions of a single run, and in several runs
/// two of each.
fn nearly_repeated(random: &mut Random, sample: &Sample, count: &mut Count) {
    for byte in 0..4 {
        let single = pairs_of_positions().map(|(first, second)| (0, first, second));
        let several = (0..sample.runs).filter(|run| run % 4 == byte).map(|run| (run, run % 7, 7));
        let places: Vec<_> = if sample.runs == 1 { single.collect() } else { several.collect() };
        for (run, first, second) in places {
            let message_2 = sample.nearly_repeated(run, first, second, byte);
            let name = format!("positions {first} and {second} of run {run} of {} apart in byte {byte}", sample.runs);
            sample.take(random, &message_2, &name, count);
        }
    }
}

/// A change to the points and multipliers of a run.
type Change<'a> = &'a dyn Fn(&mut [u8]);

/// What may repeat, in the last run: multipliers, a point as a multiplier, and the points of another run.
fn allowed(random: &mut Random, sample: &Sample, count: &mut Count) {
    let first_run = &sample.start.message_2[..SET.challenge_bytes()];
    let run = sample.runs - 1;
    let changes: [(&str, Change); 6] = [
        ("multipliers of zeros", &|challenge| challenge[POINTS..].fill(0)),
        ("two equal multipliers", &|challenge| challenge.copy_within(POINTS + 4..POINTS + 8, POINTS + 24)),
        ("multipliers equal to the points", &|challenge| challenge.copy_within(..POINTS, POINTS)),
        ("the last point as the first multiplier", &|challenge| challenge.copy_within(28..POINTS, POINTS)),
        ("the points of run 0", &|challenge| challenge[..POINTS].copy_from_slice(&first_run[..POINTS])),
        ("points and multipliers of run 0", &|challenge| challenge.copy_from_slice(first_run)),
    ];
    for (name, change) in changes {
        let name = format!("{name} in run {run} of {}", sample.runs);
        sample.take(random, &sample.message_2(run, change), &name, count);
    }
    sample.take(random, &first_run.repeat(sample.runs), &format!("{} equal runs", sample.runs), count);
}

/// One position: nothing repeats, whatever the points and multipliers are.
fn one_position(random: &mut Random, count: &mut Count) {
    let set = Parameters { t: 1, ..SET };
    let key = valid_key(random, &set);
    for runs in RUNS {
        let message_2 = vec![runs as u8; set.message_2_bytes(runs)];
        let start = Start { message_2, ..Start::random(random, &set, runs) };
        let exchange = honest_exchange(&key, &start, &vec![0; runs]);
        let calls = verifier::calls(random, &key, &exchange);
        let numbers = verifier::compare(&calls, unlock::verifier::Verifier::new(), count);
        let outcome = numbers.and_then(|numbers| require(numbers == [CARRIED_OUT; 5], &format!("{numbers:?}")));
        count.settle(&format!("verifier of one position, {runs} equal runs"), outcome);
        let mut sessions = (Prover::default(), unlock::prover::Prover::new());
        for call in prover::calls(random, &key, start, &vec![0; runs]) {
            let name = format!("prover of one position, {runs} equal runs");
            order::prover_step(&mut sessions, (&call, CARRIED_OUT), &name, count);
        }
    }
}

/// All cases, of one, two and 32 runs.
pub fn compare(seed: u64, count: &mut Count) {
    let mut random = Random::new(seed ^ 0x9014);
    for runs in RUNS {
        match Sample::new(&mut random, runs, count) {
            Err(difference) => count.settle(&format!("begin of {runs} runs"), Err(difference)),
            Ok(sample) => {
                repeated(&sample, count);
                nearly_repeated(&mut random, &sample, count);
                allowed(&mut random, &sample, count);
                order::prover_goes_on(&sample, count);
                order::verifier_goes_on(&sample, count);
                order::held_points(&sample, count);
                order::lengths_first(&sample, count);
                order::extractor_order(&sample, count);
            }
        }
    }
    one_position(&mut random, count);
}
