//! The calls of the samples made of the proved library.

use reference::extractor::Answer;
use reference::numbers::Number;
use reference::parameters::Parameters;
use reference::sampling::calls::{Effect, ExtractorCall, ProverCall, ProverInput, VerifierCall};
use reference::sampling::exchanges::Exchange;

/// The parameters as the C interface takes them.
pub fn set_of(p: &Parameters) -> [u64; unlock::SET_LENGTH] {
    [p.m, p.k, p.w, p.axes, p.t].map(|number| number as u64)
}

/// Makes a prover's call.
pub fn make_prover(call: &ProverCall, prover: &mut unlock::prover::Prover) -> Effect {
    let (mut work, mut output) = (call.lent.work.clone(), call.output.clone());
    let (matrix, y) = (&call.lent.matrix, &call.lent.y);
    let number = match &call.input {
        ProverInput::Begin { parameters: p, runs, x_a, salt, root } => {
            prover.begin(&set_of(p), *runs as u64, x_a, salt, root, matrix, y, &mut work, &mut output)
        }
        ProverInput::Points { message_2 } => prover.points(message_2, matrix, y, &mut work, &mut output),
        ProverInput::Leaf { leaves } => prover.leaf(leaves, matrix, y, &mut work, &mut output),
    };
    Effect { number, work, output }
}

/// Makes a verifier's call; a call without work area leaves an empty one.
pub fn make_verifier(call: &VerifierCall, verifier: &mut unlock::verifier::Verifier) -> Effect {
    let mut work = Vec::new();
    let number = match call {
        VerifierCall::Begin { parameters: p, runs, message_1 } => verifier.begin(&set_of(p), *runs as u64, message_1),
        VerifierCall::Points { message_2 } => verifier.points(message_2),
        VerifierCall::Response { message_3 } => verifier.response(message_3),
        VerifierCall::Leaf { leaves } => verifier.leaf(leaves),
        VerifierCall::Opening { message_5, lent } => {
            work.clone_from(&lent.work);
            verifier.opening(message_5, &lent.matrix, &lent.y, &mut work)
        }
    };
    Effect { number, work, output: Vec::new() }
}

/// The messages as the wrapper takes them.
pub fn messages(exchange: &Exchange) -> unlock::extractor::Messages<'_> {
    unlock::extractor::Messages {
        message_1: &exchange.message_1,
        message_2: &exchange.message_2,
        message_3: &exchange.message_3,
        leaves: &exchange.leaves,
        message_5: &exchange.message_5,
    }
}

/// Makes a call of the extractor: its answer, the work area and the output after it.
pub fn make_extractor(call: &ExtractorCall) -> (u32, Vec<u8>, Vec<u8>) {
    let (mut work, mut output) = (call.lent.work.clone(), call.output.clone());
    let (first, second) = (messages(&call.first), messages(&call.second));
    let (matrix, y) = (&call.lent.matrix, &call.lent.y);
    let (set, runs) = (set_of(&call.parameters), call.runs as u64);
    let answer = unlock::extractor::extract(&set, runs, first, second, matrix, y, &mut work, &mut output);
    (answer, work, output)
}

/// The extractor's answer as the C interface gives it.
pub fn answer_number(answer: Answer) -> u32 {
    match answer {
        Answer::Refused(number) => u32::from(number),
        Answer::Unequal { run, layer, number } => 65536 * u32::from(layer) + 256 * u32::from(run) + u32::from(number),
        Answer::Extracted { run, axis } => 256 * (u32::from(run) + 1) + u32::from(axis),
    }
}

/// The difference, unless what is asked holds.
pub fn require(holds: bool, difference: &str) -> Result<(), String> {
    if holds {
        Ok(())
    } else {
        Err(difference.to_string())
    }
}

/// The difference, unless a call answered the number that it must.
pub fn answers(found: Number, wanted: Number) -> Result<(), String> {
    require(found == wanted, &format!("number {found}, not {wanted}"))
}

/// What differs between two effects, if anything.
pub fn same(expected: &Effect, found: &Effect) -> Result<(), String> {
    require(expected.number == found.number, &format!("number {} for {}", found.number, expected.number))?;
    require(expected.output == found.output, "another output")?;
    require(expected.work == found.work, "another work area")
}
