//! The verifier's session: one call after another on one session, carried out and refused.

use crate::antt::{list, parameters, public_key, record, Module};
use crate::sample::{changed, Part, Sample, WORK};
use reference::parameters::Parameters;
use reference::runs::GREATEST_RUNS;
use reference::sampling::calls::{LentBytes, VerifierCall};
use reference::sampling::exchanges::Exchange;
use reference::verifier::Verifier;

const USES: [(&str, &[&str]); 2] = [
    (
        "Rattle.calls.specs.Verifier",
        &["Verifier", "Outcome", "Judged", "fresh", "begin", "points", "response", "leaf", "opening"],
    ),
    ("Rattle.test_calls.specs.Definitions", &["definitions"]),
];

/// A session, the term for it, and how many calls were made on it so far.
struct Script {
    module: Module,
    session: Verifier,
    term: String,
    made: usize,
}

impl Script {
    /// Names the session with leaf n in place of the second leaf that it holds, and goes on from it.
    fn damage(&mut self, set: &Parameters) {
        let mut session = self.session.to_bytes();
        let place = session.len() - GREATEST_RUNS;
        session[place + 1] = set.leaves() as u8;
        self.session = Verifier::from_bytes(&session);
        let held = |field| (field, format!("call{}.verifier.{field}", self.made));
        let fields = ["phase", "parameters", "runs", "message1", "message2", "message3"].map(held);
        let term = record(&[&fields[..], &[("leaves", list(&session[place..]))]].concat());
        self.module.comment("the session with leaf n in run 1, which no call made");
        self.module.value("damaged", "Verifier", &term);
        self.term = "damaged".into();
    }

    /// The call on the session.
    fn term(&self, call: &VerifierCall) -> String {
        let (module, session) = (&self.module, &self.term);
        match call {
            VerifierCall::Begin { parameters: set, runs, message_1 } => {
                format!("begin {session} {} {runs} {}", module.argument(&parameters(set)), module.list(message_1))
            }
            VerifierCall::Points { message_2 } => format!("points {session} {}", module.list(message_2)),
            VerifierCall::Response { message_3 } => format!("response {session} {}", module.list(message_3)),
            VerifierCall::Leaf { leaves } => format!("leaf {session} {}", module.list(leaves)),
            VerifierCall::Opening { message_5, lent } => {
                let key = module.argument(&public_key(&lent.matrix, &lent.y));
                format!("opening stand_in {session} {} {key} {}", module.list(message_5), module.list(&lent.work))
            }
        }
    }

    /// Makes a call and states what it gives.
    fn make(&mut self, label: &str, call: &VerifierCall) {
        let effect = call.make(&mut self.session);
        self.made += 1;
        let name = format!("call{}", self.made);
        let term = self.term(call);
        self.term = format!("{name}.verifier");
        let kind = if matches!(call, VerifierCall::Opening { .. }) { "Judged" } else { "Outcome" };
        self.module.comment(&format!("{name}: {label}"));
        self.module.value(&name, kind, &term);
        let number = effect.number;
        let fact = format!("{name}-gives");
        if kind == "Judged" {
            let expected = format!("({number} ∷ []) ∷ {} ∷ []", list(&effect.work));
            let computed = format!("({name}.answer ∷ []) ∷ {name}.work ∷ []");
            self.module.fact(&fact, &computed, &expected);
        } else {
            self.module.fact(&fact, &format!("{name}.answer"), &number.to_string());
        }
    }

    /// Makes the five calls of an exchange.
    fn exchange(&mut self, sample: &Sample, label: &str, exchange: &Exchange) {
        let names = ["begin", "points", "response", "leaf", "opening"];
        for (name, call) in names.into_iter().zip(five_calls(sample, exchange)) {
            self.make(&format!("{name}; {label}"), &call);
        }
    }
}

/// What the opening is lent: a work area longer than its named length.
fn lent(sample: &Sample) -> LentBytes {
    let work = vec![WORK; sample.key.parameters.work_bytes() + 2];
    LentBytes { matrix: sample.key.matrix.clone(), y: sample.key.y.clone(), work }
}

/// The five calls of an exchange.
fn five_calls(sample: &Sample, exchange: &Exchange) -> [VerifierCall; 5] {
    [
        VerifierCall::Begin {
            parameters: sample.key.parameters,
            runs: sample.runs(),
            message_1: exchange.message_1.clone(),
        },
        VerifierCall::Points { message_2: exchange.message_2.clone() },
        VerifierCall::Response { message_3: exchange.message_3.clone() },
        VerifierCall::Leaf { leaves: exchange.leaves.clone() },
        VerifierCall::Opening { message_5: exchange.message_5.clone(), lent: lent(sample) },
    ]
}

/// A message without its last byte.
fn short(message: &[u8]) -> Vec<u8> {
    message[..message.len() - 1].to_vec()
}

/// The calls of the first exchange, accepted, and refusals on the way. Where a call has two faults, the one that comes
/// first in the order counts.
fn first_calls(sample: &Sample, honest: &Exchange) -> Vec<(&'static str, VerifierCall)> {
    let set = sample.key.parameters;
    let short_begin = |parameters, runs| VerifierCall::Begin { parameters, runs, message_1: short(&honest.message_1) };
    let short_response = VerifierCall::Response { message_3: short(&honest.message_3) };
    let short_opening = VerifierCall::Opening { message_5: short(&honest.message_5), lent: lent(sample) };
    let leaves = |leaves: &[u8]| VerifierCall::Leaf { leaves: leaves.to_vec() };
    let beyond = set.leaves() as u8;
    let leaf_beyond = leaves(&[0, beyond]);
    let [begin, points, response, leaf, opening] = five_calls(sample, honest);
    vec![
        ("leaves 0 and n before the first begin", leaf_beyond.clone()),
        ("begin with t 9, message 1 a byte short", short_begin(Parameters { t: 9, ..set }, 2)),
        ("begin with no run, message 1 a byte short", short_begin(set, 0)),
        ("begin with 33 runs, message 1 a byte short", short_begin(set, 33)),
        ("begin with two runs, message 1 a byte short", short_begin(set, 2)),
        ("begin", begin),
        ("response before points, message 3 a byte short", short_response.clone()),
        ("points, message 2 a byte short", VerifierCall::Points { message_2: short(&honest.message_2) }),
        ("points", points),
        ("response, message 3 a byte short", short_response),
        ("response", response),
        ("leaf n alone", leaves(&[beyond])),
        ("leaves 0, 0 and n", leaves(&[0, 0, beyond])),
        ("leaves 0 and n", leaf_beyond.clone()),
        ("leaves 0 and n−1", leaf),
        ("opening, message 5 a byte short", short_opening.clone()),
        ("opening", opening),
        ("opening once closed, message 5 a byte short", short_opening),
        ("leaves 0 and n once closed", leaf_beyond),
    ]
}

/// The verifier's calls on one session: three exchanges, the first accepted, the others refused with 5 and 7; and a fourth,
/// damaged before its opening: it is closed.
pub fn calls(sample: &Sample) -> Module {
    let set = sample.key.parameters;
    let comment = [
        "The verifier's calls, each made on the session that the call before it left; the first on a fresh one.",
        "",
        "p, key, m1, m2, m3, m5     parameters, matrix and y, the messages of an honest exchange",
        "work                       a work area, longer than its named length",
        "call1, call2, ..           the calls, with all that they are lent",
        "damaged                    a session whose opening is due, with leaf n in run 1",
        "call1-gives, ..            the number that the call answers; of an opening, then the work area",
    ];
    let last = set.last_leaf() as u8;
    let honest = sample.exchange(&[0, last]);
    let mut module = Module::new("VerifierCalls", &comment, &USES);
    module.key(&sample.key);
    module.bytes("m1", &honest.message_1);
    module.bytes("m2", &honest.message_2);
    module.bytes("m3", &honest.message_3);
    module.bytes("m5", &honest.message_5);
    module.bytes("work", &lent(sample).work);
    let mut script = Script { module, session: Verifier::default(), term: "fresh".into(), made: 0 };
    for (label, call) in first_calls(sample, &honest) {
        script.make(label, &call);
    }
    let second_changed = changed(&set, &honest, 1, Part::Commitment);
    let mut both_changed = second_changed.clone();
    both_changed.message_3[31] ^= 0x80;
    script.exchange(sample, "the commitment of run 1 changed", &second_changed);
    script.exchange(sample, "h' of run 0 changed, and the commitment of run 1", &both_changed);
    let [begin, points, response, leaf, opening] = five_calls(sample, &honest);
    for (label, call) in [("begin", &begin), ("points", &points), ("response", &response), ("leaves 0 and n−1", &leaf)]
    {
        script.make(label, call);
    }
    script.damage(&set);
    for (label, call) in
        [("points", points), ("response", response), ("leaf", leaf), ("opening", opening), ("begin", begin)]
    {
        script.make(&format!("{label}, the session damaged"), &call);
    }
    script.module
}

/// Points calls in their order, of two runs with three positions: 14 for any two equal points of a run, behind 11 and 2, and
/// what may be equal.
fn points_calls(sample: &Sample, honest: &Exchange) -> Vec<(&'static str, VerifierCall)> {
    let points = |message_2: Vec<u8>| VerifierCall::Points { message_2 };
    let repeated = |run, first, second| points(sample.repeated(run, first, second));
    let [begin, ..] = five_calls(sample, honest);
    vec![
        ("points 0 and 2 of run 1 equal, before the first begin", repeated(1, 0, 2)),
        ("begin", begin.clone()),
        ("points 0 and 2 of run 1 equal, message 2 a byte short", points(short(&sample.repeated(1, 0, 2)))),
        ("points 0 and 2 of run 1 equal", repeated(1, 0, 2)),
        ("points 0 and 1 of run 0 equal", repeated(0, 0, 1)),
        ("points 1 and 2 of run 1 equal", repeated(1, 1, 2)),
        ("points apart in one of the first bytes, runs and multipliers alike", points(sample.alike(0))),
        ("points 0 and 2 of run 1 equal, once they are not due", repeated(1, 0, 2)),
        ("begin", begin),
        ("points apart in one of the last bytes, runs and multipliers alike", points(sample.alike(2))),
    ]
}

/// The verifier's points on one session.
pub fn points(sample: &Sample) -> Module {
    let comment = [
        "The verifier's points where points of a run are equal, each call made on the session that the call before it left;",
        "the first on a fresh one.",
        "",
        "p, m1                parameters, and message 1 of an honest exchange",
        "ends                 a message 2 in which points 0 and 2 of run 1 are equal",
        "call1, call2, ..     the calls, with all that they are lent",
        "call1-gives, ..      the number that the call answers",
    ];
    let honest = sample.exchange_hiding(0);
    let mut module = Module::new("VerifierPoints", &comment, &USES);
    module.value("p", "Parameters", &parameters(&sample.key.parameters));
    module.bytes("m1", &honest.message_1);
    module.bytes("ends", &sample.repeated(1, 0, 2));
    let mut script = Script { module, session: Verifier::default(), term: "fresh".into(), made: 0 };
    for (label, call) in points_calls(sample, &honest) {
        script.make(label, &call);
    }
    script.module
}
