//! The prover's session: one call after another on one session, carried out and refused.

use crate::antt::{list, parameters, public_key, record, Module};
use crate::sample::{Sample, OUTPUT, WORK};
use reference::numbers::CARRIED_OUT;
use reference::parameters::Parameters;
use reference::prover::Prover;
use reference::sampling::calls::{Effect, LentBytes, ProverCall, ProverInput};

const USES: [(&str, &[&str]); 2] = [
    ("Rattle.calls.specs.Prover", &["Prover", "Outcome", "fresh", "begin", "points", "leaf"]),
    ("Rattle.test_calls.specs.Definitions", &["definitions"]),
];

/// A session, the term for it, and how many calls were made on it so far.
struct Script<'a> {
    module: Module,
    sample: &'a Sample,
    session: Prover,
    term: String,
    made: usize,
}

impl Script<'_> {
    /// Makes a call and names what it gives.
    fn name(&mut self, label: &str, call: &ProverCall) -> (String, Effect) {
        let effect = call.make(&mut self.session);
        self.made += 1;
        let name = format!("call{}", self.made);
        let term = self.term(call);
        self.term = format!("{name}.prover");
        self.module.comment(&format!("{name}: {label}"));
        self.module.value(&name, "Outcome", &term);
        (name, effect)
    }

    /// Makes a call and states the number alone, which is cheap to compute where output and work area are not.
    fn answer(&mut self, label: &str, call: &ProverCall) {
        let (name, effect) = self.name(label, call);
        self.module.fact(&format!("{name}-gives"), &format!("{name}.answer"), &effect.number.to_string());
    }

    /// Makes a call and states what it gives.
    fn make(&mut self, label: &str, call: &ProverCall) {
        let (name, effect) = self.name(label, call);
        let expected = format!("({} ∷ []) ∷ {} ∷ {} ∷ []", effect.number, list(&effect.output), list(&effect.work));
        let computed = format!("({name}.answer ∷ []) ∷ {name}.out ∷ {name}.work ∷ []");
        self.module.fact(&format!("{name}-gives"), &computed, &expected);
    }

    /// Names the session with m 1 in place of the m that it holds, and goes on from it.
    fn damage(&mut self) {
        let mut session = self.session.to_bytes();
        session[1] = 1;
        self.session = Prover::from_bytes(&session);
        let held = |field: &str| format!("call{}.prover.{field}", self.made);
        let set = parameters(&Parameters { m: 1, ..self.sample.key.parameters });
        let fields = ["phase", "runs", "x", "salt", "root", "message2"].map(|field| (field, held(field)));
        let term = record(&[&fields[..1], &[("parameters", set)], &fields[1..]].concat());
        self.module.comment("the session with m 1, which no call made");
        self.module.value("damaged", "Prover", &term);
        self.term = "damaged".into();
    }

    /// The call on the session.
    fn term(&self, call: &ProverCall) -> String {
        let (module, session) = (&self.module, &self.term);
        let key = module.argument(&public_key(&call.lent.matrix, &call.lent.y));
        let lent = format!("{key} {} {}", module.list(&call.lent.work), module.list(&call.output));
        match &call.input {
            ProverInput::Begin { parameters: set, runs, x_a, salt, root } => {
                let set = module.argument(&parameters(set));
                let inputs = [x_a, salt, root].map(|input| module.list(input)).join(" ");
                format!("begin stand_in {session} {set} {runs} {inputs} {lent}")
            }
            ProverInput::Points { message_2 } => {
                format!("points stand_in {session} {} {lent}", module.list(message_2))
            }
            ProverInput::Leaf { leaves } => format!("leaf stand_in {session} {} {lent}", module.list(leaves)),
        }
    }

    fn call(&self, input: ProverInput, output: usize) -> ProverCall {
        let key = &self.sample.key;
        let work = vec![WORK; key.parameters.work_bytes() + 2];
        let lent = LentBytes { matrix: key.matrix.clone(), y: key.y.clone(), work };
        ProverCall { input, lent, output: vec![OUTPUT; output] }
    }

    /// Begin with a root whose first byte has this added.
    fn begin(&self, other: u8) -> ProverCall {
        let Sample { key, start } = self.sample;
        let mut root = start.root;
        root[0] ^= other;
        let input = ProverInput::Begin {
            parameters: key.parameters,
            runs: self.sample.runs(),
            x_a: key.x_a.clone(),
            salt: start.salt.to_vec(),
            root: root.to_vec(),
        };
        self.call(input, Parameters::message_1_bytes(self.sample.runs()))
    }

    fn points(&self) -> ProverCall {
        self.points_with(self.sample.start.message_2.clone())
    }

    fn points_with(&self, message_2: Vec<u8>) -> ProverCall {
        self.call(ProverInput::Points { message_2 }, Parameters::message_3_bytes(self.sample.runs()))
    }

    /// Leaf with an output of the length for these leaves.
    fn leaf(&self, leaves: &[u8]) -> ProverCall {
        let length = self.sample.key.parameters.message_5_bytes(leaves);
        self.call(ProverInput::Leaf { leaves: leaves.to_vec() }, length)
    }
}

/// A begin with other parameters, another run count or another x_A.
fn changed_begin(begin: &ProverCall, change: impl Fn(&mut Parameters, &mut usize, &mut Vec<u8>)) -> ProverCall {
    let mut call = begin.clone();
    let ProverInput::Begin { parameters, runs, x_a, .. } = &mut call.input else { unreachable!() };
    change(parameters, runs, x_a);
    call
}

/// A call with an output that is a byte too long.
fn long_output(mut call: ProverCall) -> ProverCall {
    call.output.push(OUTPUT);
    call
}

/// The calls in their order: every number that a prover's call can answer, and a second exchange. Where a call has two
/// faults, the one that comes first in the order counts.
fn script_calls(script: &Script) -> Vec<(&'static str, ProverCall)> {
    let set = script.sample.key.parameters;
    let begin = script.begin(0);
    let overweight = changed_begin(&begin, |_, _, x_a| x_a[0] ^= 1);
    let mut short_work = overweight.clone();
    short_work.lent.work.truncate(set.work_bytes() - 1);
    let (last, beyond) = (set.last_leaf() as u8, set.leaves() as u8);
    let mut short_opening = script.leaf(&[0, beyond]);
    short_opening.output.truncate(set.message_5_bytes(&[0, last]));
    vec![
        ("points before the first begin, the output a byte long", long_output(script.points())),
        ("begin with k = m", changed_begin(&begin, |set, _, _| set.k = set.m)),
        ("begin with 33 runs, x overweight", changed_begin(&overweight, |_, runs, _| *runs = 33)),
        ("begin with no run", changed_begin(&begin, |_, runs, _| *runs = 0)),
        ("begin with three runs, the output that of two", changed_begin(&begin, |_, runs, _| *runs = 3)),
        ("begin, x overweight, the work area a byte short", short_work),
        ("begin", begin.clone()),
        ("begin with the salt and root held, x overweight", overweight),
        ("begin with the salt and root held", begin.clone()),
        ("leaf before points, the output a byte long", long_output(script.leaf(&[0, 0]))),
        ("points, the output a byte long", long_output(script.points())),
        ("points", script.points()),
        ("points again", script.points()),
        ("leaf of one leaf", script.leaf(&[beyond])),
        ("leaf of three leaves", script.leaf(&[0, 0, beyond])),
        ("leaves 0 and n, the output as short as for leaf n−1", short_opening),
        ("leaves 0 and n", script.leaf(&[0, beyond])),
        ("leaves n and n−1", script.leaf(&[beyond, last])),
        ("leaves 0 and n−1", script.leaf(&[0, last])),
        ("leaves n and 0 once closed", script.leaf(&[beyond, 0])),
        ("points once closed", script.points()),
        ("begin with the salt and root held, once closed", begin),
        ("begin with another root", script.begin(1)),
    ]
}

/// The calls on the damaged session: it is closed, and its salt and root are those of the exchange held.
fn damaged_calls(script: &Script) -> Vec<(&'static str, ProverCall)> {
    vec![
        ("points, the session damaged", script.points()),
        ("leaves 0 and 0, the session damaged", script.leaf(&[0, 0])),
        ("begin with the salt and root held, the session damaged", script.begin(1)),
        ("begin with another root, the session damaged", script.begin(0)),
    ]
}

/// Names the key and what a prover starts with, a message 2, and a work area longer than its named length.
fn name_lent(module: &mut Module, sample: &Sample, name: &str, message_2: &[u8]) {
    module.key(&sample.key);
    module.bytes("x_a", &sample.key.x_a);
    module.bytes("salt", &sample.start.salt);
    module.bytes("root", &sample.start.root);
    module.bytes(name, message_2);
    module.bytes("work", &vec![WORK; sample.key.parameters.work_bytes() + 2]);
}

/// The prover's calls on one session.
pub fn calls(sample: &Sample) -> Module {
    let comment = [
        "The prover's calls, each made on the session that the call before it left; the first on a fresh one.",
        "",
        "p, key, x_a, salt, root, m2    parameters, matrix and y, x_A, salt, root and message 2",
        "work                           a work area, longer than its named length",
        "call1, call2, ..               the calls, with all that they are lent",
        "damaged                        the session held at the end, with another m",
        "call1-gives, ..                the number that the call answers, then output and work area",
    ];
    let mut module = Module::new("ProverCalls", &comment, &USES);
    name_lent(&mut module, sample, "m2", &sample.start.message_2);
    let mut script = Script { module, sample, session: Prover::default(), term: "fresh".into(), made: 0 };
    for (label, call) in script_calls(&script) {
        script.make(label, &call);
    }
    script.damage();
    for (label, call) in damaged_calls(&script) {
        script.make(label, &call);
    }
    script.module
}

/// Points calls in their order, of two runs with three positions: 14 for any two equal points of a run, behind 11 and 2, and
/// what may be equal.
fn points_calls(script: &Script) -> Vec<(&'static str, ProverCall)> {
    let sample = script.sample;
    let repeated = |run, first, second| script.points_with(sample.repeated(run, first, second));
    let ends = repeated(1, 0, 2);
    let mut short_work = ends.clone();
    short_work.lent.work.truncate(sample.key.parameters.work_bytes() - 1);
    vec![
        ("points 0 and 2 of run 1 equal, before the first begin", ends.clone()),
        ("begin", script.begin(0)),
        ("points 0 and 2 of run 1 equal, the work area a byte short", short_work),
        ("points 0 and 2 of run 1 equal", ends.clone()),
        ("points 0 and 1 of run 0 equal", repeated(0, 0, 1)),
        ("points 1 and 2 of run 1 equal", repeated(1, 1, 2)),
        ("points apart in one byte, runs and multipliers alike", script.points_with(sample.alike(0))),
        ("points 0 and 2 of run 1 equal, once they are not due", ends),
    ]
}

/// The prover's points on one session.
pub fn points(sample: &Sample) -> Module {
    let comment = [
        "The prover's points where points of a run are equal, each call made on the session that the call before it left; the",
        "first on a fresh one.",
        "",
        "p, key, x_a, salt, root    parameters, matrix and y, x_A, salt and root",
        "ends                       a message 2 in which points 0 and 2 of run 1 are equal",
        "work                       a work area, longer than its named length",
        "call1, call2, ..           the calls, with all that they are lent",
        "call1-gives, ..            the number that the call answers; of a refused one, then output and work area",
    ];
    let mut module = Module::new("ProverPoints", &comment, &USES);
    name_lent(&mut module, sample, "ends", &sample.repeated(1, 0, 2));
    let mut script = Script { module, sample, session: Prover::default(), term: "fresh".into(), made: 0 };
    for (label, call) in points_calls(&script) {
        if call.make(&mut script.session.clone()).number == CARRIED_OUT {
            script.answer(label, &call);
        } else {
            script.make(label, &call);
        }
    }
    script.module
}
