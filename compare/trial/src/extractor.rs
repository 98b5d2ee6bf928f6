//! The extractor: what it makes of two openings, honest ones and, under a weakened hash, unequal ones with one digest.

use crate::antt::{list, parameters, public_key, transcript, Module};
use crate::sample::{changed, Part, Sample, OUTPUT, WORK};
use reference::extractor::Answer;
use reference::sampling::calls::{ExtractorCall, LentBytes};
use reference::sampling::exchanges::{extraction, Exchange};
use reference::stand_in::{under, Weakness};

const FINDING_USES: [(&str, &[&str]); 3] = [
    ("Rattle.exchange.specs.Opening", &["Exchange"]),
    ("Rattle.exchange.specs.Extractor", &["extract"]),
    ("Rattle.test_standin.specs.Definitions", &["definitions", "finding_lists"]),
];

const CALL_USES: [(&str, &[&str]); 3] = [
    ("Rattle.runs.specs.Opening", &["Transcript"]),
    ("Rattle.calls.specs.Extractor", &["Outcome", "refused", "pair", "filled", "extraction"]),
    ("Rattle.test_calls.specs.Definitions", &["definitions", "gives", "given"]),
];

/// The hash of a weakness.
fn hash(weakness: Weakness) -> String {
    match weakness {
        Weakness::Nothing => "stand_in".into(),
        Weakness::Layer(layer) => format!("(weak {layer})"),
        Weakness::Leaves => "weak_leaves".into(),
    }
}

/// The messages of an exchange by a name: the one that they have, or this one.
fn named(module: &mut Module, name: &str, exchange: &Exchange) -> String {
    let term = transcript(exchange);
    if module.name_of(&term).is_none() {
        module.value(name, "Transcript", &term);
    }
    module.argument(&term)
}

/// Two exchanges under one key, and the weakness of the hash that they are made with.
struct Pair<'a> {
    weakness: Weakness,
    sample: &'a Sample,
    first: Exchange,
    second: Exchange,
}

/// What is changed of the first opening and of the second.
type Parts = [Option<Part>; 2];

impl<'a> Pair<'a> {
    /// Honest exchanges that hide these leaves, with these parts of the openings of a run changed.
    fn new(weakness: Weakness, sample: &'a Sample, leaves: [&[u8]; 2], run: usize, parts: Parts) -> Pair<'a> {
        let set = sample.key.parameters;
        let [first, second] = [0, 1].map(|i| {
            let honest = under(weakness, || sample.exchange(leaves[i]));
            parts[i].map_or(honest.clone(), |part| changed(&set, &honest, run, part))
        });
        Pair { weakness, sample, first, second }
    }

    /// States what `extract` finds in exchanges of one run.
    fn finding(&self, module: &mut Module, name: &str) {
        let Sample { key, .. } = self.sample;
        let (answer, output) =
            under(self.weakness, || extraction(&key.parameters, key.public(), &self.first, &self.second));
        let found = match answer {
            Answer::Refused(number) => panic!("{name} is refused with {number}"),
            Answer::Unequal { layer, number, .. } => format!("({layer} ∷ {number} ∷ []) ∷ []"),
            Answer::Extracted { axis, .. } => format!("({axis} ∷ []) ∷ {} ∷ []", list(&output)),
        };
        let hash = hash(self.weakness);
        let [first, second] = [("_a", &self.first), ("_b", &self.second)].map(|(side, exchange)| {
            let name = format!("{name}{side}");
            module.run(&name, exchange);
            name
        });
        let computed = format!("finding_lists (extract {hash} p key {first} {second})");
        module.fact(&format!("{name}-found"), &computed, &found);
    }

    /// The extractor's call, with a work area longer than its named length.
    fn call(&self) -> ExtractorCall {
        let Sample { key, .. } = self.sample;
        let work = vec![WORK; key.parameters.work_bytes() + 2];
        let lent = LentBytes { matrix: key.matrix.clone(), y: key.y.clone(), work };
        let output = vec![OUTPUT; key.parameters.extractor_bytes(self.sample.runs())];
        ExtractorCall {
            parameters: key.parameters,
            runs: self.sample.runs(),
            first: self.first.clone(),
            second: self.second.clone(),
            lent,
            output,
        }
    }
}

/// Names a call, and states what it answers and leaves in output and work area.
fn call_fact(module: &mut Module, name: &str, weakness: Weakness, call: &ExtractorCall) {
    let (answer, work, output) = under(weakness, || call.make());
    let answered = match answer {
        Answer::Refused(number) => format!("refused {number}"),
        Answer::Unequal { run, layer, number } => format!("pair {run} {layer} {number}"),
        Answer::Extracted { run, axis } => format!("filled {run} {axis}"),
    };
    let lent = &call.lent;
    let first = named(module, &format!("{name}_a"), &call.first);
    let second = named(module, &format!("{name}_b"), &call.second);
    let set = module.argument(&parameters(&call.parameters));
    let key = module.argument(&public_key(&lent.matrix, &lent.y));
    let (lent_work, lent_output) = (module.list(&lent.work), module.list(&call.output));
    let (hash, runs) = (hash(weakness), call.runs);
    let term = format!("extraction {hash} {set} {runs} {first} {second} {key} {lent_work} {lent_output}");
    module.value(name, "Outcome", &term);
    let expected = format!("gives ({answered}) ({}) ({})", list(&output), list(&work));
    module.fact(&format!("{name}-gives"), &format!("given {name}"), &expected);
}

fn findings_module(name: &'static str, title: &str, sample: &Sample) -> Module {
    let comment = [
        title,
        "",
        "p, key        parameters, matrix and y",
        ".._a, .._b    a run of two exchanges, accepted under the hash named in the fact",
        "..-found      what the extractor finds in them: layer and number; or the axis, then the output",
    ];
    let mut module = Module::new(name, &comment, &FINDING_USES);
    module.key(&sample.key);
    module
}

/// What the extractor finds: the states, and an unequal pair at layers 6, 5 and 4.
pub fn findings(one_axis: &Sample, two_axes: &Sample) -> [Module; 2] {
    let changed_second = |part| [None, Some(part)];
    let mut one = findings_module("OneAxisFindings", "The extractor at D 1.", one_axis);
    let commitments = Pair::new(Weakness::Layer(5), one_axis, [&[0], &[1]], 0, changed_second(Part::Commitment));
    commitments.finding(&mut one, "commitments");

    let mut two = findings_module("TwoAxesFindings", "The extractor at D 2.", two_axes);
    // Leaves 1 and 3 are of one party on axis 1: the same change of α changes its string in the same way.
    let axes = Pair::new(Weakness::Layer(6), two_axes, [&[1], &[3]], 0, [Some(Part::Alpha); 2]);
    let leaves = Pair::new(Weakness::Leaves, two_axes, [&[0], &[3]], 0, changed_second(Part::Sibling(1)));
    Pair::new(Weakness::Nothing, two_axes, [&[1], &[3]], 0, [None; 2]).finding(&mut two, "states");
    axes.finding(&mut two, "axes");
    leaves.finding(&mut two, "leaves");
    [one, two]
}

/// The calls that are refused, each with two faults, of which the one that comes first in the order counts.
fn refused(honest: &ExtractorCall) -> Vec<(&'static str, ExtractorCall)> {
    let set = honest.parameters;
    let beyond = |call: &mut ExtractorCall| call.first.leaves[1] = set.leaves() as u8;
    let multiplier = |call: &mut ExtractorCall| call.second.challenge_mut(&set, 1)[7] ^= 1;
    let same_leaves = |call: &mut ExtractorCall| call.second = call.first.clone();
    let commitment = |call: &mut ExtractorCall| call.first = changed(&set, &call.first, 1, Part::Commitment);
    let alpha = |call: &mut ExtractorCall| call.second = changed(&set, &call.second, 0, Part::Alpha);
    let with = |changes: [&dyn Fn(&mut ExtractorCall); 2]| {
        let mut call = honest.clone();
        changes.iter().for_each(|change| change(&mut call));
        call
    };
    vec![
        ("parameter_outside", with([&|call| call.parameters.k = set.m, &beyond])),
        ("runs_outside", with([&|call| call.runs = 33, &beyond])),
        ("no_run", with([&|call| call.runs = 0, &beyond])),
        ("work_area_short", with([&|call| call.lent.work.truncate(set.work_bytes() - 1), &beyond])),
        ("leaves_short", with([&|call| call.second.leaves.truncate(1), &beyond])),
        ("output_long", with([&|call| call.output.push(OUTPUT), &multiplier])),
        ("leaf_beyond", with([&beyond, &multiplier])),
        ("multiplier_differs", with([&same_leaves, &multiplier])),
        ("same_leaves", with([&commitment, &same_leaves])),
        ("commitment_differs", with([&commitment, &alpha])),
    ]
}

/// The extractor's call of two runs: refused, answering the states of run 1 alone, and answering an unequal pair of run 1 at
/// layer 7 where run 0 differs too.
pub fn calls(sample: &Sample) -> Module {
    let comment = [
        "The extractor's call of two runs.",
        "",
        "p, key, work, out     parameters, matrix and y, work area and output as lent",
        ".._a, .._b            the messages of two exchanges",
        "honest, ..            the calls, with all that they are lent",
        "..-gives              what the call answers, and output and work area after it",
    ];
    let mut module = Module::new("ExtractorCalls", &comment, &CALL_USES);
    let honest = Pair::new(Weakness::Nothing, sample, [&[0, 0], &[0, 1]], 0, [None; 2]).call();
    let response = Pair::new(Weakness::Layer(7), sample, [&[0, 0], &[1, 1]], 1, [None, Some(Part::Alpha)]).call();
    module.key(&sample.key);
    module.bytes("work", &honest.lent.work);
    module.bytes("out", &honest.output);
    call_fact(&mut module, "honest", Weakness::Nothing, &honest);
    for (name, call) in refused(&honest) {
        call_fact(&mut module, name, Weakness::Nothing, &call);
    }
    call_fact(&mut module, "response", Weakness::Layer(7), &response);
    module
}

/// Calls with equal points of a run, or with points that are only alike, and a second fault: 14 comes behind 2 and before 4,
/// 8 and 9, and where it is not due the second fault counts.
fn points_calls(sample: &Sample, honest: &ExtractorCall) -> Vec<(&'static str, ExtractorCall)> {
    let set = honest.parameters;
    let with = |message_2: [Vec<u8>; 2], fault: &dyn Fn(&mut ExtractorCall)| {
        let mut call = honest.clone();
        [call.first.message_2, call.second.message_2] = message_2;
        fault(&mut call);
        call
    };
    let distinct = || sample.start.message_2.clone();
    let ends = || sample.repeated(1, 0, 2);
    let beyond = |call: &mut ExtractorCall| call.first.leaves[1] = set.leaves() as u8;
    let same_leaves = |call: &mut ExtractorCall| call.second = call.first.clone();
    let short_work = |call: &mut ExtractorCall| call.lent.work.truncate(set.work_bytes() - 1);
    vec![
        ("ends_short", with([ends(), ends()], &short_work)),
        ("ends_beyond", with([ends(), ends()], &beyond)),
        ("ends_same_leaves", with([ends(), ends()], &same_leaves)),
        ("ends_of_first", with([ends(), distinct()], &|_| ())),
        ("neighbours_of_second", with([distinct(), sample.repeated(0, 0, 1)], &|_| ())),
        ("alike_beyond", with([sample.alike(0), sample.alike(2)], &beyond)),
    ]
}

/// The extractor's call of two runs where points of a run are equal.
pub fn points(sample: &Sample) -> Module {
    let comment = [
        "The extractor's call of two runs where points of a run are equal, or alike and not equal, with a second fault.",
        "",
        "p, key, work, out       parameters, matrix and y, work area and output as lent",
        ".._a, .._b              the messages of two exchanges",
        "ends..                  points 0 and 2 of run 1 are equal in both, and the work area is short, a leaf is n, or the leaves",
        "                        are the same; of the first alone: messages 2 differ",
        "neighbours_of_second    points 0 and 1 of run 0 are equal in the second alone",
        "alike_beyond            points apart in one byte, runs and multipliers alike, messages 2 differ, and a leaf is n",
        "..-gives                what the call answers, and output and work area after it",
    ];
    let mut module = Module::new("ExtractorPoints", &comment, &CALL_USES);
    let honest = Pair::new(Weakness::Nothing, sample, [&[0, 0], &[0, 1]], 0, [None; 2]).call();
    module.key(&sample.key);
    module.bytes("work", &honest.lent.work);
    module.bytes("out", &honest.output);
    for (name, call) in points_calls(sample, &honest) {
        call_fact(&mut module, name, Weakness::Nothing, &call);
    }
    module
}
