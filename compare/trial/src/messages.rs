//! One parameter set and run count: the key's polynomials, the prover's messages, and verdicts.

use crate::antt::{list, parameters, public_key, record, Module};
use crate::sample::{changed, Part, Sample};
use reference::key::KeyPolynomials;
use reference::sampling::exchanges::{verdict, Exchange};

const USES: [(&str, &[&str]); 2] = [
    ("Rattle.test_standin.specs.Definitions", &["definitions"]),
    ("Rattle.test_exchange.specs.Definitions", &["Sample", "judged", "Computed"]),
];

/// The equations of `Computed`.
const COMPUTED: [&str; 10] =
    ["x-is", "S-is", "Q-is", "P-is", "F-is", "message1-is", "message3-is", "message5-is", "last5-is", "last-judged"];

/// How many of the facts a module states: a verdict costs as much as three messages 3, and the more the longer x is.
#[derive(Clone, Copy, PartialEq, Eq)]
pub enum Extent {
    /// One verdict, of the honest exchange that hides leaf n−1.
    Messages,
    /// All verdicts, of parts of run 0.
    Verdicts,
    /// Verdicts of parts of both runs.
    Runs,
}

/// The module of a set: facts for an exchange that hides these leaves, and for one that hides leaf n−1 in every run.
pub fn module(name: &'static str, title: &str, sample: &Sample, leaves: &[u8], extent: Extent) -> Module {
    let set = sample.key.parameters;
    let comment = [
        title,
        "",
        "sample         a key, an exchange of it, and what follows from them",
        "computed       the definitions compute it",
        "..-judged      verdicts: of the exchange that hides its leaves, and with parts of message 5 changed",
    ];
    let mut module = Module::new(name, &comment[..if extent == Extent::Messages { 4 } else { 5 }], &USES);
    let exchanges = [sample.exchange(leaves), sample.exchange_hiding(set.last_leaf())];
    module.value("sample", "Sample", &sample_record(sample, &exchanges));
    module.holds("computed", "Computed sample", &COMPUTED);
    match extent {
        Extent::Messages => (),
        Extent::Verdicts => verdict_facts(&mut module, sample, &exchanges[0]),
        Extent::Runs => run_facts(&mut module, sample, &exchanges[0]),
    }
    module
}

fn sample_record(sample: &Sample, [hidden, last]: &[Exchange; 2]) -> String {
    let key = &sample.key;
    let x = key.vector();
    let polynomials = KeyPolynomials::new(&key.parameters, &x);
    record(&[
        ("p", parameters(&key.parameters)),
        ("runs", sample.runs().to_string()),
        ("key", public_key(&key.matrix, &key.y)),
        ("x_a", list(&key.x_a)),
        ("salt", list(&sample.start.salt)),
        ("root", list(&sample.start.root)),
        ("message2", list(&sample.start.message_2)),
        ("leaves", list(&hidden.leaves)),
        ("lasts", list(&last.leaves)),
        ("x", list(&x)),
        ("S", list(&polynomials.s)),
        ("Q", list(&polynomials.q)),
        ("P", list(&polynomials.p)),
        ("F", list(&polynomials.f)),
        ("message1", list(&hidden.message_1)),
        ("message3", list(&hidden.message_3)),
        ("message5", list(&hidden.message_5)),
        ("last5", list(&last.message_5)),
    ])
}

/// States the verdict of an exchange of one run, which gets this name.
pub fn verdict_fact(module: &mut Module, sample: &Sample, name: &str, exchange: &Exchange) {
    module.run(name, exchange);
    let number = verdict(&sample.key.parameters, sample.key.public(), exchange);
    let computed = format!("answer_number (verdict stand_in p {name} key)");
    module.fact(&format!("{name}-judged"), &computed, &number.to_string());
}

fn verdict_facts(module: &mut Module, sample: &Sample, honest: &Exchange) {
    let set = sample.key.parameters;
    judged_fact(module, sample, "hidden", honest);
    let parts = [
        ("sibling_changed", Part::Sibling(set.axes - 1)),
        ("commitment_changed", Part::Commitment),
        ("aux_changed", Part::Aux),
        ("alpha_changed", Part::Alpha),
    ];
    for (name, part) in parts {
        judged_fact(module, sample, name, &changed(&set, honest, 0, part));
    }
}

/// The lowest refused run counts: 5 of the second, 7 of the first before 5 of the second, 5 of the first before 7 of the
/// second.
fn run_facts(module: &mut Module, sample: &Sample, honest: &Exchange) {
    let set = sample.key.parameters;
    let with = |first, second| changed(&set, &changed(&set, honest, 0, first), 1, second);
    judged_fact(module, sample, "hidden", honest);
    judged_fact(module, sample, "second_changed", &changed(&set, honest, 1, Part::Commitment));
    judged_fact(module, sample, "alpha_then_commitment", &with(Part::Alpha, Part::Commitment));
    judged_fact(module, sample, "commitment_then_alpha", &with(Part::Commitment, Part::Alpha));
}

/// States the verdict of the sample's exchange with another message 5.
fn judged_fact(module: &mut Module, sample: &Sample, name: &str, exchange: &Exchange) {
    let number = verdict(&sample.key.parameters, sample.key.public(), exchange);
    let computed = format!("judged sample ({}) ({})", list(&exchange.leaves), list(&exchange.message_5));
    module.fact(&format!("{name}-judged"), &computed, &number.to_string());
}
