//! The sums of α, β and v on each axis of openings of one run that somebody made up: message 5 is random, h and h' are what
//! follows from it.

use crate::antt::{list, Module};
use crate::messages::verdict_fact;
use crate::sample::Sample;
use reference::check::recompute;
use reference::parties::Axis;
use reference::points_field::points_to_bytes;
use reference::sampling::exchanges::Exchange;
use reference::sampling::simulated::leaf_first;
use reference::sampling::Random;

const USES: [(&str, &[&str]); 3] = [
    ("Rattle.exchange.specs.Parties", &["sums_of"]),
    ("Rattle.exchange.specs.Opening", &["Exchange", "announced", "verdict"]),
    ("Rattle.test_standin.specs.Definitions", &["definitions"]),
];

/// The module of a key: an opening that hides a leaf, and one that hides leaf n−1.
pub fn module(name: &'static str, title: &str, sample: &Sample, seed: u64, leaf: usize) -> Module {
    let set = sample.key.parameters;
    let comment = [
        title,
        "",
        "p, key                      parameters, matrix and y",
        "made_up, made_up_last       accepted runs that no prover made: message 5 is random; made_up_last hides leaf n−1",
        "..-judged                   their verdicts",
        "..-sums                     the sums of α, β and v on each axis",
    ];
    let mut module = Module::new(name, &comment, &USES);
    module.key(&sample.key);
    let mut random = Random::new(seed);
    for (name, leaf) in [("made_up", leaf), ("made_up_last", set.last_leaf())] {
        let exchange = leaf_first(&mut random, &set, sample.key.public(), &[leaf as u8]);
        verdict_fact(&mut module, sample, name, &exchange);
        sums_fact(&mut module, sample, name, &exchange);
    }
    module
}

fn sums_fact(module: &mut Module, sample: &Sample, name: &str, exchange: &Exchange) {
    let (set, messages) = (&sample.key.parameters, exchange.messages());
    let axes = recompute(set, sample.key.public(), &messages.run(set, 0)).axes;
    let numbers: String = (0..axes.len()).map(|j| format!("{j} ∷ ")).collect();
    let expected: String = axes.iter().map(|axis| format!("{} ∷ ", list(&sums(axis)))).collect();
    let computed = format!("map (λ j. sums_of p (announced stand_in p {name} key j)) ({numbers}[])");
    module.fact(&format!("{name}-sums"), &computed, &format!("{expected}[]"));
}

/// The sums on an axis as bytes.
fn sums(axis: &Axis) -> Vec<u8> {
    let (alpha_beta, v) = axis.sums();
    [&alpha_beta.alpha, &alpha_beta.beta, &v].map(|points| points_to_bytes(points)).concat()
}
