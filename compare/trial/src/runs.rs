//! The runs of an exchange: prefix and root of each.

use crate::antt::{list, Module};
use crate::sample::Sample;
use reference::runs::Run;

const USES: [(&str, &[&str]); 2] = [
    ("Rattle.test_standin.specs.Definitions", &["definitions"]),
    ("Rattle.test_exchange.specs.Definitions", &["run_lists"]),
];

/// The first runs and the last one that an exchange may have.
const NUMBERS: [usize; 4] = [0, 1, 2, 31];

/// The module of a salt and a root.
pub fn module(sample: &Sample) -> Module {
    let comment = [
        "The runs of an exchange.",
        "",
        "salt, root      of the exchange",
        "run0-is, ..     prefix and root of the run of this number",
    ];
    let mut module = Module::new("Runs", &comment, &USES);
    module.bytes("salt", &sample.start.salt);
    module.bytes("root", &sample.start.root);
    for number in NUMBERS {
        let Run { prefix, root } = Run::new(&sample.start.salt, number, &sample.start.root);
        let expected = format!("{} ∷ {} ∷ []", list(&prefix), list(&root));
        module.fact(&format!("run{number}-is"), &format!("run_lists stand_in salt root {number}"), &expected);
    }
    module
}
