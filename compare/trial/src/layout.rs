//! What needs no hash: lengths, coordinates, siblings, the order in which the extractor compares, and the axis that it names.

use crate::antt::{parameters, Module};
use reference::check::OpeningStrings;
use reference::extractor::{first_differing_axis, first_unequal_pair};
use reference::leaves::coordinate;
use reference::parameters::Parameters;
use reference::tree::sibling_nodes;

const USES: [(&str, &[&str]); 6] = [
    (
        "Rattle.layout.specs.Layout",
        &["levels", "coordinate", "message2_length", "message5_length", "work_length", "output_length"],
    ),
    ("Rattle.exchange.specs.Tree", &["siblings"]),
    ("Rattle.exchange.specs.Opening", &["Exchange"]),
    ("Rattle.exchange.specs.Extractor", &["compared", "axis"]),
    ("Rattle.test_standin.specs.Definitions", &["definitions"]),
    ("Rattle.test_exchange.specs.Definitions", &["exchange_lengths"]),
];

/// A list of terms.
fn terms(terms: impl Iterator<Item = String>) -> String {
    terms.map(|term| format!("{term} ∷ ")).collect::<String>() + "[]"
}

/// A list of numbers.
fn numbers(numbers: impl IntoIterator<Item = usize>) -> String {
    terms(numbers.into_iter().map(|number| number.to_string()))
}

/// A list of lists of numbers.
fn rows(rows: impl Iterator<Item = Vec<usize>>) -> String {
    terms(rows.map(|row| format!("({})", numbers(row))))
}

/// The layers and numbers that the extractor compares, in its order: each in turn is the first unequal pair, until it is
/// made equal.
fn compared(set: &Parameters, hidden: [usize; 2]) -> Vec<Vec<usize>> {
    let strings = |byte: u8, hidden: usize| OpeningStrings {
        leaves: (0..set.leaves()).map(|leaf| (leaf != hidden).then(|| vec![byte])).collect(),
        commitments: vec![byte],
        axes: vec![vec![byte]; set.axes],
        response: vec![byte],
    };
    let (mut first, second) = (strings(0, hidden[0]), strings(1, hidden[1]));
    let mut order = Vec::new();
    while let Some((layer, number)) = first_unequal_pair(&first, &second) {
        let number = usize::from(number);
        order.push(vec![usize::from(layer), number]);
        match layer {
            7 => first.response.clone_from(&second.response),
            6 => first.axes[number - 1].clone_from(&second.axes[number - 1]),
            5 => first.commitments.clone_from(&second.commitments),
            _ => first.leaves[number].clone_from(&second.leaves[number]),
        }
    }
    order
}

fn length_facts(module: &mut Module) {
    let set = Parameters::SHIPPED;
    module.value("shipped", "Parameters", &parameters(&set));
    let leaves = [0, set.last_leaf() as u8];
    let openings = leaves.map(|leaf| format!("message5_length shipped {leaf}")).join(" ∷ ");
    let computed = format!("message2_length shipped ∷ {openings} ∷ work_length shipped ∷ output_length shipped ∷ []");
    let [first, last] = leaves.map(|leaf| set.opening_bytes(leaf));
    let lengths = [set.challenge_bytes(), first, last, set.work_bytes(), set.states_bytes()];
    module.fact("lengths-are", &computed, &numbers(lengths));
}

/// Of exchanges of several runs, one of which hides leaf n.
fn exchange_length_facts(module: &mut Module, set: &Parameters) {
    let leaves = [0, set.last_leaf() as u8, set.leaves() as u8];
    for runs in 1..=leaves.len() {
        let leaves = &leaves[..runs];
        let computed = format!("exchange_lengths cube {runs} ({})", numbers(leaves.iter().map(|&leaf| leaf.into())));
        let lengths = [
            Parameters::message_1_bytes(runs),
            set.message_2_bytes(runs),
            Parameters::message_3_bytes(runs),
            set.message_5_bytes(leaves),
            set.extractor_bytes(runs),
        ];
        module.fact(&format!("exchange{runs}-lengths-are"), &computed, &numbers(lengths));
    }
}

fn cube_facts(module: &mut Module, set: &Parameters) {
    let leaves = || 0..set.leaves();
    let axes = 1..=set.axes;
    module.value("leaf_numbers", "List ℕ", &numbers(leaves()));
    let coordinates = terms(axes.clone().map(|axis| format!("coordinate cube {axis} i")));
    let expected = rows(leaves().map(|leaf| axes.clone().map(|axis| coordinate(leaf, axis)).collect()));
    module.fact("coordinates-are", &format!("map (λ i. {coordinates}) leaf_numbers"), &expected);
    let nodes = "map (λ s. s.0) (siblings (λ s n. []) [] (levels cube) 1 [] i)";
    let expected = rows(leaves().map(|leaf| sibling_nodes(set.axes, leaf)));
    module.fact("siblings-are", &format!("map (λ i. {nodes}) leaf_numbers"), &expected);
}

fn extractor_facts(module: &mut Module, set: &Parameters) {
    let hiding = "record { prefix = []; h = []; message2 = []; message3 = []; leaf = i; message5 = [] }";
    module.function("hiding", "ℕ → Exchange", "i", hiding);
    let expected = rows(compared(set, [2, 5]).into_iter());
    let computed = "map (λ n. n.0 ∷ n.1 ∷ []) (compared cube (hiding 2) (hiding 5))";
    module.fact("compared-are", computed, &expected);
    let pairs: Vec<[usize; 2]> =
        (0..set.leaves()).flat_map(|first| (first + 1..set.leaves()).map(move |second| [first, second])).collect();
    let written = terms(pairs.iter().map(|[first, second]| format!("({first}, {second})")));
    module.value("pairs", "List (ℕ × ℕ)", &written);
    let axes = pairs.iter().map(|&[first, second]| usize::from(first_differing_axis(first as u8, second as u8)));
    module.fact("axes-are", "map (λ n. axis cube (hiding n.0) (hiding n.1)) pairs", &numbers(axes));
}

/// The module of these facts: lengths at the shipped set, all else at D 3.
pub fn module() -> Module {
    let comment = [
        "What needs no hash: lengths at the shipped set, the rest at D 3.",
        "",
        "shipped, cube, leaf_numbers    the shipped set; a set with D 3, and its leaves",
        "hiding i                       an exchange that hides leaf i, its messages empty",
        "pairs                          the pairs of two leaves",
        "lengths-are                    of a run: message 2; message 5 for leaf 0 and n−1; work area; the extractor's output",
        "exchange1-lengths-are, ..      of one, two and three runs that hide leaf 0, n−1 and n: messages 1, 2, 3 and 5, the",
        "                               extractor's output",
        "coordinates-are                of each leaf, on axes 1 to 3",
        "siblings-are                   of each leaf: the nodes, from the root side down",
        "compared-are                   layers and numbers in the order in which the extractor compares, leaves 2 and 5 hidden",
        "axes-are                       of each pair, the first axis on which it differs",
    ];
    let mut module = Module::new("Layouts", &comment, &USES);
    let set = Parameters::new(2, 1, 1, 3, 1);
    length_facts(&mut module);
    module.value("cube", "Parameters", &parameters(&set));
    exchange_length_facts(&mut module, &set);
    cube_facts(&mut module, &set);
    extractor_facts(&mut module, &set);
    module
}
