//! The extractor: states from rewound exchanges, the relation that they satisfy, the unequal pairs and the refusals.

use reference::check::OpeningStrings;
use reference::commitment::Witness;
use reference::extractor::{differing_runs, first_differing_axis, first_unequal_pair, Answer};
use reference::leaves::Leaf;
use reference::messages::{part, RunMessages};
use reference::numbers::*;
use reference::parameters::Parameters;
use reference::points_field::Point;
use reference::runs::Run;
use reference::sampling::calls::{ExtractorCall, LentBytes};
use reference::sampling::damage::flip_bit;
use reference::sampling::exchanges::{extraction, honest_exchange, random_message_2, Exchange, Start};
use reference::sampling::keys::{valid_key, Key};
use reference::sampling::made_up::two_leaf_lists;
use reference::sampling::parameter_sets::{extreme_sets, random_set};
use reference::sampling::simulated::{relation_gap, PointsFirst};
use reference::sampling::Random;
use reference::shares::{sum, Aux, Shares};
use reference::strings::{front, Prefix, Seed};
use reference::tree::Tree;

/// Two openings of one honest exchange, with its key and start.
fn rewound(random: &mut Random, set: &Parameters, runs: usize) -> (Key, Start, Exchange, Exchange) {
    let key = valid_key(random, set);
    let start = Start::random(random, set, runs);
    let [first, second] = two_leaf_lists(random, set, runs).map(|leaves| honest_exchange(&key, &start, &leaves));
    (key, start, first, second)
}

/// The leaves whose states a run's part of an output holds.
fn leaves_of_output(set: &Parameters, output: &[u8]) -> Vec<Leaf> {
    let (states, aux) = output.split_at(32 * set.leaves());
    let leaf = |(number, state): (usize, &[u8])| Leaf {
        number,
        seed: front(state),
        rho: front(&state[16..]),
        aux: (number == set.last_leaf()).then(|| Aux::from_bytes(set, aux)),
    };
    states.chunks_exact(32).enumerate().map(leaf).collect()
}

/// The sum of the shares of all leaves of a run.
fn summed_shares(set: &Parameters, prefix: &Prefix, output: &[u8]) -> Shares {
    let shares: Vec<Shares> = leaves_of_output(set, output).iter().map(|leaf| leaf.shares(set, prefix)).collect();
    sum(set, shares.iter())
}

/// Demand 3's relation in a run: ε(SQ − PF)(r) = c − ab at each position.
fn assert_relation(set: &Parameters, key: &Key, run: &RunMessages, output: &[u8]) {
    let total = summed_shares(set, &run.prefix, output);
    let witness = Witness { x_a: total.aux.x_a.clone(), q: total.aux.q.clone(), p: total.aux.p.clone() };
    let gap = relation_gap(set, key.public(), &witness, &run.challenge);
    let difference: Vec<Point> = (0..set.t).map(|l| total.aux.c[l] + total.a[l] * total.b[l]).collect();
    assert_eq!(gap, difference);
}

/// The answer to two accepted openings.
fn extracted(first: &Exchange, second: &Exchange) -> Answer {
    let run = (0..first.runs()).find(|&run| first.leaves[run] != second.leaves[run]).expect("a run differs");
    let axis = (first.leaves[run] ^ second.leaves[run]).trailing_zeros() as u8 + 1;
    Answer::Extracted { run: run as u8, axis }
}

fn assert_honest_extraction(random: &mut Random, set: &Parameters, runs: usize) {
    let (key, start, first, second) = rewound(random, set, runs);
    let (answer, output) = extraction(set, key.public(), &first, &second);
    assert_eq!(answer, extracted(&first, &second), "{set:?}");
    for number in 0..runs {
        let output = part(&output, number, set.states_bytes());
        if first.leaves[number] == second.leaves[number] {
            assert!(output.iter().all(|&byte| byte == 0xa5));
            continue;
        }
        let run = Run::new(&start.salt, number, &start.root);
        assert_eq!(summed_shares(set, &run.prefix, output).aux.x_a, key.x_a);
        assert_eq!(leaves_of_output(set, output), leaves_of_run(set, &run, output));
        assert_relation(set, &key, &first.messages().run(set, number), output);
    }
}

/// The leaves from a run's root seed; aux is taken from the output, since it is not the tree that gives it.
fn leaves_of_run(set: &Parameters, run: &Run, output: &[u8]) -> Vec<Leaf> {
    let tree = Tree::from_root(set.axes, &run.prefix, &run.root);
    let node_seed = |leaf| -> Seed { tree.leaf_seed(leaf).expect("a tree made from its root has every leaf") };
    let mut leaves: Vec<Leaf> =
        (0..set.leaves()).map(|leaf| Leaf::from_node_seed(&run.prefix, leaf, &node_seed(leaf))).collect();
    leaves[set.last_leaf()].aux = Some(Aux::from_bytes(set, &output[32 * set.leaves()..]));
    leaves
}

#[test]
fn rewound_exchanges_give_the_states() {
    let mut random = Random::new(40);
    for _ in 0..80 {
        let set = random_set(&mut random, 24, 4);
        let runs = random.between(1, 3);
        assert_honest_extraction(&mut random, &set, runs);
    }
}

#[test]
fn rewound_exchanges_of_several_runs() {
    let mut random = Random::new(46);
    for runs in [1, 2, 5, 32] {
        for _ in 0..4 {
            let set = random_set(&mut random, 12, 3);
            assert_honest_extraction(&mut random, &set, runs);
        }
    }
}

#[test]
fn rewound_exchanges_at_extreme_parameters() {
    let mut random = Random::new(41);
    for set in extreme_sets() {
        assert_honest_extraction(&mut random, &set, 1);
    }
}

#[test]
fn every_pair_of_leaves_gives_the_same_states() {
    let mut random = Random::new(42);
    let set = Parameters::new(7, 3, 2, 3, 2);
    let key = valid_key(&mut random, &set);
    let start = Start::random(&mut random, &set, 1);
    let exchanges: Vec<Exchange> = (0..8).map(|leaf| honest_exchange(&key, &start, &[leaf])).collect();
    let (_, states) = extraction(&set, key.public(), &exchanges[0], &exchanges[1]);
    for first in &exchanges {
        for second in exchanges.iter().filter(|second| second.leaves != first.leaves) {
            let (answer, output) = extraction(&set, key.public(), first, second);
            assert_eq!((answer, &output), (extracted(first, second), &states));
        }
    }
}

#[test]
fn message_2_known_beforehand_gives_states_with_the_relation() {
    let mut random = Random::new(43);
    for _ in 0..60 {
        let set = random_set(&mut random, 24, 4);
        let key = valid_key(&mut random, &set);
        let runs = random.between(1, 3);
        let message_2 = random_message_2(&mut random, &set, runs);
        let prover = PointsFirst::new(&mut random, &set, key.public(), &message_2);
        let [first, second] = two_leaf_lists(&mut random, &set, runs).map(|leaves| prover.exchange(&leaves));
        let (answer, output) = extraction(&set, key.public(), &first, &second);
        assert_eq!(answer, extracted(&first, &second));
        for run in differing_runs(&first.leaves, &second.leaves) {
            let output = part(&output, run, set.states_bytes());
            assert_relation(&set, &key, &first.messages().run(&set, run), output);
        }
    }
}

#[test]
fn axis_is_the_lowest_set_bit() {
    assert_eq!(first_differing_axis(0, 1), 1);
    assert_eq!(first_differing_axis(0, 128), 8);
    assert_eq!(first_differing_axis(0b101, 0b001), 3);
    assert_eq!(first_differing_axis(255, 0), 1);
}

fn equal_strings() -> OpeningStrings {
    let leaves = (0..8u8).map(|leaf| Some(vec![4, leaf])).collect();
    let axes = (1..=3u8).map(|axis| vec![6, axis]).collect();
    OpeningStrings { leaves, commitments: vec![5], axes, response: vec![7] }
}

/// Strings can differ in accepted openings only where two have one digest, so the comparison is tried on its own.
#[test]
fn first_unequal_pair_is_named() {
    let first = OpeningStrings { leaves: hide(2), ..equal_strings() };
    let mut second = OpeningStrings { leaves: hide(5), ..equal_strings() };
    assert_eq!(first_unequal_pair(&first, &second), None);
    second.leaves[7] = Some(vec![0]);
    assert_eq!(first_unequal_pair(&first, &second), Some((4, 7)));
    second.leaves[0] = Some(vec![0]);
    assert_eq!(first_unequal_pair(&first, &second), Some((4, 0)));
    second.commitments = vec![0];
    assert_eq!(first_unequal_pair(&first, &second), Some((5, 0)));
    second.axes[2] = vec![0];
    assert_eq!(first_unequal_pair(&first, &second), Some((6, 3)));
    second.axes[0] = vec![0];
    assert_eq!(first_unequal_pair(&first, &second), Some((6, 1)));
    second.response = vec![0];
    assert_eq!(first_unequal_pair(&first, &second), Some((7, 0)));
}

fn hide(hidden: usize) -> Vec<Option<Vec<u8>>> {
    let mut leaves = equal_strings().leaves;
    leaves[hidden] = None;
    leaves
}

/// Leaves hidden in one opening only are not compared.
#[test]
fn hidden_leaves_are_not_compared() {
    let first = OpeningStrings { leaves: hide(2), ..equal_strings() };
    let mut second = OpeningStrings { leaves: hide(5), ..equal_strings() };
    second.leaves[2] = Some(vec![0]);
    assert_eq!(first_unequal_pair(&first, &second), None);
}

const SET: Parameters = Parameters::new(7, 3, 2, 3, 2);

/// A call of the extractor that gives the states of the only run, hiding leaves 3 and 7.
fn extracting_call() -> ExtractorCall {
    let mut random = Random::new(44);
    let key = valid_key(&mut random, &SET);
    let start = Start::random(&mut random, &SET, 1);
    ExtractorCall {
        parameters: SET,
        runs: 1,
        first: honest_exchange(&key, &start, &[3]),
        second: honest_exchange(&key, &start, &[7]),
        lent: LentBytes { matrix: key.matrix, y: key.y, work: vec![0xa5; SET.work_bytes() + 9] },
        output: vec![0xa5; SET.extractor_bytes(1)],
    }
}

/// Asserts that a call is refused with a number, before or after the work area is used.
fn assert_refused(call: &ExtractorCall, number: Number, work_cleared: bool) {
    let (answer, work, output) = call.make();
    assert_eq!(answer, Answer::Refused(number));
    assert_eq!(output, call.output);
    let mut expected = call.lent.work.clone();
    if work_cleared {
        expected[..call.parameters.work_bytes()].fill(0);
    }
    assert_eq!(work, expected);
}

/// A change that damages a call.
type Change = fn(&mut ExtractorCall);

#[test]
fn the_undamaged_call_extracts() {
    let call = extracting_call();
    let (answer, work, _) = call.make();
    assert_eq!(answer, Answer::Extracted { run: 0, axis: 3 });
    assert!(work[..SET.work_bytes()].iter().all(|&byte| byte == 0));
    assert!(work[SET.work_bytes()..].iter().all(|&byte| byte == 0xa5));
}

#[test]
fn refusals_before_the_openings() {
    let changes: [(Number, Change); 26] = [
        (PARAMETER_OUTSIDE_LIMITS, |call| call.parameters.t = 9),
        (PARAMETER_OUTSIDE_LIMITS, |call| call.runs = 0),
        (PARAMETER_OUTSIDE_LIMITS, |call| (call.runs, call.first.message_5) = (33, vec![])),
        (WRONG_LENGTH, |call| call.runs = 2),
        (WRONG_LENGTH, |call| call.first.leaves.push(3)),
        (WRONG_LENGTH, |call| call.second.leaves.clear()),
        (WRONG_LENGTH, |call| call.first.message_1.truncate(63)),
        (WRONG_LENGTH, |call| call.second.message_1.push(0)),
        (WRONG_LENGTH, |call| call.first.message_2.truncate(15)),
        (WRONG_LENGTH, |call| call.second.message_2.push(0)),
        (WRONG_LENGTH, |call| call.first.message_3.truncate(31)),
        (WRONG_LENGTH, |call| call.second.message_3.push(0)),
        (WRONG_LENGTH, |call| call.first.message_5.push(0)),
        (WRONG_LENGTH, |call| call.second.message_5.truncate(2)),
        (WRONG_LENGTH, |call| call.lent.matrix.push(0)),
        (WRONG_LENGTH, |call| call.lent.y.push(0)),
        (WRONG_LENGTH, |call| call.lent.work.truncate(SET.work_bytes() - 1)),
        (WRONG_LENGTH, |call| call.output.push(0)),
        (WRONG_LENGTH, |call| call.second.leaves[0] = 8),
        (LEAF_NOT_BELOW_N, |call| call.first.leaves[0] = 8),
        (LEAF_NOT_BELOW_N, |call| (call.first.leaves[0], call.second.message_1[0]) = (255, !call.second.message_1[0])),
        (EXCHANGES_DIFFER, |call| call.first.message_1[0] ^= 1),
        (EXCHANGES_DIFFER, |call| call.second.message_1[63] ^= 1),
        (EXCHANGES_DIFFER, |call| call.first.message_2[0] ^= 1),
        (EXCHANGES_DIFFER, |call| (call.second.message_3[9], call.second.leaves[0]) = (!call.second.message_3[9], 7)),
        (SAME_HIDDEN_LEAVES, |call| call.second = call.first.clone()),
    ];
    for (number, change) in changes {
        let mut call = extracting_call();
        change(&mut call);
        assert_refused(&call, number, false);
    }
}

#[test]
fn refusals_by_the_openings() {
    let alpha = 16 * SET.axes + 32;
    let mut call = extracting_call();
    call.first.message_5[0] ^= 1;
    assert_refused(&call, COMMITMENT_DIFFERS, true);
    let mut call = extracting_call();
    call.second.message_5[0] ^= 1;
    assert_refused(&call, COMMITMENT_DIFFERS, true);
    let mut call = extracting_call();
    call.second.message_5[alpha] ^= 1;
    assert_refused(&call, RESPONSE_DIFFERS, true);
    let mut call = extracting_call();
    call.first.message_5[alpha] ^= 1;
    call.second.message_5[0] ^= 1;
    assert_refused(&call, RESPONSE_DIFFERS, true);
    let mut call = extracting_call();
    call.lent.y[0] ^= 1;
    assert_refused(&call, RESPONSE_DIFFERS, true);
}

#[test]
fn damaged_openings_never_extract_other_states() {
    let mut random = Random::new(45);
    let (_, _, states) = extracting_call().make();
    for _ in 0..300 {
        let mut call = extracting_call();
        flip_bit(&mut random, &mut call.second.message_5);
        let (answer, _, output) = call.make();
        assert!(matches!(answer, Answer::Refused(COMMITMENT_DIFFERS | RESPONSE_DIFFERS)));
        assert_ne!(output, states);
    }
}
