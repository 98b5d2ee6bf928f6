//! Openings that somebody made up so that they get past 5: what they hold is random, h and h' are recomputed to fit. They
//! come with what a call must answer, also where h or h' is spoiled.

use crate::commitment::Committed;
use crate::extractor::{differing_runs, first_differing_axis, Answer};
use crate::messages::{challenges, message_1};
use crate::numbers::{Number, CARRIED_OUT, COMMITMENT_DIFFERS, EXCHANGES_DIFFER, POINT_REPEATED, RESPONSE_DIFFERS};
use crate::parameters::Parameters;
use crate::parties::AlphaBeta;
use crate::points_field::{points_from_bytes, Point, POINT_BYTES};
use crate::sampling::damage::{flip_bit, flip_challenge_bit, repeat_point};
use crate::sampling::exchanges::{random_message_2, Exchange};
use crate::sampling::keys::Key;
use crate::sampling::simulated::{fitted, leaf_first, PointsFirst};
use crate::sampling::Random;
use crate::shares::Aux;
use crate::strings::{prefix, Prefix, DIGEST_BYTES, SEED_BYTES};
use crate::tree::Tree;

/// So many leaves below n.
pub fn any_leaves(random: &mut Random, parameters: &Parameters, runs: usize) -> Vec<u8> {
    (0..runs).map(|_| random.below(parameters.leaves()) as u8).collect()
}

/// Leaf 0 in every run, leaf n−1 in every run, and any leaves.
pub fn some_leaves(random: &mut Random, parameters: &Parameters, runs: usize) -> [Vec<u8>; 3] {
    [vec![0; runs], vec![parameters.last_leaf() as u8; runs], any_leaves(random, parameters, runs)]
}

/// Another leaf below n.
pub fn other_leaf(random: &mut Random, parameters: &Parameters, leaf: u8) -> u8 {
    ((usize::from(leaf) + random.between(1, parameters.last_leaf())) % parameters.leaves()) as u8
}

/// Two lists of leaves that differ in a run, and often in others too.
pub fn two_leaf_lists(random: &mut Random, parameters: &Parameters, runs: usize) -> [Vec<u8>; 2] {
    let first = any_leaves(random, parameters, runs);
    let (chosen, others) = (random.below(runs), random.below(3));
    let differs = |random: &mut Random, run| run == chosen || (others > 0 && random.once_in(others));
    let second =
        first.iter().enumerate().map(
            |(run, &leaf)| {
                if differs(random, run) {
                    other_leaf(random, parameters, leaf)
                } else {
                    leaf
                }
            },
        );
    let second = second.collect();
    [first, second]
}

/// The exchange with another h in a run.
fn with_other_h(random: &mut Random, exchange: &Exchange, run: usize) -> Exchange {
    let mut exchange = exchange.clone();
    flip_bit(random, exchange.h_mut(run));
    exchange
}

/// The exchange with another h' in a run.
fn with_other_response(random: &mut Random, exchange: &Exchange, run: usize) -> Exchange {
    let mut exchange = exchange.clone();
    flip_bit(random, exchange.response_mut(run));
    exchange
}

/// The exchange with another commitment of the hidden leaf in a run.
fn with_other_commitment(random: &mut Random, parameters: &Parameters, exchange: &Exchange, run: usize) -> Exchange {
    let mut exchange = exchange.clone();
    let place = SEED_BYTES * parameters.axes;
    flip_bit(random, &mut exchange.opening_mut(parameters, run)[place..place + DIGEST_BYTES]);
    exchange
}

/// The exchange with another α of the hidden leaf in a run.
fn with_other_alpha(random: &mut Random, parameters: &Parameters, exchange: &Exchange, run: usize) -> Exchange {
    let mut exchange = exchange.clone();
    let place = SEED_BYTES * parameters.axes + DIGEST_BYTES;
    flip_bit(random, &mut exchange.opening_mut(parameters, run)[place..place + parameters.position_bytes()]);
    exchange
}

/// A made-up exchange that hides these leaves; the same with another h' in a run, with another h and with both; and, of
/// several runs, with one of these in a run and the other in a later one. Each comes with the number of its verdict.
pub fn openings(random: &mut Random, key: &Key, leaves: &[u8]) -> Vec<(Exchange, Number)> {
    let fitting = leaf_first(random, &key.parameters, key.public(), leaves);
    let run = random.below(leaves.len());
    let other_response = with_other_response(random, &fitting, run);
    let other_h = with_other_h(random, &fitting, run);
    let neither = with_other_h(random, &other_response, run);
    let mut all = vec![
        (fitting, CARRIED_OUT),
        (other_response.clone(), RESPONSE_DIFFERS),
        (other_h.clone(), COMMITMENT_DIFFERS),
        (neither, COMMITMENT_DIFFERS),
    ];
    if run + 1 < leaves.len() {
        let later = random.between(run + 1, leaves.len() - 1);
        all.push((with_other_h(random, &other_response, later), RESPONSE_DIFFERS));
        all.push((with_other_response(random, &other_h, later), COMMITMENT_DIFFERS));
    }
    all
}

/// A made-up exchange that hides these leaves and would be accepted if two points of some run were not equal; none with one
/// position.
pub fn with_repeated_point(random: &mut Random, key: &Key, leaves: &[u8]) -> Option<Exchange> {
    let mut exchange = leaf_first(random, &key.parameters, key.public(), leaves);
    let repeated = repeat_point(random, &key.parameters, &mut exchange.message_2);
    repeated.then(|| fitted(&key.parameters, key.public(), exchange))
}

fn random_points(random: &mut Random, number: usize) -> Vec<Point> {
    points_from_bytes(&random.bytes(POINT_BYTES * number))
}

/// The leaves of a whole random tree in a run, with any aux.
fn any_tree(random: &mut Random, parameters: &Parameters, prefix: &Prefix) -> Committed {
    let tree = Tree::from_root(parameters.axes, prefix, &random.array());
    let aux = Aux::from_bytes(parameters, &random.bytes(parameters.aux_bytes()));
    Committed::with_aux(parameters, prefix, tree, aux)
}

/// For each list of leaves an exchange that hides them in one whole tree a run with any aux: α and β of the hidden leaves
/// are random, each h' is what follows from them.
fn of_one_tree(random: &mut Random, key: &Key, leaves: &[Vec<u8>; 2]) -> [Exchange; 2] {
    let (parameters, runs) = (&key.parameters, leaves[0].len());
    let salt = random.array();
    let committed: Vec<Committed> = (0..runs).map(|run| any_tree(random, parameters, &prefix(&salt, run))).collect();
    let message_2 = random_message_2(random, parameters, runs);
    let challenges = challenges(parameters, &message_2);
    leaves.each_ref().map(|leaves| {
        let opening = |run: usize| {
            let mut opening = committed[run].opening(&challenges[run], leaves[run], key.public());
            let alpha = random_points(random, parameters.t);
            opening.alpha_beta = AlphaBeta { alpha, beta: random_points(random, parameters.t) };
            opening.to_bytes()
        };
        let exchange = Exchange {
            message_1: message_1(&salt, &vec![[0; DIGEST_BYTES]; runs]),
            message_2: message_2.clone(),
            message_3: vec![0; Parameters::message_3_bytes(runs)],
            leaves: leaves.clone(),
            message_5: (0..runs).flat_map(opening).collect(),
        };
        fitted(parameters, key.public(), exchange)
    })
}

/// The first exchange, and the leaves and message 5 of the second with the first one's messages 1 to 3.
fn joined(first: &Exchange, second: &Exchange) -> [Exchange; 2] {
    let Exchange { leaves, message_5, .. } = second.clone();
    [first.clone(), Exchange { leaves, message_5, ..first.clone() }]
}

fn swapped(pair: &[Exchange; 2]) -> [Exchange; 2] {
    [pair[1].clone(), pair[0].clone()]
}

/// Exchanges of which no opening fits the other's messages 1 to 3: unrelated ones, and those of one tree a run. Only one of
/// each pair is accepted.
fn misfits(random: &mut Random, key: &Key, leaves: &[Vec<u8>; 2]) -> Vec<([Exchange; 2], Answer)> {
    let [one, other] = leaves.each_ref().map(|leaves| leaf_first(random, &key.parameters, key.public(), leaves));
    let unrelated = joined(&one, &other);
    let [one, other] = of_one_tree(random, key, leaves);
    let same_tree = joined(&one, &other);
    vec![
        (swapped(&unrelated), Answer::Refused(COMMITMENT_DIFFERS)),
        (unrelated, Answer::Refused(COMMITMENT_DIFFERS)),
        (swapped(&same_tree), Answer::Refused(RESPONSE_DIFFERS)),
        (same_tree, Answer::Refused(RESPONSE_DIFFERS)),
    ]
}

/// Two accepted exchanges, and these with one run of an opening spoiled or with messages 1 to 3 apart in one run.
fn spoiled(random: &mut Random, set: &Parameters, first: &Exchange, second: &Exchange) -> Vec<([Exchange; 2], Answer)> {
    let [run, other] = [0, 1].map(|_| random.below(first.runs()));
    let first_5 = with_other_commitment(random, set, first, run);
    let first_7 = with_other_alpha(random, set, first, run);
    let second_5 = with_other_commitment(random, set, second, other);
    let second_7 = with_other_alpha(random, set, second, other);
    let mut challenge = second.clone();
    flip_challenge_bit(random, set, challenge.challenge_mut(set, other));
    let apart = [with_other_h(random, second, other), challenge, with_other_response(random, second, other)];
    let mut all = vec![
        ([first_7.clone(), second_5.clone()], Answer::Refused(RESPONSE_DIFFERS)),
        ([first_5, second_7.clone()], Answer::Refused(COMMITMENT_DIFFERS)),
        ([first.clone(), second_5], Answer::Refused(COMMITMENT_DIFFERS)),
        ([first.clone(), second_7], Answer::Refused(RESPONSE_DIFFERS)),
    ];
    all.extend(apart.map(|second| ([first_7.clone(), second], Answer::Refused(EXCHANGES_DIFFER))));
    all
}

/// Two exchanges that hide these leaves and would be extracted if two points of some run were not equal, and pairs of which
/// only the first or only the second repeats a point; none with one position.
fn repeating(random: &mut Random, key: &Key, leaves: &[Vec<u8>; 2]) -> Vec<([Exchange; 2], Answer)> {
    let set = key.parameters;
    let distinct = random_message_2(random, &set, leaves[0].len());
    let mut message_2 = distinct.clone();
    if !repeat_point(random, &set, &mut message_2) {
        return Vec::new();
    }
    let prover = PointsFirst::new(random, &set, key.public(), &message_2);
    let [first, second] = leaves.each_ref().map(|leaves| prover.exchange(leaves));
    let [other_first, other_second] =
        [&first, &second].map(|exchange| Exchange { message_2: distinct.clone(), ..exchange.clone() });
    let pairs = [[first.clone(), second.clone()], [first, other_second], [other_first, second]];
    pairs.map(|pair| (pair, Answer::Refused(POINT_REPEATED))).into()
}

/// Made-up exchanges that mostly differ in leaves and message 5 alone, each pair with what the extractor answers: both are
/// accepted; both have another h' or another h; they misfit; one run is spoiled; a point is repeated.
pub fn pairs(random: &mut Random, key: &Key, runs: usize) -> Vec<([Exchange; 2], Answer)> {
    let (set, public) = (key.parameters, key.public());
    let leaves = two_leaf_lists(random, &set, runs);
    let lowest = differing_runs(&leaves[0], &leaves[1])[0];
    let axis = first_differing_axis(leaves[0][lowest], leaves[1][lowest]);
    let message_2 = random_message_2(random, &set, runs);
    let prover = PointsFirst::new(random, &set, public, &message_2);
    let [first, second] = leaves.each_ref().map(|leaves| prover.exchange(leaves));
    let run = random.below(runs);
    let other_response = joined(&with_other_response(random, &first, run), &second);
    let other_h = joined(&with_other_h(random, &first, run), &second);
    let mut all = vec![
        ([first.clone(), second.clone()], Answer::Extracted { run: lowest as u8, axis }),
        (other_response, Answer::Refused(RESPONSE_DIFFERS)),
        (other_h, Answer::Refused(COMMITMENT_DIFFERS)),
    ];
    all.extend(misfits(random, key, &leaves));
    all.extend(spoiled(random, &set, &first, &second));
    all.extend(repeating(random, key, &leaves));
    all
}
