//! Several runs in one exchange (document 02, request 01): the messages run after run, the lowest refused run's number, and
//! what the extractor compares and writes.

use reference::check::{check, Recomputed};
use reference::commitment::{Committed, Witness};
use reference::extractor::{answer_openings, differing_runs, Answer};
use reference::messages::{challenges, part};
use reference::numbers::*;
use reference::parameters::Parameters;
use reference::runs::{check_run_count, Run};
use reference::sampling::calls::{ExtractorCall, LentBytes};
use reference::sampling::damage::flip_bit;
use reference::sampling::exchanges::{extraction, honest_exchange, verdict, Exchange, Start};
use reference::sampling::keys::{valid_key, Key};
use reference::sampling::made_up::{any_leaves, other_leaf, pairs};
use reference::sampling::parameter_sets::random_set;
use reference::sampling::Random;
use reference::shake256::shake256;
use reference::strings::{prefix, run_root};

const RUN_COUNTS: [usize; 4] = [1, 2, 5, 32];

/// A small key, a start of so many runs, and leaves.
fn sample(random: &mut Random, runs: usize) -> (Key, Start, Vec<u8>) {
    let set = random_set(random, 10, 3);
    let key = valid_key(random, &set);
    let start = Start::random(random, &set, runs);
    let leaves = any_leaves(random, &set, runs);
    (key, start, leaves)
}

#[test]
fn run_counts_from_1_to_32() {
    for runs in 1..=32 {
        assert_eq!(check_run_count(runs), Ok(()));
    }
    for runs in [0, 33, 255, 256, usize::MAX] {
        assert_eq!(check_run_count(runs), Err(PARAMETER_OUTSIDE_LIMITS));
    }
}

#[test]
fn prefix_and_root_of_a_run() {
    let (salt, root) = ([7; 32], [9; 16]);
    for run in [0, 1, 31] {
        assert_eq!(prefix(&salt, run)[..], [&[7; 32][..], &[run as u8]].concat());
        let string = [&[8][..], &[7; 32], &[run as u8], &[9; 16]].concat();
        assert_eq!(run_root(&prefix(&salt, run), &root)[..], shake256(&string, 16));
        assert_eq!(Run::new(&salt, run, &root).root, run_root(&prefix(&salt, run), &root));
    }
}

/// Every message but the salt is the runs' messages one after another, each made from its own prefix and root.
#[test]
fn messages_are_those_of_the_runs() {
    let mut random = Random::new(70);
    for runs in RUN_COUNTS {
        let (key, start, leaves) = sample(&mut random, runs);
        let set = key.parameters;
        let witness = Witness::of_vector(&set, &key.vector());
        let (mut message_1, mut message_3, mut message_5) = (start.salt.to_vec(), vec![], vec![]);
        for (run, challenge) in challenges(&set, &start.message_2).iter().enumerate() {
            let committed = Committed::new(&set, &Run::new(&start.salt, run, &start.root), &witness);
            message_1.extend(committed.h());
            message_3.extend(committed.response(challenge, key.public()));
            message_5.extend(committed.opening(challenge, leaves[run], key.public()).to_bytes());
        }
        let expected = Exchange { message_1, message_2: start.message_2.clone(), message_3, leaves, message_5 };
        assert_eq!(honest_exchange(&key, &start, &expected.leaves), expected);
        assert_eq!(expected.message_1.len(), 32 + 32 * runs);
        assert_eq!(expected.message_2.len(), 8 * set.t * runs);
        assert_eq!(expected.message_3.len(), 32 * runs);
    }
}

/// No run repeats another one, even where points and leaf do.
#[test]
fn runs_of_one_exchange_differ() {
    let mut random = Random::new(71);
    let (key, mut start, _) = sample(&mut random, 32);
    let challenge = part(&start.message_2, 0, key.parameters.challenge_bytes()).to_vec();
    start.message_2 = challenge.repeat(32);
    let exchange = honest_exchange(&key, &start, &[1; 32]);
    for other in 1..32 {
        assert_ne!(part(&exchange.message_1[32..], 0, 32), part(&exchange.message_1[32..], other, 32));
        assert_ne!(part(&exchange.message_3, 0, 32), part(&exchange.message_3, other, 32));
    }
}

/// A fault of a run and the number that it gives: another h, another h', another commitment or another β.
fn spoil(random: &mut Random, set: &Parameters, exchange: &mut Exchange, run: usize, kind: usize) -> Number {
    let beta = 16 * set.axes + 32 + 4 * set.t;
    match kind {
        0 => flip_bit(random, exchange.h_mut(run)),
        1 => flip_bit(random, exchange.response_mut(run)),
        2 => flip_bit(random, &mut exchange.opening_mut(set, run)[16 * set.axes..16 * set.axes + 32]),
        _ => flip_bit(random, &mut exchange.opening_mut(set, run)[beta..beta + 4 * set.t]),
    }
    if kind.is_multiple_of(2) {
        COMMITMENT_DIFFERS
    } else {
        RESPONSE_DIFFERS
    }
}

#[test]
fn each_run_damaged_in_turn() {
    let mut random = Random::new(72);
    for runs in RUN_COUNTS {
        let (key, start, leaves) = sample(&mut random, runs);
        let honest = honest_exchange(&key, &start, &leaves);
        for run in 0..runs {
            for kind in 0..4 {
                let mut exchange = honest.clone();
                let number = spoil(&mut random, &key.parameters, &mut exchange, run, kind);
                assert_eq!(verdict(&key.parameters, key.public(), &exchange), number, "run {run} of {runs}");
            }
        }
    }
}

/// 7 in an earlier run comes before 5 in a later one, and the other way round.
#[test]
fn the_lowest_refused_run_counts() {
    let mut random = Random::new(73);
    for runs in [2, 5, 32] {
        let (key, start, leaves) = sample(&mut random, runs);
        let honest = honest_exchange(&key, &start, &leaves);
        for _ in 0..20 {
            let run = random.below(runs - 1);
            let later = random.between(run + 1, runs - 1);
            for (kind, later_kind) in [(1, 0), (3, 2), (0, 1), (2, 3), (3, 0)] {
                let mut exchange = honest.clone();
                let number = spoil(&mut random, &key.parameters, &mut exchange, run, kind);
                spoil(&mut random, &key.parameters, &mut exchange, later, later_kind);
                assert_eq!(verdict(&key.parameters, key.public(), &exchange), number);
            }
        }
    }
}

/// The parts of two runs exchanged, with their points and leaves: h of a run fits no other.
#[test]
fn runs_do_not_change_places() {
    let mut random = Random::new(74);
    let (key, start, _) = sample(&mut random, 2);
    let set = key.parameters;
    let honest = honest_exchange(&key, &start, &[0, 0]);
    let turned = |bytes: &[u8]| [part(bytes, 1, bytes.len() / 2), part(bytes, 0, bytes.len() / 2)].concat();
    let exchange = Exchange {
        message_1: [&honest.message_1[..32], &turned(&honest.message_1[32..])].concat(),
        message_2: turned(&honest.message_2),
        message_3: turned(&honest.message_3),
        leaves: honest.leaves.clone(),
        message_5: turned(&honest.message_5),
    };
    assert_eq!(verdict(&set, key.public(), &exchange), COMMITMENT_DIFFERS);
}

/// Two openings of one exchange under a small key, which hide other leaves in these runs alone.
fn rewound(random: &mut Random, runs: usize, differing: &[usize]) -> (Key, Exchange, Exchange) {
    let (key, start, leaves) = sample(random, runs);
    rewound_under(random, key, start, leaves, differing)
}

fn rewound_under(
    random: &mut Random,
    key: Key,
    start: Start,
    leaves: Vec<u8>,
    differing: &[usize],
) -> (Key, Exchange, Exchange) {
    let mut others = leaves.clone();
    for &run in differing {
        others[run] = other_leaf(random, &key.parameters, leaves[run]);
    }
    let (first, second) = (honest_exchange(&key, &start, &leaves), honest_exchange(&key, &start, &others));
    (key, first, second)
}

#[test]
fn parts_of_runs_with_equal_leaves_stay() {
    let mut random = Random::new(75);
    let cases: [(usize, &[usize]); 6] = [(1, &[0]), (2, &[1]), (5, &[0, 4]), (5, &[3]), (32, &[31]), (32, &[7, 8, 30])];
    for (runs, differing) in cases {
        let (key, first, second) = rewound(&mut random, runs, differing);
        let (answer, output) = extraction(&key.parameters, key.public(), &first, &second);
        let lowest = differing[0];
        let axis = (first.leaves[lowest] ^ second.leaves[lowest]).trailing_zeros() as u8 + 1;
        assert_eq!(answer, Answer::Extracted { run: lowest as u8, axis });
        for run in 0..runs {
            let part = part(&output, run, key.parameters.states_bytes());
            assert_eq!(part.iter().all(|&byte| byte == 0xa5), !differing.contains(&run), "run {run}");
        }
    }
}

/// What each run of an opening gives.
fn recomputed(key: &Key, exchange: &Exchange) -> Vec<Recomputed> {
    check(&key.parameters, key.public(), &exchange.messages()).unwrap_or_else(|number| panic!("refused with {number}"))
}

/// An unequal pair in some run leaves all of the output as it was, also where lower runs have none; pairs of runs with equal
/// leaves are not looked at. Strings can differ in accepted openings only where two have one digest, so the comparison is
/// tried on its own.
#[test]
fn unequal_pairs_leave_the_whole_output() {
    let mut random = Random::new(76);
    for (runs, differing) in [(2, vec![0, 1]), (5, vec![1, 3, 4]), (32, vec![0, 30, 31])] {
        let (key, first, second) = rewound(&mut random, runs, &differing);
        assert_eq!(differing_runs(&first.leaves, &second.leaves), differing);
        let untouched = vec![0xa5; key.parameters.extractor_bytes(runs)];
        let first = recomputed(&key, &first);
        for run in 0..runs {
            let mut openings = recomputed(&key, &second);
            openings[run].strings.axes[0].push(0);
            let mut output = untouched.clone();
            let answer = answer_openings(&first, &openings, &differing, &mut output);
            if differing.contains(&run) {
                assert_eq!(answer, Some(Answer::Unequal { run: run as u8, layer: 6, number: 1 }));
                assert_eq!(output, untouched);
            } else {
                assert_eq!(answer, None);
                assert_ne!(output, untouched);
            }
        }
    }
}

/// Runs come before layers: layer 4 of a lower run before layer 7 of a higher one.
#[test]
fn the_lowest_run_with_an_unequal_pair_is_named() {
    let mut random = Random::new(77);
    let set = Parameters::new(7, 3, 2, 2, 1);
    let (key, start) = (valid_key(&mut random, &set), Start::random(&mut random, &set, 5));
    let (key, first, second) = rewound_under(&mut random, key, start, vec![0; 5], &[0, 2, 4]);
    let leaf = if second.leaves[2] == 1 { 2 } else { 1 };
    let (first, mut openings) = (recomputed(&key, &first), recomputed(&key, &second));
    openings[4].strings.response.push(0);
    let mut output = vec![0xa5; key.parameters.extractor_bytes(5)];
    let named = |openings: &[Recomputed], output: &mut [u8]| answer_openings(&first, openings, &[0, 2, 4], output);
    assert_eq!(named(&openings, &mut output), Some(Answer::Unequal { run: 4, layer: 7, number: 0 }));
    openings[2].strings.leaves[usize::from(leaf)] = Some(vec![]);
    assert_eq!(named(&openings, &mut output), Some(Answer::Unequal { run: 2, layer: 4, number: leaf }));
    openings[2].strings.commitments.push(0);
    assert_eq!(named(&openings, &mut output), Some(Answer::Unequal { run: 2, layer: 5, number: 0 }));
}

#[test]
fn made_up_pairs_of_several_runs() {
    let mut random = Random::new(78);
    for runs in RUN_COUNTS {
        for _ in 0..3 {
            let (key, _, _) = sample(&mut random, 1);
            for ([first, second], answer) in pairs(&mut random, &key, runs) {
                let (found, output) = extraction(&key.parameters, key.public(), &first, &second);
                assert_eq!(found, answer);
                let untouched = output.iter().all(|&byte| byte == 0xa5);
                assert_eq!(untouched, !matches!(answer, Answer::Extracted { .. }));
            }
        }
    }
}

/// A call that extracts from five runs of which 1 and 3 differ.
fn extracting_call() -> ExtractorCall {
    let (key, first, second) = rewound(&mut Random::new(79), 5, &[1, 3]);
    let set = key.parameters;
    ExtractorCall {
        parameters: set,
        runs: 5,
        first,
        second,
        lent: LentBytes { matrix: key.matrix, y: key.y, work: vec![0xa5; set.work_bytes()] },
        output: vec![0xa5; set.extractor_bytes(5)],
    }
}

/// A change that damages a call, given its parameters.
type Change = fn(&mut ExtractorCall, &Parameters);

/// Faults are added from the last number of the order to the first; each time the earlier number wins.
#[test]
fn extractor_answers_in_order() {
    fn beta(set: &Parameters) -> usize {
        16 * set.axes + 32 + 4 * set.t
    }
    let changes: [(Number, Change); 11] = [
        (COMMITMENT_DIFFERS, |call, set| call.second.opening_mut(set, 4)[16 * set.axes] ^= 1),
        (RESPONSE_DIFFERS, |call, set| call.second.opening_mut(set, 2)[beta(set)] ^= 1),
        (COMMITMENT_DIFFERS, |call, set| call.first.opening_mut(set, 4)[16 * set.axes] ^= 1),
        (RESPONSE_DIFFERS, |call, set| call.first.opening_mut(set, 0)[beta(set)] ^= 1),
        (SAME_HIDDEN_LEAVES, |call, _| call.second = call.first.clone()),
        (EXCHANGES_DIFFER, |call, _| call.second.message_3[32 * 5 - 1] ^= 1),
        (LEAF_NOT_BELOW_N, |call, set| (call.second.leaves[0], call.second.message_5) = longer(call, set)),
        (WRONG_LENGTH, |call, _| call.output.truncate(call.output.len() / 5 * 4)),
        (PARAMETER_OUTSIDE_LIMITS, |call, _| call.runs = 33),
        (PARAMETER_OUTSIDE_LIMITS, |call, _| call.runs = 0),
        (PARAMETER_OUTSIDE_LIMITS, |call, _| (call.runs, call.parameters.t) = (5, 0)),
    ];
    let mut call = extracting_call();
    let set = call.parameters;
    assert!(matches!(call.make().0, Answer::Extracted { run: 1, .. }));
    for (number, change) in changes {
        change(&mut call, &set);
        let (answer, work, output) = call.make();
        assert_eq!(answer, Answer::Refused(number));
        assert_eq!(output, call.output);
        let judged = [COMMITMENT_DIFFERS, RESPONSE_DIFFERS].contains(&number);
        assert!(work.iter().all(|&byte| byte == if judged { 0 } else { 0xa5 }));
    }
}

/// Leaf n for the first run and a message 5 of the length that then counts.
fn longer(call: &ExtractorCall, set: &Parameters) -> (u8, Vec<u8>) {
    let leaf = set.leaves() as u8;
    let leaves = [&[leaf], &call.second.leaves[1..]].concat();
    (leaf, vec![0; set.message_5_bytes(&leaves)])
}
