//! The extractor: from two accepted openings of one commitment, every leaf's state in each run whose hidden leaves differ.

use crate::check::{check, OpeningStrings, Recomputed};
use crate::leaves::Leaf;
use crate::lent::Lent;
use crate::messages::{check_points, Messages};
use crate::numbers::{require, Number, EXCHANGES_DIFFER, SAME_HIDDEN_LEAVES, WRONG_LENGTH};
use crate::parameters::Parameters;
use crate::runs::check_run_count;
use crate::strings::number_byte;

/// What the extractor answers.
#[derive(Clone, Copy, Debug, PartialEq, Eq)]
pub enum Answer {
    /// The call was refused, or an opening was not accepted.
    Refused(Number),
    /// Two unequal strings of a run and a layer are hashed to one digest.
    Unequal {
        /// The run, from 0.
        run: u8,
        /// The layer, 7 to 4.
        layer: u8,
        /// The axis for layer 6, the leaf for layer 4, else 0.
        number: u8,
    },
    /// The output holds every leaf's state in each run whose hidden leaves differ.
    Extracted {
        /// The lowest such run, from 0.
        run: u8,
        /// The first axis on which its hidden leaves differ.
        axis: u8,
    },
}

/// Compares two exchanges under one key, and writes seed and rho of every leaf and aux, for each run whose hidden leaves
/// differ, if no strings of these runs do.
pub fn extract(
    parameters: Parameters,
    runs: usize,
    first: Messages,
    second: Messages,
    mut lent: Lent,
    output: &mut [u8],
) -> Answer {
    if let Err(number) = check_before_openings(&parameters, runs, &first, &second, &lent, output) {
        return Answer::Refused(number);
    }
    let openings = check_both(&parameters, &first, &second, &lent);
    lent.clear_work(&parameters);
    match openings {
        Err(number) => Answer::Refused(number),
        Ok((first_openings, second_openings)) => {
            let differing = differing_runs(first.leaves, second.leaves);
            let run = differing[0];
            let axis = first_differing_axis(first.leaves[run], second.leaves[run]);
            let unequal = answer_openings(&first_openings, &second_openings, &differing, output);
            unequal.unwrap_or(Answer::Extracted { run: number_byte(run), axis })
        }
    }
}

fn check_before_openings(
    parameters: &Parameters,
    runs: usize,
    first: &Messages,
    second: &Messages,
    lent: &Lent,
    output: &[u8],
) -> Result<(), Number> {
    parameters.check()?;
    check_run_count(runs)?;
    first.check(parameters, runs)?;
    second.check(parameters, runs)?;
    lent.check(parameters)?;
    require(output.len() == parameters.extractor_bytes(runs), WRONG_LENGTH)?;
    check_points(parameters, first.message_2)?;
    check_points(parameters, second.message_2)?;
    parameters.check_leaves(first.leaves)?;
    parameters.check_leaves(second.leaves)?;
    require(first.message_1 == second.message_1, EXCHANGES_DIFFER)?;
    require(first.message_2 == second.message_2, EXCHANGES_DIFFER)?;
    require(first.message_3 == second.message_3, EXCHANGES_DIFFER)?;
    require(first.leaves != second.leaves, SAME_HIDDEN_LEAVES)
}

/// All runs of the first opening are checked before those of the second.
fn check_both(
    parameters: &Parameters,
    first: &Messages,
    second: &Messages,
    lent: &Lent,
) -> Result<(Vec<Recomputed>, Vec<Recomputed>), Number> {
    Ok((check(parameters, lent.key(), first)?, check(parameters, lent.key(), second)?))
}

/// The runs whose hidden leaves differ, ascending.
pub fn differing_runs(first: &[u8], second: &[u8]) -> Vec<usize> {
    (0..first.len()).filter(|&run| first[run] != second[run]).collect()
}

/// The first unequal pair of the given runs; where there is none, their parts of the output are written and the others stay
/// as they were.
pub fn answer_openings(
    first: &[Recomputed],
    second: &[Recomputed],
    differing: &[usize],
    output: &mut [u8],
) -> Option<Answer> {
    let unequal = |&run: &usize| {
        let pair = first_unequal_pair(&first[run].strings, &second[run].strings);
        pair.map(|(layer, number)| Answer::Unequal { run: number_byte(run), layer, number })
    };
    let answer = differing.iter().find_map(unequal);
    if answer.is_none() {
        let length = output.len() / first.len();
        for &run in differing {
            let states = all_states(&first[run].leaves, &second[run].leaves);
            output[run * length..(run + 1) * length].copy_from_slice(&states);
        }
    }
    answer
}

/// Layer and number of the first unequal pair of strings of a run: layer 7, 6 (axis ascending), 5, 4 (leaves opened in both,
/// ascending).
pub fn first_unequal_pair(first: &OpeningStrings, second: &OpeningStrings) -> Option<(u8, u8)> {
    let response = (first.response != second.response).then_some((7, 0));
    let axis = || first.axes.iter().zip(&second.axes).position(|(a, b)| a != b).map(|i| (6, number_byte(i + 1)));
    let commitments = || (first.commitments != second.commitments).then_some((5, 0));
    let unequal = |(a, b): (&Option<Vec<u8>>, &Option<Vec<u8>>)| a.is_some() && b.is_some() && a != b;
    let leaf = || first.leaves.iter().zip(&second.leaves).position(unequal).map(|i| (4, number_byte(i)));
    response.or_else(axis).or_else(commitments).or_else(leaf)
}

/// The lowest set bit of the xor of two different leaf numbers, counted from 1.
pub fn first_differing_axis(first: u8, second: u8) -> u8 {
    (1..=8).find(|axis| (first ^ second) >> (axis - 1) & 1 == 1).expect("the hidden leaves differ")
}

/// The part of a run: seed and rho of leaves 0 to n−1, then aux.
fn all_states(first: &[Leaf], second: &[Leaf]) -> Vec<u8> {
    let mut leaves: Vec<&Leaf> = first.iter().chain(second).collect();
    leaves.sort_by_key(|leaf| leaf.number);
    leaves.dedup_by_key(|leaf| leaf.number);
    let aux = leaves.last().and_then(|leaf| leaf.aux.as_ref()).expect("leaf n−1 is opened in one of two exchanges");
    let states = leaves.iter().flat_map(|leaf| [leaf.seed, leaf.rho].concat());
    states.chain(aux.to_bytes()).collect()
}
