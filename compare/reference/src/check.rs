//! The checks of an opening, numbers 5, 6 and 7, run after run, and the strings hashed in making them.
//!
//! Number 6 is retired by request 05: it is still checked here, and no call ever answers it.

use crate::key::PublicKey;
use crate::leaves::{disclosed_leaves, give_aux, numbered_shares, Leaf};
use crate::messages::{Messages, Opening, RunMessages};
use crate::numbers::{require, Number, COMMITMENT_DIFFERS, RESPONSE_DIFFERS, SUMS_DIFFER};
use crate::parameters::Parameters;
use crate::parties::{Axis, Computation, Hidden};
use crate::strings::{axes_string, commitments_string, digest, Digest};
use crate::tree::Tree;

/// The strings of layers 4 to 7 hashed in checking the opening of a run.
#[derive(Clone, Debug, PartialEq, Eq)]
pub struct OpeningStrings {
    /// Layer 4, by leaf; none for the hidden one.
    pub leaves: Vec<Option<Vec<u8>>>,
    /// Layer 5.
    pub commitments: Vec<u8>,
    /// Layer 6, axis 1 first.
    pub axes: Vec<Vec<u8>>,
    /// Layer 7.
    pub response: Vec<u8>,
}

/// The opening of a run recomputed: its disclosed leaves, its axes and its strings.
pub struct Recomputed {
    /// The disclosed leaves, ascending, leaf n−1 with aux.
    pub leaves: Vec<Leaf>,
    /// What the parties of axes 1 to D send.
    pub axes: Vec<Axis>,
    /// The strings hashed.
    pub strings: OpeningStrings,
}

fn leaves_of_opening(parameters: &Parameters, messages: &RunMessages, opening: &Opening) -> Vec<Leaf> {
    let RunMessages { prefix, leaf, .. } = messages;
    let tree = Tree::from_siblings(parameters.axes, prefix, usize::from(*leaf), &opening.siblings);
    let mut leaves = disclosed_leaves(parameters, prefix, &tree);
    if let Some(aux) = &opening.aux {
        give_aux(parameters, &mut leaves, aux);
    }
    leaves
}

/// What the parties send, recomputed from the disclosed leaves and the hidden leaf's α and β.
fn axes_of_opening(
    parameters: &Parameters,
    key: PublicKey,
    messages: &RunMessages,
    leaves: &[Leaf],
    opening: &Opening,
) -> Vec<Axis> {
    let shares = numbered_shares(parameters, &messages.prefix, leaves);
    let hidden = Hidden { leaf: usize::from(messages.leaf), alpha_beta: opening.alpha_beta.clone() };
    Computation::new(parameters, key, &messages.challenge).axes(&shares, Some(&hidden))
}

/// Recomputes the opening of a run whose leaf is below n.
pub fn recompute(parameters: &Parameters, key: PublicKey, messages: &RunMessages) -> Recomputed {
    let prefix = &messages.prefix;
    let opening = Opening::from_bytes(parameters, messages.leaf, messages.opening);
    let leaves = leaves_of_opening(parameters, messages, &opening);
    let mut leaf_strings = vec![None; parameters.leaves()];
    for leaf in &leaves {
        leaf_strings[leaf.number] = Some(leaf.string(prefix));
    }
    let commitment = |string: &Option<Vec<u8>>| string.as_ref().map_or(opening.commitment, |string| digest(string));
    let commitments: Vec<Digest> = leaf_strings.iter().map(commitment).collect();
    let axes = axes_of_opening(parameters, key, messages, &leaves, &opening);
    let axis_strings: Vec<Vec<u8>> = axes.iter().map(|axis| axis.string(prefix)).collect();
    let axis_digests: Vec<Digest> = axis_strings.iter().map(|string| digest(string)).collect();
    let strings = OpeningStrings {
        leaves: leaf_strings,
        commitments: commitments_string(prefix, &commitments),
        axes: axis_strings,
        response: axes_string(prefix, &axis_digests),
    };
    Recomputed { leaves, axes, strings }
}

/// Whether the sums of α, β and v over both parties agree on all axes.
pub fn sums_agree(axes: &[Axis]) -> bool {
    axes.iter().all(|axis| axis.sums() == axes[0].sums())
}

/// Document 01's three checks of a run in their order: 5, the retired 6, 7.
pub fn require_accepted(recomputed: &Recomputed, messages: &RunMessages) -> Result<(), Number> {
    let strings = &recomputed.strings;
    require(digest(&strings.commitments) == messages.h, COMMITMENT_DIFFERS)?;
    require(sums_agree(&recomputed.axes), SUMS_DIFFER)?;
    require(digest(&strings.response) == messages.response, RESPONSE_DIFFERS)
}

/// Recomputes the opening of a run and refuses it with 5 or 7 unless it is accepted. That its sums agree is asserted also
/// where h differs.
pub fn check_run(parameters: &Parameters, key: PublicKey, messages: &RunMessages) -> Result<Recomputed, Number> {
    let recomputed = recompute(parameters, key, messages);
    assert!(sums_agree(&recomputed.axes), "the sums of α, β and v agree on all axes");
    require_accepted(&recomputed, messages)?;
    Ok(recomputed)
}

/// Checks the runs of an opening in turn: the number of the lowest refused one, or what each of them gives.
pub fn check(parameters: &Parameters, key: PublicKey, messages: &Messages) -> Result<Vec<Recomputed>, Number> {
    messages.runs(parameters).iter().map(|run| check_run(parameters, key, run)).collect()
}
