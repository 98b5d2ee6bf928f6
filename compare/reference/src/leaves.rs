//! What a leaf has: its seed and rho, its shares, and the coordinates that place it on the hypercube.

use crate::parameters::Parameters;
use crate::shares::{Aux, Shares};
use crate::strings::{leaf_string, seed_and_rho, share_stream, Prefix, Seed};
use crate::tree::Tree;

/// A disclosed leaf: its number, seed, rho, and aux if it is leaf n−1.
#[derive(Clone, Debug, PartialEq, Eq)]
pub struct Leaf {
    /// The number, 0 to n−1.
    pub number: usize,
    /// The seed of its shares.
    pub seed: Seed,
    /// The randomness of its commitment.
    pub rho: Seed,
    /// aux, for leaf n−1 alone.
    pub aux: Option<Aux>,
}

/// Coordinate j (1 to D) of a leaf: bit j−1 of its number, plus 1.
pub fn coordinate(leaf: usize, axis: usize) -> usize {
    (leaf >> (axis - 1) & 1) + 1
}

impl Leaf {
    /// A leaf from its node's seed, without aux.
    pub fn from_node_seed(prefix: &Prefix, number: usize, node_seed: &Seed) -> Leaf {
        let (seed, rho) = seed_and_rho(prefix, number, node_seed);
        Leaf { number, seed, rho, aux: None }
    }

    /// The shares: all from layer 3, or with aux only a and b.
    pub fn shares(&self, parameters: &Parameters, prefix: &Prefix) -> Shares {
        let stream = |length| share_stream(prefix, self.number, &self.seed, length);
        match &self.aux {
            None => Shares::from_bytes(parameters, &stream(parameters.share_bytes())),
            Some(aux) => {
                let a_and_b = stream(2 * parameters.position_bytes());
                Shares::from_bytes(parameters, &[a_and_b, aux.to_bytes()].concat())
            }
        }
    }

    /// The layer 4 string.
    pub fn string(&self, prefix: &Prefix) -> Vec<u8> {
        let aux = self.aux.as_ref().map(Aux::to_bytes).unwrap_or_default();
        leaf_string(prefix, self.number, &self.seed, &self.rho, &aux)
    }
}

/// The leaves that a tree discloses, ascending, without aux.
pub fn disclosed_leaves(parameters: &Parameters, prefix: &Prefix, tree: &Tree) -> Vec<Leaf> {
    let disclosed = |number| tree.leaf_seed(number).map(|seed| Leaf::from_node_seed(prefix, number, &seed));
    (0..parameters.leaves()).filter_map(disclosed).collect()
}

/// Gives leaf n−1, if it is among these, its aux.
pub fn give_aux(parameters: &Parameters, leaves: &mut [Leaf], aux: &Aux) {
    for leaf in leaves.iter_mut().filter(|leaf| leaf.number == parameters.last_leaf()) {
        leaf.aux = Some(aux.clone());
    }
}

/// The number and the shares of each of these leaves.
pub fn numbered_shares(parameters: &Parameters, prefix: &Prefix, leaves: &[Leaf]) -> Vec<(usize, Shares)> {
    leaves.iter().map(|leaf| (leaf.number, leaf.shares(parameters, prefix))).collect()
}
