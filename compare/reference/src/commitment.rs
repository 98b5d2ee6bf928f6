//! The prover's leaves: aux, leaf commitments and h, and the response and openings that come from them.

use crate::challenge::Challenge;
use crate::key::{KeyPolynomials, PublicKey};
use crate::leaves::{disclosed_leaves, give_aux, numbered_shares, Leaf};
use crate::messages::Opening;
use crate::parameters::Parameters;
use crate::parties::{Computation, Constants};
use crate::points_field::Point;
use crate::runs::Run;
use crate::shares::{sum, Aux, Shares};
use crate::strings::{axes_string, commitments_string, digest, Digest, Prefix};
use crate::tree::Tree;

/// What the shares of x_A, Q and P sum to.
pub struct Witness {
    /// x_A: k bytes.
    pub x_a: Vec<u8>,
    /// The w low coefficients of Q.
    pub q: Vec<u8>,
    /// The w coefficients of P.
    pub p: Vec<u8>,
}

impl Witness {
    /// The witness of a vector x that is not overweight.
    pub fn of_vector(parameters: &Parameters, x: &[u8]) -> Witness {
        let polynomials = KeyPolynomials::new(parameters, x);
        let q = polynomials.shared_q().to_vec();
        Witness { x_a: x[..parameters.k].to_vec(), q, p: polynomials.p }
    }
}

/// The aux with which the sums of x_A, Q and P are the witness and c = a·b at each position.
pub fn fitting_aux(parameters: &Parameters, prefix: &Prefix, tree: &Tree, witness: &Witness) -> Aux {
    let mut leaves = disclosed_leaves(parameters, prefix, tree);
    give_aux(parameters, &mut leaves, &Shares::zero(parameters).aux);
    let shares: Vec<Shares> = leaves.iter().map(|leaf| leaf.shares(parameters, prefix)).collect();
    let total = sum(parameters, shares.iter());
    let product: Vec<Point> = total.a.iter().zip(&total.b).map(|(&a, &b)| a * b).collect();
    let wanted = Aux { x_a: witness.x_a.clone(), q: witness.q.clone(), p: witness.p.clone(), c: product };
    wanted.add(&total.aux)
}

/// All leaves of a run, as the prover has them.
pub struct Committed {
    parameters: Parameters,
    prefix: Prefix,
    tree: Tree,
    aux: Aux,
    leaves: Vec<Leaf>,
    commitments: Vec<Digest>,
}

impl Committed {
    /// The leaves of an honest prover.
    pub fn new(parameters: &Parameters, run: &Run, witness: &Witness) -> Committed {
        let tree = Tree::from_root(parameters.axes, &run.prefix, &run.root);
        let aux = fitting_aux(parameters, &run.prefix, &tree, witness);
        Committed::with_aux(parameters, &run.prefix, tree, aux)
    }

    /// The leaves of a whole tree with any aux.
    pub fn with_aux(parameters: &Parameters, prefix: &Prefix, tree: Tree, aux: Aux) -> Committed {
        let mut leaves = disclosed_leaves(parameters, prefix, &tree);
        give_aux(parameters, &mut leaves, &aux);
        let commitments = leaves.iter().map(|leaf| digest(&leaf.string(prefix))).collect();
        Committed { parameters: *parameters, prefix: *prefix, tree, aux, leaves, commitments }
    }

    /// Leaves 0 to n−1.
    pub fn leaves(&self) -> &[Leaf] {
        &self.leaves
    }

    /// h, the digest of all leaf commitments.
    pub fn h(&self) -> Digest {
        digest(&commitments_string(&self.prefix, &self.commitments))
    }

    /// h', the digest of the digests of all axes, under a key as lent.
    pub fn response(&self, challenge: &Challenge, key: PublicKey) -> Digest {
        let leaves = numbered_shares(&self.parameters, &self.prefix, &self.leaves);
        let axes = Computation::new(&self.parameters, key, challenge).axes(&leaves, None);
        let digests: Vec<Digest> = axes.iter().map(|axis| digest(&axis.string(&self.prefix))).collect();
        digest(&axes_string(&self.prefix, &digests))
    }

    /// The opening of all leaves but one, under a key as lent.
    pub fn opening(&self, challenge: &Challenge, leaf: u8, key: PublicKey) -> Opening {
        let leaf = usize::from(leaf);
        let shares = self.leaves[leaf].shares(&self.parameters, &self.prefix);
        let computation = Computation::new(&self.parameters, key, challenge);
        Opening {
            siblings: self.tree.siblings(leaf),
            commitment: self.commitments[leaf],
            alpha_beta: computation.alpha_beta(&shares, Constants::LeftOut),
            aux: (leaf != self.parameters.last_leaf()).then(|| self.aux.clone()),
        }
    }
}
