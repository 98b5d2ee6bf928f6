//! Accepted exchanges made without the secret of any key, by whoever chooses the leaves or message 2 beforehand.

use crate::challenge::Challenge;
use crate::check::recompute;
use crate::commitment::{fitting_aux, Committed, Witness};
use crate::interpolation::{vanishing_polynomial, Interpolation};
use crate::key::PublicKey;
use crate::messages::{challenges, message_1};
use crate::parameters::Parameters;
use crate::points_field::Point;
use crate::polynomial::evaluate_at_point;
use crate::sampling::exchanges::{random_message_2, Exchange};
use crate::sampling::Random;
use crate::shares::Shares;
use crate::strings::{digest, prefix, Digest, Prefix, Salt};
use crate::tree::Tree;

/// An exchange that is accepted for leaves chosen beforehand, one a run: message 5 is random, each h and h' is what follows
/// from it.
pub fn leaf_first(random: &mut Random, parameters: &Parameters, key: PublicKey, leaves: &[u8]) -> Exchange {
    let runs = leaves.len();
    let exchange = Exchange {
        message_1: random.bytes(Parameters::message_1_bytes(runs)),
        message_2: random_message_2(random, parameters, runs),
        message_3: random.bytes(Parameters::message_3_bytes(runs)),
        leaves: leaves.to_vec(),
        message_5: random.bytes(parameters.message_5_bytes(leaves)),
    };
    fitted(parameters, key, exchange)
}

/// An exchange with the h and the h' of each run that follow from the rest of it, so that it is accepted.
pub fn fitted(parameters: &Parameters, key: PublicKey, exchange: Exchange) -> Exchange {
    let mut fitting = exchange.clone();
    for (run, messages) in exchange.messages().runs(parameters).iter().enumerate() {
        let strings = recompute(parameters, key, messages).strings;
        fitting.h_mut(run).copy_from_slice(&digest(&strings.commitments));
        fitting.response_mut(run).copy_from_slice(&digest(&strings.response));
    }
    fitting
}

/// ε·(S·Q − P·F)(r) at each position, S interpolating the vector of x_A and Q taking its leading 1.
pub fn relation_gap(parameters: &Parameters, key: PublicKey, witness: &Witness, challenge: &Challenge) -> Vec<Point> {
    let s = Interpolation::new(parameters.m).interpolate(&key.vector(&witness.x_a));
    let q = [&witness.q[..], &[1]].concat();
    let f = vanishing_polynomial(parameters.m);
    let gap = |(&r, &multiplier): (&Point, &Point)| {
        let at = |polynomial: &[u8]| evaluate_at_point(polynomial, r);
        multiplier * (at(&s) * at(&q) + at(&witness.p) * at(&f))
    };
    challenge.points.iter().zip(&challenge.multipliers).map(gap).collect()
}

/// A prover that knows message 2 beforehand: in each run any x_A, Q and P, with c off from a·b by just what the relation
/// lacks.
pub struct PointsFirst<'a> {
    parameters: Parameters,
    key: PublicKey<'a>,
    salt: Salt,
    message_2: Vec<u8>,
    committed: Vec<Committed>,
}

/// Random leaves of a run, fitting its challenge.
fn fitting_leaves(
    random: &mut Random,
    parameters: &Parameters,
    key: PublicKey,
    prefix: &Prefix,
    challenge: &Challenge,
) -> Committed {
    let witness =
        Witness { x_a: random.bytes(parameters.k), q: random.bytes(parameters.w), p: random.bytes(parameters.w) };
    let tree = Tree::from_root(parameters.axes, prefix, &random.array());
    let mut correction = Shares::zero(parameters).aux;
    correction.c = relation_gap(parameters, key, &witness, challenge);
    let aux = fitting_aux(parameters, prefix, &tree, &witness).add(&correction);
    Committed::with_aux(parameters, prefix, tree, aux)
}

impl<'a> PointsFirst<'a> {
    /// Random leaves in each run, fitting a message 2.
    pub fn new(random: &mut Random, parameters: &Parameters, key: PublicKey<'a>, message_2: &[u8]) -> PointsFirst<'a> {
        let salt = random.array();
        let runs = challenges(parameters, message_2).into_iter().enumerate();
        let committed = runs
            .map(|(run, challenge)| fitting_leaves(random, parameters, key, &prefix(&salt, run), &challenge))
            .collect();
        PointsFirst { parameters: *parameters, key, salt, message_2: message_2.to_vec(), committed }
    }

    /// The exchange that hides these leaves; it is accepted whatever they are.
    pub fn exchange(&self, leaves: &[u8]) -> Exchange {
        let runs: Vec<_> = self.committed.iter().zip(challenges(&self.parameters, &self.message_2)).collect();
        let h: Vec<Digest> = self.committed.iter().map(Committed::h).collect();
        let responses = runs.iter().flat_map(|(run, challenge)| run.response(challenge, self.key));
        let openings = runs.iter().zip(leaves);
        let openings = openings.flat_map(|((run, challenge), &leaf)| run.opening(challenge, leaf, self.key).to_bytes());
        Exchange {
            message_1: message_1(&self.salt, &h),
            message_2: self.message_2.clone(),
            message_3: responses.collect(),
            leaves: leaves.to_vec(),
            message_5: openings.collect(),
        }
    }
}
