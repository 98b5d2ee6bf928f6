//! The two parties of each axis (document 01, Parties): their shares, and α, β, v at each position.

use crate::challenge::Challenge;
use crate::interpolation::{vanishing_polynomial, Interpolation};
use crate::key::PublicKey;
use crate::leaves::coordinate;
use crate::parameters::Parameters;
use crate::points_field::{add_points, points_to_bytes, Point};
use crate::polynomial::evaluate_at_point;
use crate::shares::{sum, Shares};
use crate::strings::{axis_string, Prefix};

/// The parties of an axis, by the coordinate of their leaves.
const PARTIES: [usize; 2] = [1, 2];

/// Whether the constants (y in S, the leading term of Q, α̂·β̂ in v) are added.
#[derive(Clone, Copy, PartialEq, Eq)]
pub enum Constants {
    /// They are: for party 1 alone.
    Added,
    /// They are not: for party 2, and for the hidden leaf's own α and β.
    LeftOut,
}

/// α and β at each position, of a party, of the hidden leaf, or summed over an axis.
#[derive(Clone, Debug, PartialEq, Eq)]
pub struct AlphaBeta {
    /// α at each position.
    pub alpha: Vec<Point>,
    /// β at each position.
    pub beta: Vec<Point>,
}

/// The hidden leaf as the verifier knows it.
pub struct Hidden {
    /// Its number.
    pub leaf: usize,
    /// Its own α and β, without constants.
    pub alpha_beta: AlphaBeta,
}

/// α, β and v of a party.
#[derive(Clone, Debug, PartialEq, Eq)]
pub struct Sent {
    /// α and β.
    pub alpha_beta: AlphaBeta,
    /// v at each position.
    pub v: Vec<Point>,
}

/// What both parties of an axis send.
#[derive(Clone, Debug, PartialEq, Eq)]
pub struct Axis {
    /// The number of the axis, 1 to D.
    pub number: usize,
    /// Party 1 and party 2.
    pub parties: [Sent; 2],
}

impl Constants {
    fn of_party(party: usize) -> Constants {
        if party == 1 {
            Constants::Added
        } else {
            Constants::LeftOut
        }
    }
}

impl AlphaBeta {
    fn add(&self, other: &AlphaBeta) -> AlphaBeta {
        AlphaBeta { alpha: add_points(&self.alpha, &other.alpha), beta: add_points(&self.beta, &other.beta) }
    }
}

impl Sent {
    /// The 12t bytes that layer 6 hashes of a party.
    pub fn to_bytes(&self) -> Vec<u8> {
        [&self.alpha_beta.alpha, &self.alpha_beta.beta, &self.v].map(|points| points_to_bytes(points)).concat()
    }
}

impl Axis {
    /// The sums of α and β, and the sum of v, over both parties.
    pub fn sums(&self) -> (AlphaBeta, Vec<Point>) {
        let [first, second] = &self.parties;
        (first.alpha_beta.add(&second.alpha_beta), add_points(&first.v, &second.v))
    }

    /// The layer 6 string.
    pub fn string(&self, prefix: &Prefix) -> Vec<u8> {
        axis_string(prefix, self.number, &self.parties[0].to_bytes(), &self.parties[1].to_bytes())
    }
}

/// The computation that every party makes under one key and one message 2.
pub struct Computation<'a> {
    parameters: &'a Parameters,
    key: PublicKey<'a>,
    challenge: &'a Challenge,
    interpolation: Interpolation,
    f_values: Vec<Point>,
}

impl<'a> Computation<'a> {
    /// The computation for a key as lent and a challenge.
    pub fn new(parameters: &'a Parameters, key: PublicKey<'a>, challenge: &'a Challenge) -> Computation<'a> {
        let f = vanishing_polynomial(parameters.m);
        let f_values = challenge.points.iter().map(|&r| evaluate_at_point(&f, r)).collect();
        Computation { parameters, key, challenge, interpolation: Interpolation::new(parameters.m), f_values }
    }

    /// S of some shares: the interpolation of x_A and H'x_A, y added where constants are.
    fn s_polynomial(&self, shares: &Shares, constants: Constants) -> Vec<u8> {
        let x_a = &shares.aux.x_a;
        let x = match constants {
            Constants::Added => self.key.vector(x_a),
            Constants::LeftOut => [x_a.clone(), self.key.matrix_times(x_a)].concat(),
        };
        self.interpolation.interpolate(&x)
    }

    fn q_polynomial(&self, shares: &Shares, constants: Constants) -> Vec<u8> {
        let leading = u8::from(constants == Constants::Added);
        [&shares.aux.q[..], &[leading]].concat()
    }

    /// α = ε·Q(r) + a and β = S(r) + b at each position.
    pub fn alpha_beta(&self, shares: &Shares, constants: Constants) -> AlphaBeta {
        let s = self.s_polynomial(shares, constants);
        let q = self.q_polynomial(shares, constants);
        let at = |l: usize| (self.challenge.points[l], self.challenge.multipliers[l]);
        let alpha = (0..self.parameters.t).map(|l| at(l).1 * evaluate_at_point(&q, at(l).0) + shares.a[l]).collect();
        let beta = (0..self.parameters.t).map(|l| evaluate_at_point(&s, at(l).0) + shares.b[l]).collect();
        AlphaBeta { alpha, beta }
    }

    /// v = c + ε·F(r)·P(r) + α̂·b + β̂·a at each position, α̂·β̂ added where constants are.
    pub fn v(&self, shares: &Shares, sums: &AlphaBeta, constants: Constants) -> Vec<Point> {
        (0..self.parameters.t).map(|l| self.v_at(l, shares, sums, constants)).collect()
    }

    fn v_at(&self, l: usize, shares: &Shares, sums: &AlphaBeta, constants: Constants) -> Point {
        let (alpha, beta) = (sums.alpha[l], sums.beta[l]);
        let p_value = evaluate_at_point(&shares.aux.p, self.challenge.points[l]);
        let product_part = self.challenge.multipliers[l] * self.f_values[l] * p_value;
        let v = shares.aux.c[l] + product_part + alpha * shares.b[l] + beta * shares.a[l];
        match constants {
            Constants::Added => v + alpha * beta,
            Constants::LeftOut => v,
        }
    }

    /// The sum of the leaves whose coordinate on the axis is the party's number.
    fn party_shares(&self, axis: usize, party: usize, leaves: &[(usize, Shares)]) -> Shares {
        let of_party = leaves.iter().filter(|(leaf, _)| coordinate(*leaf, axis) == party);
        sum(self.parameters, of_party.map(|(_, shares)| shares))
    }

    /// What the parties of an axis send: for the prover from all leaves, for the verifier from the disclosed ones and
    /// what it knows of the hidden one.
    pub fn axis(&self, number: usize, leaves: &[(usize, Shares)], hidden: Option<&Hidden>) -> Axis {
        let shares = PARTIES.map(|party| self.party_shares(number, party, leaves));
        let mut alpha_betas = PARTIES.map(|party| self.alpha_beta(&shares[party - 1], Constants::of_party(party)));
        if let Some(hidden) = hidden {
            let party = coordinate(hidden.leaf, number);
            alpha_betas[party - 1] = alpha_betas[party - 1].add(&hidden.alpha_beta);
        }
        let sums = alpha_betas[0].add(&alpha_betas[1]);
        let mut vs = PARTIES.map(|party| self.v(&shares[party - 1], &sums, Constants::of_party(party)));
        if let Some(hidden) = hidden {
            // The v that makes the axis sum zero is the other party's, since minus is plus.
            let party = coordinate(hidden.leaf, number);
            vs[party - 1] = vs[2 - party].clone();
        }
        let [first, second] = alpha_betas;
        let [first_v, second_v] = vs;
        let parties = [Sent { alpha_beta: first, v: first_v }, Sent { alpha_beta: second, v: second_v }];
        Axis { number, parties }
    }

    /// The axes 1 to D.
    pub fn axes(&self, leaves: &[(usize, Shares)], hidden: Option<&Hidden>) -> Vec<Axis> {
        (1..=self.parameters.axes).map(|number| self.axis(number, leaves, hidden)).collect()
    }
}
