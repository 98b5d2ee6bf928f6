//! Shares of a leaf or of a party, and aux.

use crate::parameters::Parameters;
use crate::points_field::{add_points, points_from_bytes, points_to_bytes, Point};

/// The shares of a leaf, or their sum over a party's leaves.
#[derive(Clone, Debug, PartialEq, Eq)]
pub struct Shares {
    /// a at each position.
    pub a: Vec<Point>,
    /// b at each position.
    pub b: Vec<Point>,
    /// x_A, Q, P and c.
    pub aux: Aux,
}

/// The shares that leaf n−1 does not draw from its seed: x_A, Q, P, c.
#[derive(Clone, Debug, PartialEq, Eq)]
pub struct Aux {
    /// x_A: k bytes.
    pub x_a: Vec<u8>,
    /// The w low coefficients of Q.
    pub q: Vec<u8>,
    /// The w coefficients of P.
    pub p: Vec<u8>,
    /// c at each position.
    pub c: Vec<Point>,
}

fn add_bytes(left: &[u8], right: &[u8]) -> Vec<u8> {
    assert_eq!(left.len(), right.len());
    left.iter().zip(right).map(|(a, b)| a ^ b).collect()
}

impl Aux {
    /// Aux from its k + 2w + 4t bytes.
    pub fn from_bytes(parameters: &Parameters, bytes: &[u8]) -> Aux {
        assert_eq!(bytes.len(), parameters.aux_bytes());
        let (x_a, rest) = bytes.split_at(parameters.k);
        let (q, rest) = rest.split_at(parameters.w);
        let (p, c) = rest.split_at(parameters.w);
        Aux { x_a: x_a.to_vec(), q: q.to_vec(), p: p.to_vec(), c: points_from_bytes(c) }
    }

    /// The bytes of aux: x_A, Q, P, c.
    pub fn to_bytes(&self) -> Vec<u8> {
        [&self.x_a[..], &self.q, &self.p, &points_to_bytes(&self.c)].concat()
    }

    /// The sum of two.
    pub fn add(&self, other: &Aux) -> Aux {
        Aux {
            x_a: add_bytes(&self.x_a, &other.x_a),
            q: add_bytes(&self.q, &other.q),
            p: add_bytes(&self.p, &other.p),
            c: add_points(&self.c, &other.c),
        }
    }
}

impl Shares {
    /// Shares that are all zero.
    pub fn zero(parameters: &Parameters) -> Shares {
        Shares::from_bytes(parameters, &vec![0; parameters.share_bytes()])
    }

    /// Shares from the bytes a, b, x_A, Q, P, c that layer 3 gives.
    pub fn from_bytes(parameters: &Parameters, bytes: &[u8]) -> Shares {
        assert_eq!(bytes.len(), parameters.share_bytes());
        let (a_and_b, aux) = bytes.split_at(2 * parameters.position_bytes());
        let (a, b) = a_and_b.split_at(parameters.position_bytes());
        Shares { a: points_from_bytes(a), b: points_from_bytes(b), aux: Aux::from_bytes(parameters, aux) }
    }

    /// The sum of two.
    pub fn add(&self, other: &Shares) -> Shares {
        Shares { a: add_points(&self.a, &other.a), b: add_points(&self.b, &other.b), aux: self.aux.add(&other.aux) }
    }
}

/// The sum of any number of shares.
pub fn sum<'a>(parameters: &Parameters, shares: impl Iterator<Item = &'a Shares>) -> Shares {
    shares.fold(Shares::zero(parameters), |sum, share| sum.add(share))
}
