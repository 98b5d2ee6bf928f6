//! The key: matrix and y, the vector x, and the polynomials S, Q, P, F (document 01, Key and polynomials).

use crate::byte_field;
use crate::interpolation::{vanishing_polynomial, Interpolation};
use crate::numbers::{require, Number, OVERWEIGHT, WRONG_LENGTH};
use crate::parameters::Parameters;
use crate::polynomial;

/// The public part of a key, as lent: the matrix H' row after row, and y.
#[derive(Clone, Copy, Debug)]
pub struct PublicKey<'a> {
    /// The matrix H': m−k rows of k bytes.
    pub matrix: &'a [u8],
    /// The syndrome y: m−k bytes.
    pub y: &'a [u8],
}

impl PublicKey<'_> {
    /// Refuses with 2 unless matrix and y have their lengths.
    pub fn check(&self, parameters: &Parameters) -> Result<(), Number> {
        require(self.matrix.len() == parameters.matrix_bytes(), WRONG_LENGTH)?;
        require(self.y.len() == parameters.syndrome_bytes(), WRONG_LENGTH)
    }

    /// H'x_A: one byte a row.
    pub fn matrix_times(&self, x_a: &[u8]) -> Vec<u8> {
        self.matrix.chunks_exact(x_a.len()).map(|row| inner_product(row, x_a)).collect()
    }

    /// x: x_A followed by x_B = y + H'x_A.
    pub fn vector(&self, x_a: &[u8]) -> Vec<u8> {
        let x_b = self.matrix_times(x_a).into_iter().zip(self.y).map(|(product, y)| product ^ y);
        x_a.iter().copied().chain(x_b).collect()
    }
}

fn inner_product(left: &[u8], right: &[u8]) -> u8 {
    left.iter().zip(right).fold(0, |sum, (&a, &b)| sum ^ byte_field::multiply(a, b))
}

/// The number of nonzero entries of x.
pub fn weight(x: &[u8]) -> usize {
    x.iter().filter(|&&entry| entry != 0).count()
}

/// Refuses with 3 if x has more than w nonzero entries.
pub fn check_weight(parameters: &Parameters, x: &[u8]) -> Result<(), Number> {
    require(weight(x) <= parameters.w, OVERWEIGHT)
}

/// E: the positions (from 1) where x is nonzero, filled to w with the lowest other positions.
pub fn locator_positions(parameters: &Parameters, x: &[u8]) -> Vec<u8> {
    let positions =
        |nonzero: bool| (1..=255u8).zip(x).filter(move |(_, &entry)| (entry != 0) == nonzero).map(|(i, _)| i);
    positions(true).chain(positions(false)).take(parameters.w).collect()
}

/// The polynomials of a vector x that is not overweight.
#[derive(Clone, Debug, PartialEq, Eq)]
pub struct KeyPolynomials {
    /// S with S(f_i) = x_i: m coefficients.
    pub s: Vec<u8>,
    /// All of Q, the leading 1 included: w + 1 coefficients.
    pub q: Vec<u8>,
    /// P = S·Q/F: w coefficients.
    pub p: Vec<u8>,
    /// F: m + 1 coefficients.
    pub f: Vec<u8>,
}

impl KeyPolynomials {
    /// The polynomials of x.
    pub fn new(parameters: &Parameters, x: &[u8]) -> KeyPolynomials {
        let s = Interpolation::new(parameters.m).interpolate(x);
        let q = polynomial::from_roots(&locator_positions(parameters, x));
        let f = vanishing_polynomial(parameters.m);
        let (p, rest) = polynomial::divide(&polynomial::multiply(&s, &q), &f);
        assert!(rest.iter().all(|&coefficient| coefficient == 0), "F divides S·Q");
        KeyPolynomials { s, q, p, f }
    }

    /// The w low coefficients of Q, which are shared.
    pub fn shared_q(&self) -> &[u8] {
        &self.q[..self.q.len() - 1]
    }
}
