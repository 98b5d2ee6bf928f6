//! Interpolation at the points f_i, the bytes 1 to m, by Lagrange's formula.

use crate::byte_field;
use crate::polynomial;

/// The interpolation points f_1 to f_m: the bytes 1 to m.
pub fn interpolation_points(m: usize) -> Vec<u8> {
    (1..=m).map(|i| u8::try_from(i).expect("m is at most 255")).collect()
}

/// F, the product of (X + f_i) over all i: m + 1 coefficients.
pub fn vanishing_polynomial(m: usize) -> Vec<u8> {
    polynomial::from_roots(&interpolation_points(m))
}

/// Lagrange's basis for one m: polynomial i is 1 at f_i and 0 at the other interpolation points.
pub struct Interpolation {
    basis: Vec<Vec<u8>>,
}

impl Interpolation {
    /// The basis for the interpolation points 1 to m.
    pub fn new(m: usize) -> Interpolation {
        let f = vanishing_polynomial(m);
        let basis = interpolation_points(m).iter().map(|&point| basis_polynomial(&f, point)).collect();
        Interpolation { basis }
    }

    /// The polynomial of degree at most m−1 whose value at f_i is the i-th of these m values: m coefficients.
    pub fn interpolate(&self, values: &[u8]) -> Vec<u8> {
        assert_eq!(values.len(), self.basis.len());
        let mut sum = vec![0; values.len()];
        for (&value, basis) in values.iter().zip(&self.basis) {
            add_multiple(&mut sum, value, basis);
        }
        sum
    }
}

fn basis_polynomial(f: &[u8], point: u8) -> Vec<u8> {
    let (others, rest) = polynomial::divide(f, &[point, 1]);
    assert_eq!(rest, [0]);
    let scale = byte_field::inverse(polynomial::evaluate(&others, point));
    others.iter().map(|&coefficient| byte_field::multiply(coefficient, scale)).collect()
}

fn add_multiple(sum: &mut [u8], factor: u8, polynomial: &[u8]) {
    for (entry, &coefficient) in sum.iter_mut().zip(polynomial) {
        *entry ^= byte_field::multiply(factor, coefficient);
    }
}
