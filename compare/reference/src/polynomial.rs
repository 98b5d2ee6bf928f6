//! Polynomials over GF(256), as lists of coefficients, lowest first.

use crate::byte_field;
use crate::points_field::Point;

/// The product: its list has one entry less than both lists together.
pub fn multiply(left: &[u8], right: &[u8]) -> Vec<u8> {
    let mut product = vec![0; left.len() + right.len() - 1];
    for (i, &a) in left.iter().enumerate() {
        for (j, &b) in right.iter().enumerate() {
            product[i + j] ^= byte_field::multiply(a, b);
        }
    }
    product
}

/// The product of (X + root) over the roots: monic, with one coefficient more than there are roots.
pub fn from_roots(roots: &[u8]) -> Vec<u8> {
    roots.iter().fold(vec![1], |product, &root| multiply(&product, &[root, 1]))
}

/// Quotient and remainder of long division by a monic divisor that is not longer than the numerator.
pub fn divide(numerator: &[u8], monic: &[u8]) -> (Vec<u8>, Vec<u8>) {
    assert_eq!(monic.last(), Some(&1));
    let degree = monic.len() - 1;
    let mut rest = numerator.to_vec();
    let mut quotient = vec![0; numerator.len() - degree];
    for place in (0..quotient.len()).rev() {
        let factor = rest[place + degree];
        quotient[place] = factor;
        for (i, &coefficient) in monic.iter().enumerate() {
            rest[place + i] ^= byte_field::multiply(factor, coefficient);
        }
    }
    rest.truncate(degree);
    (quotient, rest)
}

/// The value at a byte.
pub fn evaluate(polynomial: &[u8], byte: u8) -> u8 {
    polynomial.iter().rev().fold(0, |value, &coefficient| byte_field::multiply(value, byte) ^ coefficient)
}

/// The value at a point of the points field.
pub fn evaluate_at_point(polynomial: &[u8], point: Point) -> Point {
    polynomial.iter().rev().fold(Point::ZERO, |value, &coefficient| value * point + Point::from_byte(coefficient))
}
