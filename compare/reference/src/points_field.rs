//! The points field: four bytes b0 b1 b2 b3 standing for b0 + b1·X + (b2 + b3·X)·Z, with X² = X + 20 and
//! Z² = Z + 20·X (document 01, Fields).

use crate::byte_field;
use std::ops::{Add, AddAssign, Mul};

/// The constant 20 (hexadecimal) of both defining equations.
const TWENTY: u8 = 0x20;

/// How many bytes a point has.
pub const POINT_BYTES: usize = 4;

/// An element of the points field.
#[derive(Clone, Copy, Debug, Default, PartialEq, Eq)]
pub struct Point(pub [u8; POINT_BYTES]);

/// An element b0 + b1·X of the field between the bytes and the points.
type Pair = [u8; 2];

impl Point {
    /// The point 00 00 00 00.
    pub const ZERO: Point = Point([0; POINT_BYTES]);

    /// A byte b as the point b 00 00 00.
    pub fn from_byte(byte: u8) -> Point {
        Point([byte, 0, 0, 0])
    }
}

impl Add for Point {
    type Output = Point;

    fn add(self, other: Point) -> Point {
        Point(std::array::from_fn(|i| self.0[i] ^ other.0[i]))
    }
}

impl AddAssign for Point {
    fn add_assign(&mut self, other: Point) {
        *self = *self + other;
    }
}

impl Mul for Point {
    type Output = Point;

    fn mul(self, other: Point) -> Point {
        let [a0, a1, a2, a3] = self.0;
        let [b0, b1, b2, b3] = other.0;
        let (low_a, high_a) = ([a0, a1], [a2, a3]);
        let (low_b, high_b) = ([b0, b1], [b2, b3]);
        let constant = multiply_pairs(low_a, low_b);
        let linear = add_pairs(multiply_pairs(low_a, high_b), multiply_pairs(high_a, low_b));
        let square = multiply_pairs(high_a, high_b);
        // Z² = Z + 20·X
        let low = add_pairs(constant, multiply_pairs(square, [0, TWENTY]));
        let high = add_pairs(linear, square);
        Point([low[0], low[1], high[0], high[1]])
    }
}

fn add_pairs(left: Pair, right: Pair) -> Pair {
    [left[0] ^ right[0], left[1] ^ right[1]]
}

fn multiply_pairs(left: Pair, right: Pair) -> Pair {
    let constant = byte_field::multiply(left[0], right[0]);
    let linear = byte_field::multiply(left[0], right[1]) ^ byte_field::multiply(left[1], right[0]);
    let square = byte_field::multiply(left[1], right[1]);
    // X² = X + 20
    [constant ^ byte_field::multiply(square, TWENTY), linear ^ square]
}

/// The points that a slice of bytes holds, four bytes each.
pub fn points_from_bytes(bytes: &[u8]) -> Vec<Point> {
    assert_eq!(bytes.len() % POINT_BYTES, 0);
    bytes.chunks_exact(POINT_BYTES).map(|chunk| Point(std::array::from_fn(|i| chunk[i]))).collect()
}

/// The bytes of some points, one after another.
pub fn points_to_bytes(points: &[Point]) -> Vec<u8> {
    points.iter().flat_map(|point| point.0).collect()
}

/// Position by position, the sum of two lists of points.
pub fn add_points(left: &[Point], right: &[Point]) -> Vec<Point> {
    assert_eq!(left.len(), right.len());
    left.iter().zip(right).map(|(&a, &b)| a + b).collect()
}
