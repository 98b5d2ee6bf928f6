//! The laws of both fields and of the polynomials over them.

use reference::byte_field::{inverse, multiply};
use reference::interpolation::{interpolation_points, vanishing_polynomial, Interpolation};
use reference::points_field::Point;
use reference::polynomial;
use reference::sampling::Random;

fn random_point(random: &mut Random) -> Point {
    Point(random.array())
}

/// The power of a point by an exponent of the form 2^squarings.
fn repeated_square(point: Point, squarings: usize) -> Point {
    (0..squarings).fold(point, |power, _| power * power)
}

#[test]
fn powers_of_03_are_all_nonzero_bytes() {
    let mut seen = [false; 256];
    let mut power = 1;
    for _ in 0..255 {
        assert!(!seen[usize::from(power)]);
        seen[usize::from(power)] = true;
        power = multiply(power, 3);
    }
    assert_eq!(power, 1);
    assert!(!seen[0]);
}

#[test]
fn every_nonzero_byte_has_an_inverse() {
    for byte in 1..=255 {
        assert_eq!(multiply(byte, inverse(byte)), 1);
    }
}

#[test]
fn bytes_multiply_as_in_a_field() {
    for a in 0..=255u8 {
        for b in 0..=255u8 {
            let c = a.wrapping_mul(29) ^ b;
            assert_eq!(multiply(a, b), multiply(b, a));
            assert_eq!(multiply(a, multiply(b, c)), multiply(multiply(a, b), c));
            assert_eq!(multiply(a, b ^ c), multiply(a, b) ^ multiply(a, c));
        }
    }
}

#[test]
fn points_multiply_as_in_a_field() {
    let mut random = Random::new(1);
    for _ in 0..5000 {
        let (a, b, c) = (random_point(&mut random), random_point(&mut random), random_point(&mut random));
        assert_eq!(a * b, b * a);
        assert_eq!(a * (b * c), (a * b) * c);
        assert_eq!(a * (b + c), a * b + a * c);
        assert_eq!(a * Point::from_byte(1), a);
    }
}

#[test]
fn points_form_a_field_of_2_to_the_32() {
    let mut random = Random::new(2);
    for _ in 0..500 {
        let a = random_point(&mut random);
        assert_eq!(repeated_square(a, 32), a);
        // The inverse is the power 2^32 − 2 = 2 + 4 + ... + 2^31.
        let inverse = (1..32).fold(Point::from_byte(1), |product, i| product * repeated_square(a, i));
        assert!(a == Point::ZERO || a * inverse == Point::from_byte(1));
    }
}

#[test]
fn bytes_are_points() {
    let mut random = Random::new(3);
    for _ in 0..1000 {
        let (a, b) = (random.byte(), random.byte());
        assert_eq!(Point::from_byte(a) * Point::from_byte(b), Point::from_byte(multiply(a, b)));
        assert_eq!(Point::from_byte(a) + Point::from_byte(b), Point::from_byte(a ^ b));
    }
}

#[test]
fn interpolation_meets_its_values() {
    let mut random = Random::new(4);
    for m in [2, 3, 17, 128, 254, 255] {
        let values = random.bytes(m);
        let s = Interpolation::new(m).interpolate(&values);
        assert_eq!(s.len(), m);
        let back: Vec<u8> = interpolation_points(m).iter().map(|&f| polynomial::evaluate(&s, f)).collect();
        assert_eq!(back, values);
    }
}

#[test]
fn division_undoes_multiplication() {
    let mut random = Random::new(5);
    for m in [2, 9, 60] {
        let f = vanishing_polynomial(m);
        let quotient = random.bytes(20);
        let rest = random.bytes(m);
        let mut numerator = polynomial::multiply(&quotient, &f);
        for (entry, r) in numerator.iter_mut().zip(&rest) {
            *entry ^= r;
        }
        assert_eq!(polynomial::divide(&numerator, &f), (quotient, rest));
    }
}

#[test]
fn evaluation_at_points_agrees_with_bytes_and_products() {
    let mut random = Random::new(6);
    for _ in 0..200 {
        let (left, right) = (random.bytes(13), random.bytes(9));
        let product = polynomial::multiply(&left, &right);
        let r = random_point(&mut random);
        let value = |p: &[u8]| polynomial::evaluate_at_point(p, r);
        assert_eq!(value(&product), value(&left) * value(&right));
        let byte = random.byte();
        let at_byte = polynomial::evaluate_at_point(&product, Point::from_byte(byte));
        assert_eq!(at_byte, Point::from_byte(polynomial::evaluate(&product, byte)));
    }
}
