//! GF(256): bytes modulo z^8+z^4+z^3+z+1 (FIPS 197). Addition is xor, so it needs no function here.

/// The modulus z^8+z^4+z^3+z+1, bit i standing for z^i.
const MODULUS: u16 = 0x11b;

/// The product of two bytes as polynomials over GF(2), before reduction: degree at most 14.
fn carryless_product(left: u8, right: u8) -> u16 {
    let mut product = 0;
    for degree in 0..8 {
        if right >> degree & 1 == 1 {
            product ^= u16::from(left) << degree;
        }
    }
    product
}

/// The remainder of a polynomial of degree at most 14 modulo the modulus.
fn reduce(polynomial: u16) -> u8 {
    let mut rest = polynomial;
    for degree in (8..15).rev() {
        if rest >> degree & 1 == 1 {
            rest ^= MODULUS << (degree - 8);
        }
    }
    rest as u8
}

/// The product of two field bytes.
pub fn multiply(left: u8, right: u8) -> u8 {
    reduce(carryless_product(left, right))
}

/// The inverse of a nonzero byte, as its 254th power (254 = 2 + 4 + ... + 128); of 00 it is 00.
pub fn inverse(byte: u8) -> u8 {
    let mut square = byte;
    let mut power = 1;
    for _ in 0..7 {
        square = multiply(square, square);
        power = multiply(power, square);
    }
    power
}
