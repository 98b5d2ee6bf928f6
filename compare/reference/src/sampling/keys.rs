//! Keys: valid ones of every weight, overweight ones, and any bytes.

use crate::key::PublicKey;
use crate::parameters::Parameters;
use crate::sampling::Random;

/// A key with its parameters.
#[derive(Clone, Debug, PartialEq, Eq)]
pub struct Key {
    /// The parameters.
    pub parameters: Parameters,
    /// The matrix H'.
    pub matrix: Vec<u8>,
    /// The syndrome y.
    pub y: Vec<u8>,
    /// The secret x_A.
    pub x_a: Vec<u8>,
}

impl Key {
    /// The public part.
    pub fn public(&self) -> PublicKey<'_> {
        PublicKey { matrix: &self.matrix, y: &self.y }
    }

    /// x.
    pub fn vector(&self) -> Vec<u8> {
        self.public().vector(&self.x_a)
    }

    /// The four lines that `keylist` reads.
    pub fn to_text(&self) -> String {
        let Parameters { m, k, w, axes, t } = self.parameters;
        let hex = crate::keylist::to_hex;
        let set = format!("set\t{m}\t{k}\t{w}\t{axes}\t{t}\n");
        let lines = format!("matrix\t{}\nsyndrome\t{}\nkey\t{}\n", hex(&self.matrix), hex(&self.y), hex(&self.x_a));
        set + &lines
    }
}

/// A vector with exactly so many nonzero entries.
pub fn vector_of_weight(random: &mut Random, length: usize, weight: usize) -> Vec<u8> {
    let mut places: Vec<usize> = (0..length).collect();
    let mut x = vec![0; length];
    for _ in 0..weight {
        let place = places.swap_remove(random.below(places.len()));
        x[place] = random.nonzero_byte();
    }
    x
}

/// The key whose vector is x, with a random matrix.
pub fn key_of_vector(random: &mut Random, parameters: &Parameters, x: &[u8]) -> Key {
    let matrix = random.bytes(parameters.matrix_bytes());
    let (x_a, x_b) = x.split_at(parameters.k);
    // y = H'x_A + x_B is x_B + H'x_A, the vector's second part under y = x_B.
    let y = PublicKey { matrix: &matrix, y: x_b }.vector(x_a).split_off(parameters.k);
    Key { parameters: *parameters, matrix, y, x_a: x_a.to_vec() }
}

/// A key of any bytes: x has any weight.
pub fn any_key(random: &mut Random, parameters: &Parameters) -> Key {
    let matrix = random.bytes(parameters.matrix_bytes());
    let y = random.bytes(parameters.syndrome_bytes());
    Key { parameters: *parameters, matrix, y, x_a: random.bytes(parameters.k) }
}

/// A valid key: weight at most w, often exactly w.
pub fn valid_key(random: &mut Random, parameters: &Parameters) -> Key {
    let weight = if random.once_in(2) { parameters.w } else { random.below(parameters.w + 1) };
    let x = vector_of_weight(random, parameters.m, weight);
    key_of_vector(random, parameters, &x)
}

/// A key with more than w nonzero entries, often w + 1; none if w = m.
pub fn overweight_key(random: &mut Random, parameters: &Parameters) -> Option<Key> {
    if parameters.w == parameters.m {
        return None;
    }
    let least = parameters.w + 1;
    let weight = if random.once_in(2) { least } else { random.between(least, parameters.m) };
    let x = vector_of_weight(random, parameters.m, weight);
    Some(key_of_vector(random, parameters, &x))
}
