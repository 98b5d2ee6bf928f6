//! A hash that is cheap to compute where SHAKE256 is not, and weakened forms of it under which unequal strings have one
//! digest. It stands in for SHAKE256 only in the computed trials of the definitions (feature `stand_in`).

use crate::strings::SEED_BYTES;
use std::cell::Cell;

/// Which strings count as less than they are.
#[derive(Clone, Copy, Debug, PartialEq, Eq)]
pub enum Weakness {
    /// None.
    Nothing,
    /// A string of this layer counts as its layer byte alone, so that any two of them have one digest.
    Layer(u8),
    /// The same for layer 4; and of layer 2 the seed depends on the layer byte alone, rho on the string, so that leaves
    /// with equal shares can have unequal strings.
    Leaves,
}

thread_local! {
    static WEAKNESS: Cell<Weakness> = const { Cell::new(Weakness::Nothing) };
}

/// What a computation gives under a weakness.
pub fn under<T>(weakness: Weakness, computation: impl FnOnce() -> T) -> T {
    let before = WEAKNESS.replace(weakness);
    let outcome = computation();
    WEAKNESS.set(before);
    outcome
}

/// The first `length` bytes of the hash of a string, under the weakness that is set.
pub fn hash(string: &[u8], length: usize) -> Vec<u8> {
    let layer = &string[..1];
    match WEAKNESS.get() {
        Weakness::Layer(weak) if layer == [weak] => plain(layer, length),
        Weakness::Leaves if layer == [4] => plain(layer, length),
        Weakness::Leaves if layer == [2] => {
            [plain(layer, SEED_BYTES), plain(string, length).split_off(SEED_BYTES)].concat()
        }
        _ => plain(string, length),
    }
}

fn plain(string: &[u8], length: usize) -> Vec<u8> {
    let mut state = string.iter().fold(7u64, |state, &byte| (state * 31 + u64::from(byte) + 1) % 65521);
    let mut output = Vec::new();
    for _ in 0..length {
        output.push((state / 7 % 256) as u8);
        state = (state * 75 + 74) % 65537;
    }
    output
}
