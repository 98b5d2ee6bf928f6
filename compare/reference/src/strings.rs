//! The strings hashed, layers 1 to 8 (document 01, Strings hashed; document 02, request 01). Each starts with its layer
//! byte and the prefix of its run: the salt and the run byte.

#[cfg(not(feature = "stand_in"))]
use crate::shake256::shake256 as hash;
#[cfg(feature = "stand_in")]
use crate::stand_in::hash;

/// Bytes of a salt.
pub const SALT_BYTES: usize = 32;
/// Bytes of a prefix: salt and run byte.
pub const PREFIX_BYTES: usize = SALT_BYTES + 1;
/// Bytes of a seed and of a rho.
pub const SEED_BYTES: usize = 16;
/// Bytes of a commitment, of h, of H_axis and of h'.
pub const DIGEST_BYTES: usize = 32;

/// A salt.
pub type Salt = [u8; SALT_BYTES];
/// What follows the layer byte in every string of a run: the salt and the run byte.
pub type Prefix = [u8; PREFIX_BYTES];
/// A seed, or a rho.
pub type Seed = [u8; SEED_BYTES];
/// A digest of layers 4 to 7.
pub type Digest = [u8; DIGEST_BYTES];

/// The prefix of a run, which is numbered from 0.
pub fn prefix(salt: &Salt, run: usize) -> Prefix {
    let mut prefix = [number_byte(run); PREFIX_BYTES];
    prefix[..SALT_BYTES].copy_from_slice(salt);
    prefix
}

fn layer_string(layer: u8, prefix: &Prefix, parts: &[&[u8]]) -> Vec<u8> {
    let mut string = vec![layer];
    string.extend_from_slice(prefix);
    for part in parts {
        string.extend_from_slice(part);
    }
    string
}

/// A leaf, axis or run number as the one byte that a string takes.
pub fn number_byte(number: usize) -> u8 {
    u8::try_from(number).expect("leaf, axis and run numbers are at most 255")
}

/// The first bytes of a longer list, as an array.
pub fn front<const LENGTH: usize>(bytes: &[u8]) -> [u8; LENGTH] {
    std::array::from_fn(|i| bytes[i])
}

fn two_seeds(bytes: &[u8]) -> (Seed, Seed) {
    (front(bytes), front(&bytes[SEED_BYTES..]))
}

/// Layer 1: the seeds of nodes 2v and 2v+1 from the seed of node v.
pub fn children(prefix: &Prefix, node: usize, seed: &Seed) -> (Seed, Seed) {
    let node = u16::try_from(node).expect("node numbers take two bytes").to_le_bytes();
    two_seeds(&hash(&layer_string(1, prefix, &[&node, seed]), 2 * SEED_BYTES))
}

/// Layer 2: seed and rho of a leaf from its node's seed.
pub fn seed_and_rho(prefix: &Prefix, leaf: usize, node_seed: &Seed) -> (Seed, Seed) {
    two_seeds(&hash(&layer_string(2, prefix, &[&[number_byte(leaf)], node_seed]), 2 * SEED_BYTES))
}

/// Layer 3: the first `length` bytes of a leaf's shares.
pub fn share_stream(prefix: &Prefix, leaf: usize, seed: &Seed, length: usize) -> Vec<u8> {
    hash(&layer_string(3, prefix, &[&[number_byte(leaf)], seed]), length)
}

/// The layer 4 string of a leaf; aux is empty but for leaf n−1.
pub fn leaf_string(prefix: &Prefix, leaf: usize, seed: &Seed, rho: &Seed, aux: &[u8]) -> Vec<u8> {
    layer_string(4, prefix, &[&[number_byte(leaf)], seed, rho, aux])
}

/// The layer 5 string: all leaf commitments.
pub fn commitments_string(prefix: &Prefix, commitments: &[Digest]) -> Vec<u8> {
    layer_string(5, prefix, &[&commitments.concat()])
}

/// The layer 6 string of an axis, from α, β, v of party 1 and then of party 2.
pub fn axis_string(prefix: &Prefix, axis: usize, party_1: &[u8], party_2: &[u8]) -> Vec<u8> {
    layer_string(6, prefix, &[&[number_byte(axis)], party_1, party_2])
}

/// The layer 7 string: H_1 to H_D.
pub fn axes_string(prefix: &Prefix, axis_digests: &[Digest]) -> Vec<u8> {
    layer_string(7, prefix, &[&axis_digests.concat()])
}

/// Layer 8: the root seed of a run from that of the exchange.
pub fn run_root(prefix: &Prefix, root: &Seed) -> Seed {
    front(&hash(&layer_string(8, prefix, &[root]), SEED_BYTES))
}

/// The 32 bytes to which a string of layers 4 to 7 is hashed.
pub fn digest(string: &[u8]) -> Digest {
    front(&hash(string, DIGEST_BYTES))
}
