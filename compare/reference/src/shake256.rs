//! SHAKE256 (FIPS 202, section 6.2): Keccak with capacity 512, suffix 1111 and the padding 10*1.

use crate::keccak::{permute, Lanes};

/// The rate in bytes: 200 less twice 32.
pub const RATE: usize = 136;

/// The suffix 1111 and the first bit of the padding, lowest bit first.
const SUFFIX: u8 = 0x1f;

/// The last bit of the padding.
const LAST_BIT: u8 = 0x80;

/// The first `length` bytes of SHAKE256 of a message.
pub fn shake256(message: &[u8], length: usize) -> Vec<u8> {
    let absorbed = pad(message).chunks_exact(RATE).fold([0; 25], |lanes, block| permute(&add_block(&lanes, block)));
    squeeze(absorbed, length)
}

fn pad(message: &[u8]) -> Vec<u8> {
    let mut padded = message.to_vec();
    padded.push(SUFFIX);
    padded.resize(padded.len().next_multiple_of(RATE), 0);
    *padded.last_mut().expect("the padding has a byte") |= LAST_BIT;
    padded
}

fn add_block(lanes: &Lanes, block: &[u8]) -> Lanes {
    let mut sum = *lanes;
    for (place, &byte) in block.iter().enumerate() {
        sum[place / 8] ^= u64::from(byte) << (8 * (place % 8));
    }
    sum
}

fn squeeze(mut lanes: Lanes, length: usize) -> Vec<u8> {
    let mut output = Vec::new();
    loop {
        let block = lanes.iter().flat_map(|lane| lane.to_le_bytes()).take(RATE);
        output.extend(block);
        if output.len() >= length {
            output.truncate(length);
            return output;
        }
        lanes = permute(&lanes);
    }
}
