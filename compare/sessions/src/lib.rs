//! Comparisons of the proved library with the second implementation on calls made from a seed: numbers, outputs and work
//! areas byte for byte, what a carried out call stores in the session, and that a refused call leaves it as it was.

pub mod count;
pub mod damaged;
pub mod effects;
pub mod extractor;
pub mod fixed;
pub mod made_up;
pub mod points;
pub mod prover;
pub mod sets;
pub mod verifier;

use reference::sampling::scripts::Size;
use reference::sampling::Random;

/// The run counts that are compared beside those of the scripts.
pub const RUN_COUNTS: [usize; 4] = [1, 2, 5, 32];

/// The size of a numbered script: mostly small, one in twenty up to eight axes.
fn size(number: u64) -> Size {
    match number % 20 {
        0 => Size { greatest_m: 40, greatest_axes: 8 },
        1..=4 => Size { greatest_m: 24, greatest_axes: 5 },
        _ => Size { greatest_m: 12, greatest_axes: 3 },
    }
}

/// The bytes of a session that no call made: all 00, all ff, or random ones, with a phase or without.
fn stranger(random: &mut Random, size: usize, phases: &[u8]) -> Vec<u8> {
    match random.below(4) {
        0 => vec![0; size],
        1 => vec![255; size],
        2 => random.bytes(size),
        _ => {
            let mut session = random.bytes(size);
            session[0] = random.choose(phases);
            session
        }
    }
}
