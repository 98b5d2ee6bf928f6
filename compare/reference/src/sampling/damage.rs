//! Damage to bytes, lengths and points.

use crate::messages::check_points;
use crate::parameters::Parameters;
use crate::points_field::POINT_BYTES;
use crate::sampling::Random;

/// Changes one bit of some bytes that are not empty.
pub fn flip_bit(random: &mut Random, bytes: &mut [u8]) {
    let place = random.below(bytes.len());
    bytes[place] ^= 1 << random.below(8);
}

/// Changes one bit of a message 2 that has its length so that the points of each run still differ.
pub fn flip_challenge_bit(random: &mut Random, parameters: &Parameters, message_2: &mut [u8]) {
    loop {
        let mut changed = message_2.to_vec();
        flip_bit(random, &mut changed);
        if check_points(parameters, &changed).is_ok() {
            return message_2.copy_from_slice(&changed);
        }
    }
}

/// Copies one of at least two points over another one; where the copy is.
fn copy_point(random: &mut Random, points: &mut [u8]) -> usize {
    let positions = points.len() / POINT_BYTES;
    let from = random.below(positions);
    let to = (from + random.between(1, positions - 1)) % positions;
    points.copy_within(POINT_BYTES * from..POINT_BYTES * (from + 1), POINT_BYTES * to);
    POINT_BYTES * to
}

/// Makes two of at least two points equal in three of their four bytes.
pub fn nearly_repeat_point(random: &mut Random, points: &mut [u8]) {
    let place = copy_point(random, points) + random.below(POINT_BYTES);
    points[place] ^= random.nonzero_byte();
}

/// Makes two points of some run of a message 2 equal. Whether it could: the message may be cut, and a run may have one
/// point.
pub fn repeat_point(random: &mut Random, parameters: &Parameters, message_2: &mut [u8]) -> bool {
    match points_of_some_run(random, parameters, message_2) {
        Some(points) => {
            copy_point(random, points);
            true
        }
        None => false,
    }
}

/// Makes two points of some run equal in all four bytes or, once in four times, in three of them, if it can.
pub fn damage_points(random: &mut Random, parameters: &Parameters, message_2: &mut [u8]) {
    if let Some(points) = points_of_some_run(random, parameters, message_2) {
        if random.once_in(4) {
            nearly_repeat_point(random, points);
        } else {
            copy_point(random, points);
        }
    }
}

/// The points of some run of a message 2, if there are two of one run.
fn points_of_some_run<'a>(
    random: &mut Random,
    parameters: &Parameters,
    message_2: &'a mut [u8],
) -> Option<&'a mut [u8]> {
    if parameters.check().is_err() || parameters.t < 2 || message_2.len() < parameters.challenge_bytes() {
        return None;
    }
    let length = parameters.challenge_bytes();
    let place = length * random.below(message_2.len() / length);
    Some(&mut message_2[place..place + parameters.position_bytes()])
}

/// Another length than this one: one more, one less, none, or any up to twice as long.
pub fn other_length(random: &mut Random, length: usize) -> usize {
    let candidate = match random.below(4) {
        0 => length + 1,
        1 => length.saturating_sub(1),
        2 => 0,
        _ => random.below(2 * length + 2),
    };
    if candidate == length {
        length + 1
    } else {
        candidate
    }
}

/// Gives some bytes another length: cut, or filled up with random bytes.
pub fn resize(random: &mut Random, bytes: &mut Vec<u8>) {
    let length = other_length(random, bytes.len());
    while bytes.len() < length {
        bytes.push(random.byte());
    }
    bytes.truncate(length);
}
