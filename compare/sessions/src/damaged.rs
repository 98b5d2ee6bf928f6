//! Sessions of which one, two or three bits were flipped where they are stored, after each call of an exchange: the calls
//! that follow are held to the second implementation, and where it is plain to the number that they must answer.

use crate::count::Count;
use crate::effects::{answers, require};
use crate::{prover, verifier};
use reference::numbers::{CARRIED_OUT, CLOSED, SALT_AND_ROOT_HELD};
use reference::prover::Prover;
use reference::sampling::calls::{ProverCall, VerifierCall};
use reference::sampling::exchanges::{honest_exchange, Start};
use reference::sampling::keys::{valid_key, Key};
use reference::sampling::made_up::any_leaves;
use reference::sampling::parameter_sets::random_set;
use reference::sampling::Random;
use reference::verifier::Verifier;

/// The bits of the phase, the first byte of a session.
const PHASE: usize = 8;
/// The bits of phase, parameters and run count.
const FRONT: usize = 8 * 7;
/// The bits in front of a prover's salt and root: phase, parameters, run count and x.
const BEFORE_SALT: usize = 8 * (7 + 255);

/// Some different bits of the first so many.
fn some_bits(random: &mut Random, number: usize, range: usize) -> Vec<usize> {
    let mut bits = Vec::new();
    while bits.len() < number {
        let bit = random.below(range);
        if !bits.contains(&bit) {
            bits.push(bit);
        }
    }
    bits
}

/// Every choice of one to three bits of the phase.
fn phase_bits() -> Vec<Vec<usize>> {
    let chosen = |mask: usize| (0..PHASE).filter(|bit| mask >> bit & 1 == 1).collect();
    (1..1 << PHASE).map(chosen).filter(|bits: &Vec<usize>| bits.len() <= 3).collect()
}

/// Bits to flip in a session of so many bytes: up to three of the phase, every single one of the parameters and the run
/// count, and one to three among these first ones or anywhere.
fn damages(random: &mut Random, size: usize) -> Vec<Vec<usize>> {
    let mut all = phase_bits();
    all.extend((PHASE..FRONT).map(|bit| vec![bit]));
    for number in 1..=3 {
        for range in [FRONT, 8 * size] {
            all.extend((0..12).map(|_| some_bits(random, number, range)));
        }
    }
    all
}

fn flipped(session: &[u8], bits: &[usize]) -> Vec<u8> {
    let mut session = session.to_vec();
    for bit in bits {
        session[bit / 8] ^= 1 << (bit % 8);
    }
    session
}

/// Is the session closed whatever else it holds? A phase with up to three bits flipped is none, and reads as closed.
fn is_closed(bits: &[usize], was_closed: bool) -> bool {
    was_closed || bits.iter().any(|&bit| bit < PHASE)
}

/// Each call of an exchange, made of a prover's session with flipped bits that had carried out the first so many of them.
fn damaged_prover(
    calls: &[ProverCall],
    done: usize,
    session: &[u8],
    bits: &[usize],
    count: &mut Count,
) -> Result<(), String> {
    let session = flipped(session, bits);
    for (place, call) in calls.iter().enumerate() {
        let mut expected = Prover::from_bytes(&session);
        let mut found = unlock::prover::Prover::from_bytes(session.clone());
        let number = prover::compare_one(call, &mut expected, &mut found, count)?;
        if place > 0 && is_closed(bits, done == calls.len()) {
            answers(number, CLOSED)?;
        }
        if place == 0 && done > 0 && bits.iter().all(|&bit| bit < BEFORE_SALT) {
            answers(number, SALT_AND_ROOT_HELD)?;
        }
    }
    Ok(())
}

/// The same of a verifier's session.
fn damaged_verifier(
    calls: &[VerifierCall],
    done: usize,
    session: &[u8],
    bits: &[usize],
    count: &mut Count,
) -> Result<(), String> {
    let session = flipped(session, bits);
    for (place, call) in calls.iter().enumerate() {
        let mut expected = Verifier::from_bytes(&session);
        let mut found = unlock::verifier::Verifier::from_bytes(session.clone());
        let number = verifier::compare_one(call, &mut expected, &mut found, count)?;
        if place == 0 {
            answers(number, CARRIED_OUT)?;
        } else if is_closed(bits, done == calls.len()) {
            answers(number, CLOSED)?;
        }
    }
    Ok(())
}

/// A small key, what an exchange of so many runs starts with, and leaves.
fn sample(random: &mut Random, runs: usize) -> (Key, Start, Vec<u8>) {
    let set = random_set(random, 12, 3);
    let key = valid_key(random, &set);
    let start = Start::random(random, &set, runs);
    let leaves = any_leaves(random, &set, runs);
    (key, start, leaves)
}

/// The run counts of the exchanges.
const RUNS: [usize; 6] = [1, 2, 1, 3, 1, 5];

/// Provers' sessions, damaged before the first call of an exchange and after each.
pub fn provers(seed: u64, exchanges: usize, count: &mut Count) {
    let mut random = Random::new(seed ^ 0xf11b);
    for exchange in 0..exchanges {
        let (key, start, leaves) = sample(&mut random, RUNS[exchange % RUNS.len()]);
        let calls = prover::calls(&mut random, &key, start, &leaves);
        let mut session = unlock::prover::Prover::new();
        let mut expected = Prover::default();
        for done in 0..=calls.len() {
            let name = format!("prover's session of exchange {exchange} after {done} calls");
            count.settle(&name, require(session.bytes() == expected.to_bytes(), "another session"));
            for bits in damages(&mut random, session.bytes().len()) {
                let outcome = damaged_prover(&calls, done, session.bytes(), &bits, count);
                count.settle(&format!("{name}, bits {bits:?} flipped"), outcome);
            }
            if let Some(call) = calls.get(done) {
                let number = prover::compare_one(call, &mut expected, &mut session, count);
                count.settle(&name, number.and_then(|number| answers(number, CARRIED_OUT)));
            }
        }
    }
}

/// Verifiers' sessions, damaged before the first call of an exchange and after each.
pub fn verifiers(seed: u64, exchanges: usize, count: &mut Count) {
    let mut random = Random::new(seed ^ 0xf11c);
    for exchange in 0..exchanges {
        let (key, start, leaves) = sample(&mut random, RUNS[exchange % RUNS.len()]);
        let calls = verifier::calls(&mut random, &key, &honest_exchange(&key, &start, &leaves));
        let mut session = unlock::verifier::Verifier::new();
        let mut expected = Verifier::default();
        for done in 0..=calls.len() {
            let name = format!("verifier's session of exchange {exchange} after {done} calls");
            count.settle(&name, require(session.bytes() == expected.to_bytes(), "another session"));
            for bits in damages(&mut random, session.bytes().len()) {
                let outcome = damaged_verifier(&calls, done, session.bytes(), &bits, count);
                count.settle(&format!("{name}, bits {bits:?} flipped"), outcome);
            }
            if let Some(call) = calls.get(done) {
                let number = verifier::compare_one(call, &mut expected, &mut session, count);
                count.settle(&name, number.and_then(|number| answers(number, CARRIED_OUT)));
            }
        }
    }
}
