//! The inputs compared: keys over all parameter extremes, keys that are refused, and damaged texts.

use crate::{damaged, long};
use reference::parameters::Parameters;
use reference::sampling::damage::resize;
use reference::sampling::keys::{overweight_key, valid_key, Key};
use reference::sampling::parameter_sets::{extreme_sets, outside_set, random_set};
use reference::sampling::Random;

/// An input and the name under which a difference is printed.
pub struct Case {
    /// What the input is, with its place in the list.
    pub name: String,
    /// The bytes for standard input.
    pub input: Vec<u8>,
}

/// All inputs for a seed.
pub fn cases(seed: u64) -> Vec<Case> {
    let mut random = Random::new(seed);
    let mut named = Vec::new();
    named.extend(valid_texts(&mut random).into_iter().map(|text| ("valid key", text)));
    named.extend(overweight_texts(&mut random).into_iter().map(|text| ("overweight key", text)));
    named.extend(texts_outside_limits(&mut random).into_iter().map(|text| ("parameters outside limits", text)));
    named.extend(texts_of_wrong_length(&mut random).into_iter().map(|text| ("wrong length", text)));
    named.extend(damaged::texts(&mut random));
    named.extend(long::texts());
    let case = |(place, (name, input))| Case { name: format!("input {place}, {name}"), input };
    named.into_iter().enumerate().map(case).collect()
}

/// The extremes, every m from 2 to 255, and sets at random.
fn sets(random: &mut Random) -> Vec<Parameters> {
    let mut sets = extreme_sets();
    for m in 2..=255 {
        let (k, w) = (random.between(1, m - 1), random.between(1, m));
        sets.push(Parameters::new(m, k, w, random.between(1, 8), random.between(1, 8)));
    }
    sets.extend((0..100).map(|_| random_set(random, 255, 8)));
    sets.push(Parameters::SHIPPED);
    sets
}

fn valid_texts(random: &mut Random) -> Vec<Vec<u8>> {
    sets(random).iter().map(|set| valid_key(random, set).to_text().into_bytes()).collect()
}

fn overweight_texts(random: &mut Random) -> Vec<Vec<u8>> {
    let sets = extreme_sets().into_iter().chain((0..60).map(|seed| random_set(&mut Random::new(seed), 255, 8)));
    sets.filter_map(|set| overweight_key(random, &set)).map(|key| key.to_text().into_bytes()).collect()
}

/// A small key under parameters outside their limits; some have too many digits.
fn texts_outside_limits(random: &mut Random) -> Vec<Vec<u8>> {
    let mut texts = Vec::new();
    for _ in 0..150 {
        let key = small_key(random);
        let parameters = outside_set(random);
        texts.push(Key { parameters, ..key }.to_text().into_bytes());
    }
    texts
}

/// A key of which matrix, syndrome or x_A has another length.
fn texts_of_wrong_length(random: &mut Random) -> Vec<Vec<u8>> {
    let mut texts = Vec::new();
    for place in 0..150 {
        let mut key = small_key(random);
        let field = [&mut key.matrix, &mut key.y, &mut key.x_a].into_iter().nth(place % 3).expect("three fields");
        resize(random, field);
        texts.push(key.to_text().into_bytes());
    }
    texts
}

/// A valid key with a short text.
pub fn small_key(random: &mut Random) -> Key {
    let set = random_set(random, 12, 8);
    valid_key(random, &set)
}

#[cfg(test)]
mod tests {
    use super::*;
    use std::collections::BTreeMap;

    #[test]
    fn at_least_a_thousand_inputs_meet_every_answer() {
        let cases = cases(1);
        assert!(cases.len() >= 1000);
        let mut counts = BTreeMap::new();
        for case in &cases {
            let listing = reference::keylist::listing(&case.input);
            let answer = if listing.starts_with(b"refused") { listing } else { b"listed".to_vec() };
            *counts.entry(String::from_utf8(answer).unwrap()).or_insert(0) += 1;
        }
        let answers: Vec<&str> = counts.keys().map(String::as_str).collect();
        assert_eq!(answers, ["listed", "refused\t1\n", "refused\t10\n", "refused\t2\n", "refused\t3\n"]);
        assert!(counts.values().all(|&count| count >= 50), "{counts:?}");
    }
}
