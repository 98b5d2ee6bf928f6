//! The inputs compared: none, which stands for the default key, keys over several sets, and keys that are refused, each with
//! arguments: none, a run count, and what is refused as one.

use crate::default_key::default_key;
use crate::expected;
use reference::keylist::listing;
use reference::parameters::Parameters;
use reference::sampling::keys::{overweight_key, valid_key, Key};
use reference::sampling::Random;

/// The run count without an argument.
pub const DEFAULT_RUNS: usize = 17;

/// An input with its arguments, what is expected for it, and the name under which a difference is printed.
pub struct Case {
    /// What the input is.
    pub name: String,
    /// The arguments.
    pub arguments: Vec<String>,
    /// The bytes for standard input.
    pub input: Vec<u8>,
    /// What must be printed.
    pub expected: String,
}

/// Run counts and sets: the fewest and the most runs, the least and the most axes, the smallest set, the largest matrix and a
/// message 5 of five digits.
const SETS: [(usize, usize, usize, usize, usize, usize); 8] = [
    (32, 2, 1, 1, 1, 1),
    (1, 2, 1, 1, 1, 1),
    (31, 2, 1, 2, 1, 8),
    (17, 40, 20, 12, 4, 2),
    (2, 17, 16, 3, 8, 1),
    (9, 90, 1, 30, 3, 5),
    (10, 255, 127, 9, 2, 8),
    (11, 255, 254, 255, 8, 8),
];

/// Arguments that are refused before the key is read.
const UNREADABLE: [&[&str]; 8] =
    [&[""], &["01"], &["1000"], &["+1"], &["x"], &["2", "2"], &["2", ""], &["18446744073709551617"]];

/// All inputs for a seed.
pub fn cases(seed: u64) -> Vec<Case> {
    let mut random = Random::new(seed);
    let mut cases = vec![default_case(), accepted("the default key as a file", 1, &default_key())];
    for (runs, m, k, w, axes, t) in SETS {
        let set = Parameters::new(m, k, w, axes, t);
        cases.push(accepted(&format!("set {m} {k} {w} {axes} {t}"), runs, &valid_key(&mut random, &set)));
    }
    cases.extend(refused_cases(&mut random));
    cases.extend(UNREADABLE.map(|arguments| refused(10, arguments, String::new())));
    cases.extend(["0", "33", "999"].map(|runs| refused(1, &[runs], String::new())));
    cases
}

fn default_case() -> Case {
    let expected = expected::text(&default_key(), DEFAULT_RUNS);
    Case { name: "empty input".to_string(), arguments: Vec::new(), input: Vec::new(), expected }
}

fn accepted(name: &str, runs: usize, key: &Key) -> Case {
    let (input, expected) = (key.to_text().into_bytes(), expected::text(key, runs));
    Case { name: format!("{name}, {runs} runs"), arguments: vec![runs.to_string()], input, expected }
}

/// A key for each number, by the reference's listing, which refuses a text with the same numbers in the same order; and each of
/// them with a run count outside its limits, a 1, which stands behind 10 and before 2.
fn refused_cases(random: &mut Random) -> Vec<Case> {
    let set = Parameters::new(12, 6, 4, 2, 2);
    let key = valid_key(random, &set);
    let heavy = overweight_key(random, &set).expect("a vector of length 12 can have more than 4 nonzero entries");
    let short = Key { y: key.y[1..].to_vec(), ..key.clone() };
    let outside = Key { parameters: Parameters { axes: 9, ..set }, ..short.clone() };
    let text = key.to_text();
    let unended = text.trim_end().to_string();
    let texts = [
        (10, unended),
        (10, text.replace("key", "Key")),
        (10, "\n".to_string()),
        (1, outside.to_text()),
        (2, short.to_text()),
        (3, heavy.to_text()),
    ];
    let mut cases = vec![refused(1, &["0"], text.clone()), refused(10, &["1", "1"], text)];
    for (number, text) in texts {
        assert_eq!(listing(text.as_bytes()), refusal(number).into_bytes(), "the input was made to be refused");
        cases.push(refused(if number == 10 { 10 } else { 1 }, &["33"], text.clone()));
        cases.push(refused(number, &["2"], text));
    }
    cases
}

fn refusal(number: u8) -> String {
    format!("refused\t{number}\n")
}

fn refused(number: u8, arguments: &[&str], text: String) -> Case {
    Case {
        name: format!("refused with {number}, arguments {arguments:?}"),
        arguments: arguments.iter().map(ToString::to_string).collect(),
        input: text.into_bytes(),
        expected: refusal(number),
    }
}
