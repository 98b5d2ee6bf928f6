//! The calls that the program `test_prover` makes at the shipped set, with two runs: what it must print, by the second
//! implementation.

use crate::count::Count;
use reference::key::PublicKey;
use reference::keylist::to_hex;
use reference::parameters::Parameters;
use reference::prover::Prover;
use reference::sampling::calls::{LentBytes, ProverCall, ProverInput};
use reference::shake256::shake256;

const SHIPPED: Parameters = Parameters::SHIPPED;

/// The run count.
const RUNS: usize = 2;

/// The bytes that a label stands for.
fn labelled(label: &str, length: usize) -> Vec<u8> {
    shake256(label.as_bytes(), length)
}

/// x_A and y of the key: x has 40 bytes in x_A and 39 in x_B, each at the front.
fn key(matrix: &[u8]) -> (Vec<u8>, Vec<u8>) {
    let mut x_a = labelled("x_A", 40);
    x_a.resize(SHIPPED.k, 0);
    let image = PublicKey { matrix, y: &[0; SHIPPED.m - SHIPPED.k] }.matrix_times(&x_a);
    let mut y = image;
    for (place, byte) in labelled("x_B", 39).into_iter().enumerate() {
        y[place] ^= byte;
    }
    (x_a, y)
}

/// The calls in their order, each with its name.
fn calls() -> Vec<(&'static str, ProverCall)> {
    let matrix = labelled("matrix", SHIPPED.matrix_bytes());
    let (x_a, y) = key(&matrix);
    let salt = labelled("salt", 32);
    let root = labelled("root", 16);
    let other_root = labelled("other root", 16);
    let message_2 = labelled("points", SHIPPED.message_2_bytes(RUNS));
    let work = vec![0xa5; SHIPPED.work_bytes()];
    let lent = LentBytes { matrix, y, work };
    let begin_runs = |parameters, runs, x_a: &[u8], root: &[u8]| ProverInput::Begin {
        parameters,
        runs,
        x_a: x_a.to_vec(),
        salt: salt.clone(),
        root: root.to_vec(),
    };
    let begin = |parameters, x_a: &[u8], root: &[u8]| begin_runs(parameters, RUNS, x_a, root);
    let points = |length: usize| ProverInput::Points { message_2: message_2[..length].to_vec() };
    let leaf = |leaves: &[u8]| ProverInput::Leaf { leaves: leaves.to_vec() };
    let call = |input, length| ProverCall { input, lent: lent.clone(), output: vec![0x5a; length] };
    let short_y = {
        let mut call = call(begin(SHIPPED, &x_a, &root), 96);
        call.lent.y.pop();
        call
    };
    vec![
        ("points", call(points(48), 64)),
        ("begin", call(begin(Parameters::new(256, 126, 79, 8, 3), &x_a, &root), 96)),
        ("begin", call(begin_runs(SHIPPED, 33, &x_a, &root), 96)),
        ("begin", short_y),
        ("begin", call(begin(SHIPPED, &[0xff; 126], &root), 96)),
        ("begin", call(begin(SHIPPED, &x_a, &root), 96)),
        ("leaf", call(leaf(&[77, 255]), 664)),
        ("points", call(points(47), 64)),
        ("points", call(ProverInput::Points { message_2: vec![0; 48] }, 64)),
        ("points", call(points(48), 64)),
        ("points", call(points(48), 64)),
        ("leaf", call(leaf(&[77, 255]), 368)),
        ("leaf", call(leaf(&[77]), 664)),
        ("leaf", call(leaf(&[77, 255]), 664)),
        ("leaf", call(leaf(&[77, 255]), 664)),
        ("points", call(points(48), 64)),
        ("begin", call(begin(SHIPPED, &x_a, &root), 96)),
        ("begin", call(begin(SHIPPED, &x_a, &other_root), 96)),
        ("points", call(points(48), 64)),
        ("leaf", call(leaf(&[255, 255]), 368)),
    ]
}

/// What the program prints: a line for each call, with its number and the digest of its output.
pub fn expected() -> String {
    let mut prover = Prover::default();
    let mut lines = String::new();
    for (name, call) in calls() {
        let effect = call.make(&mut prover);
        lines += &format!("{name}\t{}\t{}\n", effect.number, to_hex(&shake256(&effect.output, 32)));
    }
    lines
}

/// Compares the file of what the program prints, which the gate holds it to.
pub fn compare(printed: &str, count: &mut Count) {
    let expected = expected();
    for (place, line) in expected.lines().enumerate() {
        let found = printed.lines().nth(place).unwrap_or("no line");
        let outcome = if found == line { Ok(()) } else { Err(format!("'{found}' for '{line}'")) };
        count.settle(&format!("test_prover, line {}", place + 1), outcome);
    }
    let same = printed.lines().count() == expected.lines().count();
    count.settle("test_prover", if same { Ok(()) } else { Err("another number of lines".to_string()) });
}
