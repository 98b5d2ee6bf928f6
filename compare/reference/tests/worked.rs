//! The worked cases of document 01: the ten marked ones and the edges.

use reference::byte_field::{inverse, multiply};
use reference::key::{check_weight, KeyPolynomials, PublicKey};
use reference::leaves::coordinate;
use reference::numbers::{LEAF_NOT_BELOW_N, OVERWEIGHT, PARAMETER_OUTSIDE_LIMITS, WRONG_LENGTH};
use reference::parameters::Parameters;
use reference::points_field::Point;
use reference::sampling::calls::{LentBytes, ProverCall, ProverInput};
use reference::sampling::exchanges::{honest_exchange, verdict, Start};
use reference::sampling::keys::{valid_key, Key};
use reference::sampling::Random;
use reference::tree::sibling_nodes;
use reference::{prover::Prover, verifier::Verifier};

const X: Point = Point([0, 1, 0, 0]);
const Z: Point = Point([0, 0, 1, 0]);
const SAMPLE: Parameters = Parameters::new(2, 1, 1, 1, 1);

fn sample_vector(syndrome: u8, key: u8) -> Vec<u8> {
    PublicKey { matrix: &[1], y: &[syndrome] }.vector(&[key])
}

#[test]
fn product_57_83() {
    assert_eq!(multiply(0x57, 0x83), 0xc1);
}

#[test]
fn inverse_53() {
    assert_eq!(inverse(0x53), 0xca);
}

#[test]
fn square_of_x() {
    assert_eq!(X * X, Point([0x20, 0x01, 0x00, 0x00]));
}

#[test]
fn square_of_z() {
    assert_eq!(Z * Z, Point([0x00, 0x20, 0x01, 0x00]));
}

#[test]
fn square_of_xz() {
    assert_eq!((X * Z) * (X * Z), Point([0x6c, 0x4c, 0x20, 0x01]));
}

#[test]
fn sample_polynomials() {
    let x = sample_vector(5, 5);
    assert_eq!(x, [5, 0]);
    let KeyPolynomials { s, q, p, f } = KeyPolynomials::new(&SAMPLE, &x);
    assert_eq!((s, q, p, f), (vec![6, 3], vec![1, 1], vec![3], vec![2, 3, 1]));
}

#[test]
fn leaf_5_coordinates() {
    assert_eq!([1, 2, 3].map(|axis| coordinate(5, axis)), [2, 1, 2]);
}

#[test]
fn leaf_5_siblings() {
    assert_eq!(sibling_nodes(3, 5), [2, 7, 12]);
}

#[test]
fn zero_key() {
    let polynomials = KeyPolynomials::new(&SAMPLE, &sample_vector(0, 0));
    assert_eq!((polynomials.s, polynomials.p, polynomials.q), (vec![0, 0], vec![0], vec![1, 1]));
}

#[test]
fn overweight_sample() {
    let x = sample_vector(2, 5);
    assert_eq!(x, [5, 7]);
    assert_eq!(check_weight(&SAMPLE, &x), Err(OVERWEIGHT));
}

#[test]
fn edges_of_m() {
    assert_eq!(Parameters::new(255, 1, 1, 1, 1).check(), Ok(()));
    assert_eq!(Parameters::new(256, 1, 1, 1, 1).check(), Err(PARAMETER_OUTSIDE_LIMITS));
    assert_eq!(Parameters::new(2, 1, 1, 1, 1).check(), Ok(()));
    assert_eq!(Parameters::new(1, 1, 1, 1, 1).check(), Err(PARAMETER_OUTSIDE_LIMITS));
}

#[test]
fn edges_of_k() {
    for m in 2..=255 {
        assert_eq!(Parameters::new(m, m - 1, 1, 1, 1).check(), Ok(()));
        assert_eq!(Parameters::new(m, m, 1, 1, 1).check(), Err(PARAMETER_OUTSIDE_LIMITS));
        assert_eq!(Parameters::new(m, 0, 1, 1, 1).check(), Err(PARAMETER_OUTSIDE_LIMITS));
    }
}

#[test]
fn edges_of_w() {
    assert_eq!(Parameters::new(9, 4, 9, 1, 1).check(), Ok(()));
    assert_eq!(Parameters::new(9, 4, 10, 1, 1).check(), Err(PARAMETER_OUTSIDE_LIMITS));
    assert_eq!(Parameters::new(9, 4, 0, 1, 1).check(), Err(PARAMETER_OUTSIDE_LIMITS));
}

#[test]
fn edges_of_axes_and_positions() {
    assert_eq!(Parameters::new(9, 4, 3, 8, 8).check(), Ok(()));
    assert_eq!(Parameters::new(9, 4, 3, 9, 8).check(), Err(PARAMETER_OUTSIDE_LIMITS));
    assert_eq!(Parameters::new(9, 4, 3, 8, 9).check(), Err(PARAMETER_OUTSIDE_LIMITS));
    assert_eq!(Parameters::new(9, 4, 3, 0, 8).check(), Err(PARAMETER_OUTSIDE_LIMITS));
    assert_eq!(Parameters::new(9, 4, 3, 8, 0).check(), Err(PARAMETER_OUTSIDE_LIMITS));
}

#[test]
fn begins_answer_1_at_the_edges() {
    for set in [(256, 1, 1, 1, 1), (9, 9, 1, 1, 1), (9, 4, 1, 9, 1), (9, 4, 1, 1, 9)] {
        let parameters = Parameters::new(set.0, set.1, set.2, set.3, set.4);
        assert_eq!(Verifier::default().begin(parameters, 1, &[0; 64]), PARAMETER_OUTSIDE_LIMITS);
        let input = ProverInput::Begin { parameters, runs: 1, x_a: vec![], salt: vec![], root: vec![] };
        let call = ProverCall { input, lent: LentBytes::default(), output: vec![] };
        assert_eq!(call.make(&mut Prover::default()).number, PARAMETER_OUTSIDE_LIMITS);
    }
}

/// A prover that has answered message 2.
fn prover_at_leaf(key: &Key) -> Prover {
    let set = key.parameters;
    let mut prover = Prover::default();
    let lent = LentBytes { matrix: key.matrix.clone(), y: key.y.clone(), work: vec![0; set.work_bytes()] };
    let x_a = key.x_a.clone();
    let begin = ProverInput::Begin { parameters: set, runs: 1, x_a, salt: vec![1; 32], root: vec![2; 16] };
    let points = ProverInput::Points { message_2: (0..set.message_2_bytes(1) as u8).collect() };
    for (input, length) in [(begin, 64), (points, 32)] {
        let call = ProverCall { input, lent: lent.clone(), output: vec![0; length] };
        assert_eq!(call.make(&mut prover).number, 0);
    }
    prover
}

#[test]
fn leaves_7_and_8_at_three_axes() {
    let set = Parameters::new(9, 4, 3, 3, 2);
    let key = valid_key(&mut Random::new(7), &set);
    let lent = LentBytes { matrix: key.matrix.clone(), y: key.y.clone(), work: vec![0; set.work_bytes()] };
    let leaf = |leaf, length| {
        let input = ProverInput::Leaf { leaves: vec![leaf] };
        ProverCall { input, lent: lent.clone(), output: vec![0; length] }
    };
    let (shorter, longer) = (16 * 3 + 32 + 8 * 2, 16 * 3 + 32 + 8 * 2 + 4 + 2 * 3 + 4 * 2);
    assert_eq!(leaf(7, shorter).make(&mut prover_at_leaf(&key)).number, 0);
    assert_eq!(leaf(7, longer).make(&mut prover_at_leaf(&key)).number, WRONG_LENGTH);
    assert_eq!(leaf(8, longer).make(&mut prover_at_leaf(&key)).number, LEAF_NOT_BELOW_N);
    assert_eq!(leaf(8, shorter).make(&mut prover_at_leaf(&key)).number, WRONG_LENGTH);
    let mut verifier = Verifier::default();
    assert_eq!(verifier.begin(set, 1, &[0; 64]), 0);
    assert_eq!(verifier.points(&[0, 0, 0, 0, 0, 0, 0, 1, 0, 0, 0, 0, 0, 0, 0, 0]), 0);
    assert_eq!(verifier.response(&[0; 32]), 0);
    assert_eq!(verifier.leaf(&[8]), LEAF_NOT_BELOW_N);
    assert_eq!(verifier.leaf(&[7]), 0);
}

#[test]
fn shipped_opening_lengths() {
    assert_eq!(Parameters::SHIPPED.opening_bytes(0), 480);
    assert_eq!(Parameters::SHIPPED.opening_bytes(254), 480);
    assert_eq!(Parameters::SHIPPED.opening_bytes(255), 184);
}

#[test]
fn shipped_set_exchanges_are_accepted() {
    let mut random = Random::new(8);
    let key = valid_key(&mut random, &Parameters::SHIPPED);
    let start = Start::random(&mut random, &Parameters::SHIPPED, 2);
    for leaves in [[0, 1], [5, 128], [254, 255]] {
        let exchange = honest_exchange(&key, &start, &leaves);
        assert_eq!(verdict(&Parameters::SHIPPED, key.public(), &exchange), 0, "leaves {leaves:?}");
    }
}
