//! The key listing: the sample, listings of random keys, and the refusals in their order.

use reference::key::KeyPolynomials;
use reference::keylist::{listing, to_hex};
use reference::sampling::keys::{overweight_key, valid_key};
use reference::sampling::parameter_sets::{extreme_sets, outside_set, random_set};
use reference::sampling::Random;

const SAMPLE: &str = "set\t2\t1\t1\t1\t1\nmatrix\t01\nsyndrome\t05\nkey\t05\n";

fn assert_listing(input: &str, expected: &str) {
    assert_eq!(String::from_utf8(listing(input.as_bytes())).unwrap(), expected, "{input:?}");
}

fn assert_refused(input: &str, number: u8) {
    assert_listing(input, &format!("refused\t{number}\n"));
}

#[test]
fn sample_listing() {
    assert_listing(SAMPLE, "vector\t0500\nlocator\t0101\nS\t0603\nP\t03\nF\t020301\n");
}

#[test]
fn zero_listing() {
    let input = "set\t2\t1\t1\t1\t1\nmatrix\t01\nsyndrome\t00\nkey\t00\n";
    assert_listing(input, "vector\t0000\nlocator\t0101\nS\t0000\nP\t00\nF\t020301\n");
}

#[test]
fn random_listings() {
    let mut random = Random::new(70);
    let mut sets = extreme_sets();
    sets.extend((0..40).map(|_| random_set(&mut random, 255, 8)));
    for set in sets {
        let key = valid_key(&mut random, &set);
        let KeyPolynomials { s, q, p, f } = KeyPolynomials::new(&set, &key.vector());
        assert_eq!((s.len(), q.len(), p.len(), f.len()), (set.m, set.w + 1, set.w, set.m + 1));
        let lines = [("vector", &key.vector()), ("locator", &q), ("S", &s), ("P", &p), ("F", &f)];
        let expected = lines.map(|(word, bytes)| format!("{word}\t{}\n", to_hex(bytes))).concat();
        assert_listing(&key.to_text(), &expected);
    }
}

#[test]
fn overweight_keys_give_3() {
    assert_refused("set\t2\t1\t1\t1\t1\nmatrix\t01\nsyndrome\t02\nkey\t05\n", 3);
    let mut random = Random::new(71);
    for _ in 0..40 {
        let set = random_set(&mut random, 255, 8);
        if let Some(key) = overweight_key(&mut random, &set) {
            assert_refused(&key.to_text(), 3);
        }
    }
}

#[test]
fn parameters_outside_limits_give_1() {
    let sets = ["1\t1\t1\t1\t1", "256\t1\t1\t1\t1", "2\t2\t1\t1\t1", "2\t0\t1\t1\t1", "2\t1\t3\t1\t1", "2\t1\t0\t1\t1"];
    let more = [
        "2\t1\t1\t9\t1",
        "2\t1\t1\t0\t1",
        "2\t1\t1\t1\t9",
        "2\t1\t1\t1\t0",
        "999\t999\t999\t999\t999",
        "0\t0\t0\t0\t0",
    ];
    for set in sets.iter().chain(&more) {
        assert_refused(&SAMPLE.replace("2\t1\t1\t1\t1", set), 1);
        assert_refused(&format!("set\t{set}\nmatrix\t\nsyndrome\t\nkey\t\n"), 1);
    }
}

#[test]
fn wrong_lengths_give_2() {
    for (from, to) in [("matrix\t01", "matrix\t"), ("matrix\t01", "matrix\t0102"), ("syndrome\t05", "syndrome\t")] {
        assert_refused(&SAMPLE.replace(from, to), 2);
    }
    for (from, to) in [("syndrome\t05", "syndrome\t0505"), ("key\t05", "key\t"), ("key\t05", "key\t0500")] {
        assert_refused(&SAMPLE.replace(from, to), 2);
    }
}

#[test]
fn malformed_texts_give_10() {
    let changes = [
        ("set", "Set"),
        ("set", ""),
        ("set\t", "set"),
        ("set\t2", "set\t02"),
        ("set\t2", "set\t"),
        ("set\t2", "set\t2 "),
        ("set\t2", "set\t+2"),
        ("set\t2", "set\t-2"),
        ("set\t2", "set\t1000"),
        ("set\t2", "set\t00"),
        ("set\t2", "set\ta"),
        ("\t1\t1\n", "\t1\n"),
        ("\t1\t1\n", "\t1\t1\t1\n"),
        ("\t1\t1\n", "\t1\t1\t\n"),
        ("\t1\t1\n", "\t1\t1\r\n"),
        ("matrix\t01", "matrix\t1"),
        ("matrix\t01", "matrix\t0A"),
        ("matrix\t01", "matrix\t0g"),
        ("matrix\t01", "matrix 01"),
        ("matrix\t01", "matrix"),
        ("matrix\t01", "matrix\t01\t"),
        ("matrix\t01", "matrix\t01\t02"),
        ("matrix\t01", "matrices\t01"),
        ("syndrome", "key"),
        ("syndrome\t05\n", ""),
        ("syndrome\t05\n", "\nsyndrome\t05\n"),
        ("syndrome\t05\n", "syndrome\t05\r\n"),
        ("key\t05\n", "key\t05"),
        ("key\t05\n", "key\t05\n\n"),
        ("key\t05\n", "key\t05\nkey\t05\n"),
        ("key\t05\n", "key\t05\nx"),
        ("key\t05\n", ""),
        ("key\t05\n", "key\t\u{e9}\n"),
    ];
    for (from, to) in changes {
        assert_ne!(SAMPLE.replacen(from, to, 1), SAMPLE);
        assert_refused(&SAMPLE.replacen(from, to, 1), 10);
    }
    for input in ["", "\n", "\n\n\n\n", "set", "refused\t10\n"] {
        assert_refused(input, 10);
    }
    assert_eq!(listing(&[0xff, 0x0a, 0x00]), b"refused\t10\n");
}

/// 10 is decided over the whole input first, then 1, then 2, then 3.
#[test]
fn refusals_in_order() {
    let overweight = "set\t2\t1\t1\t1\t1\nmatrix\t01\nsyndrome\t02\nkey\t05\n";
    let short = overweight.replace("matrix\t01", "matrix\t");
    let outside = short.replace("set\t2", "set\t0");
    let malformed = outside.replace("key\t05\n", "key\t0\n");
    assert_refused(overweight, 3);
    assert_refused(&short, 2);
    assert_refused(&outside, 1);
    assert_refused(&malformed, 10);
}

#[test]
fn long_hex_fields() {
    let digits = "0".repeat(1_000_000);
    assert_refused(&SAMPLE.replace("matrix\t01", &format!("matrix\t{digits}")), 2);
    assert_refused(&SAMPLE.replace("matrix\t01", &format!("matrix\t{digits}0")), 10);
    assert_refused(&SAMPLE.replace("key\t05", &format!("key\t{digits}0g")), 10);
    assert_refused(&SAMPLE.replace("set\t2", "set\t1").replace("key\t05", &format!("key\t{digits}0g")), 10);
}

#[test]
fn sets_outside_the_limits() {
    let mut random = Random::new(72);
    for _ in 0..100 {
        let set = outside_set(&mut random);
        let values = [set.m, set.k, set.w, set.axes, set.t];
        if values.iter().all(|&value| value < 1000) {
            let fields = values.map(|value| value.to_string()).join("\t");
            assert_refused(&format!("set\t{fields}\nmatrix\t00\nsyndrome\t00\nkey\t00\n"), 1);
        }
    }
}
