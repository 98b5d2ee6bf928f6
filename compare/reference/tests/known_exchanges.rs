//! Whole exchanges with known messages: digests of all h, of all h' and of message 5, computed elsewhere.
//!
//! Every input is SHAKE256 of a word and the set, as "salt 9 4 3 3 2". x has the given weight: nonzero entries first,
//! then zeros, turned right by k/2 places.

use reference::key::PublicKey;
use reference::keylist::to_hex;
use reference::parameters::Parameters;
use reference::sampling::exchanges::{honest_exchange, verdict, Start};
use reference::sampling::keys::Key;
use reference::shake256::shake256;
use reference::strings::front;

fn stream(word: &str, set: &Parameters, length: usize) -> Vec<u8> {
    let Parameters { m, k, w, axes, t } = set;
    shake256(format!("{word} {m} {k} {w} {axes} {t}").as_bytes(), length)
}

fn known_key(set: &Parameters, weight: usize) -> Key {
    let mut x: Vec<u8> = stream("vector", set, weight).iter().map(|byte| byte | 1).collect();
    x.resize(set.m, 0);
    x.rotate_right(set.k / 2);
    let matrix = stream("matrix", set, set.matrix_bytes());
    let (x_a, x_b) = x.split_at(set.k);
    let y = PublicKey { matrix: &matrix, y: x_b }.vector(x_a).split_off(set.k);
    Key { parameters: *set, matrix, y, x_a: x_a.to_vec() }
}

fn known_start(set: &Parameters, runs: usize) -> Start {
    Start {
        salt: front(&stream("salt", set, 32)),
        root: front(&stream("root", set, 16)),
        message_2: stream("challenge", set, set.message_2_bytes(runs)),
    }
}

/// The first 32 bytes of SHAKE256, in hex.
fn digest(bytes: &[u8]) -> String {
    to_hex(&shake256(bytes, 32))
}

/// Asserts the digests of all h, of all h' and of message 5.
fn assert_exchange(set: (usize, usize, usize, usize, usize), leaves: &[u8], weight: usize, expected: [&str; 3]) {
    let set = Parameters::new(set.0, set.1, set.2, set.3, set.4);
    let key = known_key(&set, weight);
    let exchange = honest_exchange(&key, &known_start(&set, leaves.len()), leaves);
    let found = [digest(&exchange.message_1[32..]), digest(&exchange.message_3), digest(&exchange.message_5)];
    assert_eq!(found, expected);
    assert_eq!(verdict(&set, key.public(), &exchange), 0);
}

#[test]
fn least_set_hiding_leaf_0() {
    let h = "78901daa30f237d9d02a86ba3559f2ccfeab4f6937b73bffab1900f4e282368a";
    let response = "64b32d6d4bad4549a124f1926a86884953de8341023cbac44191f8d786394fe5";
    let opening = "49ba7059e7e658b71da3c13f5558b958564793f42cecace51c7e8cde9031ed92";
    assert_exchange((2, 1, 1, 1, 1), &[0], 1, [h, response, opening]);
}

#[test]
fn least_set_of_two_runs() {
    let h = "8c79753ae700d91eb145825f16e1f815a52a021c210568fc89aae35a61e9b72c";
    let response = "ca45e619772a260730261fe1f666f24bf0bc3a5eea885f6c8b24e04bf6ec6bd2";
    let opening = "294c6e69e1b27444c8b9bad66efc1268778cefcf2792d81a33a73099efce049c";
    assert_exchange((2, 1, 1, 1, 1), &[1, 0], 1, [h, response, opening]);
}

#[test]
fn three_axes_hiding_leaf_5() {
    let h = "5b2ddf46a46aa76c0c26f164ab80dbb1538c096aa7b0ee0a904fab70f235be97";
    let response = "3d71de67a0b08250a90a99dfbfd6ff7b14d62020ebed64fc5036ea4b245c7420";
    let opening = "0dae0de4d6b14ea83caa5e8889368369c2099dfc86fbe1535c6da3540145a1b4";
    assert_exchange((9, 4, 3, 3, 2), &[5], 3, [h, response, opening]);
}

#[test]
fn three_axes_of_five_runs() {
    let h = "425bb668430d5000971a0c8319e32db2fdf5ce243cc32ccc5c60cf31be975953";
    let response = "203578515766775abbe268d359b2b900310ea699e388f9fd6097f8ca25347ee5";
    let opening = "dffca5c0124afbc20046fdd34665fddfa327d68ee6f298bedbc4b8227c6e6277";
    assert_exchange((9, 4, 3, 3, 2), &[7, 5, 7, 0, 3], 2, [h, response, opening]);
}

#[test]
fn greatest_k_w_and_t_of_two_runs() {
    let h = "56ff1280266d5b730aee4580e6708f88ffa31653a13981531c1c14b34487cec6";
    let response = "bf328784892673f4facc19100a81da51602547abad808b51c2286b9356efc5e1";
    let opening = "6ac7db9d234c5c9122accae92cf28ae0bc594cb367d9223f1a239160b44df0f1";
    assert_exchange((12, 11, 12, 2, 8), &[1, 3], 12, [h, response, opening]);
}

#[test]
fn greatest_m_and_k() {
    let h = "36a433e256b68b3fba3331eb98f73b058c2e5b28a1d0d0ba913f17d34b6ba9ce";
    let response = "15a25b2235010eb4f145b5e7104aff4c02e089223c2b23c694942fc9d70455c8";
    let opening = "bdab226d2bafa9985a9685e08e4667f49a4f459225e9bc0662d6beec4c165a88";
    assert_exchange((255, 254, 1, 1, 1), &[0], 1, [h, response, opening]);
}

#[test]
fn eight_axes_of_two_runs() {
    let h = "3a9a710138d3867e001f9d0b041b0565ca32ba964983357fd31d1ebea1a9f9f3";
    let response = "d9c1f8b90eb2fb18becd68011f160ae93cf47ebf2430a8e92129bab4c8758007";
    let opening = "e31d9bc73da661c3667cf6a5f7acc5c592b4efdaa3dad9bde5b1428ba6352902";
    assert_exchange((40, 15, 9, 8, 1), &[200, 255], 7, [h, response, opening]);
}

#[test]
fn shipped_set_hiding_leaf_17() {
    let h = "2d303eeeb404c1e5feb02abe2e2a66671c94fd94dd25eca157f001dcec1adb43";
    let response = "d5ab482c22c3ca3b2845c9e741401f787be339100095b2ecbae7e20ed2aa15f8";
    let opening = "4aaccdded84d7e3aca206052e08b987ffa12bcfab040e9c2c1a34eab558b94e7";
    assert_exchange((230, 126, 79, 8, 3), &[17], 79, [h, response, opening]);
}

#[test]
fn shipped_set_of_two_runs() {
    let h = "4c037a5337e03e2dc61a23d60bc3e5900a7e214c24b5a214556d5e2c01eaddf9";
    let response = "3660c01425fa17df514f03f18b1cfff223bfb86b31ef088d73e8260fcceb4ab1";
    let opening = "b22d0972800907fac058878fa934b37e41cdf56c07acee325b83629c16f894cb";
    assert_exchange((230, 126, 79, 8, 3), &[255, 17], 79, [h, response, opening]);
}

#[test]
fn greatest_run_count() {
    let h = "a386889c4a8149084d14af6af140e3d331aeab7b12508d2bb937e5bb9dcc16e7";
    let response = "c061aa5f09f4eb182a393fd5879876034e07623a6f541eccba509f8df7214219";
    let opening = "849c3b4597cd7b30365672a6c5ac7c7e52519c48394018557ff32b5473d991bf";
    assert_exchange((7, 3, 2, 2, 1), &std::array::from_fn::<u8, 32, _>(|run| run as u8 % 4), 2, [h, response, opening]);
}
