//! The default key of `unlock`, and what that program fixes where a probe draws.

use reference::parameters::Parameters;
use reference::sampling::keys::Key;
use reference::shake256::shake256;

const X_A: &str = "00000000c000db33615a0000000000000000dd006e8b0000ba0000000a000000000000000000c7000000\
                   007700002f001a002ded0c0000fc000000fd8f0a00000000000000680000dd0000cc0000000000e389ad\
                   744959008100000000000000000000b67f0d000000006d000000000048d10000000041000000000000e1";

const Y: &str = "35a3e1984c1ddace6a47ab874ec10cd7110ed75618cc6e27b6e2009fb5759a1ade7b04c954dcc3ea1df3\
                 01d832336f46b8068a2e1d61ccff57d93e1e1d292e1a12a000ccfd9aaf936d5e0679e7cbed12b01ac1e5\
                 0353afec2d870621706e7832b71c23872bd66f8f";

/// Bytes of SHAKE256 of 'Risvatey unlock: ' and a label.
pub fn expand(label: &str, length: usize) -> Vec<u8> {
    shake256(format!("Risvatey unlock: {label}").as_bytes(), length)
}

/// Points and multipliers of so many runs.
pub fn message_2(parameters: &Parameters, runs: usize) -> Vec<u8> {
    expand("points", parameters.message_2_bytes(runs))
}

/// The leaves that stay hidden: the low D bits of one byte a run.
pub fn leaves(parameters: &Parameters, runs: usize) -> Vec<u8> {
    let last = u8::try_from(parameters.last_leaf()).expect("there are at most 256 leaves");
    expand("leaf", runs).into_iter().map(|byte| byte & last).collect()
}

/// The key for an empty standard input.
pub fn default_key() -> Key {
    let parameters = Parameters::SHIPPED;
    let matrix = expand("matrix", parameters.matrix_bytes());
    Key { parameters, matrix, y: bytes(Y), x_a: bytes(X_A) }
}

fn bytes(hex: &str) -> Vec<u8> {
    let pair = |place| u8::from_str_radix(&hex[place..place + 2], 16).expect("the constant is hex");
    (0..hex.len()).step_by(2).map(pair).collect()
}
