//! Inputs for tests and comparisons, all drawn from a seed: parameter sets, keys, exchanges honest, simulated and made
//! up, damage, and scripts of session calls.

pub mod calls;
pub mod damage;
pub mod exchanges;
pub mod keys;
pub mod made_up;
pub mod parameter_sets;
pub mod random;
pub mod scripts;
pub mod simulated;

pub use random::Random;
