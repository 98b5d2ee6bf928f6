//! Compares the proved library with the second implementation on calls made from a seed.
//!
//! sessions_comparison SEED     what the gate runs; the last line is 'N passed, M failed'

use sessions_comparison::count::Count;
use sessions_comparison::{damaged, extractor, fixed, made_up, points, prover, sets, verifier};

fn main() {
    let seed = match std::env::args().nth(1).map(|word| word.parse()) {
        Some(Ok(seed)) => seed,
        _ => {
            eprintln!("usage: sessions_comparison SEED");
            std::process::exit(2);
        }
    };
    let mut count = Count::default();
    let printed = concat!(env!("CARGO_MANIFEST_DIR"), "/../../crates/test_prover/stdout");
    fixed::compare(&std::fs::read_to_string(printed).unwrap_or_default(), &mut count);
    prover::extremes(seed, &mut count);
    prover::runs(seed, 4, &mut count);
    prover::scripts(seed, 0..400, &mut count);
    prover::strangers(seed, 100, &mut count);
    damaged::provers(seed, 6, &mut count);
    verifier::honest(seed, 20, &mut count);
    verifier::damaged(seed, 30, &mut count);
    verifier::damaged_runs(seed, &mut count);
    verifier::scripts(seed, 0..400, &mut count);
    verifier::strangers(seed, 100, &mut count);
    damaged::verifiers(seed, 6, &mut count);
    extractor::pairs(seed, 12, &mut count);
    extractor::runs(seed, 4, &mut count);
    extractor::calls(seed, 0..400, &mut count);
    sets::of_other_lengths(seed, 6, &mut count);
    sets::lengths(seed, &mut count);
    made_up::openings(seed, &mut count);
    made_up::repeated_points(seed, &mut count);
    made_up::pairs(seed, &mut count);
    points::compare(seed, &mut count);
    count.settle_number_6();
    std::process::exit(count.finish());
}
