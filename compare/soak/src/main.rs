//! Compares the proved library with the second implementation on any number of scripts: sessions of the prover and of the
//! verifier, damaged exchanges and calls of the extractor.
//!
//! soak SEED COUNT     scripts SEED, SEED + 1, … of which each depends on its own number alone
//!
//! A progress line goes to standard error every 1,000 scripts. It ends at the first difference, with the seed that repeats it.

use sessions_comparison::count::Count;
use sessions_comparison::{extractor, prover, verifier};
use std::panic::{catch_unwind, AssertUnwindSafe};
use std::process::exit;

/// Tells these scripts from those of the gate.
const FAMILY: u64 = 0x50a4;

/// A session's script, twenty of a prover's and twenty of a verifier's in turn, and a call of the extractor; to one in ten
/// scripts also an exchange damaged in each of its fields. A call that answers 6 counts as a difference.
fn script(seed: u64, count: &mut Count) {
    let number = seed..seed + 1;
    match seed / 20 % 2 {
        0 => prover::scripts(FAMILY, number.clone(), count),
        _ => verifier::scripts(FAMILY, number.clone(), count),
    }
    extractor::calls(FAMILY, number, count);
    if seed.is_multiple_of(10) {
        verifier::damaged(seed, 1, count);
    }
    count.settle_number_6();
}

fn summary(scripts: u64, count: &Count) -> String {
    let calls = count.calls("prover") + count.calls("verifier");
    format!(
        "{scripts} scripts, {calls} calls, {} extractor calls, {} differences",
        count.calls("extractor"),
        count.failed()
    )
}

fn words() -> Option<(u64, u64)> {
    let mut words = std::env::args().skip(1).map(|word| word.parse::<u32>().ok());
    let (seed, count) = (words.next()??, words.next()??);
    words.next().is_none().then_some((seed.into(), count.into()))
}

fn main() {
    let Some((first, scripts)) = words() else {
        eprintln!("usage: soak SEED COUNT");
        exit(2);
    };
    let mut count = Count::default();
    for done in 0..scripts {
        let seed = first + done;
        let ended = catch_unwind(AssertUnwindSafe(|| script(seed, &mut count)));
        if ended.is_err() || count.failed() > 0 {
            println!("{}", summary(done + 1, &count));
            println!("repeat it with: make soak SEED={seed} COUNT=1");
            exit(1);
        }
        if (done + 1) % 1000 == 0 {
            eprintln!("{}", summary(done + 1, &count));
        }
    }
    count.print_answers();
    println!("{}", summary(scripts, &count));
}
