//! Parameter sets: the extremes of document 01's limits, sets within them, and sets outside. Run counts likewise.

use crate::parameters::Parameters;
use crate::runs::GREATEST_RUNS;
use crate::sampling::Random;

/// Every combination of extreme values: m 2, 3 and 255; k 1 and m−1; w 1 and m; D 1 and 8; t 1 and 8.
pub fn extreme_sets() -> Vec<Parameters> {
    let mut sets = Vec::new();
    for m in [2, 3, 255] {
        for (k, w) in [(1, 1), (1, m), (m - 1, 1), (m - 1, m)] {
            for (axes, t) in [(1, 1), (1, 8), (8, 1), (8, 8)] {
                sets.push(Parameters::new(m, k, w, axes, t));
            }
        }
    }
    sets.dedup();
    sets
}

/// A number between two limits that is often one of them.
fn often_extreme(random: &mut Random, first: usize, last: usize) -> usize {
    match random.below(4) {
        0 => first,
        1 => last,
        _ => random.between(first, last),
    }
}

/// A set within the limits and with m and D at most these, often at a limit.
pub fn random_set(random: &mut Random, greatest_m: usize, greatest_axes: usize) -> Parameters {
    let m = often_extreme(random, 2, greatest_m);
    let k = often_extreme(random, 1, m - 1);
    let w = often_extreme(random, 1, m);
    Parameters::new(m, k, w, often_extreme(random, 1, greatest_axes), often_extreme(random, 1, 8))
}

/// For every D and every t a set with m at most this.
pub fn sets_of_every_shape(random: &mut Random, greatest_m: usize) -> Vec<Parameters> {
    let shapes = (1..=8).flat_map(|axes| (1..=8).map(move |t| (axes, t)));
    shapes.map(|(axes, t)| Parameters { axes, t, ..random_set(random, greatest_m, 1) }).collect()
}

/// A set of which at least one parameter is outside its limits.
pub fn outside_set(random: &mut Random) -> Parameters {
    let mut set = random_set(random, 255, 8);
    let beyond = random.choose(&[0, 1, 2, 744, usize::MAX >> 32, usize::MAX]);
    let above = |limit: usize| limit.saturating_add(1).saturating_add(beyond);
    match random.below(10) {
        0 => set.m = above(255),
        1 => set.m = random.below(2),
        2 => set.k = above(set.m - 1),
        3 => set.k = 0,
        4 => set.w = above(set.m),
        5 => set.w = 0,
        6 => set.axes = above(8),
        7 => set.axes = 0,
        8 => set.t = above(8),
        _ => set.t = 0,
    }
    set
}

/// A run count within the limits, mostly 1 to 3 and sometimes the greatest.
pub fn random_runs(random: &mut Random) -> usize {
    match random.below(40) {
        0 => GREATEST_RUNS,
        1 => random.between(4, GREATEST_RUNS - 1),
        _ => random.between(1, 3),
    }
}

/// A run count outside the limits.
pub fn outside_runs(random: &mut Random) -> usize {
    let beyond = random.choose(&[0, 1, 2, 222, 223, 224, usize::MAX >> 32, usize::MAX]);
    if random.once_in(2) {
        0
    } else {
        (GREATEST_RUNS + 1).saturating_add(beyond)
    }
}
