//! The points that `unlock` expands from its label differ in every run, whatever the set and the run count, so that no call
//! of the program gets 14.

use crate::default_key::message_2;
use reference::messages::check_points;
use reference::parameters::Parameters;
use reference::runs::GREATEST_RUNS;

/// The greatest t.
const GREATEST_T: usize = 8;

/// Whether the points of each run differ, for every t and every run count; prints those for which they do not. The other
/// parameters have no part in message 2.
pub fn differ() -> bool {
    let choices = (1..=GREATEST_T).flat_map(|t| (1..=GREATEST_RUNS).map(move |runs| (t, runs)));
    let repeating = choices.filter(|&(t, runs)| {
        let parameters = Parameters { t, ..Parameters::SHIPPED };
        check_points(&parameters, &message_2(&parameters, runs)).is_err()
    });
    let repeating: Vec<(usize, usize)> = repeating.collect();
    if !repeating.is_empty() {
        println!("points of a run are equal for these t and run counts: {repeating:?}");
    }
    repeating.is_empty()
}
