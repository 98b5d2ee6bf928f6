//! Passed and failed comparisons, and how often each number was answered.

use reference::numbers::SUMS_DIFFER;
use std::collections::BTreeMap;

/// The counts of a run.
#[derive(Default)]
pub struct Count {
    passed: usize,
    failed: usize,
    numbers: BTreeMap<String, usize>,
}

impl Count {
    /// Counts one comparison under its name; a failure is printed.
    pub fn settle(&mut self, name: &str, outcome: Result<(), String>) {
        match outcome {
            Ok(()) => self.passed += 1,
            Err(difference) => {
                self.failed += 1;
                println!("{name}: {difference}");
            }
        }
    }

    /// Counts an answer of a call.
    pub fn answer(&mut self, call: &str, answer: impl std::fmt::Display) {
        *self.numbers.entry(format!("{call} {answer}")).or_default() += 1;
    }

    /// How many comparisons failed.
    pub fn failed(&self) -> usize {
        self.failed
    }

    /// How many calls were made of those whose name starts so.
    pub fn calls(&self, start: &str) -> usize {
        self.numbers.iter().filter(|(answer, _)| answer.starts_with(start)).map(|(_, times)| times).sum()
    }

    /// Settles that no call of any kind answered 6, the number that request 05 retired.
    pub fn settle_number_6(&mut self) {
        let retired = format!(" {SUMS_DIFFER}");
        let answered: Vec<&String> = self.numbers.keys().filter(|answer| answer.ends_with(&retired)).collect();
        let outcome = if answered.is_empty() { Ok(()) } else { Err(format!("answered: {answered:?}")) };
        self.settle("number 6", outcome);
    }

    /// Prints how often each call answered each number.
    pub fn print_answers(&self) {
        for (answer, times) in &self.numbers {
            println!("{answer}: {times} times");
        }
    }

    /// Prints the counts; the exit status.
    pub fn finish(&self) -> i32 {
        self.print_answers();
        println!("{} passed, {} failed", self.passed, self.failed);
        i32::from(self.failed > 0 || self.passed == 0)
    }
}
