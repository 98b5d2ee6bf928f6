//! Compares a program with the reference's exchanges, input by input:
//!
//! ```text
//! exchange_comparison SEED PROGRAM
//! exchange_comparison default
//! ```
//!
//! The program is started once for each input, which it reads from standard input, with the arguments of that input; what it
//! prints must equal what is built here from the reference alone. One more check, of the reference alone, is that the points
//! that the program expands never repeat in a run. Differences are printed, and the last line is 'N passed, M failed'. The
//! second form prints what is expected for an empty input without arguments.

mod cases;
mod default_key;
mod expected;
mod points;

use cases::Case;
use std::io::{self, Write};
use std::process::{Command, ExitCode, Stdio};

/// What the program prints for an input.
fn output(program: &str, arguments: &[String], input: &[u8]) -> io::Result<String> {
    let mut child = Command::new(program).args(arguments).stdin(Stdio::piped()).stdout(Stdio::piped()).spawn()?;
    let mut standard_input = child.stdin.take().expect("standard input is piped");
    // A program may end before it has read all of its input, so a write that fails is no difference.
    drop(standard_input.write_all(input));
    drop(standard_input);
    let output = child.wait_with_output()?;
    if output.status.code().is_none() {
        return Err(io::Error::other("the program was ended by a signal"));
    }
    Ok(String::from_utf8_lossy(&output.stdout).into_owned())
}

/// Whether the program prints what is expected of a case; prints the difference if not.
fn agrees(program: &str, case: &Case) -> bool {
    match output(program, &case.arguments, &case.input) {
        Ok(found) if found == case.expected => true,
        Ok(found) => {
            println!("{}: expected\n{}found\n{found}", case.name, case.expected);
            false
        }
        Err(error) => {
            println!("{}: {error}", case.name);
            false
        }
    }
}

fn compare(seed: u64, program: &str) -> ExitCode {
    let cases = cases::cases(seed);
    let outcomes: Vec<bool> = cases.iter().map(|case| agrees(program, case)).chain([points::differ()]).collect();
    let passed = outcomes.iter().filter(|&&outcome| outcome).count();
    let failed = outcomes.len() - passed;
    println!("{passed} passed, {failed} failed");
    if failed == 0 && passed > 0 {
        ExitCode::SUCCESS
    } else {
        ExitCode::FAILURE
    }
}

fn main() -> ExitCode {
    let arguments: Vec<String> = std::env::args().skip(1).collect();
    match &arguments[..] {
        [word] if word == "default" => {
            print!("{}", expected::text(&default_key::default_key(), cases::DEFAULT_RUNS));
            ExitCode::SUCCESS
        }
        [seed, program] if seed.parse::<u64>().is_ok() => compare(seed.parse().unwrap_or_default(), program),
        _ => {
            eprintln!("usage: exchange_comparison SEED PROGRAM, or exchange_comparison default");
            ExitCode::from(2)
        }
    }
}
