//! Compares a program with the reference's key listing, input by input:
//!
//! ```text
//! keylist_comparison SEED PROGRAM [ARGUMENT...]
//! ```
//!
//! The program is started once for each input, which it reads from standard input; what it prints must equal the
//! reference's listing byte for byte. Document 01 sets no exit status, so any counts but the end by a signal.
//! Differences are printed, and the last line is 'N passed, M failed'.

mod damaged;
mod inputs;
mod long;
mod program;

use inputs::Case;
use program::Program;
use std::process::ExitCode;

/// How many bytes of an output are printed where it differs.
const SHOWN: usize = 160;

fn shown(output: &[u8]) -> String {
    String::from_utf8_lossy(&output[..output.len().min(SHOWN)]).into_owned()
}

/// Whether the program's listing of a case is the reference's; prints the difference if not.
fn agrees(program: &Program, case: &Case) -> bool {
    let expected = reference::keylist::listing(&case.input);
    match program.listing(&case.input) {
        Ok(found) if found == expected => true,
        Ok(found) => {
            println!("{}: expected {:?}, found {:?}", case.name, shown(&expected), shown(&found));
            false
        }
        Err(error) => {
            println!("{}: {error}", case.name);
            false
        }
    }
}

fn main() -> ExitCode {
    let arguments: Vec<String> = std::env::args().skip(1).collect();
    let [seed, path, rest @ ..] = &arguments[..] else {
        eprintln!("usage: keylist_comparison SEED PROGRAM [ARGUMENT...]");
        return ExitCode::from(2);
    };
    let Ok(seed) = seed.parse() else {
        eprintln!("the seed is a number");
        return ExitCode::from(2);
    };
    let program = Program::new(path, rest);
    let cases = inputs::cases(seed);
    let passed = cases.iter().filter(|case| agrees(&program, case)).count();
    let failed = cases.len() - passed;
    println!("{passed} passed, {failed} failed");
    if failed == 0 && passed > 0 {
        ExitCode::SUCCESS
    } else {
        ExitCode::FAILURE
    }
}
