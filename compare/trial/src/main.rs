//! Writes what the second implementation computes, under the stand-in for SHAKE256, as facts about the definitions:
//!
//! ```text
//! trial DIRECTORY
//! ```
//!
//! Each module of the crates `test_exchange` and `test_calls` that states facts is written there, below its crate's name, and
//! the root module that names them all. One line a module is printed: its crate, its name and how many facts it states.

mod antt;
mod extractor;
mod layout;
mod messages;
mod prover;
mod runs;
mod sample;
mod sums;
mod verifier;

use antt::Module;
use messages::Extent;
use reference::parameters::Parameters;
use sample::Sample;
use std::path::Path;
use std::process::ExitCode;
use std::{fs, io};

/// A crate of facts: its name, its modules that are written by hand, and those that are written here.
struct Crate {
    name: &'static str,
    given: &'static [&'static str],
    modules: Vec<Module>,
}

/// m, k, w, D, t, the weight of x and the run count: small, since the facts are computed by the definitions.
fn crates() -> [Crate; 2] {
    let one_axis = Sample::new(1, Parameters::new(3, 1, 2, 1, 1), 2, 1);
    let two_axes = Sample::new(2, Parameters::new(5, 3, 2, 2, 1), 1, 1);
    let two_positions = Sample::new(3, Parameters::new(3, 2, 1, 1, 2), 1, 1);
    let small = Sample::new(4, Parameters::new(2, 1, 1, 1, 1), 1, 1);
    let small_square = Sample::new(5, Parameters::new(2, 1, 1, 2, 1), 1, 1);
    let two_runs = Sample::new(6, Parameters::new(2, 1, 1, 1, 1), 1, 2);
    let three_positions = Sample::new(7, Parameters::new(2, 1, 1, 1, 3), 1, 2);
    let [one_axis_findings, two_axes_findings] = extractor::findings(&small, &small_square);
    let title = "m 5, k 3, w 2, D 2, t 1, one run; x has one nonzero entry, so E is filled.";
    let exchange = vec![
        layout::module(),
        runs::module(&two_runs),
        messages::module("OneAxis", "m 3, k 1, w 2, D 1, t 1, one run.", &one_axis, &[0], Extent::Verdicts),
        one_axis_findings,
        messages::module("TwoPositions", "m 3, k 2, w 1, D 1, t 2, one run.", &two_positions, &[0], Extent::Messages),
        messages::module("TwoAxes", title, &two_axes, &[1], Extent::Messages),
        two_axes_findings,
        messages::module("TwoRuns", "m 2, k 1, w 1, D 1, t 1, two runs.", &two_runs, &[0, 1], Extent::Runs),
        sums::module("Sums", "m 2, k 1, w 1, D 2, t 1.", &small_square, 10, 1),
    ];
    let calls = vec![
        prover::calls(&two_runs),
        prover::points(&three_positions),
        verifier::calls(&two_runs),
        verifier::points(&three_positions),
        extractor::calls(&two_runs),
        extractor::points(&three_positions),
    ];
    [
        Crate { name: "test_exchange", given: &["Definitions"], modules: exchange },
        Crate { name: "test_calls", given: &["Definitions"], modules: calls },
    ]
}

fn write_crate(directory: &Path, written: &Crate) -> io::Result<()> {
    let specs = directory.join(written.name).join("specs");
    fs::create_dir_all(&specs)?;
    let names = written.given.iter().copied().chain(written.modules.iter().map(|module| module.name));
    let root: String = names.map(|name| format!("pub mod {name}\n")).collect();
    fs::write(specs.join("Lib.antt"), root)?;
    for module in &written.modules {
        fs::write(specs.join(format!("{}.antt", module.name)), module.text())?;
        println!("{} {} {}", written.name, module.name, module.facts());
    }
    Ok(())
}

fn write_crates(directory: &Path) -> io::Result<()> {
    crates().iter().try_for_each(|written| write_crate(directory, written))
}

fn main() -> ExitCode {
    let arguments: Vec<String> = std::env::args().skip(1).collect();
    let [directory] = &arguments[..] else {
        eprintln!("usage: trial DIRECTORY");
        return ExitCode::from(2);
    };
    match write_crates(Path::new(directory)) {
        Ok(()) => ExitCode::SUCCESS,
        Err(error) => {
            eprintln!("{directory}: {error}");
            ExitCode::FAILURE
        }
    }
}
